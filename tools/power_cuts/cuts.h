/* What programs in guests of tools/power-cuts have in common: a heap, how they end, and what they tell by a port that outlives the power cut. */
#ifndef CUTS_H
#define CUTS_H
#include <errno.h>
#include <inttypes.h>
#include <pthread.h>
#include <stdio.h>
#include <stdlib.h>
#include <string.h>
#include <unistd.h>
#include "zelamiku.h"

/* How a program ends. */
enum { TORN = 1, REFUSED, NOT_DONE, NO_HEAP, GONE };

static zelamiku_heap heap;
static int port = -1;

static void must(zelamiku_status status) {
    if (status == ZELAMIKU_OK) return;
    printf("refused: %s; %s\n", zelamiku_status_text(status), zelamiku_heap_failure(NULL));
    exit(status == ZELAMIKU_LOST || status == ZELAMIKU_DEVICE ? GONE : REFUSED);
}

static void must_do(bool is_done, const char *what) {
    if (is_done) return;
    printf("%s: %s\n", what, strerror(errno));
    exit(NOT_DONE);
}

#endif
