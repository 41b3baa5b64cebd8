/* What the tests in C have in common: a test ends at the first thing that isn't so, and says where it stands. */
#ifndef MUST_H
#define MUST_H
#include <stdio.h>
#include <stdlib.h>
#include <unistd.h>
#include "zelamiku.h"

#ifndef SAY_MORE /* what a test says before that */
#define SAY_MORE() ((void)0)
#endif
#define MUST(is_so) \
    do { \
        if (!(is_so)) { \
            SAY_MORE(); \
            fprintf(stderr, "line %d: %s: %s\n", __LINE__, #is_so, zelamiku_heap_failure(NULL)); \
            exit(1); \
        } \
    } while (0)
#define OK(call) MUST((call) == ZELAMIKU_OK)

static inline zelamiku_failure last_failure(void) {
    zelamiku_failure failure = {.size = sizeof failure};
    MUST(zelamiku_heap_failure(&failure) != NULL);
    return failure;
}

/* All zeros, and NOBODY, for a handle that isn't open. */
static inline zelamiku_progress progress(zelamiku_thread thread) {
    zelamiku_progress found = {.size = sizeof found};
    (void)!zelamiku_thread_progress(thread, &found);
    return found;
}

static inline zelamiku_stats stats_now(zelamiku_heap heap) {
    zelamiku_stats found = {.size = sizeof found};
    OK(zelamiku_heap_stats(heap, &found));
    return found;
}

/* Notifies one thread; `lane` gets its lane, or NOBODY. */
static inline zelamiku_status notify_one(zelamiku_thread thread, uint32_t object, uint32_t *lane) {
    uint64_t lanes = 1;
    zelamiku_status status = zelamiku_thread_notify(thread, object, false, &lanes);
    MUST((lanes & (lanes - 1)) == 0);
    *lane = lanes == 0 ? ZELAMIKU_NOBODY : (uint32_t)__builtin_ctzll(lanes);
    return status;
}

static inline zelamiku_dropped dropped_section(zelamiku_heap heap, size_t index) {
    zelamiku_dropped found = {.size = sizeof found};
    OK(zelamiku_heap_dropped(heap, index, &found));
    return found;
}

/* Waits until it is so. What isn't in four minutes hangs: a machine may be slow, or lose its processors for a while. */
#define UNTIL(is_so) \
    do { \
        for (uint64_t begun = zelamiku_now(); !(is_so); (void)usleep(200)) \
            if (zelamiku_now() - begun > 240000000000) { \
                fprintf(stderr, "line %d: it isn't so in four minutes: %s: %s\n", __LINE__, #is_so, zelamiku_heap_failure(NULL)); \
                exit(1); \
            } \
    } while (0)
#endif
