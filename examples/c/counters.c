/* A counter service: four threads count, each in a counter of its own and in the total, in one section. Killed at any time and started
 * again on the same file, the total is the sum of its parts, and no less than the total before and what was told as acknowledged since.
 * A transient field counts since the start alone: whatever the run before had there, each start finds 0.
 *
 *     counters FILE [SECONDS]
 * prints the counters that it finds, and then how many counts are acknowledged since, again and again. It counts for so long (for ever
 * without SECONDS), closes the heap, and prints the counters again. Where there is no file a heap is made. One process may count at a time:
 * another is told so, and ends. */
#define _GNU_SOURCE
#include <inttypes.h>
#include <pthread.h>
#include <stdatomic.h>
#include <stdio.h>
#include <stdlib.h>
#include <string.h>
#include <time.h>
#include "zelamiku.h"
#ifdef HELGRIND /* which knows nothing of atomics */
#include <valgrind/helgrind.h>
#endif

/* Object 0 has the total, and the counts since the start; object i and field i are worker i's. */
enum { WORKERS = 4, TOTAL = 0, SINCE = WORKERS + 1, FIELDS = WORKERS + 2 };

static zelamiku_heap heap;
static atomic_bool stopping;

static void must(zelamiku_status status) {
    if (status == ZELAMIKU_OK) return;
    fprintf(stderr, "%s\n", zelamiku_heap_failure(NULL));
    _Exit(2); /* exit would write again what another thread prints just then */
}

static void must_do(int error, const char *what) {
    if (error == 0) return;
    fprintf(stderr, "%s: %s\n", what, strerror(error));
    exit(2);
}

static void count(zelamiku_thread thread, uint32_t field) {
    uint64_t value = 0;
    must(zelamiku_thread_load(thread, field, &value));
    must(zelamiku_thread_store(thread, field, value + 1));
}

typedef struct {
    zelamiku_thread thread;
    uint32_t own; /* its object and its field */
} worker;

static void *work(void *data) {
    worker *w = data;
    while (!stopping) {
        must(zelamiku_thread_enter(w->thread, w->own));
        count(w->thread, w->own);
        must(zelamiku_thread_enter(w->thread, TOTAL));
        count(w->thread, TOTAL);
        count(w->thread, SINCE);
        must(zelamiku_thread_exit(w->thread, TOTAL));
        must(zelamiku_thread_exit(w->thread, w->own));
    }
    return NULL;
}

/* Opens the heap of the file, or makes it. */
static void begin(const char *path) {
    zelamiku_field fields[FIELDS];
    for (uint32_t i = 0; i <= WORKERS; i++) fields[i] = (zelamiku_field){.owner = i, .guard = i};
    fields[SINCE] = (zelamiku_field){.owner = TOTAL, .guard = TOTAL, .is_transient = 1};
    zelamiku_plan plan = {.size = sizeof(zelamiku_plan), .fields = fields, .count = FIELDS, .objects = WORKERS + 1, .lanes = WORKERS + 1};
    must(zelamiku_heap_open(&heap, path, &plan, NULL));
}

typedef struct {
    uint64_t value[FIELDS];
} counters;

/* Reads all counters in one section. It takes the monitors in the workers' order: the total's last. */
static counters look(zelamiku_thread own) {
    counters found = {{0}};
    for (uint32_t i = 1; i <= WORKERS; i++) must(zelamiku_thread_enter(own, i));
    must(zelamiku_thread_enter(own, TOTAL));
    for (uint32_t i = 0; i < FIELDS; i++) must(zelamiku_thread_load(own, i, &found.value[i]));
    for (uint32_t i = 0; i <= WORKERS; i++) must(zelamiku_thread_exit(own, i));
    return found;
}

/* Tells what the counters are. It stops where the total isn't the sum of its parts. */
static void tell(counters found) {
    uint64_t sum = 0;
    printf("total %" PRIu64 " = ", found.value[TOTAL]);
    for (uint32_t i = 1; i <= WORKERS; i++) {
        printf("%s%" PRIu64, i > 1 ? " + " : "", found.value[i]);
        sum += found.value[i];
    }
    printf("%s\n", sum == found.value[TOTAL] ? "" : ": WRONG");
    if (sum != found.value[TOTAL]) exit(1);
}

/* Stops where the transient field doesn't have so many counts. */
static void must_be_since(counters found, uint64_t counts) {
    if (found.value[SINCE] == counts) return;
    fprintf(stderr, "%" PRIu64 " counts since the start, and not %" PRIu64 "\n", found.value[SINCE], counts);
    exit(1);
}

/* Tells how many of the workers' sections are acknowledged, each of which counts one, until the seconds are over, or for ever. */
static void tell_acknowledged(const worker *workers, const char *seconds) {
    struct timespec nap = {0, 10000000}, now;
    clock_gettime(CLOCK_MONOTONIC, &now);
    double until = (double)now.tv_sec + 1e-9 * (double)now.tv_nsec + (seconds != NULL ? strtod(seconds, NULL) : 0);
    while (seconds == NULL || (double)now.tv_sec + 1e-9 * (double)now.tv_nsec < until) {
        uint64_t sum = 0;
        for (uint32_t i = 0; i < WORKERS; i++) {
            zelamiku_progress progress = {.size = sizeof progress};
            must(zelamiku_thread_progress(workers[i].thread, &progress));
            sum += progress.durable;
        }
        if (sum > 0) printf("acknowledged %" PRIu64 "\n", sum);
        nanosleep(&nap, NULL);
        clock_gettime(CLOCK_MONOTONIC, &now);
    }
}

int main(int argc, char **argv) {
    if (argc < 2) {
        fprintf(stderr, "counters FILE [SECONDS]\n");
        return 2;
    }
#ifdef HELGRIND
    VALGRIND_HG_DISABLE_CHECKING(&stopping, sizeof stopping);
#endif
    setvbuf(stdout, NULL, _IOLBF, 0);
    begin(argv[1]);
    zelamiku_thread own;
    must(zelamiku_thread_begin(&own, heap));
    counters first = look(own);
    must_be_since(first, 0);
    tell(first);
    static worker workers[WORKERS];
    pthread_t threads[WORKERS];
    for (uint32_t i = 0; i < WORKERS; i++) {
        must(zelamiku_thread_begin(&workers[i].thread, heap));
        workers[i].own = i + 1;
    }
    for (uint32_t i = 0; i < WORKERS; i++) must_do(pthread_create(&threads[i], NULL, work, &workers[i]), "thread");
    tell_acknowledged(workers, argc > 2 ? argv[2] : NULL);
    stopping = true;
    for (uint32_t i = 0; i < WORKERS; i++) must_do(pthread_join(threads[i], NULL), "join");
    counters last = look(own);
    must_be_since(last, last.value[TOTAL] - first.value[TOTAL]);
    must(zelamiku_heap_close(heap));
    tell(last); /* durable now */
    return 0;
}
