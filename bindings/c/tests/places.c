/* Handles of heaps that end, and whose places serve other heaps, are used all the while by other threads: every call returns, and tells of no
 * other heap. A sanitizer sees what is used after its end.
 *
 *     places FOLDER [SECONDS]      answers 0 where all is as it must be */
#define _GNU_SOURCE
#include <pthread.h>
#include <stdatomic.h>
#include <stdio.h>
#include <stdlib.h>
#include <string.h>
#include <unistd.h>
#include "zelamiku.h"
#include "must.h"

enum { OPENERS = 4, ASKERS = 4, KEPT = 64, SECTIONS = 2 };

static _Atomic uint64_t heaps[KEPT], threads[KEPT]; /* handles, most of which have ended */
static _Atomic bool stopping;
static _Atomic uint64_t opened, asked, answered_by_the_end;

static void hear(void *of, uint32_t level, const char *text) {
    MUST(of == NULL && level <= ZELAMIKU_LOG_ERROR && strstr(text, ".heap: ") != NULL);
}

/* Two sections, of which a thread may leave the second one open. */
static void use(zelamiku_thread own, unsigned turn) {
    for (unsigned i = 0; i < SECTIONS; i++) {
        MUST(zelamiku_thread_enter(own, 0) == ZELAMIKU_OK && zelamiku_thread_store(own, 0, turn) == ZELAMIKU_OK);
        if (i > 0 && turn % 3 == 0) return;
        MUST(zelamiku_thread_exit(own, 0) == ZELAMIKU_OK);
    }
    if (turn % 5 == 0) MUST(zelamiku_thread_await(own) == ZELAMIKU_OK);
}

/* Makes or recovers its heap, and ends it: by a close, a stop or an abandon. */
static void *open_and_end(void *data) {
    unsigned seed = (unsigned)(uintptr_t)data;
    char name[20];
    (void)snprintf(name, sizeof name, "%u.heap", seed);
    const zelamiku_field field = {0, 0, 0, 0};
    zelamiku_plan plan = {.size = sizeof(zelamiku_plan), .fields = &field, .count = 1, .objects = 1, .lanes = 2, .capacity = 2000, .ring = 4096, .linger = 200, .log = hear};
    for (unsigned turn = 0; !stopping; turn++) {
        zelamiku_heap heap;
        zelamiku_thread own, other;
        MUST(zelamiku_heap_open(&heap, name, &plan, NULL) == ZELAMIKU_OK && zelamiku_thread_begin(&own, heap) == ZELAMIKU_OK);
        MUST(zelamiku_thread_begin(&other, heap) == ZELAMIKU_OK);
        opened++;
        heaps[rand_r(&seed) % KEPT] = heap.number;
        threads[rand_r(&seed) % KEPT] = own.number;
        threads[rand_r(&seed) % KEPT] = other.number;
        use(own, turn);
        zelamiku_status end = turn % 3 > 0 ? ZELAMIKU_CLOSED : turn % 2 > 0 ? ZELAMIKU_CLOSED : ZELAMIKU_ABANDONED;
        MUST((turn % 3 > 0 ? zelamiku_heap_close(heap) : turn % 2 > 0 ? zelamiku_heap_stop(heap, ZELAMIKU_CLOSED) : zelamiku_heap_stop(heap, ZELAMIKU_ABANDONED)) == ZELAMIKU_OK);
        /* Its place is free once the thread that had a section open has learned of the end. */
        if (turn % 3 == 0) MUST(zelamiku_thread_exit(own, 0) == end);
        zelamiku_status told = zelamiku_thread_end(other);
        MUST(told == end || told == ZELAMIKU_NOTHING);
    }
    return NULL;
}

static zelamiku_status ask(unsigned *seed, zelamiku_heap heap, zelamiku_thread thread) {
    uint64_t rounds = 0;
    bool is = false;
    size_t told = 0;
    zelamiku_stats stats = {.size = sizeof stats};
    zelamiku_wait waits[ZELAMIKU_MOST_LANES];
    zelamiku_dropped dropped = {.size = sizeof dropped};
    switch (rand_r(seed) % 8) {
    case 0: return zelamiku_heap_await_round(heap, UINT64_MAX, ZELAMIKU_NO_DEADLINE, &rounds); /* until its end */
    case 1: return zelamiku_heap_await_round(heap, 0, 1, &rounds);
    case 2: return zelamiku_heap_stats(heap, &stats);
    case 3: return zelamiku_heap_waits(heap, waits, ZELAMIKU_MOST_LANES, &told);
    case 4: return zelamiku_heap_dropped(heap, 0, &dropped);
    case 5: return zelamiku_heap_copy(heap, "copy");
    case 6: return zelamiku_thread_await_until(thread, ZELAMIKU_ALL_SECTIONS, ZELAMIKU_NO_DEADLINE, &is);
    default:
        MUST(progress(thread).sections <= SECTIONS && progress(thread).durable <= SECTIONS);
        return zelamiku_thread_await_until(thread, 1, 0, &is);
    }
}

static void *ask_again(void *data) {
    unsigned seed = (unsigned)(uintptr_t)data;
    while (!stopping) {
        zelamiku_heap heap = {heaps[rand_r(&seed) % KEPT]};
        zelamiku_thread thread = {threads[rand_r(&seed) % KEPT]};
        zelamiku_status status = ask(&seed, heap, thread);
        bool is_end = status == ZELAMIKU_CLOSED || status == ZELAMIKU_ABANDONED || status == ZELAMIKU_NOTHING;
        /* A thread may have a section open, and another copy be underway. */
        MUST(is_end || status == ZELAMIKU_OK || status == ZELAMIKU_RUNNING || status == ZELAMIKU_BUSY || status == ZELAMIKU_DEVICE);
        asked++;
        answered_by_the_end += is_end;
    }
    return NULL;
}

int main(int argc, char **argv) {
    MUST(argc >= 2 && chdir(argv[1]) == 0);
    pthread_t all[OPENERS + ASKERS];
    for (uintptr_t i = 0; i < OPENERS + ASKERS; i++)
        MUST(pthread_create(&all[i], NULL, i < OPENERS ? open_and_end : ask_again, (void *)(i + 1)) == 0);
    (void)sleep(argc > 2 ? (unsigned)strtoul(argv[2], NULL, 10) : 3);
    stopping = true;
    for (int i = 0; i < OPENERS + ASKERS; i++) MUST(pthread_join(all[i], NULL) == 0);
    printf("places: %llu heaps, %llu calls, %llu of them answered by the end\n", (unsigned long long)opened, (unsigned long long)asked,
           (unsigned long long)answered_by_the_end);
    return 0;
}
