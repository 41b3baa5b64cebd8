/* What the proved core costs as work grows, for tools/bench, which builds and runs it; in processor time, over a device that keeps nothing:
 *
 *     core unstable RECORDS     so many records of other lanes depend on a section that stays open: a round of one section of a thread of its own
 *     core striped FIELDS       a round in which so many fields changed, field i under monitor i modulo 4,096; the next one writes them home
 *     core blocks FIELDS        the same, with the fields of a monitor beside each other
 *     core lanes LANES          a round of one section, where all lanes but one are idle
 *     core group SECTIONS       a round of so many sections, by four lanes in turn
 * A line says the median microseconds of a round, writes and bytes of its calls, and how many sections a round had.
 *
 *     core opening LANES RECORDS FILE    makes a heap in the file with so many lanes of so many records, closes it, and opens it in another process
 * says the file's MB, milliseconds of the making and the opening, and the MB of that process that were resident then, and at most.
 *
 *     core handles | threads | reverts GROUPS FILE    so many groups of 500 sections, for callgrind --toggle-collect='pair_by_*': by the bare handles,
 *                                                     by zelamiku.h, and in a heap that can take sections back */
#define _GNU_SOURCE
#include <stdio.h>
#include <stdlib.h>
#include <string.h>
#include <sys/stat.h>
#include <sys/wait.h>
#include <time.h>
#include <unistd.h>
#include "zelamiku_core.h"

enum { MOST_FIELDS = 16384, MOST_LANES = 32, STRIPES = 4096, ROUNDS = 300, MOST_ROUNDS = 10 * ROUNDS, RING = 16384, LARGEST = 1 << 20 };

static zelamiku_handle heap, sessions[MOST_LANES];
static zelamiku_field fields[MOST_FIELDS];
static double took[MOST_ROUNDS]; /* microseconds of each round */
static unsigned long writes, bytes, rounds, sections;

static void must(zelamiku_status status, const char *what) {
    if (status == ZELAMIKU_OK) return;
    fprintf(stderr, "%s: %s\n", what, zelamiku_status_text(status));
    exit(2);
}

static double now(clockid_t clock) {
    struct timespec t;
    return clock_gettime(clock, &t) == 0 ? 1e6 * (double)t.tv_sec + (double)t.tv_nsec / 1e3 : 0;
}

static void throw_calls_away(void) {
    static uint8_t room[ZELAMIKU_MOST_BYTES];
    for (zelamiku_call call = {0};;) {
        must(zelamiku_next_call(&heap, &call, room, sizeof room), "next call");
        if (call.kind == ZELAMIKU_NO_CALL) return;
        if (call.kind == ZELAMIKU_WRITE) writes++, bytes += call.size;
        must(zelamiku_call_done(&heap), "call done");
    }
}

static void make_round(void) {
    uint64_t applied = 0;
    double begun = now(CLOCK_THREAD_CPUTIME_ID);
    must(zelamiku_round(&heap, ZELAMIKU_ALL, &applied), "round");
    if (rounds < MOST_ROUNDS) took[rounds] = now(CLOCK_THREAD_CPUTIME_ID) - begun;
    throw_calls_away();
    rounds++;
}

/* A heap of so many fields, each under the monitor of its own number modulo `objects`, or with those of one monitor beside each other. */
static void make(uint32_t objects, uint32_t count, uint32_t threads, uint32_t capacity, bool is_striped) {
    uint64_t size = 0;
    for (uint32_t i = 0; i < count; i++) {
        uint32_t guard = is_striped ? i % objects : (uint32_t)((uint64_t)i * objects / count);
        fields[i] = (zelamiku_field){.owner = guard, .guard = guard};
    }
    uint32_t lanes = threads < MOST_LANES ? threads + 1 : threads;
    must(zelamiku_format(&heap, objects, fields, count, lanes, capacity, threads, RING, &size), "format");
    throw_calls_away();
    for (uint32_t i = 0; i < threads; i++) must(zelamiku_session(&heap, &sessions[i]), "session");
}

static void start(void) { writes = bytes = rounds = sections = 0; }

static void enter(zelamiku_handle *own, uint32_t object) {
    zelamiku_status status;
    while ((status = zelamiku_try_enter(own, object)) == ZELAMIKU_BEHIND) make_round();
    must(status, "enter");
}

static void add(zelamiku_handle *own, uint32_t field) {
    uint64_t value = 0;
    must(zelamiku_load(own, field, &value), "load");
    must(zelamiku_store(own, field, value + 1), "store");
}

static void leave(zelamiku_handle *own, uint32_t object) { must(zelamiku_exit(own, object), "exit"); }

__attribute__((noinline)) static void pair_by_handles(zelamiku_handle *own, uint32_t object, uint32_t other) {
    enter(own, object);
    add(own, object);
    enter(own, other);
    add(own, other);
    leave(own, other);
    leave(own, object);
    sections++;
}

/* All by object 0, of which lane 0 has let go within its section, that is still open. */
static void unstable(uint32_t records) {
    uint32_t lanes = records / (LARGEST - 2100) + 1, each = records / lanes;
    make(64, 64, 2 + lanes, each + 2100 < RING ? RING : each + 2100, false);
    enter(&sessions[0], 0);
    enter(&sessions[0], 1);
    add(&sessions[0], 0);
    leave(&sessions[0], 0);
    for (uint32_t lane = 2; lane < 2 + lanes; lane++)
        for (uint32_t made = 0; made < each; made += 10) {
            enter(&sessions[lane], 0);
            for (int i = 0; i < 8; i++) add(&sessions[lane], 0);
            leave(&sessions[lane], 0);
            if (made % 8000 == 0) make_round();
        }
    make_round();
    make_round();
    for (start(); rounds < ROUNDS; make_round()) pair_by_handles(&sessions[1], 10, 11);
}

static void changed(uint32_t count, bool is_striped) {
    uint32_t objects = count < STRIPES ? count : STRIPES, each = count / objects;
    make(objects, count, 1, 65536, is_striped);
    for (start(); rounds < 8; make_round()) {
        for (uint32_t object = 0; object < objects; object++, sections++) {
            enter(&sessions[0], object);
            for (uint32_t i = 0; i < each; i++) add(&sessions[0], is_striped ? object + i * objects : object * each + i);
            leave(&sessions[0], object);
        }
    }
}

static void idle(uint32_t lanes) {
    make(64, 64, lanes, RING, false);
    for (start(); rounds < MOST_ROUNDS; make_round()) pair_by_handles(&sessions[0], 0, 1);
}

static void in_groups(uint32_t of) {
    make(64, 64, 4, RING, false);
    for (start(); rounds < ROUNDS; make_round())
        for (uint32_t i = 0; i < of; i++) pair_by_handles(&sessions[i % 4], 1 + i % 4, 0);
}

/* ---- over zelamiku.h, in a file ---- */

static zelamiku_heap opened;

static void open_heap(const char *path, uint32_t lanes, uint32_t capacity, uint32_t ring, bool reverts) {
    static const zelamiku_field TWO[2] = {{.owner = 0, .guard = 0}, {.owner = 1, .guard = 1}};
    zelamiku_plan plan = {.size = sizeof(zelamiku_plan), .fields = TWO, .count = 2, .objects = 2, .lanes = lanes, .capacity = capacity, .ring = ring, .reverts = reverts};
    must(zelamiku_heap_open(&opened, path, &plan, NULL), path);
}

/* How much of this process' memory is resident, or was at most, in MB. */
static double memory(const char *name) {
    char line[256];
    double kib = 0;
    FILE *file = fopen("/proc/self/status", "r");
    while (file != NULL && fgets(line, sizeof line, file) != NULL)
        if (strncmp(line, name, strlen(name)) == 0) kib = atof(line + strlen(name) + 1);
    return file != NULL && fclose(file) == 0 ? kib * 1024 / 1e6 : 0;
}

static int opening(const char *path, uint32_t lanes, uint32_t capacity) {
    double begun = now(CLOCK_MONOTONIC);
    (void)unlink(path);
    fflush(stdout);
    pid_t child = fork();
    if (child == 0) {
        open_heap(path, lanes, capacity, ZELAMIKU_LEAST_RING, false);
        printf("made %.1f, ", (now(CLOCK_MONOTONIC) - begun) / 1e3);
        must(zelamiku_heap_close(opened), "close");
        return fflush(stdout);
    }
    int status = 0;
    struct stat of;
    if (child < 0 || waitpid(child, &status, 0) != child || status != 0) return 2;
    begun = now(CLOCK_MONOTONIC);
    open_heap(path, lanes, capacity, ZELAMIKU_LEAST_RING, false);
    printf("opened %.1f, resident %.1f, most %.1f, ", (now(CLOCK_MONOTONIC) - begun) / 1e3, memory("VmRSS"), memory("VmHWM"));
    must(zelamiku_heap_close(opened), "close");
    if (stat(path, &of) == 0) printf("file %.1f\n", (double)of.st_size / 1e6);
    return unlink(path);
}

__attribute__((noinline)) static void pair_by_threads(zelamiku_thread own, uint32_t object, uint32_t other) {
    const uint32_t both[2] = {object, other};
    for (int i = 0; i < 2; i++) {
        uint64_t value = 0;
        must(zelamiku_thread_enter(own, both[i]), "enter");
        must(zelamiku_thread_load(own, both[i], &value), "load");
        must(zelamiku_thread_store(own, both[i], value + 1), "store");
    }
    must(zelamiku_thread_exit(own, other), "exit");
    must(zelamiku_thread_exit(own, object), "exit");
}

static int by_threads(const char *path, uint32_t groups, bool reverts) {
    zelamiku_thread own;
    (void)unlink(path);
    open_heap(path, 1, 0, 0, reverts);
    must(zelamiku_thread_begin(&own, opened), "begin");
    for (uint32_t group = 0; group < groups; group++) {
        for (int i = 0; i < 500; i++) pair_by_threads(own, 0, 1);
        must(zelamiku_thread_await(own), "await");
    }
    must(zelamiku_thread_end(own), "end");
    must(zelamiku_heap_close(opened), "close");
    return unlink(path);
}

static void by_handles(uint32_t groups) {
    make(2, 2, 1, RING, false);
    for (start(); rounds < groups; make_round())
        for (int i = 0; i < 500; i++) pair_by_handles(&sessions[0], 0, 1);
}

static int compare(const void *one, const void *other) {
    double a = *(const double *)one, b = *(const double *)other;
    return (a > b) - (a < b);
}

int main(int count, char **words) {
    const char *kind = count > 2 ? words[1] : "", *path = count > 3 ? words[count - 1] : "";
    uint32_t size = count > 2 ? (uint32_t)atoi(words[2]) : 0;
    if (strcmp(kind, "opening") == 0 && count == 5) return opening(path, size, (uint32_t)atoi(words[3]));
    if (count == 4 && (strcmp(kind, "threads") == 0 || strcmp(kind, "reverts") == 0)) return by_threads(path, size, kind[0] == 'r');
    if (strcmp(kind, "unstable") == 0) unstable(size);
    else if ((strcmp(kind, "striped") == 0 || strcmp(kind, "blocks") == 0) && size <= MOST_FIELDS) changed(size, kind[0] == 's');
    else if (strcmp(kind, "lanes") == 0 && size <= MOST_LANES) idle(size);
    else if (strcmp(kind, "group") == 0) in_groups(size);
    else if (strcmp(kind, "handles") == 0) by_handles(size);
    else return 2;
    double of = (double)rounds;
    qsort(took, rounds, sizeof *took, compare);
    printf("round %.2f, writes %.1f, bytes %.0f, sections %.0f\n", took[rounds / 2], (double)writes / of, (double)bytes / of, (double)sections / of);
    return 0;
}
