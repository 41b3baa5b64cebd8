/* Four threads that count in a heap, in a guest whose power is cut (tools/power-cuts).
 *
 *     counts count FILE [CAPACITY [LANES]]   over zelamiku.h; so many lanes of so many records, and the helper's
 *     counts copy FILE                       the same, and copies the running heap to FILE.copy again and again
 *     counts look FILE
 *
 * A section of thread t adds one to its counter, to that of another object and to the total, and puts t and its count beside the total. Once it is
 * durable the thread tells `t COUNT` by the port, which outlives the power cut, and `copyT COUNT` once a copy has all that was told before it began.
 * `made` is told once the heap is there. A look prints `heap` and the values, whether they fit together, and closes the heap. Each value that is
 * counted lies in a page of its own. WITHOUT_SYNC=N leaves out the Nth of each round's two syncs (left_out.h). With ATOMIC_SECTORS a heap that is
 * made has a journal, and its rounds take one. */
#define _GNU_SOURCE
#include <fcntl.h>
#include <sys/stat.h>
#include <stdatomic.h>
#include "cuts.h"

/* Object 0 has the total, the last thread and its count; objects t and t + WORKERS the counters of thread t. */
enum { WORKERS = 4, TOTAL = 0, OBJECTS = 2 * WORKERS + 1, LAST = OBJECTS, LAST_COUNT, COUNTED };
enum { STRIDE = 520, FIELDS = COUNTED * STRIDE };

static _Atomic uint64_t durable[WORKERS + 1];

static void tell(const char *key, uint32_t thread, uint64_t count) {
    char line[64];
    int size = snprintf(line, sizeof line, "%s%" PRIu32 " %" PRIu64 "\n", key, thread, count);
    must_do(write(port, line, (size_t)size) == size, "told");
}

static zelamiku_field fields[FIELDS];

static void declare(void) {
    for (uint32_t i = 0; i < FIELDS; i++) fields[i] = (zelamiku_field){.owner = TOTAL, .guard = TOTAL};
    for (uint32_t i = 0; i < OBJECTS; i++) fields[i * STRIDE] = (zelamiku_field){.owner = i, .guard = i};
}

static uint64_t get(zelamiku_thread own, uint32_t field) {
    uint64_t value = 0;
    must(zelamiku_thread_load(own, field * STRIDE, &value));
    return value;
}

static void put(zelamiku_thread own, uint32_t field, uint64_t value) {
    must(zelamiku_thread_store(own, field * STRIDE, value));
}

static uint64_t count_once(zelamiku_thread own, uint32_t thread) {
    must(zelamiku_thread_enter(own, thread));
    must(zelamiku_thread_enter(own, thread + WORKERS));
    uint64_t count = get(own, thread) + 1;
    put(own, thread, count);
    must(zelamiku_thread_enter(own, TOTAL));
    put(own, TOTAL, get(own, TOTAL) + 1);
    put(own, LAST, thread);
    put(own, LAST_COUNT, count);
    must(zelamiku_thread_exit(own, TOTAL));
    put(own, thread + WORKERS, count);
    must(zelamiku_thread_exit(own, thread));
    must(zelamiku_thread_exit(own, thread + WORKERS));
    return count;
}

static void *work(void *at) {
    uint32_t thread = (uint32_t)(uintptr_t)at;
    zelamiku_thread own;
    must(zelamiku_thread_begin(&own, heap));
    for (;;) {
        uint64_t count = count_once(own, thread);
        must(zelamiku_thread_await(own));
        tell("", thread, count);
        durable[thread] = count;
    }
    return NULL;
}

/* Once the port is open. */
static void count(void) {
    pthread_t threads[WORKERS];
    must_do(write(port, "made 1\n", 7) == 7, "told");
    for (uintptr_t i = 1; i <= WORKERS; i++) must_do(pthread_create(&threads[i - 1], NULL, work, (void *)i) == 0, "thread");
    for (int i = 0; i < WORKERS; i++) must_do(pthread_join(threads[i], NULL) == 0, "join");
}

static void look(void) {
    zelamiku_thread own;
    uint64_t value[COUNTED], sum = 0;
    must(zelamiku_thread_begin(&own, heap));
    for (uint32_t i = 1; i < OBJECTS; i++) must(zelamiku_thread_enter(own, i));
    must(zelamiku_thread_enter(own, TOTAL));
    for (uint32_t i = 0; i < COUNTED; i++) value[i] = get(own, i);
    for (uint32_t i = 0; i < OBJECTS; i++) must(zelamiku_thread_exit(own, i));
    must(zelamiku_thread_end(own));
    must(zelamiku_heap_close(heap));
    printf("heap");
    for (uint32_t i = 0; i < COUNTED; i++) printf(" %" PRIu64, value[i]);
    bool fits = true;
    for (uint32_t i = 1; i <= WORKERS; i++) {
        fits &= value[i] == value[i + WORKERS];
        sum += value[i];
    }
    fits &= sum == value[TOTAL] && value[LAST] <= WORKERS && (sum == 0 || (value[LAST] > 0 && value[value[LAST]] == value[LAST_COUNT]));
    printf("\n%s\n", fits ? "fits" : "torn");
    if (!fits) exit(TORN);
}

#include "left_out.h"

/* ---- the heap ---- */

/* Opens the heap of a file, or makes one, which only who counts may do. */
static void open_file(const char *path, uint32_t capacity, uint32_t lanes, bool is_look) {
    struct stat info;
    zelamiku_report report = {.size = sizeof report};
    zelamiku_plan plan = {.size = sizeof(zelamiku_plan), .fields = fields, .count = FIELDS, .objects = OBJECTS, .lanes = lanes, .capacity = capacity, .upgrades = 1,
                          .atomic_sectors = getenv("ATOMIC_SECTORS") != NULL};
    bool is_there = stat(path, &info) == 0 || !is_look;
    if (is_there) must(zelamiku_heap_open(&heap, path, &plan, &report));
    if (is_there && (!is_look || report.is_made == 0)) return;
    printf("no heap\n");
    exit(NO_HEAP);
}

/* ---- copies ---- */

static void copy_once(const char *path) {
    char to[4096];
    uint64_t before[WORKERS + 1];
    for (uint32_t i = 1; i <= WORKERS; i++) before[i] = durable[i];
    (void)snprintf(to, sizeof to, "%s.copy", path);
    must(zelamiku_heap_copy(heap, to));
    for (uint32_t i = 1; i <= WORKERS; i++) tell("copy", i, before[i]);
}

static void *copy(void *path) {
    for (;;) copy_once(path);
    return NULL;
}

/* The word, or what it is without it. */
static uint32_t number(int argc, char **argv, int word, uint32_t otherwise) {
    return argc > word ? (uint32_t)strtoul(argv[word], NULL, 10) : otherwise;
}

int main(int argc, char **argv) {
    const char *word = argc > 2 ? argv[1] : "";
    bool is_look = strncmp(word, "look", 4) == 0;
    uint32_t size = number(argc, argv, 3, 0);
    if (!is_look && strncmp(word, "co", 2) != 0) return REFUSED;
    declare();
    open_file(argv[2], size, number(argc, argv, 4, WORKERS + 1), is_look);
    leave_out();
    if (is_look) {
        look();
        return 0;
    }
    pthread_t copier;
    port = open("/dev/told", O_WRONLY | O_CLOEXEC);
    must_do(port >= 0, "told");
    must_do(strcmp(word, "copy") != 0 || pthread_create(&copier, NULL, copy, argv[2]) == 0, "thread");
    count();
    return 0;
}
