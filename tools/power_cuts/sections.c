/* Four threads whose sections overlap, in a guest whose power is cut (tools/power-cuts), and an account of each section.
 *
 *     sections run FILE      opens the heap, or makes it, and goes on for ever
 *     sections look FILE
 *
 * In each section thread t adds one to its counter, value t, and stores numbers that no other section stores. Sections take one monitor, or
 * several at once, or one after another; they wait, before their end or at it; they take slots of a pool and give them back; and they store
 * to transient fields, of which no crash leaves anything. Before it ends a section tells a line, for history.py:
 *
 *     #life LIFE VALUE..                   what the heap has when it is opened; the sections after this line are of this life
 *     #section LIFE THREAD COUNT STEP..    a step: OBJECT:ORDER, a monitor that was taken, for the ORDERth time in this life;
 *                                          or OBJECT.VALUE=NUMBER, a store under that monitor
 *
 * `t COUNT` is told of what is durable. A look prints `heap` and the values, and whether the pool has just the slots that are taken.
 * WITHOUT_SYNC=N leaves out the Nth of each round's two syncs (left_out.h). */
#define _GNU_SOURCE
#include <fcntl.h>
#include <sys/stat.h>
#include "cuts.h"

/* Object 0 has nothing that is stored to; each thread has one of its own, all share some, and the last has the pool. */
enum { THREADS = 4, SHARED = 6, EACH = 4, SLOTS = 12, POOL = 1 + THREADS + SHARED, OBJECTS };
/* Value t is thread t's counter. Then come those of shared objects, a transient one of each, and a tag of each slot, 0 where it is free. */
enum { DATA = 1 + THREADS, TRANSIENT = DATA + SHARED * EACH, TAGS = TRANSIENT + SHARED, VALUES = TAGS + SLOTS };
/* Each value lies in a block of 1,024 bytes of its own, and the pool after them. */
enum { STRIDE = 43, HEAD = VALUES * STRIDE, FIELDS = HEAD + 1 + SLOTS };
enum { LONGEST = 4000, PATIENCE = 20000000 /* nanoseconds */, FIRST = 7 /* of a transient field */ };

#include "left_out.h"

static zelamiku_field fields[FIELDS];
static uint64_t life, order[OBJECTS]; /* how often each monitor was taken; it guards that */

typedef struct {
    zelamiku_thread own;
    uint32_t number;
    uint64_t begun_with, count, stores, told, chance;
    char line[LONGEST];
    int length;
} worker;

static uint32_t below(worker *of, uint32_t most) {
    of->chance = of->chance * 6364136223846793005u + 1442695040888963407u;
    return (uint32_t)(of->chance >> 33) % most;
}

/* ---- steps of a section, which its line tells ---- */

static void note(worker *of, const char *form, uint64_t a, uint64_t b, uint64_t c) {
    of->length += snprintf(of->line + of->length, (size_t)(LONGEST - of->length), form, a, b, c);
    must_do(of->length < LONGEST, "a line's room");
}

static void note_taken(worker *of, uint32_t object) {
    note(of, " %" PRIu64 ":%" PRIu64, object, ++order[object], 0);
}

static void take(worker *of, uint32_t object) {
    must(zelamiku_thread_enter(of->own, object));
    note_taken(of, object);
}

static void put_number(worker *of, uint32_t object, uint32_t value, uint64_t number) {
    must(zelamiku_thread_store(of->own, value * STRIDE, number));
    note(of, " %" PRIu64 ".%" PRIu64 "=%" PRIu64, object, value, number);
}

/* A number that no other section stores: the life, the thread, how many stores it has made. */
static void put(worker *of, uint32_t object, uint32_t value) {
    put_number(of, object, value, (life << 40 | (uint64_t)of->number << 32) + ++of->stores);
}

/* Some values of a shared object, and its transient one, which no line tells. */
static void put_some(worker *of, uint32_t object) {
    uint32_t place = object - 1 - THREADS;
    for (uint32_t i = 1 + below(of, 3); i > 0; i--) put(of, object, DATA + place * EACH + below(of, EACH));
    must(zelamiku_thread_store(of->own, (TRANSIENT + place) * STRIDE, of->stores));
}

static void begin_section(worker *of) {
    of->length = 0;
    of->count++;
    note(of, "#section %" PRIu64 " %" PRIu64 " %" PRIu64, life, of->number, of->count);
}

/* The thread's own monitor is held from here on. */
static void count_section(worker *of) {
    take(of, of->number);
    put_number(of, of->number, of->number, of->count);
}

static void tell_line(worker *of) {
    of->line[of->length++] = '\n';
    must_do(write(port, of->line, (size_t)of->length) == of->length, "told");
}

static uint32_t shared(worker *of) {
    return 1 + THREADS + below(of, SHARED);
}

static void pause_for(worker *of, uint32_t most) {
    (void)usleep(below(of, most));
}

static void notify(worker *of, uint32_t object) {
    uint64_t lanes;
    must(zelamiku_thread_notify(of->own, object, true, &lanes));
}

static bool waits(worker *of, uint32_t object) {
    zelamiku_status status = zelamiku_thread_wait(of->own, object);
    if (status != ZELAMIKU_BEHIND) must(status);
    return status == ZELAMIKU_OK;
}

static void give_back(worker *of, uint32_t object) {
    must(zelamiku_thread_exit(of->own, object));
}

/* ---- sections, within the thread's own monitor ---- */

/* Monitors that are held together, taken in the order of their numbers. */
static void nested(worker *of) {
    uint32_t first = shared(of), last = first + below(of, 3);
    if (last >= POOL) last = POOL - 1;
    for (uint32_t i = first; i <= last; i++) take(of, i);
    for (uint32_t i = first; i <= last; i++) put_some(of, i);
    notify(of, first);
    for (uint32_t i = first; i <= last; i++) give_back(of, i);
}

/* Monitors one after another, so that others depend on a section that is open. */
static void one_by_one(worker *of) {
    for (uint32_t left = 2 + below(of, 2); left > 0; left--) {
        uint32_t object = shared(of);
        take(of, object);
        put_some(of, object);
        notify(of, object);
        give_back(of, object);
        pause_for(of, 2000);
    }
}

/* The section is open while it waits. The last thread wakes the others, and waits for none. */
static void waiting_inside(worker *of) {
    uint32_t object = shared(of);
    take(of, object);
    put_some(of, object);
    if (of->number < THREADS && waits(of, object)) {
        note_taken(of, object);
        put_some(of, object);
    }
    notify(of, object);
    give_back(of, object);
}

static void give_some_slot(worker *of) {
    uint64_t tag = 0;
    uint32_t from = below(of, SLOTS), i = 0;
    for (; i < SLOTS && tag == 0; i++) must(zelamiku_thread_load(of->own, (TAGS + (from + i) % SLOTS) * STRIDE, &tag));
    if (tag == 0) return;
    uint32_t slot = (from + i - 1) % SLOTS;
    must(zelamiku_thread_give(of->own, HEAD, SLOTS, slot));
    put_number(of, POOL, TAGS + slot, 0);
}

static void with_pool(worker *of) {
    uint32_t slot;
    take(of, POOL);
    if (below(of, 2) == 0) {
        give_some_slot(of);
    } else {
        zelamiku_status status = zelamiku_thread_take(of->own, HEAD, SLOTS, &slot);
        if (status != ZELAMIKU_POOL_EMPTY) must(status);
        if (status == ZELAMIKU_OK) put(of, POOL, TAGS + slot);
    }
    give_back(of, POOL);
}

/* A wait with no other monitor held ends the section, and the next one begins as it goes on. */
static void waiting_apart(worker *of) {
    uint32_t object = shared(of);
    begin_section(of);
    count_section(of);
    take(of, object);
    put_some(of, object);
    give_back(of, of->number);
    tell_line(of);
    if (!waits(of, object)) {
        give_back(of, object);
        return;
    }
    begin_section(of);
    note_taken(of, object);
    put_some(of, object);
    count_section(of);
    tell_line(of);
    give_back(of, of->number);
    give_back(of, object);
}

static void in_section(worker *of) {
    static void (*const kinds[])(worker *) = {nested, nested, one_by_one, waiting_inside, with_pool};
    begin_section(of);
    count_section(of);
    kinds[below(of, 5)](of);
    tell_line(of);
    give_back(of, of->number);
}

/* No thread may sleep here until a section has ended that waits for this thread. */
static void await_some(worker *of) {
    bool is_durable;
    must(zelamiku_thread_await_until(of->own, ZELAMIKU_ALL_SECTIONS, zelamiku_now() + PATIENCE, &is_durable));
    zelamiku_progress progress = {.size = sizeof progress};
    must(zelamiku_thread_progress(of->own, &progress));
    uint64_t durable = of->begun_with + progress.durable;
    if (durable == of->told) return;
    char line[64];
    int size = snprintf(line, sizeof line, "%" PRIu32 " %" PRIu64 "\n", of->number, durable);
    must_do(write(port, line, (size_t)size) == size, "told");
    of->told = durable;
}

static void *work(void *at) {
    worker *of = at;
    must(zelamiku_thread_begin(&of->own, heap));
    for (;;) {
        if (of->number < THREADS && below(of, 6) == 0)
            waiting_apart(of);
        else
            in_section(of);
        if (below(of, 3) == 0) await_some(of);
        pause_for(of, 3000);
    }
    return NULL;
}

/* ---- the heap ---- */

static void declare(void) {
    for (uint32_t i = 0; i < FIELDS; i++) fields[i] = (zelamiku_field){.owner = 0, .guard = 0};
    for (uint32_t i = 1; i < VALUES; i++) {
        uint32_t object = i < DATA ? i : i < TRANSIENT ? 1 + THREADS + (i - DATA) / EACH : i < TAGS ? 1 + THREADS + i - TRANSIENT : POOL;
        bool is_transient = i >= TRANSIENT && i < TAGS;
        fields[i * STRIDE] = (zelamiku_field){object, object, is_transient ? FIRST : 0, is_transient};
    }
    must(zelamiku_pool_fields(POOL, fields + HEAD, 1 + SLOTS));
}

static void open_file(const char *path, bool is_look) {
    struct stat info;
    zelamiku_report report = {.size = sizeof report};
    zelamiku_plan plan = {.size = sizeof(zelamiku_plan), .fields = fields, .count = FIELDS, .objects = OBJECTS, .lanes = THREADS + 1, .reverts = is_look,
                          .atomic_sectors = getenv("ATOMIC_SECTORS") != NULL};
    bool is_there = stat(path, &info) == 0 || !is_look;
    if (is_there) must(zelamiku_heap_open(&heap, path, &plan, &report));
    if (is_there && (!is_look || report.is_made == 0)) return;
    printf("no heap\n");
    exit(NO_HEAP);
}

/* Whether the pool gives just the slots without a tag. What it gives is taken back. */
static bool has_right_slots(zelamiku_thread own, const uint64_t *tags) {
    bool is_free[SLOTS] = {false}, is_right = true;
    uint32_t slot;
    while (zelamiku_thread_take(own, HEAD, SLOTS, &slot) == ZELAMIKU_OK) is_free[slot] = true;
    for (uint32_t i = 0; i < SLOTS; i++) is_right &= is_free[i] == (tags[i] == 0);
    must(zelamiku_thread_revert(own));
    return is_right;
}

/* All values, and after them the pool's head; with `is_look` also whether the pool has the right slots. */
static bool load_all(uint64_t *values, bool is_look) {
    zelamiku_thread own;
    must(zelamiku_thread_begin(&own, heap));
    for (uint32_t i = 0; i < OBJECTS; i++) must(zelamiku_thread_enter(own, i));
    for (uint32_t i = 0; i <= VALUES; i++) must(zelamiku_thread_load(own, i * STRIDE, &values[i]));
    bool is_right = !is_look || has_right_slots(own, values + TAGS);
    for (uint32_t i = 0; i < OBJECTS; i++) must(zelamiku_thread_exit(own, i));
    must(zelamiku_thread_end(own));
    return is_right;
}

static int look(void) {
    uint64_t values[VALUES + 1];
    bool is_right = load_all(values, true);
    must(zelamiku_heap_close(heap));
    printf("heap");
    for (uint32_t i = 0; i <= VALUES; i++) printf(" %" PRIu64, values[i]);
    printf("\n%s\n", is_right ? "fits" : "torn");
    return is_right ? 0 : TORN;
}

static void tell_life(const uint64_t *values) {
    worker first = {.length = 0};
    note(&first, "#life %" PRIu64, life, 0, 0);
    for (uint32_t i = 0; i < VALUES; i++) note(&first, " %" PRIu64, values[i], 0, 0);
    tell_line(&first);
}

static void run(void) {
    static worker workers[THREADS];
    static pthread_t threads[THREADS];
    uint64_t values[VALUES + 1];
    life = zelamiku_now() / 1000 % 65536;
    (void)load_all(values, false);
    tell_life(values);
    must_do(write(port, "made 1\n", 7) == 7, "told");
    for (uint32_t i = 0; i < THREADS; i++) {
        workers[i] = (worker){.number = i + 1, .begun_with = values[i + 1], .count = values[i + 1], .chance = life * THREADS + i};
        must_do(pthread_create(&threads[i], NULL, work, &workers[i]) == 0, "thread");
    }
    for (int i = 0; i < THREADS; i++) must_do(pthread_join(threads[i], NULL) == 0, "join");
}

int main(int argc, char **argv) {
    bool is_look = argc == 3 && strcmp(argv[1], "look") == 0;
    if (argc != 3 || (!is_look && strcmp(argv[1], "run") != 0)) return REFUSED;
    declare();
    open_file(argv[2], is_look);
    if (is_look) return look();
    leave_out();
    port = open("/dev/told", O_WRONLY | O_CLOEXEC);
    must_do(port >= 0, "told");
    run();
    return 0;
}
