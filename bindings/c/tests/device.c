/* Tests of heaps on a device of this test's own, whose calls fail, tear and hang.
 *
 *     device FOLDER [threads]     prints one line, and answers 0, where all is as it must be; with `threads` only what threads do at once */
#define _GNU_SOURCE
#include <errno.h>
#include <pthread.h>
#include <stdatomic.h>
#include <stdio.h>
#include <unistd.h>
#include "memory.h"

static const char *kind_of_fault; /* of the call that has met one */
static void say_fault(void);
#define SAY_MORE() say_fault()
#include "must.h"


/* What a fault does to a call. TORN: half of a write's bytes are there, and the answer is DEVICE. LATE: a write is whole, or a sync done, and the
 * answer is DEVICE. STRANGE: it answers what no function may. SILENT: as REFUSED, and errno stays what it was. */
enum { NO_FAULT, REFUSED, TORN, LATE, GONE, STRANGE, SILENT, HANGS, FAULTS = HANGS };
static const char *const NAMES[] = {"no fault", "refused", "torn", "late", "gone", "strange", "silent", "hangs"};

static memory held;
static _Atomic unsigned fault, fault_at; /* which call meets it, from 1 on; 0: none */
static _Atomic unsigned calls;
static pthread_mutex_t bytes_lock = PTHREAD_MUTEX_INITIALIZER; /* of what the device holds */
static _Atomic unsigned in_call, hung;
static _Atomic unsigned takes;          /* how many microseconds a sync takes */
enum { PATIENT = 240000 };              /* looks a millisecond apart, after which something hangs */
static _Atomic bool refuses_more;       /* each call after the fault is refused: else who makes it again would do so at any moment */
static _Atomic bool is_let_go, is_over; /* no call may come, and no line for the log */
static _Atomic bool hook_hangs, is_in_hook;

static void say_fault(void) {
    fprintf(stderr, "%s at call %u: ", NAMES[fault], fault_at);
}

static const zelamiku_field FIELDS[] = {{0, 0, 5, 0}, {1, 1, 6, 0}, {0, 0, 9, 1}};
/* No round comes by itself. */
static void note_line(void *of, uint32_t level, const char *text);
static const zelamiku_plan PLAN = {.size = sizeof(zelamiku_plan), .fields = FIELDS, .count = 3, .objects = 2, .lanes = 4, .capacity = 2000, .linger = UINT32_MAX, .log = note_line};
enum { SIZE = 1 << 18 };

/* The heap of another host (value_on) has the plan too. */
static void note_line(void *of, uint32_t level, const char *text) {
    (void)of, (void)level;
    if (strstr(text, "device: ") != text) return;
    is_in_hook = true;
    while (hook_hangs) usleep(1000);
    MUST(!is_over);
    is_in_hook = false;
}

/* ---- the device ---- */

static int error_now = ENOSPC; /* of a call that fails, but for SILENT */

/* The fault that this call meets. */
static unsigned fault_of_call(void) {
    unsigned call = ++calls, at = fault_at;
    return call == at ? fault : at > 0 && call > at && refuses_more ? REFUSED : NO_FAULT;
}

static zelamiku_status begin_call(const char *kind, unsigned *met) {
    MUST(++in_call == 1 && !is_over);
    *met = fault_of_call();
    if (*met == NO_FAULT) return ZELAMIKU_OK;
    kind_of_fault = kind;
    if (*met != SILENT) errno = error_now;
    if (*met == HANGS) {
        hung++;
        while (!is_let_go) usleep(1000);
        *met = NO_FAULT;
        return ZELAMIKU_OK;
    }
    return *met == GONE ? ZELAMIKU_LOST : *met == STRANGE ? ZELAMIKU_HELD : ZELAMIKU_DEVICE;
}

static zelamiku_status end_call(zelamiku_status status) {
    in_call--;
    if (status == ZELAMIKU_OK) errno = ENOENT; /* a function that succeeds may leave any errno */
    return status;
}

static zelamiku_status flaky_read(void *of, uint64_t at, void *bytes, size_t size) {
    unsigned met;
    zelamiku_status status = begin_call("read", &met);
    MUST(size <= SIZE && at <= SIZE - size);
    if (met == NO_FAULT) return end_call(memory_read(of, at, bytes, size));
    memset(bytes, 0x5a, size / 2);
    return end_call(status);
}

static zelamiku_status flaky_write(void *of, uint64_t at, const void *bytes, size_t size) {
    unsigned met;
    zelamiku_status status = begin_call("write", &met);
    MUST(size > 0 && size <= 1 << 16);
    pthread_mutex_lock(&bytes_lock);
    if (met == NO_FAULT || met == LATE) (void)memory_write(of, at, bytes, size);
    if (met == TORN) (void)memory_write(of, at, bytes, size / 2);
    pthread_mutex_unlock(&bytes_lock);
    return end_call(status);
}

static zelamiku_status flaky_sync(void *of) {
    unsigned met;
    zelamiku_status status = begin_call("sync", &met);
    usleep(takes);
    pthread_mutex_lock(&bytes_lock);
    if (met == NO_FAULT || met == LATE) (void)memory_sync(of);
    pthread_mutex_unlock(&bytes_lock);
    return end_call(status);
}

static zelamiku_status flaky_length(void *of, uint64_t *length) {
    unsigned met;
    zelamiku_status status = begin_call("length", &met);
    *length = met != NO_FAULT ? 12345 : ((memory *)of)->size;
    return end_call(status);
}

static const zelamiku_device DEVICE = {sizeof(zelamiku_device), flaky_read, flaky_write, flaky_sync, flaky_length, &held};

static void empty(void) {
    memset(held.now, 0, SIZE);
    memset(held.durable, 0, SIZE);
}

/* The cause that is reported. Where a function leaves errno as it was, no errno of before is its cause. */
static int cause(void) {
    return fault == SILENT ? EIO : error_now;
}

/* From now on: the fault at the call from here. */
static void plant(unsigned what, unsigned at) {
    fault = what;
    fault_at = at;
    calls = 0;
    refuses_more = false;
}

/* ---- a heap on it ---- */

static zelamiku_heap heap;

static void begin(void) {
    is_over = false;
    OK(open_on(&heap, "device", &DEVICE, &PLAN, NULL));
}

static zelamiku_thread begin_thread(void) {
    zelamiku_thread own;
    OK(zelamiku_thread_begin(&own, heap));
    return own;
}

static uint64_t load(zelamiku_thread own, uint32_t field) {
    uint64_t value = 0;
    OK(zelamiku_thread_enter(own, field % 2));
    OK(zelamiku_thread_load(own, field, &value));
    OK(zelamiku_thread_exit(own, field % 2));
    return value;
}

/* Both fields, by one section. */
static void store(zelamiku_thread own, uint64_t value) {
    OK(zelamiku_thread_enter(own, 0));
    OK(zelamiku_thread_enter(own, 1));
    OK(zelamiku_thread_store(own, 0, value));
    OK(zelamiku_thread_store(own, 1, value + 1));
    OK(zelamiku_thread_exit(own, 1));
    OK(zelamiku_thread_exit(own, 0));
}

static void close_heap(void) {
    OK(zelamiku_heap_close(heap));
    is_over = true;
}

/* The value of a heap on these bytes, as another host finds it; 0: there is none. */
static uint64_t value_on(const uint8_t *bytes) {
    memory copy = new_memory(SIZE);
    zelamiku_heap other;
    zelamiku_thread own;
    uint64_t value = 0, second = 0;
    pthread_mutex_lock(&bytes_lock);
    memcpy(copy.now, bytes, SIZE);
    pthread_mutex_unlock(&bytes_lock);
    zelamiku_device device = device_of(&copy);
    zelamiku_plan plan = PLAN;
    plan.must_exist = 1;
    zelamiku_status status = open_on(&other, "another host", &device, &plan, NULL);
    if (status == ZELAMIKU_OK) {
        OK(zelamiku_thread_begin(&own, other));
        OK(zelamiku_thread_enter(own, 0));
        OK(zelamiku_thread_enter(own, 1));
        OK(zelamiku_thread_load(own, 0, &value));
        OK(zelamiku_thread_load(own, 1, &second));
        OK(zelamiku_thread_exit(own, 1));
        OK(zelamiku_thread_exit(own, 0));
        MUST(second == value + 1);
        OK(zelamiku_heap_close(other));
    } else {
        MUST(status == ZELAMIKU_NO_HEAP && other.number == 0);
    }
    free_memory(&copy);
    return value;
}

/* A heap on the device, in which 7 is durable, and nobody has it open. */
static void make(void) {
    empty();
    plant(NO_FAULT, 0);
    begin();
    zelamiku_thread own = begin_thread();
    store(own, 7);
    OK(zelamiku_thread_await(own));
    close_heap();
    MUST(value_on(held.durable) == 7);
}

static bool says(const char *text) {
    return strstr(zelamiku_heap_failure(NULL), text) != NULL;
}

/* ---- a life ---- */

static void life(const char *folder) {
    zelamiku_report report = {.size = sizeof report};
    char path[4096];
    uint64_t seen = 0, rounds = 0;
    empty();
    plant(NO_FAULT, 0);
    OK(open_on(&heap, "device", &DEVICE, &PLAN, &report));
    MUST(report.is_made == 1 && report.fields == 3 && report.lanes == 4 && report.bytes < SIZE);
    zelamiku_thread own = begin_thread();
    MUST(load(own, 0) == 5 && load(own, 1) == 6 && load(own, 2) == 9);
    store(own, 7);
    OK(zelamiku_thread_await(own));
    MUST(value_on(held.durable) == 7);
    /* A copy of it is a file. */
    (void)snprintf(path, sizeof path, "%s/device.copy", folder);
    OK(zelamiku_heap_copy(heap, path));
    store(own, 8);
    OK(zelamiku_heap_await_round(heap, seen, ZELAMIKU_NO_DEADLINE, &rounds));
    close_heap();
    begin();
    own = begin_thread();
    MUST(load(own, 0) == 8 && load(own, 1) == 9 && load(own, 2) == 9);
    close_heap();
    OK(zelamiku_heap_open(&heap, path, &PLAN, &report));
    MUST(report.is_made == 0);
    own = begin_thread();
    MUST(load(own, 0) == 7);
    OK(zelamiku_heap_close(heap));
    MUST(unlink(path) == 0);
}

/* ---- what is refused leaves what was ---- */

static void refuses(zelamiku_status wanted, const zelamiku_plan *plan, const char *text) {
    memory before = new_memory(SIZE);
    memcpy(before.now, held.now, SIZE);
    heap.number = 1;
    is_over = false;
    MUST(open_on(&heap, "device", &DEVICE, plan, NULL) == wanted && heap.number == 0 && says(text));
    MUST(memcmp(before.now, held.now, SIZE) == 0);
    is_over = true;
    free_memory(&before);
}

static void refusals(void) {
    zelamiku_plan plan = PLAN;
    for (unsigned lacks = 0; lacks < 4; lacks++) {
        zelamiku_device device = {sizeof device, lacks == 0 ? NULL : flaky_read, lacks == 1 ? NULL : flaky_write, lacks == 2 ? NULL : flaky_sync,
                                  lacks == 3 ? NULL : flaky_length, &held};
        heap.number = 1;
        MUST(open_on(&heap, "device", &device, &PLAN, NULL) == ZELAMIKU_BAD_ARGUMENT && heap.number == 0 && says("four functions"));
    }
    MUST(open_on(&heap, NULL, &DEVICE, &PLAN, NULL) == ZELAMIKU_BAD_ARGUMENT && open_on(NULL, "device", &DEVICE, &PLAN, NULL) == ZELAMIKU_BAD_ARGUMENT);
    empty();
    plant(NO_FAULT, 0);
    plan.must_exist = 1;
    refuses(ZELAMIKU_NO_HEAP, &plan, "device: open: there is no heap");
    plan = PLAN;
    plan.lanes = 33;
    refuses(ZELAMIKU_BAD_ARGUMENT, &plan, "lanes is 33 in the plan");
    plan.lanes = 32;
    refuses(ZELAMIKU_TOO_SMALL, &plan, "the device has 262144 bytes, and the heap takes");
    /* One byte anywhere in what the heap would take is something else's; past that nothing is looked at. */
    held.now[100000] = 1;
    refuses(ZELAMIKU_NOT_FORMATTED, &PLAN, "it has no heap, and isn't empty");
    held.now[100000] = 0;
    /* And so is one that no making writes there: in the header, a slot, a guard row, a cell. */
    static const size_t NOT_OF_A_MAKING[] = {13, 79, 1120, 2165, 2160 + 16 * 4 + 6};
    for (size_t i = 0; i < sizeof NOT_OF_A_MAKING / sizeof *NOT_OF_A_MAKING; i++) {
        held.now[NOT_OF_A_MAKING[i]] = 0x5a;
        refuses(ZELAMIKU_NOT_FORMATTED, &PLAN, "it has no heap, and isn't empty");
        held.now[NOT_OF_A_MAKING[i]] = 0;
    }
    held.now[SIZE - 1] = 1;
    begin();
    close_heap();
    MUST(held.now[SIZE - 1] == 1);
    /* Any first byte of a heap is damaged. */
    make();
    for (unsigned at = 0; at < 9; at++) {
        held.now[at] ^= 4;
        refuses(ZELAMIKU_NOT_FORMATTED, &PLAN, "left as it is");
        held.now[at] ^= 4;
    }
    plan = PLAN;
    plan.objects = 3;
    refuses(ZELAMIKU_OTHER_HEAP, &plan, "objects: 2 in the file, and 3 in the plan");
    MUST(value_on(held.now) == 7);
}

/* A record that was altered is named by its lane and its place. */
static void bad_records(void) {
    memory copy = new_memory(SIZE), before = new_memory(SIZE);
    zelamiku_device device = device_of(&copy);
    zelamiku_report report = {.size = sizeof report};
    zelamiku_heap other;
    char text[100];
    unsigned found = 0;
    make();
    begin();
    zelamiku_thread own = begin_thread();
    store(own, 8);
    OK(zelamiku_thread_await(own));
    memcpy(before.now, held.durable, SIZE); /* no close has written its end */
    close_heap();
    for (size_t at = 2160; at < SIZE; at++) { /* after the controls */
        if (before.now[at] == 0) continue;
        memcpy(copy.now, before.now, SIZE);
        copy.now[at] ^= 0xff;
        zelamiku_status status = open_on(&other, "another host", &device, &PLAN, &report);
        if (status == ZELAMIKU_OK) OK(zelamiku_heap_stop(other, ZELAMIKU_ABANDONED));
        if (report.damage != ZELAMIKU_DAMAGED_RECORD) continue;
        (void)snprintf(text, sizeof text, "the heap has a record that can't be read: lane %u, place %llu", report.bad_lane, (unsigned long long)report.bad_place);
        MUST(status == ZELAMIKU_DAMAGED_FILE && report.bad_lane < 5 && says(text));
        found += report.bad_place > 0;
    }
    MUST(found > 0);
    free_memory(&copy);
    free_memory(&before);
}

/* A failure tells what to do about the system's error. */
static void cures(void) {
    static const struct {
        int error;
        const char *cure;
    } CURES[] = {{ENOSPC, "make room"}, {EDQUOT, "make room"}, {EIO, "its disk has failed: mount the file system again"},
                 {EROFS, "mount the file system for writing"}, {EACCES, "ask its owner for the right to read and write it"},
                 {EPERM, "ask its owner for the right to read and write it"}, {ENOENT, "make its folder first"},
                 {EMFILE, "close some files, or allow more of them (ulimit -n)"}, {ENFILE, "close some files, or allow more of them (ulimit -n)"},
                 {ENOLCK, "use a file system that has locks"}, {EISDIR, "name a file"}, {ETIMEDOUT, "see the system's error, and call again"}};
    for (size_t i = 0; i < sizeof CURES / sizeof *CURES; i++) {
        plant(REFUSED, 1);
        is_over = false;
        error_now = CURES[i].error;
        MUST(open_on(&heap, "device", &DEVICE, &PLAN, NULL) == ZELAMIKU_DEVICE && last_failure().error == error_now);
        MUST(strcmp(last_failure().cure, CURES[i].cure) == 0);
    }
    error_now = ENOSPC;
    is_over = true;
}

/* ---- a fault at each call ---- */

/* A fault at each call of an opening: no heap is open then, and what was there is there still. Answers how many calls there were. */
static unsigned openings(unsigned what) {
    for (unsigned at = 1;; at++) {
        make();
        uint8_t *before = (uint8_t *)malloc(SIZE);
        MUST(before != NULL);
        memcpy(before, held.now, SIZE);
        plant(what, at);
        is_over = false;
        heap.number = 1;
        zelamiku_status status = open_on(&heap, "device", &DEVICE, &PLAN, NULL);
        bool is_done = calls < at;
        fault_at = 0;
        if (is_done) {
            OK(status);
            close_heap();
        } else {
            /* Also where the device has answered LOST, or nothing that it may: no heap is open that could be lost (zelamiku.h). */
            MUST(status == ZELAMIKU_DEVICE && heap.number == 0 && last_failure().error == cause() && says(strerror(cause())));
            is_over = true;
            if (strcmp(kind_of_fault, "read") == 0 || strcmp(kind_of_fault, "size") == 0) MUST(memcmp(before, held.now, SIZE) == 0);
        }
        MUST(value_on(held.now) == 7 && value_on(held.durable) == 7);
        free(before);
        if (is_done) return at - 1;
    }
}

/* What is on the device now, or what is durable of it, is opened as a heap with its first values: it was made, or is made anew. */
static void makes_again(const uint8_t *left) {
    memory copy = new_memory(SIZE);
    zelamiku_heap other;
    memcpy(copy.now, left, SIZE);
    zelamiku_device device = device_of(&copy);
    OK(open_on(&other, "another host", &device, &PLAN, NULL));
    OK(zelamiku_heap_close(other));
    MUST(value_on(copy.durable) == 5);
    free_memory(&copy);
}

/* The same where only some of the sectors that differ are there, as a crash leaves them. */
static void makes_again_of_some(void) {
    enum { SECTOR = 512, CRASHES = 24 };
    memory some = new_memory(SIZE);
    for (uint32_t crash = 0; crash < CRASHES; crash++) {
        memcpy(some.now, held.durable, SIZE);
        for (uint32_t part = 0; part < SIZE / SECTOR; part++)
            if ((crash * 2654435761u + part * 40503u) >> 7 & 1) memcpy(some.now + part * SECTOR, held.now + part * SECTOR, SECTOR);
        makes_again(some.now);
    }
    free_memory(&some);
}

/* A fault at each call of a making: afterwards there is no heap, or the new one, and whatever is there it is made or opened by the next call. */
static unsigned makings(unsigned what) {
    for (unsigned at = 1;; at++) {
        empty();
        plant(what, at);
        is_over = false;
        zelamiku_status status = open_on(&heap, "device", &DEVICE, &PLAN, NULL);
        bool is_done = calls < at;
        fault_at = 0;
        if (!is_done) MUST(status == ZELAMIKU_DEVICE && heap.number == 0 && last_failure().error == cause());
        if (is_done) {
            OK(status);
            close_heap();
        }
        is_over = true;
        uint64_t now = value_on(held.now), durable = value_on(held.durable);
        MUST((now == 5 || now == 0) && (durable == 5 || durable == 0) && (!is_done || durable == 5));
        makes_again(held.durable);
        makes_again_of_some();
        if (is_done) return at - 1;
        begin();
        close_heap();
    }
}

/* Each later call of the heap answers its end. */
static void after_loss(zelamiku_thread own) {
    uint64_t value = 0;
    zelamiku_stats stats = {.size = sizeof stats};
    MUST(zelamiku_thread_await(own) == ZELAMIKU_LOST && last_failure().error == ENOSPC && says("; make room, then close the heap and open it again"));
    MUST(zelamiku_thread_enter(own, 0) == ZELAMIKU_LOST && zelamiku_thread_load(own, 0, &value) == ZELAMIKU_LOST && value == 0);
    MUST(zelamiku_heap_stats(heap, &stats) == ZELAMIKU_OK && stats.sections == 1);
    MUST(zelamiku_heap_close(heap) == ZELAMIKU_LOST);
    is_over = true;
    MUST(zelamiku_thread_enter(own, 0) == ZELAMIKU_LOST);
}

/* DEVICE is no end: the section is there still, and durable once the call was made again. */
static void after_refusal(zelamiku_thread own) {
    MUST(last_failure().error == cause() && says(strerror(cause())) && says(cause() == EIO ? "; its disk has failed" : "; make room"));
    uint64_t crashed = value_on(held.durable);
    MUST(crashed == 7 || (crashed == 8 && fault == LATE));
    MUST(load(own, 0) == 8);
    fault_at = 0;
    zelamiku_status status;
    for (unsigned tries = 0; (status = zelamiku_thread_await(own)) == ZELAMIKU_DEVICE; tries++) MUST(tries < 3);
    OK(status);
    MUST(value_on(held.durable) == 8);
    close_heap();
}

/* A fault at each call of a round, whose section stores 8. A crash now leaves 7 or 8, whatever of the writes since the last sync is there. */
static unsigned rounds(unsigned what) {
    for (unsigned at = 1;; at++) {
        empty();
        plant(NO_FAULT, 0);
        begin();
        zelamiku_thread own = begin_thread();
        store(own, 7);
        OK(zelamiku_thread_await(own));
        store(own, 8);
        plant(what, at);
        refuses_more = true;
        zelamiku_status status = zelamiku_thread_await(own);
        bool is_done = calls < at;
        uint64_t crashed = value_on(held.durable);
        MUST(crashed == 7 || crashed == 8);
        if (is_done) {
            fault_at = 0;
            OK(status);
            MUST(crashed == 8);
            close_heap();
            return at - 1;
        }
        bool is_loss = what == GONE || what == STRANGE;
        MUST(status == (is_loss ? ZELAMIKU_LOST : ZELAMIKU_DEVICE));
        if (is_loss)
            after_loss(own);
        else
            after_refusal(own);
    }
}

/* ---- times ---- */

/* The longest round stays the longest, times of calls add up, and a section that nobody waits for is durable after the plan's linger. */
static void times(void) {
    enum { SLOW = 30000, LINGER = 300000 }; /* microseconds */
    zelamiku_plan plan = PLAN;
    zelamiku_stats first = {.size = sizeof first}, second = first;
    uint64_t at_first = zelamiku_now();
    plan.linger = LINGER;
    empty();
    plant(NO_FAULT, 0);
    is_over = false;
    OK(open_on(&heap, "device", &DEVICE, &plan, NULL));
    zelamiku_thread own = begin_thread();
    unsigned opened = calls;
    takes = SLOW;
    store(own, 1);
    OK(zelamiku_thread_await(own));
    OK(zelamiku_heap_stats(heap, &first));
    takes = 0;
    store(own, 2);
    OK(zelamiku_thread_await(own));
    OK(zelamiku_heap_stats(heap, &second));
    MUST(first.longest_round >= SLOW * 1000 && second.longest_round >= first.longest_round && second.longest_round <= zelamiku_now() - at_first);
    MUST(first.calls_time >= SLOW * 1000 && second.calls_time > first.calls_time && second.calls_time <= zelamiku_now() - at_first);
    MUST(second.calls == calls - opened);
    MUST(second.records > first.records && second.two_sync_rounds == first.two_sync_rounds + 1 && second.syncs == first.syncs + 2);
    usleep(3 * LINGER); /* the helper has looked, and sleeps */
    store(own, 3);
    uint64_t begun = zelamiku_now();
    for (unsigned tries = 0; progress(own).durable < 3; tries++) {
        MUST(tries < PATIENT);
        usleep(1000);
    }
    MUST(zelamiku_now() - begun >= LINGER * 1000 / 2);
    UNTIL(stats_now(heap).rounds > second.rounds);
    MUST(stats_now(heap).is_astray == 0); /* a device has no path to look at, as a file has each second */
    close_heap();
}

/* From a call of a stop's last round on each is refused, and nobody makes it again: the stop says that what had ended may be lost. Answers after
 * how many calls it was. */
static unsigned lossy_stops(bool abandons) {
    unsigned lost = 0;
    for (unsigned at = 1;; at++) {
        make();
        begin();
        store(begin_thread(), 8);
        plant(REFUSED, at);
        refuses_more = true;
        zelamiku_status status = abandons ? zelamiku_heap_stop(heap, ZELAMIKU_ABANDONED) : zelamiku_heap_stop(heap, ZELAMIKU_CLOSED);
        bool is_done = calls < at;
        is_over = true;
        if (is_done)
            OK(status);
        else
            MUST(status == ZELAMIKU_LOST && last_failure().error == ENOSPC && says("lost: No space left on device; make room, then"));
        uint64_t found = value_on(held.now);
        MUST(found == 8 || (found == 7 && !is_done));
        lost += found == 7;
        if (is_done) return lost;
    }
}

/* ---- a call that hangs ---- */

typedef struct {
    zelamiku_thread own;
    uint32_t object;
    zelamiku_status status;
    _Atomic bool is_back;
} sleeper;

static void *enter_asleep(void *data) {
    sleeper *it = (sleeper *)data;
    it->status = zelamiku_thread_enter(it->own, it->object);
    it->is_back = true;
    return NULL;
}

static void *await_asleep(void *data) {
    sleeper *it = (sleeper *)data;
    it->status = zelamiku_thread_await(it->own);
    it->is_back = true;
    return NULL;
}

static void *stop_heap(void *data) {
    sleeper *it = (sleeper *)data;
    it->status = zelamiku_heap_stop(heap, ZELAMIKU_CLOSED);
    is_over = it->is_back = true;
    return NULL;
}

static void *close_too(void *data) {
    sleeper *it = (sleeper *)data;
    it->status = zelamiku_heap_close(heap);
    is_over = it->is_back = true;
    return NULL;
}

static void until(_Atomic bool *is_so) {
    for (unsigned tries = 0; !*is_so; tries++) {
        MUST(tries < PATIENT);
        usleep(1000);
    }
}

static void until_entering(uint32_t count) {
    zelamiku_stats stats = {.size = sizeof stats, .entering = count + 1};
    for (unsigned tries = 0; stats.entering != count; tries++) {
        MUST(tries < PATIENT);
        OK(zelamiku_heap_stats(heap, &stats));
        usleep(1000);
    }
}

/* A call of the round hangs, and the heap is stopped meanwhile, and closed too: who sleeps for a monitor is answered at once, who waits for the
 * round and both ends once the call has returned. What the round has made durable is. `fails`: all later calls are refused, so that the stop
 * loses the section, and who waits for it gets the heap's end. */
static bool hangs(unsigned at, bool fails) {
    pthread_t threads[4];
    empty();
    plant(NO_FAULT, 0);
    begin();
    zelamiku_thread holder = begin_thread();
    sleeper waiting = {.own = begin_thread()}, entering = {.own = begin_thread(), .object = 1}, stopping = {.is_back = false}, closing = stopping;
    store(waiting.own, 7);
    OK(zelamiku_thread_await(waiting.own));
    store(waiting.own, 8);
    OK(zelamiku_thread_enter(holder, 1));
    hung = 0;
    is_let_go = false;
    plant(HANGS, at);
    MUST(pthread_create(&threads[0], NULL, await_asleep, &waiting) == 0);
    MUST(pthread_create(&threads[1], NULL, enter_asleep, &entering) == 0);
    until_entering(1);
    while (hung == 0 && !waiting.is_back) usleep(1000);
    bool has_hung = hung > 0;
    if (has_hung) {
        /* Others go on. */
        zelamiku_thread other = begin_thread();
        OK(zelamiku_thread_enter(other, 0));
        OK(zelamiku_thread_exit(other, 0));
        MUST(pthread_create(&threads[2], NULL, stop_heap, &stopping) == 0);
        until(&entering.is_back);
        MUST(entering.status == ZELAMIKU_CLOSED);
        MUST(zelamiku_thread_enter(other, 0) == ZELAMIKU_CLOSED);
        MUST(pthread_create(&threads[3], NULL, close_too, &closing) == 0);
        usleep(20000);
        MUST(!stopping.is_back && !closing.is_back && !waiting.is_back && in_call == 1);
        if (fails) {
            plant(REFUSED, 1);
            refuses_more = true;
        }
        is_let_go = true;
        for (int i = 0; i < 4; i++) MUST(i == 1 || pthread_join(threads[i], NULL) == 0);
        /* The round's last call is done: what is refused comes after it. */
        bool is_lost = fails && waiting.status != ZELAMIKU_OK;
        MUST(is_lost || !fails || (calls == 1 && value_on(held.durable) == 8));
        MUST(stopping.status == (is_lost ? ZELAMIKU_LOST : ZELAMIKU_OK) && closing.status == ZELAMIKU_CLOSED);
        MUST(waiting.status == (is_lost ? ZELAMIKU_CLOSED : ZELAMIKU_OK));
    } else {
        MUST(pthread_join(threads[0], NULL) == 0 && waiting.status == ZELAMIKU_OK);
        OK(zelamiku_heap_stop(heap, ZELAMIKU_CLOSED));
        is_over = true;
    }
    MUST(pthread_join(threads[1], NULL) == 0 && entering.status == ZELAMIKU_CLOSED);
    fault_at = 0;
    MUST(value_on(held.durable) == (waiting.status == ZELAMIKU_OK ? 8 : 7));
    return has_hung;
}

/* The log hook hangs in a thread that has led a round of which a write has failed: a stop returns once the hook has. */
static void hook_is_awaited(void) {
    pthread_t threads[2];
    make();
    begin();
    sleeper waiting = {.own = begin_thread()}, stopping = {.is_back = false};
    store(waiting.own, 8);
    hook_hangs = true;
    plant(REFUSED, 1);
    MUST(pthread_create(&threads[0], NULL, await_asleep, &waiting) == 0);
    until(&is_in_hook);
    MUST(pthread_create(&threads[1], NULL, stop_heap, &stopping) == 0);
    usleep(50000);
    MUST(!stopping.is_back && !waiting.is_back);
    hook_hangs = false;
    for (int i = 0; i < 2; i++) MUST(pthread_join(threads[i], NULL) == 0);
    MUST(stopping.status == ZELAMIKU_OK && value_on(held.durable) == 8);
}

int main(int argc, char **argv) {
    unsigned opened = 0, made = 0, rounded = 0, lost = 0, stopped = 0;
    bool is_short = argc == 3 && strcmp(argv[2], "threads") == 0;
    MUST(argc == 2 || is_short);
    held = new_memory(SIZE);
    life(argv[1]);
    refusals();
    bad_records();
    cures();
    times();
    for (unsigned what = REFUSED; what < FAULTS && !is_short; what++) {
        opened += openings(what);
        made += makings(what);
        rounded += rounds(what);
    }
    lost += lossy_stops(false) + lossy_stops(true);
    while (hangs(stopped + 1, false)) stopped++;
    for (unsigned at = 1; at <= stopped; at++) (void)hangs(at, true);
    hook_is_awaited();
    MUST(stopped > 0 && lost > 0 && (is_short || (opened > 0 && made > 0 && rounded > 0)));
    printf("device: a fault at each call of an opening %u, of a making %u, of a round %u, of a stop %u; a stop while each call of a round hangs %u\n",
           opened, made, rounded, lost, stopped);
    free_memory(&held);
    return 0;
}
