/* Tests of zelamiku_thread_revert: what it puts back, when it is refused, what room it needs, and what a crash leaves of it.
 *
 *     revert FOLDER [STEPS [KILLS]]      answers 0 where all is as it must be
 *     revert FOLDER threads              only what several threads do at once: for ThreadSanitizer
 *
 * Random steps (20,000): a model of few lines tells each answer beforehand. So many times (20) a process is killed in the midst of transfers, and
 * each second transfer is taken back. */
#define _GNU_SOURCE
#include <errno.h>
#include <fcntl.h>
#include <stdio.h>
#include <stdlib.h>
#include <string.h>
#include <sys/mman.h>
#include <sys/wait.h>
#include <unistd.h>
#include "memory.h"
#include "zelamiku_core.h"
#include "must.h"

/* The store after so many calls one hook: so the heap ends in the midst of a revert. */
static unsigned stores_left;
static void (*midst)(void);

static zelamiku_status counted_store(zelamiku_handle *session, uint32_t field, uint64_t value) {
    if (stores_left > 0 && --stores_left == 0) midst();
    return zelamiku_store(session, field, value);
}

static int syncs_fail;

static int flaky_fdatasync(int file) {
    if (__atomic_load_n(&syncs_fail, __ATOMIC_SEQ_CST)) return errno = EIO, -1;
    return fdatasync(file);
}

static unsigned allocations_left; /* the last of so many is refused; 0: none is */

static void *scarce_alloc(size_t line, size_t size) {
    return allocations_left > 0 && --allocations_left == 0 ? NULL : aligned_alloc(line, size);
}

#define aligned_alloc scarce_alloc
#define fdatasync flaky_fdatasync
#define zelamiku_store counted_store
#include "../zelamiku_threads.c"
#undef zelamiku_store
#undef fdatasync
#undef aligned_alloc


/* Four objects have 800 fields each, of which each fourth is transient: the field F belongs to object F % 4 and begins with F. Object 4 has a
 * pool, and a field for each of its slots. */
enum { PLAIN = 3200, POOL = 4, SLOTS = 8, OBJECTS = 301, LANES = 4 };
enum { HEAD = PLAIN, IN_SLOT = HEAD + 1 + SLOTS, SMALL = IN_SLOT + SLOTS, FAR = SMALL + 20 };
enum { FIELDS = FAR + 1 }; /* the field SMALL + I belongs to object 5 + I, and FAR to object 300 */
static zelamiku_field fields[FIELDS];
static zelamiku_heap all;

static bool is_transient(uint32_t field) {
    return field < PLAIN && field / 4 % 4 == 3;
}

static void declare(void) {
    for (uint32_t i = 0; i < PLAIN; i++) fields[i] = (zelamiku_field){i % 4, i % 4, i, is_transient(i)};
    OK(zelamiku_pool_fields(POOL, &fields[HEAD], SLOTS + 1));
    for (uint32_t i = IN_SLOT; i < SMALL; i++) fields[i] = (zelamiku_field){POOL, POOL, 0, 0};
    for (uint32_t i = 0; i < 20; i++) fields[SMALL + i] = (zelamiku_field){5 + i, 5 + i, 0, 0};
    fields[FAR] = (zelamiku_field){300, 300, 0, 0};
}

static zelamiku_report reopen_by(uint32_t reverts) {
    zelamiku_plan plan = {.size = sizeof(zelamiku_plan), .fields = fields, .count = FIELDS, .objects = OBJECTS, .lanes = LANES, .reverts = reverts};
    zelamiku_report report = {.size = sizeof report};
    OK(zelamiku_heap_open(&all, "revert.heap", &plan, &report));
    return report;
}

static zelamiku_report reopen(void) {
    return reopen_by(1);
}

static void open_anew(void) {
    MUST(unlink("revert.heap") == 0 || errno == ENOENT);
    MUST(reopen().is_made == 1);
}

static void close_all(void) {
    OK(zelamiku_heap_close(all));
}

static zelamiku_thread begin_thread(void) {
    zelamiku_thread own;
    OK(zelamiku_thread_begin(&own, all));
    return own;
}

static uint64_t load(zelamiku_thread own, uint32_t field) {
    uint64_t value = 0;
    OK(zelamiku_thread_load(own, field, &value));
    return value;
}

/* What another thread finds in the field. */
static uint64_t seen(uint32_t field) {
    zelamiku_thread other = begin_thread();
    OK(zelamiku_thread_enter(other, fields[field].guard));
    uint64_t value = load(other, field);
    OK(zelamiku_thread_exit(other, fields[field].guard));
    OK(zelamiku_thread_end(other));
    return value;
}

static bool says(const char *text) {
    return strstr(zelamiku_heap_failure(NULL), text) != NULL;
}

/* ---- what is put back ---- */

/* The values are those from before the section: for its thread, for others, and after a crash of what was durable. */
static void values(void) {
    open_anew();
    zelamiku_thread own = begin_thread();
    OK(zelamiku_thread_enter(own, 0));
    OK(zelamiku_thread_store(own, 4, 7));
    OK(zelamiku_thread_exit(own, 0));
    OK(zelamiku_thread_enter(own, 0));
    for (uint64_t i = 0; i < 10; i++) OK(zelamiku_thread_store(own, 4, 100 + i));
    OK(zelamiku_thread_store(own, 8, 1));
    OK(zelamiku_thread_store(own, 12, 1)); /* transient */
    OK(zelamiku_thread_revert(own));
    MUST(load(own, 4) == 7 && load(own, 8) == 8 && load(own, 12) == 12);
    /* A revert of nothing, and a second one. */
    OK(zelamiku_thread_revert(own));
    OK(zelamiku_thread_store(own, 4, 200));
    OK(zelamiku_thread_store(own, 16, 200));
    OK(zelamiku_thread_revert(own));
    MUST(load(own, 4) == 7 && load(own, 16) == 16);
    OK(zelamiku_thread_store(own, 8, 3));
    OK(zelamiku_thread_exit(own, 0));
    MUST(seen(4) == 7 && seen(8) == 3 && seen(12) == 12 && seen(16) == 16);
    MUST(progress(own).sections == 2);
    OK(zelamiku_thread_await(own));
    OK(zelamiku_heap_stop(all, ZELAMIKU_ABANDONED));
    MUST(reopen().dropped == 0 && seen(4) == 7 && seen(8) == 3 && seen(12) == 12 && seen(16) == 16);
    close_all();
}

/* A section that only reads, and the next section, which knows nothing of the one before. */
static void sections_apart(void) {
    open_anew();
    zelamiku_thread own = begin_thread();
    OK(zelamiku_thread_enter(own, 0));
    MUST(load(own, 4) == 4);
    OK(zelamiku_thread_revert(own));
    OK(zelamiku_thread_exit(own, 0));
    OK(zelamiku_thread_enter(own, 0));
    OK(zelamiku_thread_store(own, 4, 5));
    OK(zelamiku_thread_exit(own, 0));
    OK(zelamiku_thread_enter(own, 0));
    OK(zelamiku_thread_revert(own));
    MUST(load(own, 4) == 5);
    OK(zelamiku_thread_exit(own, 0));
    /* Another thread of the same lane. */
    OK(zelamiku_thread_end(own));
    own = begin_thread();
    OK(zelamiku_thread_enter(own, 0));
    OK(zelamiku_thread_store(own, 4, 6));
    OK(zelamiku_thread_revert(own));
    MUST(load(own, 4) == 5);
    OK(zelamiku_thread_exit(own, 0));
    close_all();
}

/* ---- monitors ---- */

/* Monitors in one another; more locks of one; and one that is freed while the section goes on. */
static void nested(void) {
    open_anew();
    zelamiku_thread own = begin_thread();
    OK(zelamiku_thread_enter(own, 0));
    OK(zelamiku_thread_enter(own, 1));
    OK(zelamiku_thread_enter(own, 1));
    OK(zelamiku_thread_store(own, 0, 50));
    OK(zelamiku_thread_store(own, 1, 51));
    OK(zelamiku_thread_exit(own, 1)); /* by one of two locks */
    OK(zelamiku_thread_revert(own));
    MUST(load(own, 0) == 0 && load(own, 1) == 1);
    /* What was taken back doesn't count: object 1 may be freed. */
    OK(zelamiku_thread_store(own, 0, 60));
    OK(zelamiku_thread_exit(own, 1));
    OK(zelamiku_thread_revert(own));
    MUST(load(own, 0) == 0);
    /* And taken again. */
    OK(zelamiku_thread_enter(own, 1));
    OK(zelamiku_thread_store(own, 1, 61));
    OK(zelamiku_thread_store(own, 0, 62));
    OK(zelamiku_thread_revert(own));
    MUST(load(own, 0) == 0 && load(own, 1) == 1);
    OK(zelamiku_thread_exit(own, 0)); /* the first one first */
    OK(zelamiku_thread_revert(own));
    OK(zelamiku_thread_store(own, 1, 63));
    OK(zelamiku_thread_exit(own, 1));
    MUST(seen(0) == 0 && seen(1) == 63);
    close_all();
}

static void freed(void) {
    open_anew();
    zelamiku_thread own = begin_thread();
    OK(zelamiku_thread_enter(own, 0));
    OK(zelamiku_thread_enter(own, 1));
    OK(zelamiku_thread_store(own, 0, 50));
    OK(zelamiku_thread_store(own, 1, 51));
    OK(zelamiku_thread_exit(own, 1));
    MUST(seen(1) == 51);
    for (int i = 0; i < 2; i++) {
        MUST(zelamiku_thread_revert(own) == ZELAMIKU_NOT_REVERTED && says("revert: the section has freed a monitor under which it had stored"));
        MUST(load(own, 0) == 50);
        /* What it stores from now on neither. */
        OK(zelamiku_thread_store(own, 4, 54));
    }
    OK(zelamiku_thread_enter(own, 1));
    OK(zelamiku_thread_store(own, 1, 52));
    MUST(zelamiku_thread_revert(own) == ZELAMIKU_NOT_REVERTED && load(own, 1) == 52);
    OK(zelamiku_thread_exit(own, 1));
    OK(zelamiku_thread_exit(own, 0));
    MUST(seen(0) == 50 && seen(1) == 52 && seen(4) == 54);
    /* The next section is as new. */
    OK(zelamiku_thread_enter(own, 0));
    OK(zelamiku_thread_store(own, 0, 70));
    OK(zelamiku_thread_revert(own));
    MUST(load(own, 0) == 50);
    OK(zelamiku_thread_exit(own, 0));
    close_all();
}

/* Monitors whose numbers have the same last byte. */
static void far_guards(void) {
    open_anew();
    zelamiku_thread own = begin_thread();
    OK(zelamiku_thread_enter(own, 44));
    OK(zelamiku_thread_enter(own, 300));
    OK(zelamiku_thread_store(own, FAR, 7));
    OK(zelamiku_thread_revert(own));
    MUST(load(own, FAR) == 0);
    OK(zelamiku_thread_store(own, FAR, 8));
    OK(zelamiku_thread_exit(own, 300));
    MUST(zelamiku_thread_revert(own) == ZELAMIKU_NOT_REVERTED);
    OK(zelamiku_thread_exit(own, 44));
    MUST(seen(FAR) == 8);
    close_all();
}

/* One monitor after another is taken, stored under and freed while one is held: of more than a section can hold at once. */
static void one_by_one(void) {
    for (uint32_t others = 1; others <= 20; others++) {
        open_anew();
        zelamiku_thread own = begin_thread();
        OK(zelamiku_thread_enter(own, 0));
        OK(zelamiku_thread_store(own, 0, 7));
        for (uint32_t i = 0; i < others; i++) {
            OK(zelamiku_thread_enter(own, 5 + i));
            OK(zelamiku_thread_store(own, SMALL + i, 1));
            if (i + 1 < others || others > 15) OK(zelamiku_thread_exit(own, 5 + i));
        }
        MUST(zelamiku_thread_revert(own) == (others == 1 ? ZELAMIKU_OK : ZELAMIKU_NOT_REVERTED) && load(own, 0) == (others == 1 ? 0 : 7));
        if (others <= 15) OK(zelamiku_thread_exit(own, 4 + others));
        OK(zelamiku_thread_exit(own, 0));
        /* All that can be held at once are taken back. */
        OK(zelamiku_thread_enter(own, 0));
        for (uint32_t i = 0; i < 15; i++) {
            OK(zelamiku_thread_enter(own, 5 + i));
            OK(zelamiku_thread_store(own, SMALL + i, 2));
        }
        OK(zelamiku_thread_store(own, 0, 8));
        OK(zelamiku_thread_revert(own));
        for (uint32_t i = 0; i < 15; i++) MUST(load(own, SMALL + i) == (i < others && others > 1));
        for (uint32_t i = 0; i < 15; i++) OK(zelamiku_thread_exit(own, 5 + i));
        OK(zelamiku_thread_exit(own, 0));
        close_all();
    }
}

/* ---- waits ---- */

static void *notify_soon(void *data) {
    zelamiku_thread own = begin_thread();
    uint32_t object = *(uint32_t *)data, lane = ZELAMIKU_NOBODY;
    while (lane == ZELAMIKU_NOBODY) {
        usleep(1000);
        OK(zelamiku_thread_enter(own, object));
        OK(zelamiku_thread_store(own, object, 99));
        OK(notify_one(own, object, &lane));
        if (lane == ZELAMIKU_NOBODY) OK(zelamiku_thread_revert(own));
        OK(zelamiku_thread_exit(own, object));
    }
    OK(zelamiku_thread_end(own));
    return NULL;
}

static void wait_for(zelamiku_thread own, uint32_t object) {
    pthread_t other;
    MUST(pthread_create(&other, NULL, notify_soon, &object) == 0);
    OK(zelamiku_thread_wait(own, object));
    MUST(pthread_join(other, NULL) == 0);
}

/* A wait with no other monitor ends the section, with what it has stored; a wait with others frees a monitor of a section that goes on. */
static void waits(void) {
    open_anew();
    zelamiku_thread own = begin_thread();
    OK(zelamiku_thread_enter(own, 0));
    OK(zelamiku_thread_enter(own, 0));
    OK(zelamiku_thread_store(own, 4, 40));
    wait_for(own, 0);
    MUST(load(own, 0) == 99);
    OK(zelamiku_thread_store(own, 0, 41));
    OK(zelamiku_thread_store(own, 4, 41));
    OK(zelamiku_thread_exit(own, 0)); /* by one of two locks */
    OK(zelamiku_thread_revert(own));
    MUST(load(own, 0) == 99 && load(own, 4) == 40);
    /* Object 1 has no stores: what is stored under object 0 is put back. */
    OK(zelamiku_thread_store(own, 4, 42));
    OK(zelamiku_thread_enter(own, 1));
    wait_for(own, 1);
    OK(zelamiku_thread_store(own, 1, 43));
    OK(zelamiku_thread_revert(own));
    MUST(load(own, 4) == 40 && load(own, 1) == 99);
    /* Object 1 has. */
    OK(zelamiku_thread_store(own, 4, 44));
    OK(zelamiku_thread_store(own, 5, 44));
    wait_for(own, 1);
    MUST(zelamiku_thread_revert(own) == ZELAMIKU_NOT_REVERTED && load(own, 4) == 44 && load(own, 5) == 44);
    OK(zelamiku_thread_exit(own, 1));
    OK(zelamiku_thread_exit(own, 0));
    MUST(progress(own).sections == 2);
    close_all();
}

/* ---- pools ---- */

static uint32_t take_slot(zelamiku_thread own) {
    uint32_t slot = ZELAMIKU_NO_NUMBER;
    OK(zelamiku_thread_take(own, HEAD, SLOTS, &slot));
    return slot;
}

/* Slots that were taken and given are free and taken as before, and come in the same order. */
static void pools(void) {
    open_anew();
    zelamiku_thread own = begin_thread();
    uint32_t slot = 0;
    OK(zelamiku_thread_enter(own, POOL));
    MUST(take_slot(own) == 0 && take_slot(own) == 1 && take_slot(own) == 2);
    OK(zelamiku_thread_exit(own, POOL));
    for (int i = 0; i < 3; i++) {
        OK(zelamiku_thread_enter(own, POOL));
        for (uint32_t expected = 3; expected < SLOTS; expected++) {
            MUST(take_slot(own) == expected);
            OK(zelamiku_thread_store(own, IN_SLOT + expected, 7));
        }
        MUST(zelamiku_thread_take(own, HEAD, SLOTS, &slot) == ZELAMIKU_POOL_EMPTY && slot == ZELAMIKU_NO_NUMBER);
        OK(zelamiku_thread_give(own, HEAD, SLOTS, 1));
        OK(zelamiku_thread_give(own, HEAD, SLOTS, 5));
        MUST(zelamiku_thread_give(own, HEAD, SLOTS, 5) == ZELAMIKU_NOT_TAKEN && zelamiku_thread_give(own, HEAD, SLOTS, SLOTS) == ZELAMIKU_NOT_TAKEN);
        MUST(take_slot(own) == 5);
        OK(zelamiku_thread_revert(own));
        MUST(load(own, IN_SLOT + 3) == 0 && zelamiku_thread_give(own, HEAD, SLOTS, 3) == ZELAMIKU_NOT_TAKEN);
        MUST(take_slot(own) == 3);
        OK(zelamiku_thread_revert(own));
        OK(zelamiku_thread_exit(own, POOL));
    }
    OK(zelamiku_thread_enter(own, POOL));
    OK(zelamiku_thread_give(own, HEAD, SLOTS, 0));
    OK(zelamiku_thread_exit(own, POOL));
    OK(zelamiku_thread_enter(own, POOL));
    MUST(take_slot(own) == 0 && take_slot(own) == 3);
    /* What the library refuses is refused by the same answer. */
    MUST(zelamiku_thread_take(own, FIELDS, SLOTS, &slot) == ZELAMIKU_UNKNOWN_FIELD);
    MUST(zelamiku_thread_take(own, HEAD, UINT32_MAX, &slot) == ZELAMIKU_UNKNOWN_FIELD);
    MUST(zelamiku_thread_give(own, HEAD, UINT32_MAX, 1) == ZELAMIKU_UNKNOWN_FIELD);
    MUST(zelamiku_thread_take(own, 0, 4, &slot) == ZELAMIKU_NOT_HELD);
    OK(zelamiku_thread_store(own, IN_SLOT, 1000));
    MUST(zelamiku_thread_take(own, IN_SLOT, SLOTS - 1, &slot) == ZELAMIKU_DAMAGED);
    OK(zelamiku_thread_revert(own));
    OK(zelamiku_thread_exit(own, POOL));
    close_all();
}

/* ---- room ---- */

/* The library itself has no room for a store more: what is counted in src/revert.c is what it counts. */
static bool is_full(zelamiku_thread own, uint32_t field) {
    return zelamiku_store(&seat_of(own)->session, field, 1) == ZELAMIKU_SECTION_FULL;
}

/* The persistent field of the object that comes after so many others. */
static uint32_t persistent(uint32_t object, uint32_t number) {
    return object + 4 * (number / 3 * 4 + number % 3);
}

/* How many stores there is room for: each to another field, or all to one. */
static unsigned store_all(zelamiku_thread own, uint32_t object, bool is_one) {
    zelamiku_status status;
    unsigned stores = 0;
    while ((status = zelamiku_thread_store(own, persistent(object, is_one ? 0 : stores), 5000)) == ZELAMIKU_OK) stores++;
    MUST(status == ZELAMIKU_SECTION_FULL && says("store field") && says("more than 1,000 records, with those that take it back"));
    return stores;
}

/* As many stores as there is room for, then a revert, after which no record is left; so by one monitor and by two. */
static void full_sections(void) {
    static const unsigned MOST[2][2] = {{499, 997}, {498, 995}};
    for (unsigned i = 0; i < 8; i++) {
        bool is_one = i & 1, is_two = i & 2, is_stored_again = i & 4;
        open_anew();
        zelamiku_thread own = begin_thread();
        OK(zelamiku_thread_enter(own, 0));
        if (is_two) OK(zelamiku_thread_enter(own, 1));
        MUST(store_all(own, 0, is_one) == MOST[is_two][is_one]);
        /* A transient field takes no room, nor does another lock of the same monitor. */
        for (uint32_t field = 12; field < PLAIN; field += 16) OK(zelamiku_thread_store(own, field, 6000));
        for (int lock = 0; lock < 3; lock++) OK(zelamiku_thread_enter(own, 0));
        MUST(zelamiku_thread_enter(own, 2) == ZELAMIKU_SECTION_FULL && says("enter object 2: the section would have more than 1,000 records, with"));
        MUST(zelamiku_thread_enter(own, OBJECTS) == ZELAMIKU_UNKNOWN_OBJECT);
        if (is_stored_again) MUST(zelamiku_thread_store(own, persistent(0, 0), 7000) == ZELAMIKU_SECTION_FULL);
        OK(zelamiku_thread_revert(own));
        for (uint32_t field = 0; field < PLAIN; field += 4) MUST(load(own, field) == field);
        MUST(is_full(own, 0) && zelamiku_thread_store(own, 0, 1) == ZELAMIKU_SECTION_FULL);
        OK(zelamiku_thread_revert(own));
        for (int lock = 0; lock < 4; lock++) OK(zelamiku_thread_exit(own, 0));
        if (is_two) OK(zelamiku_thread_exit(own, 1));
        MUST(progress(own).sections == 1);
        OK(zelamiku_thread_await(own));
        OK(zelamiku_heap_stop(all, ZELAMIKU_ABANDONED));
        (void)reopen();
        for (uint32_t field = 0; field < PLAIN; field += 4) MUST(seen(field) == field);
        close_all();
    }
}

/* Room for one monitor more, for a wait, and for a pool's calls, is what the revert leaves. */
static void room_for_monitors(void) {
    uint32_t slot = 0;
    open_anew();
    zelamiku_thread own = begin_thread();
    OK(zelamiku_thread_enter(own, 0));
    for (unsigned i = 0; i < 497; i++) OK(zelamiku_thread_store(own, persistent(0, i), 1));
    /* 996 of 1,000, with the pool's monitor 998. Its calls would need four more, and another monitor two. */
    OK(zelamiku_thread_enter(own, POOL));
    MUST(zelamiku_thread_take(own, HEAD, SLOTS, &slot) == ZELAMIKU_SECTION_FULL && slot == ZELAMIKU_NO_NUMBER);
    OK(zelamiku_thread_store(own, 0, 2));
    MUST(zelamiku_thread_enter(own, 1) == ZELAMIKU_SECTION_FULL);
    OK(zelamiku_thread_store(own, 0, 2));
    MUST(zelamiku_thread_take(own, HEAD, SLOTS, &slot) == ZELAMIKU_SECTION_FULL && slot == ZELAMIKU_NO_NUMBER);
    MUST(zelamiku_thread_give(own, HEAD, SLOTS, 3) == ZELAMIKU_NOT_TAKEN && zelamiku_thread_enter(own, 1) == ZELAMIKU_SECTION_FULL);
    MUST(zelamiku_thread_wait(own, POOL) == ZELAMIKU_SECTION_FULL && says("wait for object 4: the section would have more"));
    OK(zelamiku_thread_revert(own));
    MUST(is_full(own, 0));
    OK(zelamiku_thread_exit(own, POOL));
    OK(zelamiku_thread_exit(own, 0));
    /* Four more: taking needs four; giving the same slot back none for the old values. */
    OK(zelamiku_thread_enter(own, 0));
    OK(zelamiku_thread_enter(own, POOL));
    for (unsigned i = 0; i < 495; i++) OK(zelamiku_thread_store(own, persistent(0, i), 1));
    OK(zelamiku_thread_store(own, 0, 2));
    OK(zelamiku_thread_store(own, 0, 3));
    MUST(take_slot(own) == 0);
    MUST(zelamiku_thread_give(own, HEAD, SLOTS, 0) == ZELAMIKU_SECTION_FULL);
    OK(zelamiku_thread_revert(own));
    MUST(is_full(own, 0) && zelamiku_thread_give(own, HEAD, SLOTS, 0) == ZELAMIKU_NOT_TAKEN);
    OK(zelamiku_thread_exit(own, POOL));
    OK(zelamiku_thread_exit(own, 0));
    close_all();
}

/* Monitors that are taken and freed inside of a section make records too, also of one that can't be reverted. */
static void room_between(void) {
    open_anew();
    zelamiku_thread own = begin_thread();
    OK(zelamiku_thread_enter(own, 0));
    for (unsigned i = 0; i < 300; i++) {
        OK(zelamiku_thread_enter(own, 1));
        OK(zelamiku_thread_exit(own, 1));
    }
    MUST(store_all(own, 0, false) == 199);
    OK(zelamiku_thread_revert(own));
    MUST(is_full(own, 0));
    OK(zelamiku_thread_exit(own, 0));
    OK(zelamiku_thread_enter(own, 0));
    OK(zelamiku_thread_enter(own, 1));
    OK(zelamiku_thread_store(own, 1, 7));
    for (unsigned i = 0; i < 400; i++) OK(zelamiku_thread_store(own, persistent(0, i), 1));
    OK(zelamiku_thread_exit(own, 1));
    /* 404 records, a monitor, and 401 values: there is room for 194 more to the same fields. */
    MUST(store_all(own, 0, false) == 194 && zelamiku_thread_revert(own) == ZELAMIKU_NOT_REVERTED);
    MUST(zelamiku_thread_store(own, 1, 1) == ZELAMIKU_NOT_HELD && zelamiku_thread_store(own, 2, 1) == ZELAMIKU_NOT_HELD);
    OK(zelamiku_thread_exit(own, 0));
    close_all();
}

/* A lane's records are counted, for when a round is due: each store to a persistent field, and each value that is put back. */
static void records(void) {
    open_anew();
    zelamiku_thread own = begin_thread();
    MUST(zelamiku_thread_enter(own, 0) == ZELAMIKU_OK);
    uint32_t before = seat_of(own)->records;
    for (uint32_t i = 0; i < 3; i++) MUST(zelamiku_thread_store(own, persistent(0, i / 2), i + 1000) == ZELAMIKU_OK);
    MUST(seat_of(own)->records == before + 3 && zelamiku_thread_revert(own) == ZELAMIKU_OK && seat_of(own)->records == before + 5);
    MUST(zelamiku_thread_exit(own, 0) == ZELAMIKU_OK && zelamiku_thread_end(own) == ZELAMIKU_OK);
    close_all();
}

/* ---- refusals ---- */

static void refusals(void) {
    zelamiku_thread nobody = {0};
    MUST(zelamiku_thread_revert(nobody) == ZELAMIKU_NOTHING && says("revert"));
    open_anew();
    zelamiku_thread own = begin_thread(), ended = begin_thread();
    OK(zelamiku_thread_end(ended));
    MUST(zelamiku_thread_revert(ended) == ZELAMIKU_NOTHING);
    MUST(zelamiku_thread_revert(own) == ZELAMIKU_NOT_HELD && says("revert.heap: revert: no section is open; enter an object before"));
    MUST(zelamiku_thread_store(own, FIELDS, 1) == ZELAMIKU_UNKNOWN_FIELD && zelamiku_thread_store(own, 0, 1) == ZELAMIKU_NOT_HELD);
    OK(zelamiku_thread_enter(own, 0));
    MUST(zelamiku_thread_store(own, FIELDS, 1) == ZELAMIKU_UNKNOWN_FIELD && zelamiku_thread_store(own, 1, 1) == ZELAMIKU_NOT_HELD);
    OK(zelamiku_thread_revert(own));
    OK(zelamiku_thread_exit(own, 0));
    MUST(zelamiku_thread_revert(own) == ZELAMIKU_NOT_HELD);
    close_all();
    MUST(zelamiku_thread_revert(own) == ZELAMIKU_CLOSED);
    /* A heap that keeps nothing. */
    (void)reopen_by(0);
    own = begin_thread();
    MUST(zelamiku_thread_revert(own) == ZELAMIKU_NOT_HELD);
    OK(zelamiku_thread_enter(own, 0));
    MUST(zelamiku_thread_store(own, 1, 7) == ZELAMIKU_NOT_HELD);
    OK(zelamiku_thread_revert(own)); /* nothing is stored yet */
    OK(zelamiku_thread_store(own, 12, 77));
    MUST(is_transient(12) && zelamiku_thread_revert(own) == ZELAMIKU_NOT_REVERTED);
    OK(zelamiku_thread_store(own, 0, 77));
    MUST(zelamiku_thread_revert(own) == ZELAMIKU_NOT_REVERTED);
    MUST(says("revert.heap: revert: the heap's plan doesn't keep what a section changes; open it with reverts"));
    OK(zelamiku_thread_exit(own, 0));
    MUST(seen(0) == 77);
    close_all();
    MUST(zelamiku_thread_revert(own) == ZELAMIKU_CLOSED);
}

/* A heap of another device keeps the values too; and memory may be refused to one of the lanes. */
static void other_devices(void) {
    zelamiku_plan plan = {.size = sizeof(zelamiku_plan), .fields = fields, .count = FIELDS, .objects = OBJECTS, .lanes = LANES, .reverts = 1, .fingerprint = 5};
    memory held = new_memory(1 << 24);
    zelamiku_device device = device_of(&held);
    for (unsigned lane = 1; lane <= LANES; lane++) {
        allocations_left = lane;
        MUST(open_on(&all, "a device", &device, &plan, NULL) == ZELAMIKU_NO_MEMORY && all.number == 0);
    }
    OK(open_on(&all, "a device", &device, &plan, NULL));
    zelamiku_thread own = begin_thread();
    OK(zelamiku_thread_enter(own, 1));
    OK(zelamiku_thread_store(own, 1, 7));
    OK(zelamiku_thread_store(own, 13, 7));
    OK(zelamiku_thread_store(own, PLAIN - 3, 7));
    OK(zelamiku_thread_revert(own));
    MUST(load(own, 1) == 1 && load(own, 13) == 13 && load(own, PLAIN - 3) == PLAIN - 3);
    OK(zelamiku_thread_exit(own, 1));
    close_all();
    free_memory(&held);
}

/* Memory is refused to one of the lanes: no heap is open then, and nothing is left of it. */
static void scarce_memory(void) {
    zelamiku_plan plan = {.size = sizeof(zelamiku_plan), .fields = fields, .count = FIELDS, .objects = OBJECTS, .lanes = LANES, .reverts = 1, .fingerprint = 5};
    MUST(unlink("revert.heap") == 0 || errno == ENOENT);
    for (unsigned lane = 1; lane <= LANES; lane++) {
        allocations_left = lane;
        MUST(zelamiku_heap_open(&all, "revert.heap", &plan, NULL) == ZELAMIKU_NO_MEMORY && all.number == 0);
        MUST(says("revert.heap: open: there was no memory"));
    }
    /* And there is some. */
    OK(zelamiku_heap_open(&all, "revert.heap", &plan, NULL));
    zelamiku_thread own = begin_thread();
    OK(zelamiku_thread_enter(own, 0));
    OK(zelamiku_thread_store(own, 0, 1));
    OK(zelamiku_thread_revert(own));
    MUST(load(own, 0) == 0);
    OK(zelamiku_thread_exit(own, 0));
    close_all();
}

/* ---- the heap's end ---- */

static void stop_it(void) {
    OK(zelamiku_heap_stop(all, ZELAMIKU_CLOSED));
}

static void abandon_it(void) {
    OK(zelamiku_heap_stop(all, ZELAMIKU_ABANDONED));
}

/* A sync fails, and the helper has told it. */
static void lose_it(void) {
    zelamiku_thread other = begin_thread();
    __atomic_store_n(&syncs_fail, 1, __ATOMIC_SEQ_CST);
    OK(zelamiku_thread_enter(other, 3));
    OK(zelamiku_thread_store(other, 3, 1));
    stores_left = 0;
    OK(zelamiku_thread_exit(other, 3));
    MUST(zelamiku_thread_await(other) == ZELAMIKU_LOST);
    __atomic_store_n(&syncs_fail, 0, __ATOMIC_SEQ_CST);
}

/* The heap ends when a revert has put back half of the values, before it begins, and after it. Nothing of the section is there after that, and
 * all of the one before. */
static void ends(void) {
    static const struct {
        void (*end)(void);
        zelamiku_status status;
    } ENDS[] = {{stop_it, ZELAMIKU_CLOSED}, {abandon_it, ZELAMIKU_ABANDONED}, {lose_it, ZELAMIKU_LOST}};
    for (unsigned i = 0; i < 9; i++) {
        open_anew();
        zelamiku_thread own = begin_thread();
        OK(zelamiku_thread_enter(own, 0));
        for (uint32_t k = 0; k < 10; k++) OK(zelamiku_thread_store(own, persistent(0, k), 500 + k));
        OK(zelamiku_thread_exit(own, 0));
        OK(zelamiku_thread_await(own));
        OK(zelamiku_thread_enter(own, 0));
        for (uint32_t k = 0; k < 10; k++) OK(zelamiku_thread_store(own, persistent(0, k), 1));
        midst = ENDS[i % 3].end;
        if (i / 3 == 0) midst();
        stores_left = i / 3 == 1 ? 5 : 0;
        if (i / 3 == 2) OK(zelamiku_thread_revert(own));
        if (i / 3 == 2) midst();
        MUST(zelamiku_thread_revert(own) == ENDS[i % 3].status);
        stores_left = 0;
        MUST(zelamiku_thread_exit(own, 0) == ENDS[i % 3].status && zelamiku_thread_revert(own) == ENDS[i % 3].status);
        if (i % 3 == 2) MUST(zelamiku_heap_close(all) == ZELAMIKU_LOST);
        (void)reopen();
        for (uint32_t k = 0; k < 10; k++) MUST(seen(persistent(0, k)) == 500 + k);
        close_all();
    }
}

/* ---- random steps, and a model of them ---- */

/* What the section that is open has done, by the rules of zelamiku.h. */
static struct {
    uint64_t value[PLAIN], before[PLAIN];
    bool is_changed[PLAIN];
    unsigned locks[4], held, records, puts; /* puts: records that a revert would make */
    bool has_stored[4], is_past;
} model;

static uint64_t seed = 88172645463325252;

static uint32_t random_below(uint32_t most) {
    seed ^= seed << 13;
    seed ^= seed >> 7;
    seed ^= seed << 17;
    return (uint32_t)(seed >> 32) % most;
}

static void forget(void) {
    memset(model.is_changed, 0, sizeof model.is_changed);
    memset(model.has_stored, 0, sizeof model.has_stored);
    model.puts = 0;
}

static bool fits(unsigned more) {
    return model.records + model.held + model.puts + more <= 1000;
}

static void step_enter(zelamiku_thread own, uint32_t object) {
    bool is_new = model.locks[object] == 0, is_first = model.held == 0;
    zelamiku_status expected = is_new && !is_first && !fits(2) ? ZELAMIKU_SECTION_FULL : ZELAMIKU_OK;
    MUST(zelamiku_thread_enter(own, object) == expected);
    if (expected != ZELAMIKU_OK) return;
    if (is_first) {
        forget();
        model.records = 0;
        model.is_past = false;
    }
    model.locks[object]++;
    model.held += is_new;
    model.records += is_new;
}

static void step_exit(zelamiku_thread own, uint32_t object) {
    MUST(zelamiku_thread_exit(own, object) == (model.locks[object] > 0 ? ZELAMIKU_OK : ZELAMIKU_NOT_HELD));
    if (model.locks[object] == 0 || --model.locks[object] > 0) return;
    model.held--;
    model.records++;
    if (model.has_stored[object]) model.is_past = true;
}

static void step_store(zelamiku_thread own, uint32_t field, uint64_t value) {
    bool makes_record = !is_transient(field), is_new = !model.is_changed[field];
    zelamiku_status expected = model.locks[field % 4] == 0                        ? ZELAMIKU_NOT_HELD
                               : makes_record && !fits(is_new ? 2 : 1) ? ZELAMIKU_SECTION_FULL
                                                                                  : ZELAMIKU_OK;
    MUST(zelamiku_thread_store(own, field, value) == expected);
    if (expected != ZELAMIKU_OK) return;
    if (is_new) {
        model.before[field] = model.value[field];
        model.is_changed[field] = model.has_stored[field % 4] = true;
        model.puts += makes_record;
    }
    model.value[field] = value;
    model.records += makes_record;
}

static void step_revert(zelamiku_thread own) {
    MUST(zelamiku_thread_revert(own) == (model.held == 0 ? ZELAMIKU_NOT_HELD : model.is_past ? ZELAMIKU_NOT_REVERTED : ZELAMIKU_OK));
    if (model.held == 0 || model.is_past) return;
    for (uint32_t field = 0; field < PLAIN; field++)
        if (model.is_changed[field]) model.value[field] = model.before[field];
    model.records += model.puts;
    forget();
}

static void step_load(zelamiku_thread own, uint32_t field) {
    uint64_t value = 0;
    MUST(zelamiku_thread_load(own, field, &value) == (model.locks[field % 4] == 0 ? ZELAMIKU_NOT_HELD : ZELAMIKU_OK));
    if (model.locks[field % 4] > 0) MUST(value == model.value[field]);
}

static void exit_all(zelamiku_thread own) {
    for (uint32_t object = 0; object < 4; object++)
        while (model.locks[object] > 0) step_exit(own, object);
}

/* All values, by another thread; or after a crash, by which transient fields begin anew. */
static void compare_all(zelamiku_thread *own, bool has_crashed) {
    exit_all(*own);
    OK(zelamiku_thread_await(*own));
    if (has_crashed) OK(zelamiku_heap_stop(all, ZELAMIKU_ABANDONED));
    if (has_crashed) (void)reopen();
    if (has_crashed) *own = begin_thread();
    for (uint32_t field = 0; has_crashed && field < PLAIN; field++)
        if (is_transient(field)) model.value[field] = field;
    zelamiku_thread other = begin_thread();
    for (uint32_t object = 0; object < 4; object++) {
        OK(zelamiku_thread_enter(other, object));
        for (uint32_t field = object; field < PLAIN; field += 4) MUST(load(other, field) == model.value[field]);
        OK(zelamiku_thread_exit(other, object));
    }
    OK(zelamiku_thread_end(other));
}

static void step(zelamiku_thread *own, uint32_t kind) {
    uint32_t field = random_below(PLAIN), few = random_below(24);
    if (kind < 20) return step_enter(*own, random_below(4));
    if (kind < 32) return step_exit(*own, random_below(4));
    if (kind < 60) return step_store(*own, few, random_below(1000));
    if (kind < 75) return step_load(*own, few);
    if (kind < 84) return step_revert(*own);
    if (kind < 97)
        for (uint32_t i = 0; i < 40; i++) step_store(*own, (field + 4 * i) % PLAIN, random_below(1000));
    else if (kind < 99)
        exit_all(*own);
    else
        compare_all(own, few == 0);
}

static void random_steps(unsigned steps) {
    open_anew();
    zelamiku_thread own = begin_thread();
    for (uint32_t field = 0; field < PLAIN; field++) model.value[field] = field;
    for (unsigned i = 0; i < steps; i++) step(&own, random_below(100));
    compare_all(&own, true);
    close_all();
}

/* ---- transfers, by threads and in a process that is killed ---- */

enum { ACCOUNTS = 12, START = 1000, MIDDLE = 1 << 30 };

/* Account A is the persistent field A / 4 of object A % 4. */
static uint32_t account(uint32_t number) {
    return persistent(number % 4, number / 4);
}

static void enter_both(zelamiku_thread own, uint32_t one, uint32_t other) {
    OK(zelamiku_thread_enter(own, one < other ? one : other));
    OK(zelamiku_thread_enter(own, one < other ? other : one));
}

static void exit_both(zelamiku_thread own, uint32_t one, uint32_t other) {
    OK(zelamiku_thread_exit(own, one));
    OK(zelamiku_thread_exit(own, other));
}

/* A transfer that may not be done stores what no account may ever have, and finds out then. */
static void transfer(zelamiku_thread own, uint32_t from, uint32_t to, uint64_t amount, bool is_done) {
    enter_both(own, from % 4, to % 4);
    uint64_t left = load(own, account(from)), more = load(own, account(to));
    MUST(left < MIDDLE && more < MIDDLE);
    if (is_done && left >= amount) {
        OK(zelamiku_thread_store(own, account(from), left - amount));
        OK(zelamiku_thread_store(own, account(to), load(own, account(to)) + amount));
    } else {
        OK(zelamiku_thread_store(own, account(from), MIDDLE + amount));
        OK(zelamiku_thread_store(own, account(to), MIDDLE));
        OK(zelamiku_thread_revert(own));
        MUST(load(own, account(from)) == left && load(own, account(to)) == more);
    }
    exit_both(own, from % 4, to % 4);
}

static void transfer_by_chance(zelamiku_thread own, uint64_t *chance) {
    *chance = *chance * 6364136223846793005 + 1442695040888963407;
    uint32_t draw = (uint32_t)(*chance >> 33);
    transfer(own, draw % ACCOUNTS, draw / 16 % ACCOUNTS, draw / 256 % 100, draw >> 16 & 1);
}

/* All that there is, which is always the same. */
static void check_sum(void) {
    zelamiku_thread own = begin_thread();
    uint64_t sum = 0;
    for (uint32_t object = 0; object < 4; object++) OK(zelamiku_thread_enter(own, object));
    for (uint32_t i = 0; i < ACCOUNTS; i++) {
        MUST(load(own, account(i)) < MIDDLE);
        sum += load(own, account(i));
    }
    for (uint32_t object = 0; object < 4; object++) OK(zelamiku_thread_exit(own, object));
    MUST(sum == (uint64_t)ACCOUNTS * START);
    OK(zelamiku_thread_end(own));
}

static void open_bank(void) {
    open_anew();
    zelamiku_thread own = begin_thread();
    for (uint32_t object = 0; object < 4; object++) OK(zelamiku_thread_enter(own, object));
    for (uint32_t i = 0; i < ACCOUNTS; i++) OK(zelamiku_thread_store(own, account(i), START));
    for (uint32_t object = 0; object < 4; object++) OK(zelamiku_thread_exit(own, object));
    OK(zelamiku_thread_await(own));
    OK(zelamiku_thread_end(own));
}

static void *transfer_often(void *data) {
    zelamiku_thread own = begin_thread();
    uint64_t chance = (uint64_t)(uintptr_t)data + 1;
    for (unsigned i = 0; i < 2000; i++) {
        transfer_by_chance(own, &chance);
        if (i % 64 == 0) OK(zelamiku_thread_await(own));
    }
    OK(zelamiku_thread_end(own));
    return NULL;
}

static void threads_at_once(void) {
    pthread_t threads[LANES];
    open_bank();
    for (uintptr_t i = 0; i < LANES; i++) MUST(pthread_create(&threads[i], NULL, transfer_often, (void *)i) == 0);
    for (unsigned i = 0; i < LANES; i++) MUST(pthread_join(threads[i], NULL) == 0);
    check_sum();
    close_all();
    (void)reopen();
    check_sum();
    close_all();
}

/* Until the heap's end: each call then answers its status. */
static void *revert_until_the_end(void *data) {
    zelamiku_thread own;
    zelamiku_status status = zelamiku_thread_begin(&own, all);
    uint32_t object = (uint32_t)(uintptr_t)data;
    while (status == ZELAMIKU_OK) {
        status = zelamiku_thread_enter(own, object);
        for (uint32_t i = 0; status == ZELAMIKU_OK && i < 20; i++) status = zelamiku_thread_store(own, persistent(object, i), MIDDLE);
        if (status == ZELAMIKU_OK) status = zelamiku_thread_revert(own);
        if (status == ZELAMIKU_OK) status = zelamiku_thread_exit(own, object);
    }
    MUST(status == ZELAMIKU_CLOSED || status == ZELAMIKU_ABANDONED);
    return NULL;
}

static void stops_at_any_moment(unsigned times) {
    for (unsigned i = 0; i < times; i++) {
        pthread_t threads[LANES];
        open_bank();
        for (uintptr_t k = 0; k < LANES; k++) MUST(pthread_create(&threads[k], NULL, revert_until_the_end, (void *)k) == 0);
        usleep(i * 97 % 3000);
        i % 2 == 0 ? stop_it() : abandon_it();
        for (unsigned k = 0; k < LANES; k++) MUST(pthread_join(threads[k], NULL) == 0);
        (void)reopen();
        check_sum();
        close_all();
    }
}

/* The child transfers until it is killed, and counts its transfers where the parent sees them. */
static void transfer_for_ever(_Atomic uint64_t *count) {
    (void)reopen();
    zelamiku_thread own = begin_thread();
    uint64_t chance = (uint64_t)getpid();
    for (;; ++*count) {
        transfer_by_chance(own, &chance);
        if (*count % 16 == 0) OK(zelamiku_thread_await(own));
    }
}

/* Whichever moment a kill comes at, no value of a transfer that was taken back is there, and the sum is right. */
static void kills(unsigned times) {
    _Atomic uint64_t *count = mmap(NULL, sizeof *count, PROT_READ | PROT_WRITE, MAP_SHARED | MAP_ANONYMOUS, -1, 0);
    MUST(count != MAP_FAILED);
    uint64_t all_transfers = 0, dropped = 0;
    open_bank();
    close_all();
    for (unsigned i = 0; i < times; i++) {
        *count = 0;
        pid_t child = fork();
        MUST(child >= 0);
        if (child == 0) transfer_for_ever(count);
        int status = 0;
        for (unsigned waited = 0; *count < 1 + i * 7 && waited < 60000; waited++) usleep(1000);
        usleep(i * 977 % 5000);
        MUST(kill(child, SIGKILL) == 0 && waitpid(child, &status, 0) == child && WIFSIGNALED(status));
        all_transfers += *count;
        dropped += reopen().dropped;
        check_sum();
        close_all();
    }
    printf("revert: %u kills in %llu transfers, of which half are taken back: %llu sections were dropped, and each sum was right\n", times,
           (unsigned long long)all_transfers, (unsigned long long)dropped);
    MUST(times == 0 || all_transfers > 0);
    (void)munmap((void *)count, sizeof *count);
}

int main(int argc, char **argv) {
    MUST(argc >= 2 && chdir(argv[1]) == 0);
    declare();
    if (argc > 2 && strcmp(argv[2], "threads") == 0) {
        threads_at_once();
        stops_at_any_moment(10);
        puts("revert: threads, and stops at any moment");
        return 0;
    }
    unsigned steps = argc > 2 ? (unsigned)strtoul(argv[2], NULL, 10) : 20000, times = argc > 3 ? (unsigned)strtoul(argv[3], NULL, 10) : 20;
    values();
    sections_apart();
    nested();
    freed();
    one_by_one();
    far_guards();
    waits();
    pools();
    full_sections();
    room_for_monitors();
    room_between();
    records();
    refusals();
    other_devices();
    scarce_memory();
    ends();
    random_steps(steps);
    threads_at_once();
    stops_at_any_moment(40);
    kills(times);
    printf("revert: values, monitors, waits, pools, room, refusals, ends, %u random steps, threads, stops\n", steps);
    return 0;
}
