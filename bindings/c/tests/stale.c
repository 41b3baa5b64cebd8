/* An opening that reads a cache which a failed sync has left, and is cut off at each of its calls: what was acknowledged stays.
 *
 *     stale FOLDER     prints one line, and returns 0, where all is as it must be
 *
 * The device has a cache, which reads give. A sync that fails leaves any bytes on the device where it was written since the last sync, leaves the
 * cache as it is, and no later sync writes what that one had. A kill leaves the cache, and what no sync has had for the next one. A crash leaves
 * the device, with any bytes where it was written since the last sync; below a journal with each sector as it was, or as it was written since. A
 * byte that is written with the value that the device has stays in each. */
#define _GNU_SOURCE
#define ZELAMIKU_HALF 2 /* pages */
#include "../zelamiku_threads.c"
#include "memory.h"

static void say_seed(void);
#define SAY_MORE() say_seed()
#include "must.h"

enum { SECTOR = 512, IMAGE = 2160 + 24 * 3 + 16 * 2 * 2000, SIZE = (1 + 2 * ZELAMIKU_HALF) * 4096 + (IMAGE + 4095) / 4096 * 4096, SECTIONS = 3 };
enum fault { FAILED_SYNC, KILL, CRASH, FAULTS };
static const char *const NAMES[] = {"a sync fails", "a kill", "a crash"};

static uint8_t cache[SIZE], durable[SIZE];
static bool is_pending[SIZE];
static size_t pending_from = SIZE, pending_to; /* what is pending lies between these */
static enum fault first, second, fault; /* of the life, of the opening; the one that comes next */
static unsigned first_at, second_at, seed, dice;
static uint32_t with_journal; /* the heap */
static unsigned calls, fault_at; /* of syncs alone, where one is to fail; fault_at 0: none comes */
static bool is_over;             /* the fault has come: no call is made any more */

static void say_seed(void) {
    fprintf(stderr, "%s: life: %s at call %u, opening: %s at call %u, seed %u: ", with_journal ? "with a journal" : "plain", NAMES[first], first_at,
            NAMES[second], second_at, seed);
}

static unsigned roll(unsigned most) {
    dice = dice * 1664525 + 1013904223;
    return (dice >> 16) % most;
}

static void make_clean(void) {
    for (size_t i = pending_from; i < pending_to; i++) is_pending[i] = false;
    pending_from = SIZE;
    pending_to = 0;
}

/* Each sector that was written has come, or hasn't. */
static void keep_sectors(void) {
    bool has_come = false;
    MUST(pending_from == SIZE || pending_from % SECTOR == 0);
    for (size_t i = pending_from; i < pending_to; i++) {
        if (i % SECTOR == 0) has_come = roll(2) == 0;
        if (is_pending[i] && has_come) durable[i] = cache[i];
    }
    make_clean();
}

/* What the device has then, where what was written may or may not have come. */
static void spoil(void) {
    static const uint8_t OTHERS[] = {0, 0xa5, 0xff, 1};
    unsigned how = roll(4);
    if (with_journal && how > 1) return keep_sectors();
    for (size_t i = pending_from; i < pending_to; i++) {
        if (!is_pending[i] || durable[i] == cache[i]) continue;
        if (how == 1 || (how > 1 && roll(2) == 0)) durable[i] = cache[i];
        else if (how == 3 && roll(2) == 0) durable[i] = OTHERS[roll(4)];
    }
    make_clean();
}

static void crash(void) {
    spoil();
    memcpy(cache, durable, SIZE);
}

/* Whether this call is made. At the fault all calls end. */
static bool is_made(bool is_sync) {
    if (is_over) return false;
    if (is_sync || fault != FAILED_SYNC) calls++;
    if (calls != fault_at || (fault == FAILED_SYNC && !is_sync)) return true;
    is_over = true;
    if (fault == CRASH) crash();
    else if (fault == FAILED_SYNC) spoil();
    return false;
}

static zelamiku_status cached_read(void *of, uint64_t at, void *bytes, size_t size) {
    (void)of;
    memcpy(bytes, cache + at, size);
    return ZELAMIKU_OK;
}

static zelamiku_status cached_write(void *of, uint64_t at, const void *bytes, size_t size) {
    (void)of;
    if (is_over) return ZELAMIKU_LOST;
    memcpy(cache + at, bytes, size);
    memset(is_pending + at, 1, size);
    if (at < pending_from) pending_from = at;
    if (at + size > pending_to) pending_to = at + size;
    return is_made(false) ? ZELAMIKU_OK : ZELAMIKU_LOST;
}

static zelamiku_status cached_sync(void *of) {
    (void)of;
    errno = EIO;
    if (!is_made(true)) return ZELAMIKU_LOST;
    for (size_t i = pending_from; i < pending_to; i++)
        if (is_pending[i]) durable[i] = cache[i];
    make_clean();
    return ZELAMIKU_OK;
}

static zelamiku_status cached_size(void *of, uint64_t *size) {
    (void)of;
    *size = with_journal ? SIZE : IMAGE;
    return ZELAMIKU_OK;
}

static const zelamiku_device DEVICE = {sizeof(zelamiku_device), cached_read, cached_write, cached_sync, cached_size, NULL};
static const zelamiku_field FIELDS[] = {{0, 0, 0, 0}, {1, 1, 0, 0}, {0, 0, 0, 0}};
static zelamiku_heap all;
static uint64_t begun, acknowledged;
static unsigned openings;

/* `lanes` 1 leaves the last of the heap's two lanes to the helper, whose rounds take two syncs; with 2 they take four. */
static zelamiku_status open_heap(uint32_t lanes, enum fault which, unsigned at) {
    zelamiku_plan plan = {.size = sizeof(zelamiku_plan), .fields = FIELDS, .count = 3, .objects = 2, .lanes = lanes, .capacity = 2000, .linger = UINT32_MAX, .atomic_sectors = with_journal};
    calls = 0;
    fault = which;
    fault_at = at;
    is_over = false;
    return open_on(&all, "stale", &DEVICE, &plan, NULL);
}

/* Sections that count two fields under two monitors and one under the first, each awaited, until the fault. */
static bool count_on(unsigned sections) {
    zelamiku_thread own;
    zelamiku_status status = zelamiku_thread_begin(&own, all);
    for (unsigned n = 0; n < sections && status == ZELAMIKU_OK; n++) {
        begun++;
        status = zelamiku_thread_enter(own, 0);
        if (status == ZELAMIKU_OK) status = zelamiku_thread_enter(own, 1);
        for (uint32_t field = 0; field < 3 && status == ZELAMIKU_OK; field++)
            if (field < 2 || begun % 2 == 0) status = zelamiku_thread_store(own, field, begun);
        if (status == ZELAMIKU_OK) status = zelamiku_thread_exit(own, 1);
        if (status == ZELAMIKU_OK) status = zelamiku_thread_exit(own, 0);
        if (status == ZELAMIKU_OK) status = zelamiku_thread_await(own);
        if (status == ZELAMIKU_OK) acknowledged = begun;
    }
    bool is_whole = status == ZELAMIKU_OK && !is_over;
    is_over = true; /* the process ends here */
    (void)!zelamiku_heap_stop(all, ZELAMIKU_ABANDONED);
    return is_whole;
}

/* The heap has what was acknowledged, and no part of a section. */
static void check(void) {
    zelamiku_thread own;
    uint64_t value[3];
    OK(zelamiku_thread_begin(&own, all));
    OK(zelamiku_thread_enter(own, 0));
    OK(zelamiku_thread_enter(own, 1));
    for (uint32_t field = 0; field < 3; field++) OK(zelamiku_thread_load(own, field, &value[field]));
    OK(zelamiku_thread_exit(own, 1));
    OK(zelamiku_thread_exit(own, 0));
    OK(zelamiku_thread_end(own));
    MUST(value[0] == value[1] && value[0] >= acknowledged && value[0] <= begun);
    MUST(value[2] == value[0] / 2 * 2 || begun > value[0]);
    begun = value[0]; /* what wasn't acknowledged and isn't there was dropped */
}

static void empty(void) {
    memset(cache, 0, SIZE);
    memset(durable, 0, SIZE);
    make_clean();
    begun = acknowledged = 0;
}

/* A life of a heap that has counted before, until the first fault. False: it didn't come. */
static bool is_life_over(uint32_t lanes) {
    empty();
    OK(open_heap(1, CRASH, 0));
    MUST(count_on(3));
    OK(open_heap(lanes, first, 0));
    calls = 0;
    fault_at = first_at;
    return !count_on(SECTIONS);
}

/* A making whose last sync fails: the cache has a heap, the device none. Below a journal also each sync before it. */
static bool is_making_over(uint32_t lanes) {
    empty();
    OK(open_heap(lanes, FAILED_SYNC, 0));
    unsigned syncs = calls;
    is_over = true;
    (void)!zelamiku_heap_stop(all, ZELAMIKU_ABANDONED);
    if (first_at > (with_journal ? syncs : 1)) return false;
    empty();
    MUST(open_heap(lanes, FAILED_SYNC, syncs + 1 - first_at) != ZELAMIKU_OK);
    return true;
}

/* What ends by the first fault, an opening that ends by the second, and one that must go on. False: the first never came. */
static bool is_cut_off(bool (*is_ended)(uint32_t), uint32_t lanes, bool *is_opening_cut) {
    dice = seed * 7919 + first_at * 131 + second_at;
    if (!is_ended(lanes)) return false;
    *is_opening_cut = open_heap(lanes, second, second_at) != ZELAMIKU_OK;
    if (!*is_opening_cut) {
        is_over = true;
        (void)!zelamiku_heap_stop(all, ZELAMIKU_ABANDONED);
    }
    OK(open_heap(lanes, CRASH, 0));
    check();
    if (seed % 2 == 0) (void)count_on(1);
    else (void)!zelamiku_heap_stop(all, ZELAMIKU_ABANDONED);
    crash();
    OK(open_heap(lanes, CRASH, 0));
    check();
    OK(zelamiku_heap_close(all));
    return true;
}

/* Each opening is cut off at each of its calls. */
static bool cut_off_openings(bool (*is_ended)(uint32_t), uint32_t lanes) {
    bool is_opening_cut = true, is_ended_so = true;
    for (second_at = 1; is_ended_so && is_opening_cut; second_at++, openings++) is_ended_so = is_cut_off(is_ended, lanes, &is_opening_cut);
    return is_ended_so;
}

static unsigned cut_off_lives(void) {
    unsigned lives = 0;
    for (seed = 1; seed <= 2; seed++)
        for (second = 0; second < FAULTS; second++) {
            for (first = FAILED_SYNC; first <= KILL; first++)
                for (first_at = 1; cut_off_openings(is_life_over, seed % 2 + 1); first_at++) lives++;
            for (first_at = 1, first = FAILED_SYNC; cut_off_openings(is_making_over, 1); first_at++) lives++;
        }
    return lives;
}

int main(void) {
    unsigned plain = cut_off_lives();
    with_journal = 1;
    unsigned journaled = cut_off_lives();
    printf("stale: %u lives, %u with a journal, and %u openings after them were cut off\n", plain, journaled, openings);
    return 0;
}
