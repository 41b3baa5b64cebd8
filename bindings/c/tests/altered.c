/* Files of heaps that something else has altered: zelamiku_heap_open opens them, or refuses them and leaves each byte as it is. It makes a heap
 * in place of none, but for one of which nothing is left but what a making that was cut off leaves. One that opens may be used, closed, and
 * opened again.
 *
 *     altered FOLDER [SEED]      each byte of header and control is changed, files are cut short, and changed by chance (SEED: 1). Prints the
 *                                seed before, and what was tried after; answers 0 where all is as it must be
 *
 * With -DFUZZED it is a program for libFuzzer, in the folder ZELAMIKU_FUZZ_FOLDER. tools/fuzz builds and runs that. */
#define _GNU_SOURCE
#include <errno.h>
#include <fcntl.h>
#include <stdint.h>
#include <string.h>
#include <sys/stat.h>
#include "must.h"

/* No power fails here. */
static int no_sync(int file) {
    (void)file;
    return 0;
}

#define fdatasync no_sync
#define fsync no_sync
#define posix_fadvise(file, at, size, how) 0
#include "../zelamiku_threads.c"

enum { FIELDS_THERE = 5, OBJECTS_THERE = 3, MOST_BYTES = 1 << 18, BASES = 4, TRIES_BY_CHANCE = 10000, MOST_INPUT = 40, SHUT_GATES = 8 };
/* docs/FORMAT.md: where the two slots of the control begin, and the rows of the fields. */
enum { SLOTS_AT = 64, SLOT_BYTES = 1048, ROWS_AT = SLOTS_AT + 2 * SLOT_BYTES };
static const zelamiku_field FIELDS[FIELDS_THERE] = {{0, 0, 10, 0}, {1, 1, 20, 0}, {2, 2, 30, 0}, {2, 2, 0, 1}, {1, 0, 40, 0}};
static const zelamiku_plan PLAN = {.size = sizeof PLAN, .fields = FIELDS, .count = FIELDS_THERE, .objects = OBJECTS_THERE, .lanes = 2,
                                   .capacity = 2000, .ring = 4096, .upgrades = 1};

typedef struct {
    size_t size;
    uint8_t bytes[MOST_BYTES];
} image;

static image bases[BASES];
static unsigned openings, refusals, makings;
/* What the proved library has found, which a fuzzer doesn't see by itself: statuses, differences, and how much each lane has kept. */
__attribute__((section("__libfuzzer_extra_counters"))) static uint8_t found[64 + 64 + 64];

/* ---- the files ---- */

static void read_image(image *into) {
    int file = open("heap", O_RDONLY | O_CLOEXEC);
    MUST(file >= 0);
    ssize_t size = read(file, into->bytes, sizeof into->bytes);
    MUST(size >= 0 && size < MOST_BYTES && close(file) == 0);
    into->size = (size_t)size;
}

static void write_image(const image *from) {
    int file = open("heap", O_RDWR | O_CREAT | O_CLOEXEC, 0600); /* not cut to nothing: some systems write such a file out at once */
    MUST(file >= 0 && write(file, from->bytes, from->size) == (ssize_t)from->size && ftruncate(file, (off_t)from->size) == 0 && close(file) == 0);
}

static void use(zelamiku_heap heap, unsigned how) {
    zelamiku_thread own, other;
    MUST(zelamiku_thread_begin(&own, heap) == ZELAMIKU_OK && zelamiku_thread_begin(&other, heap) == ZELAMIKU_OK);
    for (uint64_t i = 0; i < 50; i++) {
        uint32_t object = (uint32_t)i % OBJECTS_THERE;
        zelamiku_thread by = how == 3 && i % 2 != 0 ? other : own;
        MUST(zelamiku_thread_enter(by, object) == ZELAMIKU_OK && zelamiku_thread_store(by, object, 1000 + i) == ZELAMIKU_OK);
        MUST(zelamiku_thread_exit(by, object) == ZELAMIKU_OK && (how == 3 || i % 10 != 0 || zelamiku_thread_await(own) == ZELAMIKU_OK));
    }
    if (how == 0) return;
    MUST(zelamiku_thread_enter(other, 2) == ZELAMIKU_OK && zelamiku_thread_store(other, 2, 7) == ZELAMIKU_OK);
    MUST(zelamiku_thread_enter(own, 1) == ZELAMIKU_OK && zelamiku_thread_store(own, 1, 8) == ZELAMIKU_OK);
    MUST(zelamiku_thread_exit(own, 1) == ZELAMIKU_OK);
}

/* Of heaps that were closed, that was let go in the midst of sections, that nobody used, and that was killed while two lanes depended on each
 * other: between two writes. */
static void make_bases(void) {
    for (unsigned i = 0; i < BASES; i++) {
        zelamiku_heap heap;
        MUST(unlink("heap") == 0 || errno == ENOENT);
        MUST(zelamiku_heap_open(&heap, "heap", &PLAN, NULL) == ZELAMIKU_OK);
        if (i != 2) use(heap, i);
        if (i == 3) read_image(&bases[i]);
        MUST((i % 2 == 1 ? zelamiku_heap_stop(heap, ZELAMIKU_ABANDONED) : zelamiku_heap_close(heap)) == ZELAMIKU_OK); /* two places are used for ever */
        if (i != 3) read_image(&bases[i]);
    }
}

/* ---- what has to hold ---- */

static bool is_zeros(const uint8_t *bytes, size_t size) {
    return size == 0 || (bytes[0] == 0 && memcmp(bytes, bytes + 1, size - 1) == 0);
}

/* Whether the control with which a heap is made stands in slot A, and slot B has zeros. */
static bool has_first_control(const uint8_t *begun) {
    static const uint8_t FIRST[24] = {[0] = 0xa5, [15] = 1, [19] = 2};
    return memcmp(begun + SLOTS_AT, FIRST, sizeof FIRST) == 0 && is_zeros(begun + 88, ROWS_AT - 88);
}

/* Whether nothing is left of a heap, by docs/FORMAT.md. Then the file has only zeros. Or it has the name, a gate that is shut, no slot that is
 * open and has a sequence but the first control, and only zeros after the rows and cells of as many fields as the header says. */
static bool is_free(const image *it) {
    if (is_zeros(it->bytes, it->size)) return true;
    if (it->size < ROWS_AT) return false;
    const uint8_t *begun = it->bytes;
    bool has_slot = (begun[64] == 0xa5 && !is_zeros(begun + 72, 8)) || (begun[1112] == 0xa5 && !is_zeros(begun + 1120, 8));
    has_slot = has_slot && !has_first_control(begun);
    size_t fields = (size_t)begun[16] << 24 | (size_t)begun[17] << 16 | (size_t)begun[18] << 8 | begun[19], end = ROWS_AT + 24 * fields;
    if (memcmp(begun, "MONIHEAP", 8) != 0 || begun[8] == 0xa5 || has_slot || fields > ZELAMIKU_MOST_FIELDS) return false;
    return it->size <= end || is_zeros(it->bytes + end, it->size - end);
}

/* The heap is whole: it can be used, closed, and opened again with what was stored. A number that is at its end may wear it. */
static void use_again(zelamiku_heap heap) {
    zelamiku_thread own;
    uint64_t value = 0;
    MUST(zelamiku_thread_begin(&own, heap) == ZELAMIKU_OK);
    zelamiku_status status = zelamiku_thread_enter(own, 0);
    if (status == ZELAMIKU_OK) {
        MUST(zelamiku_thread_store(own, 0, 4711) == ZELAMIKU_OK);
        status = zelamiku_thread_exit(own, 0);
        if (status == ZELAMIKU_OK) status = zelamiku_thread_await(own);
    }
    if (status == ZELAMIKU_OK) status = zelamiku_heap_close(heap);
    if (status != ZELAMIKU_OK) {
        MUST(status == ZELAMIKU_WORN);
        (void)!zelamiku_heap_stop(heap, ZELAMIKU_CLOSED);
        (void)!zelamiku_thread_end(own);
        return;
    }
    status = zelamiku_heap_open(&heap, "heap", &PLAN, NULL);
    if (status == ZELAMIKU_WORN) return;
    MUST(status == ZELAMIKU_OK && zelamiku_thread_begin(&own, heap) == ZELAMIKU_OK && zelamiku_thread_enter(own, 0) == ZELAMIKU_OK);
    MUST(zelamiku_thread_load(own, 0, &value) == ZELAMIKU_OK && value == 4711);
    MUST(zelamiku_heap_stop(heap, ZELAMIKU_CLOSED) == ZELAMIKU_OK);
    (void)!zelamiku_thread_end(own); /* which was in a section: the heap's place is free after that */
}

static void note(zelamiku_status status, const zelamiku_report *report) {
    found[status % 64] = found[64 + (report->difference * 8 + report->field + report->damage * 13) % 64] = 1;
    for (uint32_t lane = 0; lane < 2; lane++)
        if (status == ZELAMIKU_OK) found[128 + lane * 32 + report->kept[lane] % 32] = 1;
}

/* Opens the heap of the altered file. */
static void try_one(const image *altered, bool is_used) {
    static image after;
    zelamiku_heap heap;
    zelamiku_report report = {.size = sizeof report};
    write_image(altered);
    zelamiku_status status = zelamiku_heap_open(&heap, "heap", &PLAN, &report);
    note(status, &report);
    MUST(report.is_made == is_free(altered));
    if (status == ZELAMIKU_OK) {
        openings++;
        makings += report.is_made;
        if (is_used) return use_again(heap);
        MUST(zelamiku_heap_stop(heap, ZELAMIKU_CLOSED) == ZELAMIKU_OK);
        return;
    }
    refusals++;
    MUST(status != ZELAMIKU_DEVICE && status != ZELAMIKU_LOST && zelamiku_heap_failure(NULL)[0] != 0);
    read_image(&after);
    MUST(after.size == altered->size && memcmp(after.bytes, altered->bytes, after.size) == 0);
    MUST(access("heap.heapctl-new", F_OK) != 0);
}

/* ---- an input: which file is altered, and then what is done to it, a change after the other ---- */

typedef struct {
    const uint8_t *at;
    size_t left;
} input;

static uint64_t number(input *from, size_t bytes) {
    uint64_t value = 0;
    for (; bytes > 0; bytes--) {
        value = value << 8 | (from->left > 0 ? *from->at : 0);
        if (from->left > 0) from->at++, from->left--;
    }
    return value;
}

/* A place: of the header, of the control, of the rows and cells, or of a lane's records. */
static size_t place(input *from, const image *it) {
    static const uint32_t BEGINS[] = {0, SLOTS_AT, SLOTS_AT + SLOT_BYTES, ROWS_AT, ROWS_AT + 24 * FIELDS_THERE};
    uint64_t which = number(from, 1) % 6, at = which == 5 ? number(from, 3) : BEGINS[which] + number(from, which == 0 ? 1 : 2) % 2200;
    return it->size == 0 ? 0 : (size_t)(at % it->size);
}

static void read_change(input *from, image *it) {
    uint64_t kind = number(from, 1) % 8;
    size_t at = place(from, it), count = 1 + number(from, 1) % 64;
    if (count > it->size - at) count = it->size - at;
    switch (kind) {
    case 0: it->bytes[at] ^= (uint8_t)(1 << number(from, 1) % 8); break;
    case 1: memset(it->bytes + at, (int)number(from, 1), count); break;
    case 2: case 3:
        for (size_t i = 0; i < count; i++) it->bytes[at + i] = (uint8_t)number(from, 1);
        break;
    case 4: memmove(it->bytes + at, it->bytes + number(from, 3) % (it->size - count + 1), count); break;
    case 5: it->size = number(from, 3) % (it->size + 1); break;
    case 6: memset(it->bytes + at, 0, it->size - at); break;
    default:
        count = number(from, 2) % 5000;
        if (it->size + count >= MOST_BYTES) break;
        memset(it->bytes + it->size, number(from, 1) % 2 == 0 ? 0 : 0x5a, count);
        it->size += count;
    }
}

int LLVMFuzzerTestOneInput(const uint8_t *bytes, size_t size);
int LLVMFuzzerTestOneInput(const uint8_t *bytes, size_t size) {
    static image altered;
    input from = {bytes, size};
    altered = bases[number(&from, 1) % BASES];
    while (from.left > 0) read_change(&from, &altered);
    try_one(&altered, true);
    return 0;
}

#ifdef FUZZED
int LLVMFuzzerInitialize(int *count, char ***words);
int LLVMFuzzerInitialize(int *count, char ***words) {
    (void)count, (void)words;
    const char *folder = getenv("ZELAMIKU_FUZZ_FOLDER"); /* of memory, so that it is quick */
    MUST(folder != NULL && chdir(folder) == 0);
    make_bases();
    return 0;
}
#else
/* Each byte of header and control in turn; the name, gates and sequences by several values, or these alone. */
static void each_byte(const image *base, bool all) {
    static image altered;
    static const uint8_t VALUES[] = {0, 1, 2, 0xa4, 0xa5, 0x5a, 0xff, 'M'};
    altered = *base;
    for (size_t at = 0; at < ROWS_AT; at++) {
        bool is_telling = at <= 8 || (at >= SLOTS_AT && (at - SLOTS_AT) % SLOT_BYTES <= 16);
        for (unsigned i = 0; i < (is_telling ? sizeof VALUES + 1 : all ? 1 : 0); i++) {
            altered.bytes[at] = i == 0 ? base->bytes[at] ^ 0x10 : VALUES[i - 1];
            if (altered.bytes[at] != base->bytes[at]) try_one(&altered, false);
        }
        altered.bytes[at] = base->bytes[at];
    }
}

/* What is left of a file that was cut short within header and control, its gate open or shut. */
static void each_beginning(const image *base) {
    static image altered;
    altered = *base;
    for (altered.size = 1; altered.size < ROWS_AT; altered.size++)
        for (unsigned i = 0; i < 2; i++) {
            altered.bytes[8] = i == 0 ? 0xa5 : 0;
            try_one(&altered, false);
        }
}

static void by_chance(uint64_t chance) {
    for (unsigned i = 0; i < TRIES_BY_CHANCE; i++) {
        uint8_t bytes[MOST_INPUT];
        for (size_t at = 0; at < sizeof bytes; at++) bytes[at] = (uint8_t)((chance = chance * 6364136223846793005u + 1442695040888963407u) >> 33);
        (void)LLVMFuzzerTestOneInput(bytes, 6 + bytes[MOST_INPUT - 1] % (MOST_INPUT - 6));
    }
}

int main(int argc, char **argv) {
    MUST((argc == 2 || argc == 3) && chdir(argv[1]) == 0 && mkdir("altered files", 0700) == 0 && chdir("altered files") == 0);
    uint64_t seed = argc == 3 ? strtoull(argv[2], NULL, 10) : 1;
    printf("altered: seed %llu\n", (unsigned long long)seed);
    fflush(stdout);
    make_bases();
    for (unsigned i = 0; i < 2; i++) each_byte(&bases[i], i == 0);
    each_beginning(&bases[0]);
    MUST(makings == 0);
    each_byte(&bases[2], false); /* with its gate shut it is what a making leaves that was cut off: nothing was acknowledged in it */
    MUST(makings == SHUT_GATES);
    unsigned first = openings + refusals;
    by_chance(seed);
    printf("altered: %u files with one byte changed, or cut short, of which %u were made anew, that nobody had used, and %u by chance: %u were opened, %u refused "
           "and left as they were, and %u made, of which nothing was left\n",
           first, SHUT_GATES, openings + refusals - first, openings - makings, refusals, makings);
    return 0;
}
#endif
