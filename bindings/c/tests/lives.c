/* Lives of a journal, each over what a crash of the one before has left: the proved library's calls, on a device in memory that keeps its sectors
 * whole. Openings are cut off, calls fail and are made again, a making takes an older journal's place, and a sync that has failed may leave in a
 * cache what the device lacks. Before each sync the images that a crash may leave are opened: all of them, or many. Then devices and hosts that
 * break a rule: each of them has to be seen.
 *
 *     lives FOLDER [MANY]     prints one line, and answers 0, where all is as it must be; MANY times as many devices (1) */
#include <setjmp.h>
#include <stdbool.h>
#include <string.h>
#include "must.h"
#include "zelamiku_core.h"

enum { PAGE = 4096, SECTOR = 512, MOST_HALF = 2, MOST_IMAGE = 2, MOST_SIZE = (1 + 2 * MOST_HALF + MOST_IMAGE) * PAGE, LEN = MOST_IMAGE * PAGE };
enum { FLIGHTS = 64, GROUPS = 3, ALL = 1 << 9, SOME = 48, LIVES = 12, DEVICES = 40 };

/* The rules that somebody breaks; what leaves out a sync takes it as done. */
typedef enum { SOUND, TORN, EARLY, NO_FIRST, NO_SECOND, NO_MAKING, NO_TURN, NO_WRITE, OTHER_BATCH, RULES } rule;
static const char *const NAMES[RULES] = {"none", "sectors tear", "told before the sync", "an opening's first sync is left out", "an opening's second sync is left out",
                                         "a making's syncs are left out", "a turn's sync is left out", "a write that has failed is taken as done",
                                         "another batch has the stamp of one that has failed"};
static rule broken;
static jmp_buf seen;

/* A write since the last sync. */
typedef struct {
    uint64_t at, size;
    uint8_t bytes[PAGE];
} flight;

typedef struct {
    uint32_t half, image; /* pages */
    size_t size;
    uint8_t now[MOST_SIZE], durable[MOST_SIZE]; /* what reads, and what the device has if no write since the last sync has reached it */
    flight flights[FLIGHTS];
    unsigned count;
} disk;

/* What may be found after a crash: one of these images; or bytes of any of them; or no journal. */
typedef struct {
    uint8_t images[GROUPS + 2][LEN];
    unsigned count;
    bool is_mixed, is_none;
} allowed;

static disk it;
static allowed may;
static uint8_t kept[MOST_SIZE]; /* one of the images that were looked at last, and what may be found in it */
static allowed kept_may;
static unsigned fails; /* one call in so many does; 0: none */
static uint64_t images, whole, lives, failed, cut, past;

/* ---- chance ---- */

static uint64_t state;

static uint64_t chance(uint64_t end) {
    state = state * 6364136223846793005u + 1442695040888963407u;
    return (state >> 33) % end;
}

/* ---- what may be found ---- */

static size_t length(void) { return it.image * (size_t)PAGE; }

static void only(const uint8_t *image) {
    memcpy(may.images[0], image, length());
    may.count = 1;
    may.is_mixed = may.is_none = false;
}

static void also(const uint8_t *image) {
    MUST(may.count < GROUPS + 2);
    memcpy(may.images[may.count++], image, length());
}

static bool has(const uint8_t *found) {
    for (unsigned i = 0; i < may.count; i++)
        if (memcmp(may.images[i], found, length()) == 0) return true;
    for (size_t at = 0; at < length() && may.is_mixed; at++) {
        bool is_there = false;
        for (unsigned i = 0; i < may.count; i++) is_there |= may.images[i][at] == found[at];
        if (!is_there) return false;
    }
    return may.is_mixed;
}

static void must(bool is_so) {
    if (!is_so && broken != SOUND) longjmp(seen, 1);
    MUST(is_so);
}

/* The image of a device of these bytes: whether it has one. */
static bool find(zelamiku_handle *journal, const uint8_t *bytes, uint8_t *found) {
    uint64_t size = 0;
    zelamiku_status status = zelamiku_journal_open(journal, bytes, it.size, &size);
    must(status == ZELAMIKU_OK || status == ZELAMIKU_NOT_FORMATTED);
    if (status != ZELAMIKU_OK) return false;
    must(size == length() && zelamiku_journal_read(journal, 0, found, length()) == ZELAMIKU_OK);
    return true;
}

/* ---- what a crash leaves ---- */

static void look_at(const uint8_t *left) {
    static uint8_t found[LEN];
    zelamiku_handle journal = ZELAMIKU_NONE;
    bool is_there = find(&journal, left, found);
    zelamiku_free(&journal);
    images++;
    must(is_there ? has(found) : may.is_none);
}

/* Looks at the images that a crash may leave now: at all, where there aren't too many. One of them is kept. */
static void look(void) {
    static uint8_t left[MOST_SIZE];
    const uint8_t *of[MOST_SIZE / SECTOR][FLIGHTS + 1];
    unsigned counts[MOST_SIZE / SECTOR], sectors = 0, places[MOST_SIZE / SECTOR];
    uint64_t all = 1;
    for (size_t at = 0; at < it.size; at += SECTOR) {
        unsigned count = 0;
        of[sectors][count++] = it.durable + at;
        for (unsigned i = 0; i < it.count; i++) {
            const flight *made = &it.flights[i];
            if (made->at > at || at + SECTOR > made->at + made->size) continue;
            if (memcmp(of[sectors][count - 1], made->bytes + (at - made->at), SECTOR) != 0) of[sectors][count++] = made->bytes + (at - made->at);
        }
        if (count == 1) continue;
        places[sectors] = (unsigned)at, counts[sectors++] = count;
        all = all > ALL ? all : all * count;
    }
    uint64_t tries = all <= ALL ? all : SOME, kept_at = chance(tries);
    whole += all <= ALL;
    for (uint64_t n = 0, rest; n < tries; n++) {
        uint64_t usual = chance(3);
        memcpy(left, it.durable, it.size);
        rest = n;
        for (unsigned i = 0; i < sectors; i++) {
            uint64_t pick = all <= ALL ? rest % counts[i] : usual < 2 && chance(8) > 0 ? usual * (counts[i] - 1) : chance(counts[i]);
            rest /= counts[i];
            memcpy(left + places[i], of[i][pick], broken == TORN && chance(4) == 0 ? chance(SECTOR) : SECTOR);
        }
        look_at(left);
        if (n == kept_at) memcpy(kept, left, it.size), kept_may = may;
    }
}

/* The device comes back from a crash with these bytes. */
static void come_back(const uint8_t *left) {
    memcpy(it.durable, left, it.size);
    memcpy(it.now, left, it.size);
    it.count = 0;
}

/* ---- its calls ---- */

/* A page is written once between two syncs, or again with the same bytes. */
static void write_disk(uint64_t at, const uint8_t *bytes, uint64_t size, bool is_other) {
    for (unsigned i = 0; i < it.count && !is_other; i++) {
        const flight *made = &it.flights[i];
        bool is_same = made->at == at && made->size == size && memcmp(made->bytes, bytes, size) == 0;
        MUST(is_same || made->at / PAGE != at / PAGE);
    }
    MUST(at % SECTOR == 0 && size % SECTOR == 0 && at / PAGE == (at + size - 1) / PAGE && it.count < FLIGHTS && at + size <= it.size);
    it.flights[it.count].at = at;
    it.flights[it.count].size = size;
    memcpy(it.flights[it.count++].bytes, bytes, size);
    memcpy(it.now + at, bytes, size);
}

static void sync_disk(void) {
    for (unsigned i = 0; i < it.count; i++) memcpy(it.durable + it.flights[i].at, it.flights[i].bytes, it.flights[i].size);
    it.count = 0;
}

/* A sync that fails: each write has reached the device, or some sectors of it, or is still in flight, or is in a cache alone. */
static void fail_sync(void) {
    unsigned count = 0;
    for (unsigned i = 0; i < it.count; i++) {
        const flight *made = &it.flights[i];
        uint64_t how = chance(3);
        for (uint64_t at = 0; at < made->size && how == 0; at += SECTOR)
            if (chance(4) > 0) memcpy(it.durable + made->at + at, made->bytes + at, SECTOR);
        if (how == 1) it.flights[count++] = *made;
    }
    it.count = count;
}

/* Whether the host leaves out this sync, of those of a making (NO_MAKING), an opening (NO_FIRST) or a turn (NO_TURN). */
static bool leaves_out(rule whose, unsigned number) {
    if (whose == NO_FIRST) return (broken == NO_FIRST && number == 1) || (broken == NO_SECOND && number == 2);
    return broken == whose;
}

/* Makes the journal's calls, of which some fail and are made again, and counts its syncs. False: the host has given up, or a crash has come.
 * After the first sync only this image may be found; of a making also none. */
static bool make_calls(zelamiku_handle *journal, rule whose, const uint8_t *after, unsigned *syncs) {
    zelamiku_call call;
    uint8_t bytes[PAGE];
    for (;;) {
        OK(zelamiku_next_call(journal, &call, bytes, sizeof bytes));
        if (call.kind == ZELAMIKU_NO_CALL) return true;
        bool is_failed = fails > 0 && chance(fails) == 0;
        failed += is_failed;
        if (call.kind == ZELAMIKU_WRITE) {
            if (!is_failed || chance(2) == 0) write_disk(call.at, bytes, call.size, broken != SOUND);
            if (is_failed && chance(2) == 0) return false;
            if (is_failed && broken != NO_WRITE) continue;
        } else {
            ++*syncs;
            look();
            if (chance(24) == 0) {
                cut++;
                come_back(kept);
                return false;
            }
            if (is_failed) {
                fail_sync();
                return false;
            }
            if (!leaves_out(whose, *syncs)) sync_disk();
            if (after != NULL && *syncs == 1) {
                only(after);
                may.is_none = whose == NO_MAKING;
            }
        }
        OK(zelamiku_call_done(journal));
    }
}

/* ---- a life ---- */

static const uint8_t ZEROS[LEN];

/* Makes a journal over whatever the device has. */
static bool make(zelamiku_handle *journal) {
    unsigned syncs = 0;
    OK(zelamiku_journal_create(journal, it.half, it.image));
    may.is_none = true;
    return make_calls(journal, NO_MAKING, ZEROS, &syncs);
}

/* Opens what is there. Until its first sync a crash may leave what the device had. */
static bool open_it(zelamiku_handle *journal, uint8_t *image) {
    unsigned syncs = 0;
    bool is_there = find(journal, it.now, image);
    must(is_there ? has(image) : may.is_none);
    if (!is_there) return false;
    if (it.count == 0 && memcmp(it.now, it.durable, it.size) == 0) only(image);
    if (!make_calls(journal, NO_FIRST, image, &syncs)) return false;
    MUST(syncs == 3);
    return true;
}

/* Changes some words, or sometimes all, and returns how many words that is at most. */
static uint64_t change(zelamiku_handle *journal, uint8_t *image) {
    uint64_t words = 0;
    bool is_much = chance(10) == 0;
    for (uint64_t runs = 1 + chance(is_much ? 1 : 3); runs > 0; runs--) {
        size_t size = is_much ? length() : 1 + chance(chance(3) == 0 ? 700 : 24), at = chance(length() - size + 1);
        for (size_t i = at; i < at + size; i++) image[i] = (uint8_t)chance(256);
        OK(zelamiku_journal_write(journal, at, image + at, size));
        words += size / 8 + 2;
    }
    return words;
}

static bool fits(uint64_t words) {
    return ((words + 30) / 31 + 7) / 8 <= it.half;
}

/* Some groups of writes and a sync. False: the host has given up, or a crash has come. */
static bool turn(zelamiku_handle *journal, uint8_t *image) {
    uint64_t words = 0;
    unsigned syncs = 0;
    for (uint64_t groups = 1 + chance(GROUPS); groups > 0; groups--) {
        words += change(journal, image);
        also(image);
        may.is_mixed = !fits(words);
        if (groups == 1) break;
        OK(zelamiku_journal_order(journal));
        if (!make_calls(journal, NO_TURN, NULL, &syncs)) return false;
    }
    if (!may.is_mixed) memcpy(may.images[1], image, length()), may.count = 2;
    if (broken == EARLY) only(image);
    MUST(!fits(words) || syncs == 0);
    past += !fits(words);
    OK(zelamiku_journal_sync(journal));
    if (!make_calls(journal, NO_TURN, NULL, &syncs)) return false;
    MUST(!fits(words) || syncs == 1);
    only(image);
    return true;
}

/* The host has another journal of the same bytes, so that both make the batch of one stamp: the first one's is in flight when the second's is written. */
static void make_two(zelamiku_handle *journal, const uint8_t *bytes, const uint8_t *image) {
    static uint8_t other[LEN];
    zelamiku_handle second = ZELAMIKU_NONE;
    zelamiku_call call;
    uint8_t page[PAGE];
    must(find(&second, bytes, other));
    for (;;) { /* its opening is that of the first */
        OK(zelamiku_next_call(&second, &call, page, sizeof page));
        if (call.kind == ZELAMIKU_NO_CALL) break;
        OK(zelamiku_call_done(&second));
    }
    for (unsigned i = 0; i < 2; i++) {
        zelamiku_handle *of = i == 0 ? journal : &second;
        memcpy(other, image, length());
        for (size_t at = i; at < 1000 && at < length(); at += 8) other[at] = (uint8_t)(1 + chance(255));
        OK(zelamiku_journal_write(of, 0, other, 1000));
        also(other);
        OK(zelamiku_journal_sync(of));
        for (;;) {
            OK(zelamiku_next_call(of, &call, page, sizeof page));
            if (call.kind != ZELAMIKU_WRITE) break;
            write_disk(call.at, page, call.size, true);
            OK(zelamiku_call_done(of));
        }
    }
    look();
    zelamiku_free(&second);
}

static void life(void) {
    static uint8_t image[LEN], before[MOST_SIZE];
    zelamiku_handle journal = ZELAMIKU_NONE;
    bool is_new = memcmp(it.now, "MONIHALF", 8) != 0 || chance(16) == 0;
    lives++;
    if (it.count > 0 && chance(2) == 0) sync_disk(); /* by the host, before it reads */
    memcpy(before, it.now, it.size);
    bool is_open = is_new ? make(&journal) : open_it(&journal, image);
    if (is_open && is_new) memset(image, 0, length()), only(image);
    if (is_open && !is_new && broken == OTHER_BATCH) make_two(&journal, before, image), is_open = false;
    for (uint64_t turns = chance(5); is_open && turns > 0; turns--) is_open = turn(&journal, image);
    zelamiku_free(&journal);
    uint64_t how = chance(8);
    if (how == 0) return; /* another opening comes, without a crash */
    if (how < 4) look();  /* a crash comes now; or one has come before the last sync */
    may = kept_may;
    come_back(kept);
}

/* A new device, and some lives. */
static void device(uint64_t seed) {
    state = seed * 0x9E3779B97F4A7C15u + 1;
    memset(&it, 0, sizeof it);
    memset(kept, 0, sizeof kept);
    it.half = 1 + (uint32_t)chance(MOST_HALF);
    it.image = 1 + (uint32_t)chance(MOST_IMAGE);
    it.size = (1 + 2 * it.half + it.image) * (size_t)PAGE;
    fails = chance(2) == 0 ? 0 : 12;
    may.count = 0;
    may.is_none = true;
    kept_may = may;
    for (unsigned i = 0; i < LIVES; i++) life();
}

int main(int argc, char **argv) {
    MUST(argc >= 2 && chdir(argv[1]) == 0);
    uint64_t many = argc > 2 ? strtoull(argv[2], NULL, 10) : 1;
    for (uint64_t seed = 0; seed < DEVICES * many; seed++) device(seed);
    printf("lives: %llu lives, %llu images of crashes (all of %llu intervals), %llu calls that failed, %llu crashes in calls, %llu turns past the journal\n", (unsigned long long)lives,
           (unsigned long long)images, (unsigned long long)whole, (unsigned long long)failed, (unsigned long long)cut, (unsigned long long)past);
    for (broken = SOUND + 1; broken < RULES; broken++) {
        volatile uint64_t seed = 1000000;
        volatile bool is_seen = false;
        uint64_t before = images;
        for (; seed < 1000000 + DEVICES * many && !is_seen; seed++) {
            if (setjmp(seen) == 0)
                device(seed);
            else
                is_seen = true;
        }
        printf("%s: %s, after %llu images\n", NAMES[broken], is_seen ? "seen" : "NOT SEEN", (unsigned long long)(images - before));
        if (!is_seen) return 1;
    }
    return 0;
}
