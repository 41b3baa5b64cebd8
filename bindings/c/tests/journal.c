/* Tests of heaps with a journal: on a device that keeps its sectors whole a round takes one sync. The device is in memory, and is cut off in each of
 * its calls: each sector is then what it was at the last sync, or what was written since, by chance.
 *
 *     journal FOLDER     prints one line, and answers 0, where all is as it must be */
#define _GNU_SOURCE
#define ZELAMIKU_HALF 2 /* pages: a batch has 496 words */
#define ZELAMIKU_BLOCKS "blocks"
#include <unistd.h>
static ssize_t write_pages(int file, const void *bytes, size_t size, off_t at);
static int sync_pages(int file);
#define pwrite write_pages
#define fdatasync sync_pages
#include "../zelamiku_threads.c"
#undef pwrite
#undef fdatasync
#include "memory.h"
#include "must.h"

enum { PAGE = 4096, SECTOR = 512, SIZE = 40 * PAGE, MANY = 400, REFUSED = 1, LATE, GONE };

typedef struct {
    memory held;
    uint8_t is_written[SIZE / PAGE]; /* since the last sync */
    unsigned level;                  /* how often it was cut off before; one that wasn't, or once, is cut off again */
    unsigned calls, syncs;           /* that were made */
    unsigned fault, fault_at;        /* which call from here meets it; 0: none, or it has met it */
} disk;

/* A heap that is open, and this thread's use of it. */
typedef struct {
    zelamiku_status status;
    zelamiku_heap heap;
    zelamiku_thread own;
} use;

static zelamiku_field fields[MANY]; /* by turns of both objects; all begin with 0 but field 1 */
static zelamiku_plan plan = {.size = sizeof plan, .fields = fields, .count = 2, .objects = 2, .lanes = 2, .capacity = 2000, .linger = UINT32_MAX, .atomic_sectors = 1};
static zelamiku_report report;       /* of the last opening */
static uint64_t acknowledged, begun; /* the least and the most that a crash may leave in field 0; field 1 has one more */
static unsigned cuts, torn, lost, tries = 2; /* how many images of each cut are looked at; 0: nothing is cut off */

/* ---- the device ---- */

static void cut_off(const disk *of);

/* Whether the call is made; `status` gets its answer. */
static bool is_made(disk *of, zelamiku_status *status) {
    bool is_met = of->fault_at > 0 && --of->fault_at == 0;
    *status = !is_met ? ZELAMIKU_OK : of->fault == GONE ? ZELAMIKU_LOST : ZELAMIKU_DEVICE;
    errno = ENOSPC;
    of->calls += !is_met || of->fault == LATE;
    return !is_met || of->fault == LATE;
}

/* Each page is written once between two syncs, or again with the same bytes. */
static zelamiku_status write_disk(void *context, uint64_t at, const void *bytes, size_t size) {
    disk *of = (disk *)context;
    zelamiku_status status;
    if (!is_made(of, &status)) return status;
    for (uint64_t page = at / PAGE; page <= (at + size - 1) / PAGE && plan.atomic_sectors != 0; page++) {
        MUST(of->is_written[page] == 0 || memcmp(of->held.now + at, bytes, size) == 0);
        of->is_written[page] = 1;
    }
    (void)memory_write(&of->held, at, bytes, size);
    cut_off(of);
    return status;
}

static zelamiku_status sync_disk(void *context) {
    disk *of = (disk *)context;
    zelamiku_status status;
    if (!is_made(of, &status)) return status;
    cut_off(of);
    memset(of->is_written, 0, sizeof of->is_written);
    of->syncs++;
    (void)memory_sync(&of->held);
    return status;
}

static disk *new_disk(unsigned level, const uint8_t *bytes) {
    disk *of = (disk *)calloc(1, sizeof *of);
    MUST(of != NULL);
    of->held = new_memory(SIZE);
    of->level = level;
    if (bytes != NULL) memcpy(of->held.now, bytes, SIZE), memcpy(of->held.durable, bytes, SIZE);
    return of;
}

static void free_disk(disk *of) {
    free_memory(&of->held);
    free(of);
}

static bool has_journal(const uint8_t *bytes) { return memcmp(bytes, "MONIHALF", 8) == 0; }

/* An image that a crash may leave; where sectors tear, the first bytes of one may be new and the rest old. */
static uint8_t *crashed(const disk *of, bool tears) {
    uint8_t *image = (uint8_t *)malloc(SIZE);
    MUST(image != NULL);
    memcpy(image, of->held.durable, SIZE);
    for (size_t at = 0; at < SIZE; at += SECTOR)
        if (memcmp(image + at, of->held.now + at, SECTOR) != 0) memcpy(image + at, of->held.now + at, (size_t)rand() % (tears ? SECTOR : 2) * (tears ? 1 : SECTOR));
    return image;
}

/* ---- a heap on it ---- */

static use open_disk(disk *of) {
    zelamiku_device device = {sizeof device, memory_read, write_disk, sync_disk, memory_length, of};
    use its = {ZELAMIKU_OK, {0}, {0}};
    report.size = sizeof report;
    its.status = open_on(&its.heap, "disk", &device, &plan, &report);
    if (its.status == ZELAMIKU_OK) OK(zelamiku_thread_begin(&its.own, its.heap));
    return its;
}

/* One section: it finds both values, leaves `more` more, and stores to some other fields. False: they don't fit together. */
static bool section(const use *its, uint64_t *value, uint64_t more, uint32_t from, uint32_t stores) {
    uint64_t second = 0;
    for (uint32_t object = 0; object < 2; object++) OK(zelamiku_thread_enter(its->own, object));
    OK(zelamiku_thread_load(its->own, 0, value));
    OK(zelamiku_thread_load(its->own, 1, &second));
    bool is_whole = second == *value + 1;
    *value += more;
    for (uint32_t field = from; field < from + stores; field++) OK(zelamiku_thread_store(its->own, field, *value));
    for (uint32_t field = 0; field < 2 && more > 0; field++) OK(zelamiku_thread_store(its->own, field, *value + field));
    for (uint32_t object = 0; object < 2; object++) OK(zelamiku_thread_exit(its->own, object));
    return is_whole;
}

/* Whether a heap of these bytes has all that was acknowledged, and whole sections alone. */
static bool is_right(const uint8_t *bytes, unsigned level) {
    disk *copy = new_disk(level, bytes);
    use its = open_disk(copy);
    uint64_t value = 0;
    bool is_so = its.status == ZELAMIKU_OK && section(&its, &value, 0, 0, 0) && value >= acknowledged && value <= begun;
    if (its.status == ZELAMIKU_OK) OK(rand() % 2 == 0 ? zelamiku_heap_close(its.heap) : zelamiku_heap_stop(its.heap, ZELAMIKU_ABANDONED));
    free_disk(copy);
    return is_so;
}

static void cut_off(const disk *of) {
    unsigned seldom = (of->level == 0 ? 1 : 24) * (acknowledged == 0 ? 30 : 1); /* a making has many calls */
    if (tries == 0 || of->level > 1 || (unsigned)rand() % seldom > 0) return;
    for (unsigned i = 0; i <= tries; i++) {
        bool tears = i == tries && of->level == 0 && acknowledged > 0;
        uint8_t *image = crashed(of, tears);
        bool is_so = is_right(image, tears ? 9 : of->level + 1);
        MUST(is_so || tears);
        lost += !is_so, torn += tears, cuts += !tears;
        free(image);
    }
}

/* Makes so many rounds; each takes that many syncs, or more than one. */
static void rounds(const use *its, const disk *of, unsigned count, unsigned wanted, uint32_t stores) {
    for (unsigned i = 0; i < count; i++) {
        zelamiku_stats before = stats_now(its->heap);
        unsigned calls = of->calls, syncs = of->syncs;
        uint64_t value = 0;
        begun = acknowledged + 1 + (stores > 0);
        for (unsigned part = 0; part <= (stores > 0); part++) MUST(section(its, &value, 1, 2 + part * stores, stores));
        MUST(value == begun && of->calls == calls);
        OK(zelamiku_thread_await(its->own));
        acknowledged = begun;
        zelamiku_stats after = stats_now(its->heap);
        MUST(after.calls - before.calls == of->calls - calls && after.syncs - before.syncs == of->syncs - syncs);
        MUST(wanted > 0 ? of->syncs == syncs + wanted : of->syncs > syncs + 1);
        MUST(after.one_sync_rounds - before.one_sync_rounds == (wanted == 1) && (wanted != 2 || after.two_sync_rounds == before.two_sync_rounds + 1));
    }
}

/* ---- the tests ---- */

/* A making and three lives. `stores`: some rounds change more words than a batch has; their syncs stay in order. */
static void lives(unsigned wanted, uint32_t stores) {
    disk *of = new_disk(0, NULL);
    acknowledged = begun = 0;
    plan.count = stores > 0 ? MANY : 2;
    for (unsigned life = 0; life < (stores > 0 ? 2 : 3); life++) {
        use its = open_disk(of);
        MUST(its.status == ZELAMIKU_OK && has_journal(of->held.durable) == (wanted == 1));
        rounds(&its, of, life == 0 || stores == 0 ? 4 : 0, wanted, 0);
        rounds(&its, of, stores > 0 ? 2 : 0, 0, stores);
        OK(life == 1 ? zelamiku_heap_stop(its.heap, ZELAMIKU_CLOSED) : zelamiku_heap_close(its.heap));
    }
    plan.count = 2;
    free_disk(of);
}

/* A making that was cut off is begun anew, with a journal where the other had none, and the other way round; one that is there by then stays. */
static unsigned makings(uint32_t journaled) {
    acknowledged = begun = 0;
    plan.count = MANY;
    for (unsigned at = 1;; at += 1 + (unsigned)rand() % (journaled != 0 ? 6 : 40)) {
        disk *of = new_disk(9, NULL);
        of->fault = REFUSED, of->fault_at = at;
        plan.atomic_sectors = journaled;
        use its = open_disk(of);
        bool is_over = its.status == ZELAMIKU_OK && zelamiku_heap_close(its.heap) == ZELAMIKU_OK;
        uint8_t *image = crashed(of, false);
        free_disk(of);
        of = new_disk(0, image);
        plan.atomic_sectors = 1 - journaled;
        its = open_disk(of);
        uint64_t value = 1;
        MUST(its.status == ZELAMIKU_OK && has_journal(of->held.now) == (has_journal(image) || (report.is_made != 0 && journaled == 0)));
        MUST(section(&its, &value, 0, 0, 0) && value == 0);
        OK(zelamiku_heap_close(its.heap));
        free_disk(of);
        free(image);
        plan.atomic_sectors = 1;
        if (is_over) return plan.count = 2, at;
    }
}

/* Each call of a round fails. What is left of them is made then, once, and no other turn comes, unless the round stores more than a batch takes. */
static unsigned faults(unsigned fault, uint32_t stores) {
    unsigned whole = 0;
    for (unsigned at = 0;; at++) {
        disk *of = new_disk(0, NULL);
        plan.count = stores > 0 ? MANY : 2;
        use its = open_disk(of);
        uint64_t value = 0;
        acknowledged = 0;
        rounds(&its, of, 2, 1, 0);
        begun = 3;
        MUST(section(&its, &value, 1, 2, stores) && section(&its, &value, 0, 2 + stores, stores) && value == 3);
        unsigned calls = of->calls;
        of->fault = fault, of->fault_at = at;
        zelamiku_status status = zelamiku_thread_await(its.own);
        bool is_met = at > 0 && of->fault_at == 0, is_lost = is_met && fault == GONE;
        MUST(status == (is_lost ? ZELAMIKU_LOST : is_met ? ZELAMIKU_DEVICE : ZELAMIKU_OK) && (!is_met || last_failure().error == ENOSPC));
        if (is_met && !is_lost) OK(zelamiku_thread_await(its.own));
        if (at == 0) whole = of->calls - calls;
        MUST(is_lost || stores > 0 || of->calls - calls == whole + (is_met && fault == LATE));
        MUST(zelamiku_heap_close(its.heap) == (is_lost ? ZELAMIKU_LOST : ZELAMIKU_OK));
        acknowledged = is_lost ? 2 : 3;
        MUST(is_right(of->held.durable, 9) && is_right(of->held.now, 9));
        free_disk(of);
        plan.count = 2;
        if (at > 0 && !is_met) return at - 1;
    }
}

/* What can't be opened is told, and nothing is written. */
static void refuses(disk *of, zelamiku_status status, const char *text) {
    unsigned writes = of->calls - of->syncs;
    MUST(open_disk(of).status == status && strstr(zelamiku_heap_failure(NULL), text) != NULL && of->calls - of->syncs == writes);
}

static void refusals(void) {
    disk *of = new_disk(0, NULL);
    uint8_t *now = of->held.now;
    acknowledged = 0;
    plan.must_exist = 1;
    refuses(of, ZELAMIKU_NO_HEAP, "there is no heap");
    plan.must_exist = 0, plan.capacity = 4000;
    refuses(of, ZELAMIKU_TOO_SMALL, "the device has 163840 bytes, and the heap takes 217088; give it more");
    plan.capacity = 2000;
    now[SIZE - 1] = now[20 * PAGE] = 1; /* the last byte isn't the heap's */
    refuses(of, ZELAMIKU_NOT_FORMATTED, "isn't empty");
    now[20 * PAGE] = 0;
    use its = open_disk(of);
    rounds(&its, of, 3, 1, 0);
    OK(zelamiku_heap_stop(its.heap, ZELAMIKU_ABANDONED));
    plan.count = 1;
    refuses(of, ZELAMIKU_OTHER_HEAP, "fields: 2 in the file, and 1 in the plan");
    plan.count = 2;
    for (unsigned i = 0; i < 3; i++) { /* a label of too many pages, of no number of pages, and a device that was cut */
        now[i == 0 ? 14 : 8] ^= i < 2;
        of->held.size = i < 2 ? SIZE : 20 * PAGE;
        refuses(of, ZELAMIKU_DAMAGED_FILE, "its journal's label is damaged, or the bytes are fewer than it says; take the back-up");
        now[i == 0 ? 14 : 8] ^= i < 2;
        MUST(report.damage == ZELAMIKU_DAMAGED_LENGTH);
    }
    of->held.size = SIZE;
    for (size_t at = PAGE; at < 5 * PAGE; at += SECTOR) memset(now + at, 255, 8); /* the stamps of both halves */
    refuses(of, ZELAMIKU_WORN, "the numbers of its journal's batches have come to their end; move the values to a new heap");
    free_disk(of);
}

enum { MOST_FILES = 64 };
static bool is_lone; /* the file has a journal: each of its pages is written whole, by one call between two syncs */
static uint8_t pages_of_files[MOST_FILES][SIZE / PAGE];
static unsigned lone;

static ssize_t write_pages(int file, const void *bytes, size_t size, off_t at) {
    for (off_t page = at / PAGE; is_lone && page <= (at + (off_t)size - 1) / PAGE; page++) {
        MUST(file < MOST_FILES && page < SIZE / PAGE && at % PAGE == 0 && pages_of_files[file][page]++ == 0);
        lone++;
    }
    return pwrite(file, bytes, size, at);
}

static int sync_pages(int file) {
    if (file >= 0 && file < MOST_FILES) memset(pages_of_files[file], 0, sizeof pages_of_files[file]);
    return fdatasync(file);
}

/* A round on this file finds so many, and takes one sync or two. A copy of a file with a journal is one without. */
static void file_takes(const char *path, uint32_t journaled, uint64_t found, bool is_one) {
    use its = {.status = ZELAMIKU_OK};
    uint64_t value = 0;
    plan.atomic_sectors = journaled;
    memset(pages_of_files, 0, sizeof pages_of_files);
    lone = 0;
    is_lone = is_one;
    OK(zelamiku_heap_open(&its.heap, path, &plan, NULL));
    OK(zelamiku_thread_begin(&its.own, its.heap));
    MUST(section(&its, &value, 1, 0, 0) && value == found + 1);
    OK(zelamiku_thread_await(its.own));
    zelamiku_stats now = stats_now(its.heap);
    MUST(now.rounds == 1 && now.one_sync_rounds == is_one && now.two_sync_rounds == !is_one && now.syncs == 2 - (uint64_t)is_one);
    if (is_one) OK(zelamiku_heap_copy(its.heap, "copy"));
    OK(zelamiku_heap_close(its.heap));
    MUST((lone > 0) == is_one);
    is_lone = false;
}

static void count_warnings(void *of, uint32_t level, const char *text) {
    *(unsigned *)of += level == ZELAMIKU_LOG_WARNING && strstr(text, "which needn't keep sectors whole") != NULL;
}

/* What the system shows below the file's device, and whether an opening warns of that: of disks by ATA or SCSI, also below others: a partition of a
 * RAID (only the whole shows what is below it), and a thin volume on a pool, that on an encrypted one, that on the partition. */
static void warnings(void) {
    static const struct {
        const char *target;
        uint32_t journaled;
        unsigned warned;
    } CASES[] = {{"../devices/nvme0/block/nvme0n1", 1, 0}, {"../devices/ata1/block/sda/sda1", 1, 1}, {"../devices/ata1/block/sda/sda1", 0, 0},
                 {"../devices/virtual/block/dm-1", 1, 1},  {"../devices/virtual/block/dm-2", 1, 0},  {"../devices/gone/block/vda", 1, 0},
                 {"../devices/virtual/block/md0/md0p1", 1, 1}, {"../devices/virtual/block/dm-3", 1, 1}, {"../devices/nvme0/block/nvme0n1/nvme0n1p1", 1, 0}};
    struct stat its;
    char name[64];
    unsigned warned;
    MUST(system("mkdir -p blocks devices/nvme0/block/nvme0n1 devices/ata1/block/sda/sda1 devices/virtual/block/dm-0/slaves devices/virtual/block/dm-1/slaves "
                "devices/virtual/block/dm-2/slaves && cd devices/virtual/block && ln -s ../../dm-0 dm-1/slaves/dm-0 && ln -s ../../../../ata1/block/sda/sda1 "
                "dm-0/slaves/sda1 && ln -s ../../../../nvme0/block/nvme0n1 dm-2/slaves/nvme0n1 && mkdir -p md0/slaves md0/md0p1 dm-3/slaves dm-4/slaves dm-5/slaves "
                "dm-6/slaves && ln -s ../../../../ata1/block/sda/sda1 md0/slaves/sda1 && ln -s ../../dm-4 dm-3/slaves/dm-4 && ln -s ../../dm-5 dm-4/slaves/dm-5 && "
                "ln -s ../../dm-6 dm-5/slaves/dm-6 && ln -s ../../md0/md0p1 dm-6/slaves/md0p1 && mkdir -p ../../nvme0/block/nvme0n1/nvme0n1p1 "
                "../../nvme0/block/nvme0n1/slaves") == 0);
    MUST(stat(".", &its) == 0 && snprintf(name, sizeof name, "blocks/%u:%u", major(its.st_dev), minor(its.st_dev)) > 0);
    plan.log = count_warnings;
    plan.log_context = &warned;
    for (size_t i = 0; i < sizeof CASES / sizeof *CASES; i++) {
        warned = 0;
        MUST(symlink(CASES[i].target, name) == 0);
        file_takes("warned", CASES[i].journaled, 0, CASES[i].journaled == 1);
        MUST(warned == CASES[i].warned && unlink(name) == 0 && unlink("warned") == 0);
    }
    plan.log = NULL;
}

int main(int argc, char **argv) {
    MUST(argc == 2 && chdir(argv[1]) == 0);
    for (uint32_t i = 0; i < MANY; i++) fields[i].owner = fields[i].guard = i % 2;
    fields[1].first = 1;
    lives(1, 0);
    lives(1, 199);
    MUST(cuts > 500 && lost > 0);
    tries = 1;
    MUST(makings(0) > 100 && makings(1) > 30);
    tries = 0;
    unsigned failed = faults(REFUSED, 0) + faults(LATE, 0) + faults(GONE, 0);
    unsigned failed_wide = faults(REFUSED, 199) + faults(LATE, 199) + faults(GONE, 199);
    refusals();
    file_takes("journaled", 1, 0, true);
    file_takes("journaled", 0, 1, true);
    file_takes("copy", 1, 2, false);
    file_takes("plain", 0, 0, false);
    file_takes("plain", 1, 1, false);
    warnings();
    static const uint8_t LABEL[24] = {'M', 'O', 'N', 'I', 'H', 'A', 'L', 'F', [15] = 2, [23] = 30};
    int file = open("free", O_RDWR | O_CREAT, 0600); /* a journal without a heap: another file takes its place */
    MUST(pwrite(file, LABEL, sizeof LABEL, 0) == sizeof LABEL && ftruncate(file, 35 * PAGE) == 0 && close(file) == 0);
    file_takes("free", 0, 0, false);
    plan.atomic_sectors = 0;
    lives(2, 0);
    printf("journal: cut off in %u moments; with torn sectors %u of %u lose something; a fault at each call of a round %u, %u where no batch takes it\n", cuts, lost, torn, failed, failed_wide);
    return 0;
}
