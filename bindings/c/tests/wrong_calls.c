/* Wrong calls of zelamiku.h: each is answered by its status, says why, and breaks nothing.
 *
 *     wrong_calls FOLDER      prints how many there were, and answers 0, where each was answered as it must be */
#define _GNU_SOURCE
#include <errno.h>
#include <fcntl.h>
#include <malloc.h>
#include <pthread.h>
#include <stdio.h>
#include <stdlib.h>
#include <string.h>
#include <sys/mman.h>
#include <sys/resource.h>
#include <sys/stat.h>
#include <sys/wait.h>
#include <unistd.h>
#include "zelamiku_core.h"

static unsigned calls, wrong;

/* Answers, and no failures: they leave the message as it was. */
static bool has_message(zelamiku_status status) {
    return status != ZELAMIKU_OK && status != ZELAMIKU_HELD && status != ZELAMIKU_BEHIND && status != ZELAMIKU_POOL_EMPTY;
}

static void look_at(zelamiku_status status, zelamiku_status expected, const char *text, const char *call, int line) {
    calls++;
    bool is_told = !has_message(expected) || strstr(zelamiku_heap_failure(NULL), text) != NULL;
    if (status == expected && is_told) return;
    wrong++;
    fprintf(stderr, "line %d: %s: %s, and not %s; it says: %s\n", line, call, zelamiku_status_text(status), zelamiku_status_text(expected),
            zelamiku_heap_failure(NULL));
}

/* A call, what it must answer, and what its message must have in it. */
#define IS(call, status, text) look_at((call), ZELAMIKU_##status, (text), #call, __LINE__)
#include "must.h"

enum { OBJECTS = 20, FIELDS = 4 + 9, HEAD = 4, SLOTS = 8, POOL = 1 };
static zelamiku_field fields[FIELDS];
static zelamiku_plan plan = {.size = sizeof(zelamiku_plan), .fields = fields, .count = FIELDS, .objects = OBJECTS, .lanes = 3, .capacity = 2000};

static void prepare(void) {
    for (uint32_t i = 0; i < 4; i++) fields[i] = (zelamiku_field){i, i, i, i == 3};
    MUST(zelamiku_pool_fields(POOL, fields + HEAD, SLOTS + 1) == ZELAMIKU_OK);
}

/* ---- opening ---- */

static void bad_plans(void) {
    zelamiku_heap heap;
    zelamiku_report report = {.size = sizeof report};
    zelamiku_plan bad = plan;
    zelamiku_field one = {0, 0, 0, 0};
    IS(zelamiku_heap_open(NULL, "a", &plan, NULL), BAD_ARGUMENT, "NULL");
    IS(zelamiku_heap_open(&heap, NULL, &plan, NULL), BAD_ARGUMENT, "NULL");
    IS(zelamiku_heap_open(&heap, "a", NULL, NULL), BAD_ARGUMENT, "NULL");
    bad.fields = NULL;
    IS(zelamiku_heap_open(&heap, "a", &bad, &report), BAD_ARGUMENT, "NULL");
    MUST(report.bad_lane == ZELAMIKU_NOBODY && report.damage == ZELAMIKU_UNDAMAGED);
    bad = plan, bad.objects = 0;
    IS(zelamiku_heap_open(&heap, "a", &bad, &report), BAD_ARGUMENT, "objects is 0");
    bad = plan, bad.objects = 4097;
    IS(zelamiku_heap_open(&heap, "a", &bad, &report), BAD_ARGUMENT, "objects is 4097 in the plan; it may be 1 to 4096");
    bad = plan, bad.count = 0;
    IS(zelamiku_heap_open(&heap, "a", &bad, &report), BAD_ARGUMENT, "count of fields is 0");
    bad.fields = NULL;
    IS(zelamiku_heap_open(&heap, "a", &bad, &report), BAD_ARGUMENT, "count of fields is 0");
    bad = plan, bad.count = 16385;
    IS(zelamiku_heap_open(&heap, "a", &bad, &report), BAD_ARGUMENT, "16384");
    bad = plan, bad.lanes = 33;
    IS(zelamiku_heap_open(&heap, "a", &bad, &report), BAD_ARGUMENT, "lanes is 33 in the plan; it may be 1 to 32");
    bad = plan, bad.capacity = 1999;
    IS(zelamiku_heap_open(&heap, "a", &bad, &report), BAD_ARGUMENT, "capacity is 1999");
    bad = plan, bad.capacity = 1048577;
    IS(zelamiku_heap_open(&heap, "a", &bad, &report), BAD_ARGUMENT, "1048576");
    bad = plan, bad.ring = 4095;
    IS(zelamiku_heap_open(&heap, "a", &bad, &report), BAD_ARGUMENT, "ring is 4095 in the plan; it may be 4096 to 65536");
    bad = plan, bad.ring = 65537, bad.capacity = 0;
    IS(zelamiku_heap_open(&heap, "a", &bad, &report), BAD_ARGUMENT, "ring is 65537");
    bad = plan, bad.fields = &one, bad.count = 1, one.owner = OBJECTS;
    IS(zelamiku_heap_open(&heap, "a", &bad, &report), BAD_ARGUMENT, "the owner of field 0 is 20");
    one.owner = 0, one.guard = UINT32_MAX;
    IS(zelamiku_heap_open(&heap, "a", &bad, &report), BAD_ARGUMENT, "the guard of field 0 is 4294967295");
    /* Each field is looked at, and no more than there are. */
    size_t page = (size_t)sysconf(_SC_PAGESIZE);
    uint8_t *pages = (uint8_t *)mmap(NULL, 2 * page, PROT_READ | PROT_WRITE, MAP_PRIVATE | MAP_ANONYMOUS, -1, 0);
    MUST(pages != MAP_FAILED && mprotect(pages + page, page, PROT_NONE) == 0);
    zelamiku_field *last = (zelamiku_field *)(void *)(pages + page) - 2;
    bad.fields = last, bad.count = 2, last[1].owner = OBJECTS;
    IS(zelamiku_heap_open(&heap, "a", &bad, &report), BAD_ARGUMENT, "the owner of field 1 is 20");
    MUST(last_failure().field == 1);
    last[1].owner = 0, last[1].guard = OBJECTS;
    IS(zelamiku_heap_open(&heap, "a", &bad, &report), BAD_ARGUMENT, "the guard of field 1 is 20");
    MUST(heap.number == 0 && access("a", F_OK) != 0);
    IS(zelamiku_heap_open(&heap, "a", NULL, NULL), BAD_ARGUMENT, "NULL");
    last[1].guard = 1;
    MUST(zelamiku_heap_open(&heap, "a", &bad, NULL) == ZELAMIKU_OK && last_failure().field == ZELAMIKU_NO_NUMBER && zelamiku_heap_close(heap) == ZELAMIKU_OK);
    MUST(unlink("a") == 0 && munmap(pages, 2 * page) == 0);
}

static void bad_paths(void) {
    zelamiku_heap heap;
    char longest[5000];
    memset(longest, 'x', sizeof longest - 1);
    longest[sizeof longest - 1] = 0;
    IS(zelamiku_heap_open(&heap, "", &plan, NULL), DEVICE, "open: it can't be opened: No such file");
    IS(zelamiku_heap_open(&heap, "no such folder/heap", &plan, NULL), DEVICE, "no such folder/heap: open: it can't be opened: No such file");
    IS(zelamiku_heap_open(&heap, ".", &plan, NULL), DEVICE, "Is a directory");
    IS(zelamiku_heap_open(&heap, "/dev/null", &plan, NULL), DEVICE, "it is neither a regular file nor a block device");
    IS(zelamiku_heap_open(&heap, "/dev/full", &plan, NULL), DEVICE, "it is neither a regular file nor a block device");
    IS(zelamiku_heap_open(&heap, longest, &plan, NULL), DEVICE, "File name too long");
    MUST(strlen(last_failure().path) == 500 && strspn(last_failure().path, "x") == 500); /* its end */
    MUST(mkfifo("fifo", 0600) == 0 && symlink("circle", "circle") == 0 && symlink("nowhere/at all", "dangling") == 0);
    IS(zelamiku_heap_open(&heap, "fifo", &plan, NULL), DEVICE, "it is neither a regular file nor a block device");
    IS(zelamiku_heap_open(&heap, "circle", &plan, NULL), DEVICE, "Too many levels");
    IS(zelamiku_heap_open(&heap, "dangling", &plan, NULL), DEVICE, "No such file");
    MUST(last_failure().error == ENOENT);
}

static void write_file(const char *path, const char *bytes, size_t size) {
    int file = open(path, O_RDWR | O_CREAT | O_TRUNC | O_CLOEXEC, 0600);
    MUST(file >= 0 && write(file, bytes, size) == (ssize_t)size && close(file) == 0);
}

static void must_have(const char *path, const char *bytes, size_t size) {
    char found[4096];
    int file = open(path, O_RDONLY | O_CLOEXEC);
    MUST(file >= 0 && read(file, found, sizeof found) == (ssize_t)size && memcmp(found, bytes, size) == 0 && close(file) == 0);
}

static void other_files(void) {
    zelamiku_heap heap;
    char almost[200] = {0};
    almost[199] = 1;
    write_file("notes", "notes", 5);
    IS(zelamiku_heap_open(&heap, "notes", &plan, NULL), NOT_FORMATTED, "notes: open: it has no heap, and isn't empty");
    must_have("notes", "notes", 5);
    write_file("almost", almost, sizeof almost);
    IS(zelamiku_heap_open(&heap, "almost", &plan, NULL), NOT_FORMATTED, "left as it is");
    must_have("almost", almost, sizeof almost);
    /* Root may open each file, so it becomes another user meanwhile. */
    uid_t own = geteuid();
    write_file("locked", "", 0);
    MUST(chmod("locked", 0) == 0);
    if (own == 0 && seteuid(65534) != 0) {
        printf("LEFT OUT: root can't become another user here: a file without rights\n");
        return;
    }
    IS(zelamiku_heap_open(&heap, "locked", &plan, NULL), DEVICE, "Permission denied");
    MUST(seteuid(own) == 0);
}

/* A heap that is there, and plans that differ from it. */
static void other_plans(void) {
    zelamiku_heap heap;
    zelamiku_report report = {.size = sizeof report};
    zelamiku_field changed[FIELDS];
    memcpy(changed, fields, sizeof fields);
    zelamiku_plan bad = plan;
    MUST(zelamiku_heap_open(&heap, "plans", &plan, NULL) == ZELAMIKU_OK && zelamiku_heap_close(heap) == ZELAMIKU_OK);
    /* It has a lane for each of three threads, and the helper's. */
    bad.lanes = 5;
    IS(zelamiku_heap_open(&heap, "plans", &bad, &report), OTHER_HEAP, "lanes: 4 in the file, and 5 in the plan; heapctl dump, then heapctl format --lanes 6");
    MUST(report.difference == ZELAMIKU_DIFFERENT_LANES && report.has == 4 && report.planned == 5);
    bad.lanes = 32;
    IS(zelamiku_heap_open(&heap, "plans", &bad, &report), OTHER_HEAP, "heapctl format --lanes 32");
    bad = plan, bad.objects = OBJECTS + 1;
    IS(zelamiku_heap_open(&heap, "plans", &bad, &report), OTHER_HEAP, "objects: 20 in the file, and 21 in the plan");
    MUST(report.difference == ZELAMIKU_DIFFERENT_OBJECTS);
    bad = plan, bad.count = FIELDS - 1;
    IS(zelamiku_heap_open(&heap, "plans", &bad, &report), OTHER_HEAP, "fields: 13 in the file, and 12 in the plan");
    bad = plan, bad.fields = changed, changed[1].owner = 7;
    IS(zelamiku_heap_open(&heap, "plans", &bad, &report), OTHER_HEAP, "the owner of field 1: 1 in the file, and 7 in the plan");
    MUST(report.difference == ZELAMIKU_DIFFERENT_OWNER && report.field == 1 && report.has == 1 && report.planned == 7);
    changed[1].owner = 1, changed[2].guard = 0;
    IS(zelamiku_heap_open(&heap, "plans", &bad, &report), OTHER_HEAP, "the guard of field 2: 2 in the file, and 0 in the plan");
    changed[2].guard = 2, changed[3].is_transient = 0;
    IS(zelamiku_heap_open(&heap, "plans", &bad, &report), OTHER_HEAP, "the transient mark of field 3");
    changed[3].is_transient = 1, changed[0].is_transient = 1;
    IS(zelamiku_heap_open(&heap, "plans", &bad, &report), OTHER_HEAP, "the transient mark of field 0");
    /* Fewer lanes, another first value: the heap is the plan's. */
    changed[0].is_transient = 0, changed[0].first = 77, bad.lanes = 1;
    IS(zelamiku_heap_open(&heap, "plans", &bad, &report), OK, "");
    MUST(report.lanes == 3 && report.difference == ZELAMIKU_SAME && report.is_made == 0);
    IS(zelamiku_heap_close(heap), OK, "");
}

/* A path without a heap is refused where the plan says that there must be one, and nothing is made of it. */
static void must_exist(void) {
    zelamiku_heap heap;
    zelamiku_report report = {.size = sizeof report};
    zelamiku_plan strict = plan;
    static const char ZEROS[300], CUT_OFF[2200] = "MONIHEAP", NONE[] = "there is no heap; mount its volume, or let the open make one";
    strict.must_exist = 1;
    IS(zelamiku_heap_open(&heap, "absent", &strict, &report), NO_HEAP, "absent: open: there is no heap: No such file or directory; mount its");
    MUST(last_failure().error == ENOENT && access("absent", F_OK) != 0 && report.is_made == 0);
    IS(zelamiku_heap_open(&heap, "no such folder/heap", &strict, NULL), NO_HEAP, "there is no heap: No such file or directory; mount its");
    write_file("empty", "", 0);
    IS(zelamiku_heap_open(&heap, "empty", &strict, NULL), NO_HEAP, NONE);
    MUST(last_failure().error == 0);
    must_have("empty", "", 0);
    write_file("empty", ZEROS, 200);
    IS(zelamiku_heap_open(&heap, "empty", &strict, NULL), NO_HEAP, NONE);
    must_have("empty", ZEROS, 200);
    write_file("empty", CUT_OFF, 200);
    IS(zelamiku_heap_open(&heap, "empty", &strict, NULL), NOT_FORMATTED, "its first bytes are damaged");
    must_have("empty", CUT_OFF, 200);
    write_file("empty", CUT_OFF, sizeof CUT_OFF);
    IS(zelamiku_heap_open(&heap, "empty", &strict, NULL), NO_HEAP, NONE);
    must_have("empty", CUT_OFF, sizeof CUT_OFF);
    IS(zelamiku_heap_open(&heap, "notes", &strict, NULL), NOT_FORMATTED, "notes: open: it has no heap, and isn't empty");
    MUST(access("empty.heapctl-new", F_OK) != 0 && access("absent.heapctl-new", F_OK) != 0);
    IS(zelamiku_heap_open(&heap, "empty", &plan, &report), OK, "");
    MUST(report.is_made == 1 && zelamiku_heap_close(heap) == ZELAMIKU_OK);
    IS(zelamiku_heap_open(&heap, "empty", &strict, &report), OK, "");
    MUST(report.is_made == 0 && zelamiku_heap_close(heap) == ZELAMIKU_OK);
}

/* Opens the heap, and sees what the report says of it. */
static void look_at_fingerprint(const zelamiku_plan *of, zelamiku_status expected, uint32_t difference, uint64_t has, uint64_t planned, int line) {
    zelamiku_heap heap;
    zelamiku_report report = {.size = sizeof report};
    char text[100] = "";
    if (difference == ZELAMIKU_DIFFERENT_FINGERPRINT)
        (void)snprintf(text, sizeof text, "the plan's fingerprint is %llu, the heap has %llu: its names or their order differ", (unsigned long long)planned,
                       (unsigned long long)has);
    zelamiku_status status = zelamiku_heap_open(&heap, "fingerprint", of, &report);
    look_at(status, expected, text, "the open of a heap with a fingerprint", line);
    bool is_so = report.difference == difference && report.has == has && report.planned == planned;
    if (expected == ZELAMIKU_OK) is_so = is_so && report.fields == of->count;
    if (!is_so) wrong++, fprintf(stderr, "line %d: difference %u, %llu and %llu\n", line, report.difference, (unsigned long long)report.has,
                                 (unsigned long long)report.planned);
    if (status == ZELAMIKU_OK) MUST(zelamiku_heap_close(heap) == ZELAMIKU_OK);
}

#define FINGERPRINT(plan, status, difference, has, planned) \
    look_at_fingerprint((plan), ZELAMIKU_##status, ZELAMIKU_##difference, (has), (planned), __LINE__)

static void fingerprints(void) {
    zelamiku_plan named = plan, other = plan, more = plan;
    zelamiku_field longer[FIELDS + 1], *most = (zelamiku_field *)calloc(16384, sizeof *most);
    zelamiku_heap heap;
    named.fingerprint = 77, other.fingerprint = UINT64_MAX;
    FINGERPRINT(&named, OK, SAME, 0, 0); /* made */
    FINGERPRINT(&named, OK, SAME, 0, 0);
    FINGERPRINT(&other, OTHER_HEAP, DIFFERENT_FINGERPRINT, 77, UINT64_MAX);
    FINGERPRINT(&plan, OTHER_HEAP, DIFFERENT_COUNT, FIELDS + 1, FIELDS);
    /* What else differs is told first. */
    memcpy(longer, fields, sizeof fields);
    longer[FIELDS] = (zelamiku_field){1, 1, 0, 0};
    more.fields = longer, more.count = FIELDS + 1, more.fingerprint = 5;
    FINGERPRINT(&more, OTHER_HEAP, DIFFERENT_OWNER, 0, 1);
    other.lanes = 7;
    FINGERPRINT(&other, OTHER_HEAP, DIFFERENT_LANES, 4, 7);
    /* A field more, which could be the fingerprint of the plan before. */
    longer[FIELDS] = (zelamiku_field){0, 0, 0, 1};
    FINGERPRINT(&more, OTHER_HEAP, DIFFERENT_FINGERPRINT, 77, 5);
    longer[FIELDS].first = 77;
    FINGERPRINT(&more, OK, SAME, 0, 0);
    more.fingerprint = 0;
    FINGERPRINT(&more, OK, SAME, 0, 0);
    /* A heap without one is any plan's that is its own otherwise. */
    MUST(unlink("fingerprint") == 0);
    FINGERPRINT(&plan, OK, SAME, 0, 0);
    FINGERPRINT(&named, OK, SAME, 0, 0);
    FINGERPRINT(&more, OTHER_HEAP, DIFFERENT_COUNT, FIELDS, FIELDS + 1);
    /* A last field that has another guard or owner, or isn't transient, is no fingerprint; and none is looked for in a plan of still fewer fields. */
    static const zelamiku_field OTHERS[] = {{0, 1, 77, 1}, {1, 0, 77, 1}, {0, 0, 77, 0}};
    for (uint32_t i = 0; i < sizeof OTHERS / sizeof *OTHERS; i++) {
        MUST(unlink("fingerprint") == 0);
        longer[FIELDS] = OTHERS[i];
        FINGERPRINT(&more, OK, SAME, 0, 0);
        FINGERPRINT(&named, OTHER_HEAP, DIFFERENT_COUNT, FIELDS + 1, FIELDS);
    }
    other = named, other.count = FIELDS - 1;
    FINGERPRINT(&other, OTHER_HEAP, DIFFERENT_COUNT, FIELDS + 1, FIELDS - 1);
    /* One field less may be planned. */
    MUST(most != NULL);
    more.fields = most, more.count = 16384, more.fingerprint = 1;
    IS(zelamiku_heap_open(&heap, "most", &more, NULL), BAD_ARGUMENT, "count of fields is 16384 in the plan; it may be 1 to 16383");
    more.count = 16383, more.objects = ZELAMIKU_MOST_OBJECTS;
    for (unsigned i = 0; i < 2; i++) IS(zelamiku_heap_open(&heap, "most", &more, NULL), OK, ""), IS(zelamiku_heap_close(heap), OK, "");
    free(most);
}

static void damaged(void) {
    zelamiku_heap heap;
    zelamiku_report report = {.size = sizeof report};
    MUST(zelamiku_heap_open(&heap, "damaged", &plan, NULL) == ZELAMIKU_OK && zelamiku_heap_close(heap) == ZELAMIKU_OK);
    static const struct {
        off_t at;
        uint8_t byte;
        uint32_t damage;
    } CASES[] = {{9, 77, ZELAMIKU_DAMAGED_HEADER}, {64, 0, ZELAMIKU_DAMAGED_CONTROL}, {20, 255, ZELAMIKU_DAMAGED_HEADER}};
    for (size_t i = 0; i < sizeof CASES / sizeof *CASES; i++) {
        uint8_t before[2];
        int file = open("damaged", O_RDWR | O_CLOEXEC);
        MUST(file >= 0 && pread(file, before, 1, CASES[i].at) == 1 && pread(file, before + 1, 1, 1112) == 1);
        uint8_t none = 0;
        MUST(pwrite(file, &CASES[i].byte, 1, CASES[i].at) == 1);
        if (CASES[i].at == 64) MUST(pwrite(file, &none, 1, 1112) == 1);
        IS(zelamiku_heap_open(&heap, "damaged", &plan, &report), DAMAGED_FILE, "take the back-up");
        MUST(report.damage == CASES[i].damage && report.bad_lane == ZELAMIKU_NOBODY);
        MUST(pwrite(file, before, 1, CASES[i].at) == 1 && pwrite(file, before + 1, 1, 1112) == 1 && close(file) == 0);
    }
    MUST(truncate("damaged", 2000) == 0);
    IS(zelamiku_heap_open(&heap, "damaged", &plan, &report), DAMAGED_FILE, "damaged: open: the bytes are fewer");
    MUST(report.damage == ZELAMIKU_DAMAGED_LENGTH);
}

/* ---- handles ---- */

/* Each call by a handle that is nothing. */
static void by_nobody(zelamiku_thread thread, zelamiku_status status, const char *text) {
    uint64_t value = 1, lanes = 1;
    uint32_t count = 1;
    int event = 1;
    bool is = true;
    zelamiku_sight sight;
#define ANSWERS(call) look_at((call), status, text, #call, __LINE__)
    ANSWERS(zelamiku_thread_enter(thread, 0));
    ANSWERS(zelamiku_thread_enter_until(thread, 0, 0));
    ANSWERS(zelamiku_thread_enter_until(thread, 0, 1));
    ANSWERS(zelamiku_thread_exit(thread, 0));
    ANSWERS(zelamiku_thread_load(thread, 0, &value));
    ANSWERS(zelamiku_thread_store(thread, 0, 1));
    ANSWERS(zelamiku_thread_revert(thread));
    ANSWERS(zelamiku_thread_wait(thread, 0));
    ANSWERS(zelamiku_thread_notify(thread, 0, false, &lanes));
    ANSWERS(zelamiku_thread_notify(thread, 0, true, NULL));
    ANSWERS(zelamiku_thread_take(thread, HEAD, SLOTS, &count));
    ANSWERS(zelamiku_thread_give(thread, HEAD, SLOTS, 0));
    ANSWERS(zelamiku_thread_look(thread, 0, &sight));
    MUST(value == 0 && lanes == 0 && sight.owner == ZELAMIKU_NOBODY);
    if (status == ZELAMIKU_NOTHING) {
        ANSWERS(zelamiku_thread_await(thread));
        ANSWERS(zelamiku_thread_await_until(thread, 3, 1, &is));
        ANSWERS(zelamiku_thread_event(thread, &event));
        ANSWERS(zelamiku_thread_ask(thread, &lanes));
        MUST(event == -1 && lanes == 0);
        MUST(!is);
    }
    zelamiku_progress found = {.size = sizeof found, .lane = 1, .sections = 1, .durable = 1, .earlier = 1, .is_open = 1, .end = 1};
    if (status == ZELAMIKU_NOTHING || status == ZELAMIKU_FORKED) {
        ANSWERS(zelamiku_thread_progress(thread, &found));
        MUST(found.lane == ZELAMIKU_NOBODY && found.sections == 0 && found.durable == 0 && found.earlier == 0 && found.is_open == 0 && found.end == 0);
    } else {
        MUST(zelamiku_thread_progress(thread, &found) == ZELAMIKU_OK && found.end == (uint32_t)status && found.lane < 3);
    }
    ANSWERS(zelamiku_thread_end(thread));
}

static void by_no_heap(zelamiku_heap heap, zelamiku_status status, const char *text) {
    zelamiku_thread thread = {1};
    zelamiku_stats stats = {.size = sizeof stats};
    uint64_t rounds = 1;
    zelamiku_dropped dropped = {.size = sizeof dropped};
    size_t told = 1;
    ANSWERS(zelamiku_thread_begin(&thread, heap));
    if (status == ZELAMIKU_NOTHING) {
        ANSWERS(zelamiku_heap_stats(heap, &stats));
        ANSWERS(zelamiku_heap_dropped(heap, 0, &dropped));
    }
    ANSWERS(zelamiku_heap_waits(heap, NULL, 0, &told));
    ANSWERS(zelamiku_heap_await_round(heap, 0, 1, &rounds));
    ANSWERS(zelamiku_heap_copy(heap, "copy"));
    ANSWERS(zelamiku_heap_close(heap));
    ANSWERS(zelamiku_heap_stop(heap, ZELAMIKU_CLOSED));
    ANSWERS(zelamiku_heap_stop(heap, ZELAMIKU_ABANDONED));
    MUST(thread.number == 0 && told == 0 && (status != ZELAMIKU_NOTHING || rounds == 0));
}

static void handles(void) {
    zelamiku_heap heap, second;
    zelamiku_thread own, other, garbage = {0x123456789abcdefu}, none = {0}, all_ones = {UINT64_MAX};
    by_nobody(none, ZELAMIKU_NOTHING, "nothing is open by this handle");
    by_nobody(garbage, ZELAMIKU_NOTHING, "nothing is open by this handle");
    by_nobody(all_ones, ZELAMIKU_NOTHING, "nothing is open by this handle");
    by_no_heap((zelamiku_heap){0}, ZELAMIKU_NOTHING, "nothing");
    by_no_heap((zelamiku_heap){12345}, ZELAMIKU_NOTHING, "nothing");
    MUST(zelamiku_heap_open(&heap, "handles", &plan, NULL) == ZELAMIKU_OK);
    by_nobody((zelamiku_thread){heap.number}, ZELAMIKU_NOTHING, "nothing");
    MUST(zelamiku_thread_begin(&own, heap) == ZELAMIKU_OK);
    by_no_heap((zelamiku_heap){own.number}, ZELAMIKU_NOTHING, "nothing");
    by_nobody((zelamiku_thread){own.number + 1}, ZELAMIKU_NOTHING, "nothing");
    /* Ended, and its lane lent again: the old handle stays nothing. */
    MUST(zelamiku_thread_end(own) == ZELAMIKU_OK);
    by_nobody(own, ZELAMIKU_NOTHING, "nothing");
    MUST(zelamiku_thread_begin(&other, heap) == ZELAMIKU_OK);
    by_nobody(own, ZELAMIKU_NOTHING, "nothing");
    /* The same file, by three names. */
    MUST(link("handles", "hard") == 0 && symlink("handles", "soft") == 0);
    IS(zelamiku_heap_open(&second, "handles", &plan, NULL), BUSY, "handles: open: this process has its heap open already");
    IS(zelamiku_heap_open(&second, "hard", &plan, NULL), BUSY, "this process has its heap open already");
    IS(zelamiku_heap_open(&second, "soft", &plan, NULL), BUSY, "this process has its heap open already");
    IS(zelamiku_heap_copy(heap, "handles"), BUSY, "a heap of that path is open");
    MUST(second.number == 0);
    zelamiku_thread third, fourth;
    MUST(zelamiku_thread_begin(&own, heap) == ZELAMIKU_OK && zelamiku_thread_begin(&third, heap) == ZELAMIKU_OK);
    IS(zelamiku_thread_begin(&fourth, heap), NONE_LEFT, "handles: begin: all lanes are in use");
    by_nobody(fourth, ZELAMIKU_NOTHING, "nothing");
    IS(zelamiku_thread_begin(NULL, heap), BAD_ARGUMENT, "NULL");
    IS(zelamiku_heap_stats(heap, NULL), BAD_ARGUMENT, "NULL");
    IS(zelamiku_heap_copy(heap, NULL), BAD_ARGUMENT, "NULL");
    IS(zelamiku_heap_await_round(heap, 0, 1, NULL), BAD_ARGUMENT, "NULL");
    IS(zelamiku_heap_dropped(heap, 0, NULL), BAD_ARGUMENT, "NULL");
    IS(zelamiku_heap_waits(heap, NULL, 0, NULL), BAD_ARGUMENT, "NULL");
    size_t told = 1;
    IS(zelamiku_heap_waits(heap, NULL, 1, &told), BAD_ARGUMENT, "NULL");
    IS(zelamiku_heap_stop(heap, ZELAMIKU_OK), BAD_ARGUMENT, "the reason is wrong; give ZELAMIKU_CLOSED or ZELAMIKU_ABANDONED");
    IS(zelamiku_heap_close(heap), OK, "");
    by_nobody(own, ZELAMIKU_CLOSED, "handles: ");
    by_nobody(third, ZELAMIKU_CLOSED, "the heap was closed or stopped");
    by_no_heap(heap, ZELAMIKU_CLOSED, "handles: ");
}

/* ---- a thread's calls ---- */

static unsigned lines; /* that the heap has logged */

static void count_line(void *of, uint32_t level, const char *text) {
    (void)of, (void)level, (void)text;
    lines++;
}

static void sections(void) {
    zelamiku_heap heap;
    zelamiku_thread own, other;
    uint64_t value = 5, lanes = 5;
    uint32_t slot = 0;
    bool is = true;
    zelamiku_plan logged = plan;
    logged.log = count_line;
    MUST(zelamiku_heap_open(&heap, "sections", &logged, NULL) == ZELAMIKU_OK);
    unsigned before = lines;
    MUST(zelamiku_thread_begin(&own, heap) == ZELAMIKU_OK && zelamiku_thread_begin(&other, heap) == ZELAMIKU_OK);
    IS(zelamiku_thread_load(own, 0, NULL), BAD_ARGUMENT, "NULL");
    IS(zelamiku_thread_progress(own, NULL), BAD_ARGUMENT, "NULL");
    IS(zelamiku_thread_take(own, HEAD, SLOTS, NULL), BAD_ARGUMENT, "NULL");
    IS(zelamiku_thread_look(own, 0, NULL), BAD_ARGUMENT, "NULL");
    IS(zelamiku_thread_await_until(own, 0, 0, NULL), BAD_ARGUMENT, "NULL");
    for (unsigned in = 0; in < 2; in++) {
        /* Without a monitor, and with another one. */
        if (in == 1) MUST(zelamiku_thread_enter(own, 2) == ZELAMIKU_OK);
        IS(zelamiku_thread_load(own, 0, &value), NOT_HELD, "sections: load field 0");
        IS(zelamiku_thread_load(own, FIELDS, &value), UNKNOWN_FIELD, "load field 13");
        IS(zelamiku_thread_store(own, 0, 1), NOT_HELD, "store field 0");
        IS(zelamiku_thread_store(own, UINT32_MAX, 1), UNKNOWN_FIELD, "store field 4294967295");
        IS(zelamiku_thread_exit(own, 0), NOT_HELD, "exit object 0");
        IS(zelamiku_thread_exit(own, OBJECTS), UNKNOWN_OBJECT, "exit object 20");
        IS(zelamiku_thread_wait(own, 0), NOT_HELD, "object 0");
        IS(zelamiku_thread_wait(own, OBJECTS), UNKNOWN_OBJECT, "object 20");
        for (unsigned all = 0; all < 2; all++) {
            IS(zelamiku_thread_notify(own, 0, all == 1, &lanes), NOT_HELD, "object 0");
            IS(zelamiku_thread_notify(own, OBJECTS, all == 1, &lanes), UNKNOWN_OBJECT, "object 20");
        }
        IS(zelamiku_thread_take(own, HEAD, SLOTS, &slot), NOT_HELD, "4");
        IS(zelamiku_thread_give(own, HEAD, SLOTS, 0), NOT_HELD, "");
        IS(zelamiku_thread_take(own, 99, SLOTS, &slot), UNKNOWN_FIELD, "99");
        IS(zelamiku_thread_enter(own, OBJECTS), UNKNOWN_OBJECT, "sections: enter object 20");
        IS(zelamiku_thread_enter_until(own, UINT32_MAX, 0), UNKNOWN_OBJECT, "object 4294967295");
        MUST(value == 0 && lanes == 0 && slot == ZELAMIKU_NO_NUMBER);
    }
    IS(zelamiku_thread_end(own), RUNNING, "sections: end: the thread holds a monitor; exit it before");
    IS(zelamiku_heap_close(heap), RUNNING, "sections: close: a section is open or a thread waits");
    IS(zelamiku_thread_enter_until(other, 2, 0), HELD, "");
    MUST(last_failure().status == ZELAMIKU_RUNNING); /* it is an answer, and no failure */
    IS(zelamiku_thread_enter_until(other, 2, zelamiku_now() + 1000000), HELD, "");
    IS(zelamiku_thread_exit(own, 2), OK, "");
    IS(zelamiku_thread_enter_until(other, 2, 1), OK, "");
    IS(zelamiku_thread_exit(other, 2), OK, "");
    IS(zelamiku_thread_await_until(own, ZELAMIKU_ALL_SECTIONS, 0, &is), OK, "");
    zelamiku_sight sight;
    IS(zelamiku_thread_look(own, OBJECTS, &sight), UNKNOWN_OBJECT, "look at object 20");
    MUST(lines == before); /* no wrong call is logged */
    IS(zelamiku_heap_close(heap), OK, "");
}

static void limits(void) {
    zelamiku_heap heap;
    zelamiku_thread own;
    uint32_t slot = 0;
    MUST(zelamiku_heap_open(&heap, "limits", &plan, NULL) == ZELAMIKU_OK && zelamiku_thread_begin(&own, heap) == ZELAMIKU_OK);
    for (uint32_t i = 0; i < ZELAMIKU_MOST_HELD; i++) MUST(zelamiku_thread_enter(own, i) == ZELAMIKU_OK);
    IS(zelamiku_thread_enter(own, 16), TOO_MANY, "limits: enter object 16: the thread holds 16 monitors");
    for (uint32_t i = 0; i < ZELAMIKU_MOST_HELD; i++) MUST(zelamiku_thread_exit(own, i) == ZELAMIKU_OK);
    MUST(zelamiku_thread_enter(own, 0) == ZELAMIKU_OK);
    zelamiku_status status = ZELAMIKU_OK;
    unsigned stores = 0;
    while ((status = zelamiku_thread_store(own, 0, stores)) == ZELAMIKU_OK && stores < 2000) stores++;
    look_at(status, ZELAMIKU_SECTION_FULL, "more than 1,000 records", "the last store", __LINE__);
    IS(zelamiku_thread_exit(own, 0), OK, "");
    MUST(zelamiku_thread_enter(own, 0) == ZELAMIKU_OK);
    for (uint32_t i = 1; (status = zelamiku_thread_enter(own, 0)) == ZELAMIKU_OK && i < 70000; i++) {}
    look_at(status, ZELAMIKU_TOO_DEEP, "65,536 locks", "the last enter", __LINE__);
    for (uint32_t i = 0; i < ZELAMIKU_MOST_LOCKS; i++) MUST(zelamiku_thread_exit(own, 0) == ZELAMIKU_OK);
    IS(zelamiku_thread_exit(own, 0), NOT_HELD, "exit object 0");
    /* A pool. */
    MUST(zelamiku_thread_enter(own, POOL) == ZELAMIKU_OK);
    IS(zelamiku_thread_give(own, HEAD, SLOTS, 0), NOT_TAKEN, "limits: give to the pool at field 4");
    IS(zelamiku_thread_give(own, HEAD, SLOTS, SLOTS), NOT_TAKEN, "field 4");
    for (uint32_t i = 0; i < SLOTS; i++) MUST(zelamiku_thread_take(own, HEAD, SLOTS, &slot) == ZELAMIKU_OK);
    IS(zelamiku_thread_take(own, HEAD, SLOTS, &slot), POOL_EMPTY, "");
    MUST(slot == ZELAMIKU_NO_NUMBER && zelamiku_thread_give(own, HEAD, SLOTS, 3) == ZELAMIKU_OK);
    IS(zelamiku_thread_give(own, HEAD, SLOTS, 3), NOT_TAKEN, "field 4");
    MUST(zelamiku_thread_store(own, HEAD, 1000) == ZELAMIKU_OK);
    IS(zelamiku_thread_take(own, HEAD, SLOTS, &slot), DAMAGED, "limits: take of the pool at field 4");
    IS(zelamiku_thread_give(own, HEAD, SLOTS, 0), DAMAGED, "give to the pool at field 4");
    /* A cell that names no slot. Fields that are no pool's: the thread doesn't hold all of their guards. */
    MUST(zelamiku_thread_store(own, HEAD, 4) == ZELAMIKU_OK && zelamiku_thread_store(own, HEAD + 4, 1000) == ZELAMIKU_OK);
    IS(zelamiku_thread_take(own, HEAD, SLOTS, &slot), DAMAGED, "field 4");
    MUST(zelamiku_thread_store(own, 1, 1) == ZELAMIKU_OK && zelamiku_thread_store(own, HEAD, UINT64_MAX) == ZELAMIKU_OK);
    IS(zelamiku_thread_take(own, 1, SLOTS, &slot), NOT_HELD, "take of the pool at field 1");
    IS(zelamiku_thread_give(own, 2, SLOTS, 1), NOT_HELD, "give to the pool at field 2");
    MUST(slot == ZELAMIKU_NO_NUMBER);
    IS(zelamiku_thread_exit(own, POOL), OK, "");
    IS(zelamiku_heap_close(heap), OK, "");
}

/* Copies that can't be. */
static void copies(void) {
    zelamiku_heap heap;
    MUST(zelamiku_heap_open(&heap, "copies", &plan, NULL) == ZELAMIKU_OK);
    MUST(mkdir("folder", 0700) == 0);
    IS(zelamiku_heap_copy(heap, "no such folder/copy"), DEVICE, "no such folder/copy: copy: the copy can't be written: No such file");
    IS(zelamiku_heap_copy(heap, "folder"), DEVICE, "Is a directory");
    IS(zelamiku_heap_copy(heap, ""), DEVICE, "");
    MUST(zelamiku_heap_close(heap) == ZELAMIKU_OK);
}

/* ---- ends ---- */

static void *hold(void *data) {
    zelamiku_thread own = *(zelamiku_thread *)data;
    MUST(zelamiku_thread_enter(own, 0) == ZELAMIKU_OK && zelamiku_thread_store(own, 0, 99) == ZELAMIKU_OK);
    return NULL; /* inside its section */
}

static void *sleeps_in_vain(void *data) {
    zelamiku_thread own = *(zelamiku_thread *)data;
    return (void *)(uintptr_t)zelamiku_thread_enter(own, 0);
}

/* A thread has ended inside its section. Those that wait for it go on, and the section is dropped. */
static void abandoned(void) {
    zelamiku_heap heap;
    zelamiku_thread dead, waiting, own;
    zelamiku_report report = {.size = sizeof report};
    pthread_t thread, waiter;
    void *answer;
    uint64_t value = 0;
    MUST(zelamiku_heap_open(&heap, "abandoned", &plan, NULL) == ZELAMIKU_OK && zelamiku_thread_begin(&dead, heap) == ZELAMIKU_OK);
    MUST(zelamiku_thread_begin(&waiting, heap) == ZELAMIKU_OK && zelamiku_thread_begin(&own, heap) == ZELAMIKU_OK);
    MUST(zelamiku_thread_enter(own, 1) == ZELAMIKU_OK && zelamiku_thread_store(own, 1, 7) == ZELAMIKU_OK);
    MUST(zelamiku_thread_exit(own, 1) == ZELAMIKU_OK && zelamiku_thread_enter(own, 2) == ZELAMIKU_OK);
    MUST(pthread_create(&thread, NULL, hold, &dead) == 0 && pthread_join(thread, NULL) == 0);
    MUST(pthread_create(&waiter, NULL, sleeps_in_vain, &waiting) == 0);
    while (stats_now(heap).entering == 0) {}
    IS(zelamiku_heap_close(heap), RUNNING, "or stop the heap");
    IS(zelamiku_heap_stop(heap, ZELAMIKU_ABANDONED), OK, "");
    MUST(pthread_join(waiter, &answer) == 0);
    look_at((zelamiku_status)(uintptr_t)answer, ZELAMIKU_ABANDONED, "", "an enter that slept", __LINE__);
    IS(zelamiku_thread_load(own, 2, &value), ABANDONED, "abandoned: load: the heap was abandoned; open it again");
    by_nobody(own, ZELAMIKU_ABANDONED, "the heap was abandoned");
    IS(zelamiku_thread_await(waiting), OK, ""); /* it has no section */
    by_nobody(dead, ZELAMIKU_ABANDONED, "the heap was abandoned");
    by_no_heap(heap, ZELAMIKU_ABANDONED, "abandoned");
    IS(zelamiku_heap_open(&heap, "abandoned", &plan, &report), OK, "");
    MUST(report.dropped == 2 && report.undone > 0 && zelamiku_thread_begin(&own, heap) == ZELAMIKU_OK);
    MUST(dropped_section(heap, 0).why == ZELAMIKU_NOT_ENDED && dropped_section(heap, 1).why == ZELAMIKU_NOT_ENDED);
    MUST(dropped_section(heap, 2).why == ZELAMIKU_NOT_DROPPED && dropped_section(heap, 2).lane == ZELAMIKU_NOBODY);
    MUST(zelamiku_thread_enter(own, 0) == ZELAMIKU_OK && zelamiku_thread_load(own, 0, &value) == ZELAMIKU_OK && value == 0);
    MUST(zelamiku_thread_enter(own, 1) == ZELAMIKU_OK && zelamiku_thread_load(own, 1, &value) == ZELAMIKU_OK && value == 7);
    IS(zelamiku_heap_stop(heap, ZELAMIKU_CLOSED), OK, "");
    by_nobody(own, ZELAMIKU_CLOSED, "closed or stopped");
}

/* In a child: its own files stay open in a child of its own, also one that has the number which the parent's heap had. */
static void fork_again(void) {
    int file = open("/dev/null", O_RDONLY), status = 1;
    bool has_input = fcntl(STDIN_FILENO, F_GETFD) >= 0;
    pid_t child = fork();
    MUST(file >= 0 && child >= 0);
    if (child == 0) _exit(fcntl(file, F_GETFD) >= 0 && (fcntl(STDIN_FILENO, F_GETFD) >= 0) == has_input ? 0 : 1);
    MUST(waitpid(child, &status, 0) == child && status == 0 && close(file) == 0);
}

/* In a child every call answers FORKED, also of a thread in its section, and the parent goes on. */
static void forks(void) {
    zelamiku_heap heap, other;
    zelamiku_thread own, busy;
    MUST(zelamiku_heap_open(&heap, "forks", &plan, NULL) == ZELAMIKU_OK && zelamiku_thread_begin(&own, heap) == ZELAMIKU_OK);
    MUST(zelamiku_thread_begin(&busy, heap) == ZELAMIKU_OK && zelamiku_thread_enter(busy, 0) == ZELAMIKU_OK);
    fflush(stdout);
    pid_t child = fork();
    MUST(child >= 0);
    if (child == 0) {
        wrong = 0;
        by_nobody(own, ZELAMIKU_FORKED, "forks: ");
        by_nobody(busy, ZELAMIKU_FORKED, "forks: ");
        by_no_heap(heap, ZELAMIKU_FORKED, "the heap belongs to the parent process");
        IS(zelamiku_thread_await(own), FORKED, "forks: await");
        IS(zelamiku_heap_open(&other, "forks", &plan, NULL), BUSY, "another process has the heap");
        IS(zelamiku_heap_open(&other, "child", &plan, NULL), OK, "");
        IS(zelamiku_heap_close(other), OK, "");
        fork_again();
        _exit(wrong == 0 ? 0 : 1);
    }
    int status = 1;
    MUST(waitpid(child, &status, 0) == child && status == 0);
    MUST(zelamiku_thread_store(busy, 0, 5) == ZELAMIKU_OK && zelamiku_thread_exit(busy, 0) == ZELAMIKU_OK);
    MUST(zelamiku_thread_await(busy) == ZELAMIKU_OK && zelamiku_heap_close(heap) == ZELAMIKU_OK);
    /* A child that lives on keeps no lock. */
    MUST(zelamiku_heap_open(&heap, "forks", &plan, NULL) == ZELAMIKU_OK);
    child = fork();
    MUST(child >= 0);
    if (child == 0) _exit(sleep(1) == 0 ? 0 : 1);
    MUST(zelamiku_heap_close(heap) == ZELAMIKU_OK);
    IS(zelamiku_heap_open(&heap, "forks", &plan, NULL), OK, "");
    MUST(zelamiku_heap_close(heap) == ZELAMIKU_OK && waitpid(child, &status, 0) == child && status == 0);
}

/* In a program that was started without standard streams, and may have no other descriptors, or has the only other one in use: nothing is made,
 * and nothing that is there goes. */
static bool opens_nothing(bool is_there) {
    zelamiku_heap heap;
    struct rlimit before, few;
    bool is_well = getrlimit(RLIMIT_NOFILE, &before) == 0;
    int other = fcntl(open("/dev/null", O_RDONLY | O_CLOEXEC), F_DUPFD_CLOEXEC, STDERR_FILENO + 1);
    (void)close(STDIN_FILENO);
    for (int most = STDERR_FILENO + 1; most <= other + 1; most++) {
        few = before, few.rlim_cur = (rlim_t)most;
        is_well &= setrlimit(RLIMIT_NOFILE, &few) == 0 && zelamiku_heap_open(&heap, "streams", &plan, NULL) == ZELAMIKU_DEVICE;
        is_well &= last_failure().error == EMFILE && strstr(zelamiku_heap_failure(NULL), "close some files, or allow more of them") != NULL;
    }
    is_well &= (access("streams", F_OK) == 0) == is_there && access("streams.heapctl-new", F_OK) != 0;
    return is_well && setrlimit(RLIMIT_NOFILE, &before) == 0 && close(other) == 0;
}

/* How many descriptors a program would have too that this one executes. */
static unsigned inherited(void) {
    unsigned count = 0;
    for (int file = 0; file < 256; file++) {
        int flags = fcntl(file, F_GETFD);
        count += flags >= 0 && (flags & FD_CLOEXEC) == 0;
    }
    return count;
}

/* What a program without standard streams prints goes nowhere, and not into the heap. */
static bool prints_nowhere(void) {
    zelamiku_heap heap;
    zelamiku_thread own;
    int event = -1;
    for (int stream = 0; stream <= STDERR_FILENO; stream++) (void)close(stream);
    unsigned before = inherited();
    bool is_well = opens_nothing(false);
    is_well &= zelamiku_heap_open(&heap, "streams", &plan, NULL) == ZELAMIKU_OK && zelamiku_thread_begin(&own, heap) == ZELAMIKU_OK;
    is_well &= zelamiku_thread_event(own, &event) == ZELAMIKU_OK && event > STDERR_FILENO;
    for (int stream = 0; stream <= STDERR_FILENO; stream++) is_well &= write(stream, "told", 4) == -1;
    is_well &= inherited() == before;
    is_well &= zelamiku_heap_copy(heap, "streams' copy") == ZELAMIKU_OK && zelamiku_thread_end(own) == ZELAMIKU_OK;
    return is_well && zelamiku_heap_close(heap) == ZELAMIKU_OK && opens_nothing(true);
}

static void no_streams(void) {
    zelamiku_heap heap;
    int status = 1;
    fflush(stdout);
    pid_t child = fork();
    MUST(child >= 0);
    if (child == 0) _exit(prints_nowhere() ? 0 : 1);
    MUST(waitpid(child, &status, 0) == child && status == 0);
    IS(zelamiku_heap_open(&heap, "streams", &plan, NULL), OK, "");
    MUST(zelamiku_heap_close(heap) == ZELAMIKU_OK);
}

/* ---- hosts ---- */

static bool is_no_shape(const zelamiku_shape *it) {
    return it->size == 0 && it->zeros_from == 0 && it->objects == 0 && it->fields == 0 && it->lanes == 0 && it->capacity == 0 && it->is_damaged == 0;
}

/* The shape of the image of which docs/FORMAT.md shows the header, and what other first bytes say. */
static void heads(void) {
    static const uint8_t HEADER[32] = {'M', 'O', 'N', 'I', 'H', 'E', 'A', 'P', 0xa5, 2, 0, 0, 0, 0, 0,    4,
                                       0,   0,   0,   2,   0,   0,   0xf, 0xa0, 0,   0, 0, 0, 0, 1, 0xfc, 0xa0};
    static uint8_t begun[ZELAMIKU_HEAD_BYTES];
    zelamiku_shape shape = {1, 1, 1, 1, 1, 1, 1};
    calls += 10;
    MUST(zelamiku_head(begun, sizeof begun, &shape) == ZELAMIKU_NOT_FORMATTED && is_no_shape(&shape));
    memcpy(begun, HEADER, sizeof HEADER);
    MUST(zelamiku_head(begun, sizeof begun, &shape) == ZELAMIKU_OK && shape.size == 130208 && shape.zeros_from == 0);
    MUST(shape.objects == 4 && shape.fields == 2 && shape.lanes == 2 && shape.capacity == 4000 && shape.is_damaged == 0);
    MUST(zelamiku_head(begun, sizeof begun - 1, &shape) == ZELAMIKU_TOO_SMALL && shape.size == 0);
    MUST(zelamiku_head(begun, 0, &shape) == ZELAMIKU_TOO_SMALL);
    begun[31] ^= 1; /* it isn't the size of such an image */
    MUST(zelamiku_head(begun, sizeof begun, &shape) == ZELAMIKU_BAD_HEADER && shape.size == 0 && shape.lanes == 0 && shape.is_damaged == 1);
    begun[31] ^= 1;
    begun[8] = 0; /* a closed gate, and no control: its making was cut off */
    MUST(zelamiku_head(begun, sizeof begun, &shape) == ZELAMIKU_NOT_FORMATTED && shape.is_damaged == 0 && shape.zeros_from == 2160 + 24 * 2);
    begun[1112] = 0xa5;
    MUST(zelamiku_head(begun, sizeof begun, &shape) == ZELAMIKU_NOT_FORMATTED && shape.is_damaged == 0 && shape.zeros_from == 2160 + 24 * 2);
    begun[1127] = 1; /* the sequence of a control that counts */
    MUST(zelamiku_head(begun, sizeof begun, &shape) == ZELAMIKU_NOT_FORMATTED && shape.is_damaged == 1 && shape.zeros_from == 0);
    begun[0] = 'm';
    MUST(zelamiku_head(begun, sizeof begun, &shape) == ZELAMIKU_NOT_FORMATTED && is_no_shape(&shape));
}

/* What a heap has is what it was made of; of no other handle anything is told. */
static void shapes(void) {
    zelamiku_handle handle = ZELAMIKU_NONE, session = ZELAMIKU_NONE;
    zelamiku_field told[FIELDS + 1];
    zelamiku_shape shape = {1, 1, 1, 1, 1, 1, 1};
    uint64_t size = 0;
    calls += 10;
    memset(told, 0xff, sizeof told);
    MUST(zelamiku_fields(&handle, &shape, told, FIELDS) == ZELAMIKU_NOTHING && is_no_shape(&shape));
    MUST(zelamiku_format(&handle, OBJECTS, fields, FIELDS, 3, 2000, 1, ZELAMIKU_LEAST_RING, &size) == ZELAMIKU_OK);
    MUST(zelamiku_session(&handle, &session) == ZELAMIKU_OK);
    /* The last of its three lanes is the helper's. */
    zelamiku_handle second = ZELAMIKU_NONE, third = ZELAMIKU_NONE;
    uint64_t sections = 1;
    MUST(zelamiku_session(&handle, &second) == ZELAMIKU_OK && zelamiku_session(&handle, &third) == ZELAMIKU_NONE_LEFT);
    MUST(zelamiku_acknowledged(&handle, 2, &sections) == ZELAMIKU_BAD_LANE && sections == 0);
    MUST(zelamiku_end(&second) == ZELAMIKU_OK);
    zelamiku_free(&second);
    MUST(zelamiku_fields(&session, &shape, told, FIELDS) == ZELAMIKU_WRONG_KIND && shape.lanes == 0 && told[0].owner == UINT32_MAX);
    MUST(zelamiku_fields(&handle, &shape, told, 0) == ZELAMIKU_OK && told[0].owner == UINT32_MAX);
    MUST(shape.size == size && shape.objects == OBJECTS && shape.fields == FIELDS && shape.lanes == 3 && shape.capacity == 2000);
    MUST(zelamiku_fields(&handle, &shape, told, FIELDS + 1) == ZELAMIKU_OK);
    for (unsigned i = 0; i < FIELDS; i++)
        MUST(told[i].owner == fields[i].owner && told[i].guard == fields[i].guard && told[i].first == fields[i].first &&
             told[i].is_transient == (fields[i].is_transient != 0));
    MUST(told[FIELDS].owner == 0 && told[FIELDS].guard == 0 && told[FIELDS].first == 0 && told[FIELDS].is_transient == 0);
    MUST(zelamiku_end(&session) == ZELAMIKU_OK);
    MUST(zelamiku_close(&handle) == ZELAMIKU_OK && zelamiku_fields(&handle, &shape, told, 1) == ZELAMIKU_CLOSED && shape.size == 0);
    zelamiku_free(&session);
    zelamiku_free(&handle);
    MUST(zelamiku_format(&handle, OBJECTS, fields, FIELDS, 3, 2000, 3, ZELAMIKU_LEAST_RING - 1, &size) == ZELAMIKU_RING && size == 0);
    MUST(zelamiku_format(&handle, OBJECTS, fields, FIELDS, 3, 2000, 3, ZELAMIKU_MOST_RING + 1, &size) == ZELAMIKU_RING && !handle.is_open);
}

/* As many heaps as there may be are open, and then one too many. Each is asked what it dropped, and leaves its place when it is closed. */
static void open_all(const zelamiku_plan *small) {
    zelamiku_heap heaps[ZELAMIKU_MOST_HEAPS];
    unsigned count = 0;
    zelamiku_status status = ZELAMIKU_OK;
    for (; count < ZELAMIKU_MOST_HEAPS; count++) {
        char name[32];
        (void)snprintf(name, sizeof name, "many-%u", count);
        status = zelamiku_heap_open(&heaps[count], name, small, NULL);
        if (status != ZELAMIKU_OK) break;
        MUST(dropped_section(heaps[count], 0).why == ZELAMIKU_NOT_DROPPED);
        /* A lane knows nothing of the heap that had its place before. */
        zelamiku_thread own;
        zelamiku_progress found = {.size = sizeof found};
        MUST(zelamiku_thread_begin(&own, heaps[count]) == ZELAMIKU_OK && zelamiku_thread_progress(own, &found) == ZELAMIKU_OK && found.is_open == 0);
        MUST(zelamiku_thread_end(own) == ZELAMIKU_OK);
    }
    look_at(status, ZELAMIKU_NONE_LEFT, "255 heaps are open; close one", "one heap too many", __LINE__);
    MUST(count == ZELAMIKU_MOST_HEAPS - 1);
    for (unsigned i = 0; i < count; i++) MUST(zelamiku_heap_close(heaps[i]) == ZELAMIKU_OK);
}

/* A full disk leaves no file. */
static void full(void) {
    zelamiku_heap heap;
    zelamiku_plan small = {.size = sizeof(zelamiku_plan), .fields = fields, .count = 1, .objects = 1, .lanes = 1, .capacity = 2000};
    struct rlimit before, most;
    struct stat info;
    MUST(getrlimit(RLIMIT_FSIZE, &before) == 0);
    most = before, most.rlim_cur = 10000;
    MUST(setrlimit(RLIMIT_FSIZE, &most) == 0 && signal(SIGXFSZ, SIG_IGN) != SIG_ERR);
    IS(zelamiku_heap_open(&heap, "full", &small, NULL), DEVICE, "full: open: a heap can't be made in it: File too large");
    MUST(access("full", F_OK) != 0);
    write_file("full", "", 0);
    IS(zelamiku_heap_open(&heap, "full", &small, NULL), DEVICE, "File too large");
    MUST(stat("full", &info) == 0 && info.st_size == 0);
    MUST(setrlimit(RLIMIT_FSIZE, &before) == 0);
    open_all(&small);
    /* A section that the heap's end cuts off. */
    zelamiku_thread own;
    MUST(zelamiku_heap_open(&heap, "cut off", &small, NULL) == ZELAMIKU_OK && zelamiku_thread_begin(&own, heap) == ZELAMIKU_OK);
    MUST(zelamiku_thread_enter(own, 0) == ZELAMIKU_OK && zelamiku_heap_stop(heap, ZELAMIKU_CLOSED) == ZELAMIKU_OK);
    MUST(zelamiku_thread_exit(own, 0) == ZELAMIKU_CLOSED && zelamiku_thread_end(own) == ZELAMIKU_CLOSED);
    open_all(&small);
    /* A heap that was made and closed keeps no memory, but its path until another one has its place. Threads that have ended may take a moment. */
    size_t used = mallinfo2().uordblks;
    for (unsigned i = 0; i < 100; i++)
        MUST(zelamiku_heap_open(&heap, "memory", &plan, NULL) == ZELAMIKU_OK && zelamiku_heap_close(heap) == ZELAMIKU_OK && unlink("memory") == 0);
    UNTIL(mallinfo2().uordblks < used + 15000);
}

int main(int argc, char **argv) {
    MUST(argc == 2 && chdir(argv[1]) == 0 && mkdir("wrong calls", 0755) == 0 && chdir("wrong calls") == 0);
    prepare();
    bad_plans();
    bad_paths();
    other_files();
    other_plans();
    must_exist();
    fingerprints();
    damaged();
    heads();
    shapes();
    handles();
    sections();
    limits();
    /* The same in a heap that keeps what its sections change. */
    plan.reverts = 1;
    MUST(unlink("sections") == 0 && unlink("limits") == 0);
    sections();
    limits();
    copies();
    abandoned();
    forks();
    no_streams();
    full();
    printf("wrong calls: %u, of which %u were answered wrongly\n", calls, wrong);
    return wrong == 0 ? 0 : 1;
}
