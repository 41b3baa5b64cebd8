/* Programs and libraries of two releases. The Makefile builds this test, and the library's C, with the header as it is and with that of tomorrow:
 * each struct that knows its size has one member more there, `later`. The program of yesterday runs over the library of tomorrow, and the other
 * way round. No byte beyond a struct of the program is read or written.
 *
 *     sizes FOLDER     LATER: this program has the later header. LIBRARY_KNOWS_LATER: the library has it */
#include <string.h>
#include "memory.h"
#include "must.h"

enum { SIZE = 1 << 18, GUARDED = 64 };
static const zelamiku_field FIELDS[] = {{0, 0, 5, 0}};
static memory held;

/* A struct of the program's, and bytes beyond it that nobody may change. */
#define GUARD(type, name) \
    struct { \
        type is; \
        uint8_t beyond[GUARDED]; \
    } name; \
    memset(&name, 0x5a, sizeof name); \
    name.is.size = sizeof(type)
#define IS_WHOLE(name) MUST(is_untouched(name.beyond))

static bool is_untouched(const uint8_t *bytes) {
    for (int i = 0; i < GUARDED; i++)
        if (bytes[i] != 0x5a) return false;
    return true;
}

/* What this library doesn't know of a struct that it fills in is 0. */
#if defined LATER
#define LATER_IS_ZERO(name) MUST(name.is.later == 0)
#else
#define LATER_IS_ZERO(name) ((void)0)
#endif

static zelamiku_heap open_it(const zelamiku_plan *plan) {
    zelamiku_heap heap;
    GUARD(zelamiku_report, report);
    OK(zelamiku_heap_open(&heap, "sizes", plan, &report.is));
    IS_WHOLE(report);
    LATER_IS_ZERO(report);
    MUST(report.is.objects == 1 && report.is.lanes == 2 && report.is.size == sizeof(zelamiku_report));
    return heap;
}

/* Each struct that the library fills in, over a heap of which a section was cut off. */
static void fills_in(const zelamiku_plan *plan) {
    zelamiku_thread own;
    uint64_t value = 0;
    zelamiku_heap heap = open_it(plan);
    OK(zelamiku_thread_begin(&own, heap));
    OK(zelamiku_thread_enter(own, 0));
    OK(zelamiku_thread_store(own, 0, 6));
    OK(zelamiku_heap_stop(heap, ZELAMIKU_ABANDONED));
    MUST(zelamiku_thread_exit(own, 0) == ZELAMIKU_ABANDONED);
    heap = open_it(plan);
    GUARD(zelamiku_dropped, dropped);
    OK(zelamiku_heap_dropped(heap, 0, &dropped.is));
    IS_WHOLE(dropped);
    LATER_IS_ZERO(dropped);
    MUST(dropped.is.why == ZELAMIKU_NOT_ENDED && dropped.is.section == 1 && dropped.is.lane == 0 && dropped.is.other_lane == ZELAMIKU_NOBODY);
    OK(zelamiku_thread_begin(&own, heap));
    OK(zelamiku_thread_enter(own, 0));
    OK(zelamiku_thread_load(own, 0, &value));
    OK(zelamiku_thread_exit(own, 0));
    GUARD(zelamiku_progress, found);
    OK(zelamiku_thread_progress(own, &found.is));
    IS_WHOLE(found);
    LATER_IS_ZERO(found);
    MUST(value == 5 && found.is.sections == 1 && found.is.lane == 0 && found.is.is_open == 0 && found.is.end == ZELAMIKU_OK);
    GUARD(zelamiku_stats, stats);
    OK(zelamiku_heap_stats(heap, &stats.is));
    IS_WHOLE(stats);
    LATER_IS_ZERO(stats);
    MUST(stats.is.lent == 1 && stats.is.size == sizeof(zelamiku_stats));
    MUST(zelamiku_thread_load(own, 0, &value) == ZELAMIKU_NOT_HELD);
    GUARD(zelamiku_failure, failure);
    MUST(strcmp(zelamiku_heap_failure(&failure.is), "sizes: load field 0: the thread doesn't hold the monitor; enter the object, or the field's guard, first") == 0);
    IS_WHOLE(failure);
    LATER_IS_ZERO(failure);
    MUST(failure.is.status == ZELAMIKU_NOT_HELD && failure.is.error == 0 && failure.is.field == 0 && failure.is.object == ZELAMIKU_NO_NUMBER);
    MUST(strcmp(failure.is.path, "sizes") == 0 && strcmp(failure.is.call, "load field 0") == 0 && strstr(failure.is.cure, "enter the object") == failure.is.cure);
    MUST(strcmp(failure.is.cause, "the thread doesn't hold the monitor") == 0);
    OK(zelamiku_heap_close(heap));
}

/* Sizes that no program has, of each struct: refused, and nothing is written. */
static void wrong_sizes(zelamiku_plan *plan, zelamiku_device *device) {
    static const uint32_t WRONG[] = {0, 4, 8, 4097, UINT32_MAX};
    zelamiku_heap heap;
    for (size_t i = 0; i < sizeof WRONG / sizeof *WRONG; i++) {
        GUARD(zelamiku_report, report);
        report.is.size = WRONG[i];
        MUST(zelamiku_heap_open(&heap, "sizes", plan, &report.is) == ZELAMIKU_BAD_ARGUMENT && report.is.is_made == 0x5a5a5a5a && heap.number == 0);
        MUST(strstr(zelamiku_heap_failure(NULL), "set its size to sizeof(zelamiku_report)") != NULL);
        plan->size = WRONG[i];
        MUST(zelamiku_heap_open(&heap, "sizes", plan, NULL) == ZELAMIKU_BAD_ARGUMENT);
        plan->size = sizeof *plan;
        device->size = WRONG[i];
        MUST(zelamiku_heap_open(&heap, "sizes", plan, NULL) == ZELAMIKU_BAD_ARGUMENT);
        MUST(strstr(zelamiku_heap_failure(NULL), "sizeof(zelamiku_device)") != NULL);
        device->size = sizeof *device;
        zelamiku_stats stats = {.size = WRONG[i], .rounds = 7};
        zelamiku_dropped dropped = {.size = WRONG[i], .section = 7};
        zelamiku_progress found = {.size = WRONG[i], .sections = 7};
        zelamiku_failure failure = {.size = WRONG[i], .error = 7};
        MUST(zelamiku_heap_stats(heap, &stats) == ZELAMIKU_BAD_ARGUMENT && stats.rounds == 7);
        MUST(zelamiku_heap_dropped(heap, 0, &dropped) == ZELAMIKU_BAD_ARGUMENT && dropped.section == 7);
        MUST(zelamiku_thread_progress((zelamiku_thread){0}, &found) == ZELAMIKU_BAD_ARGUMENT && found.sections == 7);
        MUST(zelamiku_heap_failure(&failure) == NULL && failure.error == 7);
    }
}

/* A member that the library doesn't know may not be set. */
static void later_members(zelamiku_plan *plan, zelamiku_device *device) {
#if defined LIBRARY_KNOWS_LATER
    zelamiku_status expected = ZELAMIKU_OK;
#else
    zelamiku_status expected = ZELAMIKU_BAD_ARGUMENT;
#endif
    zelamiku_heap heap;
#if defined LATER
    plan->later = 1;
    MUST(zelamiku_heap_open(&heap, "sizes", plan, NULL) == expected && (expected != ZELAMIKU_OK || zelamiku_heap_close(heap) == ZELAMIKU_OK));
    plan->later = 0;
    device->later = (uint64_t)1 << 63;
    MUST(zelamiku_heap_open(&heap, "sizes", plan, NULL) == expected && (expected != ZELAMIKU_OK || zelamiku_heap_close(heap) == ZELAMIKU_OK));
    device->later = 0;
#else
    struct {
        zelamiku_plan is;
        uint64_t later;
    } larger = {*plan, 0};
    struct {
        zelamiku_stats is;
        uint64_t later;
    } stats = {{.size = sizeof stats}, 7};
    larger.is.size = sizeof larger;
    OK(zelamiku_heap_open(&heap, "sizes", &larger.is, NULL));
    OK(zelamiku_heap_stats(heap, &stats.is));
    OK(zelamiku_heap_close(heap));
    MUST(stats.later == 0 && stats.is.size == sizeof stats);
    struct {
        zelamiku_device is;
        uint8_t later[4096 - sizeof(zelamiku_device)];
    } largest = {*device, {0}};
    largest.is.size = sizeof largest, larger.is.device = &largest.is;
    OK(zelamiku_heap_open(&heap, "sizes", &larger.is, NULL));
    OK(zelamiku_heap_close(heap));
    larger.later = 1;
    MUST(zelamiku_heap_open(&heap, "sizes", &larger.is, NULL) == expected && (expected != ZELAMIKU_OK || zelamiku_heap_close(heap) == ZELAMIKU_OK));
#endif
}

int main(int argc, char **argv) {
    MUST(argc == 2 && chdir(argv[1]) == 0);
    held = new_memory(SIZE);
    GUARD(zelamiku_device, device);
    GUARD(zelamiku_plan, plan);
    device.is = device_of(&held);
    memset(&plan.is, 0, sizeof plan.is);
    plan.is.size = sizeof plan.is, plan.is.fields = FIELDS, plan.is.count = 1, plan.is.objects = 1, plan.is.lanes = 2, plan.is.capacity = 2000;
    zelamiku_failure none = {.size = sizeof none, .error = 7};
    MUST(strcmp(zelamiku_heap_failure(&none), "") == 0 && none.status == ZELAMIKU_OK && none.error == 0 && strcmp(none.cure, "") == 0);
    plan.is.device = &device.is;
    wrong_sizes(&plan.is, &device.is);
    later_members(&plan.is, &device.is);
    fills_in(&plan.is);
    IS_WHOLE(plan);
    IS_WHOLE(device);
    free_memory(&held);
    puts("sizes: structs of fewer and of more members, sizes that no program has");
    return 0;
}
