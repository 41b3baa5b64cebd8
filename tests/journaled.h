/* Included before an example in C is compiled: the heap that it makes gets a journal, and once it has closed it, it says how many rounds took one sync. */
#include <stdio.h>
#include "zelamiku.h"

static inline zelamiku_status open_with_journal(zelamiku_heap *heap, const char *path, const zelamiku_plan *plan, zelamiku_report *report) {
    zelamiku_plan with = *plan;
    with.atomic_sectors = 1;
    return zelamiku_heap_open(heap, path, &with, report);
}

static inline zelamiku_status close_and_tell(zelamiku_heap heap) {
    zelamiku_stats stats = {.size = sizeof stats};
    zelamiku_status status = zelamiku_heap_close(heap);
    if (zelamiku_heap_stats(heap, &stats) == ZELAMIKU_OK) printf("rounds of one sync %llu\n", (unsigned long long)stats.one_sync_rounds);
    return status;
}

#define zelamiku_heap_open open_with_journal
#define zelamiku_heap_close close_and_tell
