/* For names.sh: opens the heap at the path, or makes it, again where that fails once; adds so many sections, each of which is acknowledged; and
 * prints what the heap has then. It doesn't close the heap: a power cut comes next.
 *
 *     names PATH COUNT */
#include "must.h"

int main(int argc, char **argv) {
    const zelamiku_field field = {0, 0, 0, 0};
    const zelamiku_plan plan = {.size = sizeof(zelamiku_plan), .fields = &field, .count = 1, .objects = 1, .lanes = 1, .capacity = 2000, .ring = 4096};
    zelamiku_heap heap;
    zelamiku_thread own;
    uint64_t value = 0;
    MUST(argc == 3);
    zelamiku_status status = zelamiku_heap_open(&heap, argv[1], &plan, NULL);
    if (status == ZELAMIKU_DEVICE) status = zelamiku_heap_open(&heap, argv[1], &plan, NULL);
    OK(status);
    OK(zelamiku_thread_begin(&own, heap));
    for (unsigned long left = strtoul(argv[2], NULL, 10);; left--) {
        OK(zelamiku_thread_enter(own, 0));
        OK(zelamiku_thread_load(own, 0, &value));
        if (left > 0) OK(zelamiku_thread_store(own, 0, ++value));
        OK(zelamiku_thread_exit(own, 0));
        OK(zelamiku_thread_await(own));
        if (left == 0) break;
    }
    printf("%llu\n", (unsigned long long)value);
    (void)fflush(stdout);
    _exit(0);
}
