/* A device in memory, for tests: what was written, and what a sync has made durable of it. */
#ifndef MEMORY_H
#define MEMORY_H
#include <stdlib.h>
#include <string.h>
#include "zelamiku.h"

typedef struct {
    uint8_t *now, *durable;
    uint64_t size;
} memory;

static inline zelamiku_status memory_read(void *context, uint64_t at, void *bytes, size_t size) {
    memcpy(bytes, ((memory *)context)->now + at, size);
    return ZELAMIKU_OK;
}

static inline zelamiku_status memory_write(void *context, uint64_t at, const void *bytes, size_t size) {
    memory *of = (memory *)context;
    if (size > of->size || at > of->size - size) abort();
    memcpy(of->now + at, bytes, size);
    return ZELAMIKU_OK;
}

static inline zelamiku_status memory_sync(void *context) {
    memory *of = (memory *)context;
    memcpy(of->durable, of->now, of->size);
    return ZELAMIKU_OK;
}

static inline zelamiku_status memory_length(void *context, uint64_t *length) {
    *length = ((memory *)context)->size;
    return ZELAMIKU_OK;
}

static inline memory new_memory(uint64_t size) {
    memory of = {(uint8_t *)calloc(1, size), (uint8_t *)calloc(1, size), size};
    if (of.now == NULL || of.durable == NULL) abort();
    return of;
}

static inline void free_memory(memory *of) {
    free(of->now);
    free(of->durable);
}

static inline zelamiku_device device_of(memory *of) {
    zelamiku_device device = {.size = sizeof device, .read = memory_read, .write = memory_write, .sync = memory_sync, .length = memory_length, .context = of};
    return device;
}

static inline zelamiku_status open_on(zelamiku_heap *heap, const char *name, const zelamiku_device *device, const zelamiku_plan *plan,
                                      zelamiku_report *report) {
    zelamiku_plan with = *plan;
    with.device = device;
    return zelamiku_heap_open(heap, name, &with, report);
}
#endif
