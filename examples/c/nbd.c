/* A heap on an NBD export, by a device of the program's own: the four functions of zelamiku_device over libnbd. Where the kernel has NBD,
 * `nbd-client` makes a block device of an export, and zelamiku_heap_open takes its path without any code.
 *
 *     nbd SOCKET [COUNTS]      counts so often (100) in the heap on the export of this Unix socket, each count durable, and prints the counter
 *
 *     cc nbd.c $(pkg-config --cflags --libs zelamiku libnbd) -o nbd
 *     nbdkit -U counter.sock --filter=limit memory 4M limit=1
 *     ./nbd counter.sock
 *
 * NBD has no lease, so one client at a time (`limit=1`): docs/EMBEDDING.md, "Another machine". */
#include <errno.h>
#include <inttypes.h>
#include <libnbd.h>
#include <stdio.h>
#include <stdlib.h>
#include "zelamiku.h"

/* What a request has returned. The errno of libnbd is the heap's cause. */
static zelamiku_status status_of(int result, zelamiku_status failed) {
    if (result == 0) return ZELAMIKU_OK;
    errno = nbd_get_errno() != 0 ? nbd_get_errno() : EIO;
    return failed;
}

static zelamiku_status read_export(void *nbd, uint64_t at, void *bytes, size_t size) {
    return status_of(nbd_pread(nbd, bytes, size, at, 0), ZELAMIKU_DEVICE);
}

/* A write that the server has refused is made again. One that a lost connection has cut off may still come, so the heap ends. */
static zelamiku_status write_export(void *nbd, uint64_t at, const void *bytes, size_t size) {
    return status_of(nbd_pwrite(nbd, bytes, size, at, 0), nbd_aio_is_ready(nbd) > 0 ? ZELAMIKU_DEVICE : ZELAMIKU_LOST);
}

/* What was written before a flush that has failed may be gone from the server, and isn't kept here: LOST. */
static zelamiku_status sync_export(void *nbd) {
    return status_of(nbd_flush(nbd, 0), ZELAMIKU_LOST);
}

static zelamiku_status length_of_export(void *nbd, uint64_t *length) {
    int64_t found = nbd_get_size(nbd);
    *length = found > 0 ? (uint64_t)found : 0;
    return status_of(found > 0 ? 0 : -1, ZELAMIKU_DEVICE);
}

static void must(zelamiku_status status) {
    if (status == ZELAMIKU_OK) return;
    fprintf(stderr, "%s\n", zelamiku_heap_failure(NULL));
    exit(2);
}

int main(int argc, char **argv) {
    struct nbd_handle *nbd = nbd_create();
    if (argc < 2 || nbd == NULL || nbd_connect_unix(nbd, argv[1]) != 0 || nbd_can_flush(nbd) != 1) {
        fprintf(stderr, "nbd SOCKET [COUNTS]: %s\n", argc < 2 ? "give a socket" : nbd_get_error() != NULL ? nbd_get_error() : "it can't be flushed");
        return 2;
    }
    const zelamiku_device device = {sizeof(zelamiku_device), read_export, write_export, sync_export, length_of_export, nbd};
    const zelamiku_field fields[] = {{.owner = 0, .guard = 0}};
    const zelamiku_plan plan = {.size = sizeof(zelamiku_plan), .fields = fields, .count = 1, .objects = 1, .lanes = 1, .capacity = 4096,
                                .device = &device};
    zelamiku_heap heap;
    zelamiku_thread own;
    uint64_t value = 0;
    must(zelamiku_heap_open(&heap, argv[1], &plan, NULL));
    must(zelamiku_thread_begin(&own, heap));
    for (long left = argc > 2 ? atol(argv[2]) : 100; left > 0; left--) {
        must(zelamiku_thread_enter(own, 0));
        must(zelamiku_thread_load(own, 0, &value));
        must(zelamiku_thread_store(own, 0, ++value));
        must(zelamiku_thread_exit(own, 0));
        must(zelamiku_thread_await(own));
    }
    printf("%" PRIu64 "\n", value);
    must(zelamiku_thread_end(own));
    must(zelamiku_heap_close(heap));
    nbd_shutdown(nbd, 0);
    nbd_close(nbd);
    return 0;
}
