/* Tests of the library's built objects: a second copy of the library in a process, which is unloaded while its heap is open, forks beside the
 * program's own fork handlers, and threads with small stacks.
 *
 *     objects FOLDER COPY      COPY is a shared object of the library, which this program isn't linked with */
#include <dlfcn.h>
#include <pthread.h>
#include <stdatomic.h>
#include <string.h>
#include <sys/wait.h>
#include "must.h"

enum { FORKS = 300 };
static const zelamiku_field FIELD = {0, 0, 0, 0};
static const zelamiku_plan PLAN = {.size = sizeof(zelamiku_plan), .fields = &FIELD, .count = 1, .objects = 1, .lanes = 2, .capacity = 2000, .ring = 4096};

/* The calls of the copy. */
static void *copy;
static zelamiku_status (*copy_open)(zelamiku_heap *, const char *, const zelamiku_plan *, zelamiku_report *);
static zelamiku_status (*copy_close)(zelamiku_heap);

static void *symbol(const char *name) {
    void *found = dlsym(copy, name);
    MUST(found != NULL);
    return found;
}

static void load_copy(const char *path) {
    copy = dlopen(path, RTLD_NOW | RTLD_LOCAL);
    if (copy == NULL) fprintf(stderr, "%s\n", dlerror());
    MUST(copy != NULL);
    *(void **)&copy_open = symbol("zelamiku_heap_open");
    *(void **)&copy_close = symbol("zelamiku_heap_close");
    MUST(copy_open != zelamiku_heap_open);
}

static void add(zelamiku_heap heap) {
    zelamiku_thread own;
    OK(zelamiku_thread_begin(&own, heap));
    OK(zelamiku_thread_enter(own, 0));
    OK(zelamiku_thread_store(own, 0, 7));
    OK(zelamiku_thread_exit(own, 0));
    OK(zelamiku_thread_await(own));
    OK(zelamiku_thread_end(own));
}

/* Each copy has its own heaps: both open one, and neither knows the other's. A copy that is unloaded goes on. */
static int both_copies(void) {
    zelamiku_heap heap, other;
    MUST(copy_open(&heap, "copy.heap", &PLAN, NULL) == ZELAMIKU_OK);
    OK(zelamiku_heap_open(&other, "own.heap", &PLAN, NULL));
    add(other);
    MUST(zelamiku_heap_open(&other, "copy.heap", &PLAN, NULL) == ZELAMIKU_BUSY && dlclose(copy) == 0);
    (void)usleep(20000); /* in which its helper looks at the heap */
    MUST(copy_close(heap) == ZELAMIKU_OK);
    return 0;
}

static pthread_mutex_t own_mutex = PTHREAD_MUTEX_INITIALIZER; /* the program's, held over a fork */
static zelamiku_heap own_heap;
static atomic_bool is_over;

static void hold(void) {
    (void)pthread_mutex_lock(&own_mutex);
}

static void let_go(void) {
    (void)pthread_mutex_unlock(&own_mutex);
}

static void *begin_and_end(void *data) {
    while (!is_over) {
        zelamiku_thread own;
        hold();
        MUST(zelamiku_thread_begin(&own, own_heap) == ZELAMIKU_OK && zelamiku_thread_end(own) == ZELAMIKU_OK);
        let_go();
    }
    return data;
}

/* Threads begin and end their use of the heap under a mutex of the program's, which its handlers hold over each fork: none waits for ever. */
static void forks(void) {
    pthread_t thread;
    MUST(pthread_create(&thread, NULL, begin_and_end, NULL) == 0);
    for (int i = 0; i < FORKS; i++) {
        int status = 0;
        pid_t child = fork();
        if (child == 0) _exit(0);
        MUST(child > 0 && waitpid(child, &status, 0) == child && status == 0);
    }
    is_over = true;
    MUST(pthread_join(thread, NULL) == 0);
}

static void *open_small(void *data) {
    OK(zelamiku_heap_open(&own_heap, "small.heap", &PLAN, NULL));
    return data;
}

static void *add_small(void *data) {
    add(own_heap);
    return data;
}

static void *copy_small(void *data) {
    OK(zelamiku_heap_copy(own_heap, "small.copy"));
    return data;
}

static void *close_small(void *data) {
    OK(zelamiku_heap_close(own_heap));
    return data;
}

static void on_stack_of(size_t kilobytes, void *(*what)(void *)) {
    pthread_attr_t small;
    pthread_t thread;
    MUST(pthread_attr_init(&small) == 0 && pthread_attr_setstacksize(&small, kilobytes * 1024) == 0);
    MUST(pthread_create(&thread, &small, what, NULL) == 0 && pthread_join(thread, NULL) == 0 && pthread_attr_destroy(&small) == 0);
}

/* As much stack as zelamiku.h says is enough: for a heap that is made, and for one that is recovered. */
static void small_stacks(void) {
    for (int opened = 0; opened < 2; opened++) {
        on_stack_of(512, open_small);
        on_stack_of(32, add_small);
        on_stack_of(64, copy_small);
        on_stack_of(512, close_small);
    }
}

int main(int argc, char **argv) {
    int status = 0;
    MUST(argc == 3 && chdir(argv[1]) == 0 && pthread_atfork(hold, let_go, let_go) == 0);
    (void)alarm(240); /* what hangs ends */
    load_copy(argv[2]);
    pid_t child = fork();
    if (child == 0) _exit(both_copies());
    MUST(child > 0 && waitpid(child, &status, 0) == child && status == 0);
    OK(zelamiku_heap_open(&own_heap, "own.heap", &PLAN, NULL));
    add(own_heap);
    forks();
    OK(zelamiku_heap_close(own_heap));
    small_stacks();
    printf("objects: a second copy of the library, which is unloaded, %d forks beside the program's handlers, small stacks\n", FORKS);
    return 0;
}
