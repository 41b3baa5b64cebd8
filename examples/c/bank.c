/* A bank: eight threads move money between 64 accounts, and each waits until its transfer is durable before it makes the next one. Killed at
 * any time and started again on the same file, no transfer that was told as acknowledged is lost, and the balances are those of whole transfers.
 *
 *     bank FILE [SECONDS]
 * prints how many transfers of each thread it finds, and then, of one after the other, `acknowledged THREAD NUMBER`. It goes on for so long
 * (for ever without SECONDS), and then closes the heap. Which transfer the n-th of a thread is follows from n: so all balances can be reckoned
 * from the counts, and are compared at the start. Answers 1 where they differ. */
#include <inttypes.h>
#include <pthread.h>
#include <stdatomic.h>
#include <stdio.h>
#include <stdlib.h>
#include <string.h>
#include <time.h>
#include "zelamiku.h"

/* Object and field i are account i; the object and field after these are those of a thread's count. */
enum { ACCOUNTS = 64, THREADS = 8, FIELDS = ACCOUNTS + THREADS, BEGUN_WITH = 1000000 };

typedef struct {
    uint32_t from, to;
    uint64_t amount;
} transfer;

static zelamiku_heap heap;
static atomic_bool stopping;

static void must(zelamiku_status status) {
    if (status == ZELAMIKU_OK) return;
    fprintf(stderr, "%s\n", zelamiku_heap_failure(NULL));
    _Exit(2); /* exit would write again what another thread prints just then */
}

/* The transfer of this number of a thread. */
static transfer transfer_of(uint32_t thread, uint64_t number) {
    uint64_t bits = (number * THREADS + thread + 1) * 0x9e3779b97f4a7c15u;
    bits ^= bits >> 29;
    transfer found = {(uint32_t)(bits % ACCOUNTS), (uint32_t)(bits / ACCOUNTS % (ACCOUNTS - 1)), bits >> 48 & 7};
    found.to = (found.from + 1 + found.to) % ACCOUNTS;
    return found;
}

static uint64_t add(zelamiku_thread own, uint32_t field, uint64_t more) {
    uint64_t value = 0;
    must(zelamiku_thread_load(own, field, &value));
    must(zelamiku_thread_store(own, field, value + more));
    return value;
}

/* The next transfer of the thread, as one section. Monitors are taken in the order of their numbers; answers the transfer's number. */
static uint64_t move(zelamiku_thread own, uint32_t thread, uint64_t number) {
    transfer next = transfer_of(thread, number);
    uint32_t first = next.from < next.to ? next.from : next.to, second = next.from + next.to - first, count = ACCOUNTS + thread;
    must(zelamiku_thread_enter(own, first));
    must(zelamiku_thread_enter(own, second));
    must(zelamiku_thread_enter(own, count));
    (void)add(own, next.from, -next.amount);
    (void)add(own, next.to, next.amount);
    uint64_t before = add(own, count, 1);
    must(zelamiku_thread_exit(own, count));
    must(zelamiku_thread_exit(own, second));
    must(zelamiku_thread_exit(own, first));
    must(zelamiku_thread_await(own));
    return before + 1;
}

static uint64_t load(zelamiku_thread own, uint32_t field) {
    uint64_t value = 0;
    must(zelamiku_thread_enter(own, field));
    must(zelamiku_thread_load(own, field, &value));
    must(zelamiku_thread_exit(own, field));
    return value;
}

/* Before any thread works: tells the counts, and reckons what each account must have by them. */
static void look(zelamiku_thread own, uint64_t *counts) {
    int64_t balances[ACCOUNTS] = {0};
    printf("found");
    for (uint32_t thread = 0; thread < THREADS; thread++) {
        counts[thread] = load(own, ACCOUNTS + thread);
        printf(" %" PRIu64, counts[thread]);
        for (uint64_t number = 0; number < counts[thread]; number++) {
            transfer done = transfer_of(thread, number);
            balances[done.from] -= (int64_t)done.amount;
            balances[done.to] += (int64_t)done.amount;
        }
    }
    printf("\n");
    for (uint32_t account = 0; account < ACCOUNTS; account++)
        if (load(own, account) != (uint64_t)(BEGUN_WITH + balances[account])) {
            printf("account %" PRIu32 ": WRONG\n", account);
            exit(1);
        }
}

static uint64_t counts[THREADS];

static void *work(void *data) {
    uint32_t thread = *(uint32_t *)data;
    zelamiku_thread own;
    must(zelamiku_thread_begin(&own, heap));
    for (uint64_t number = counts[thread]; !stopping; number++)
        printf("acknowledged %" PRIu32 " %" PRIu64 "\n", thread, move(own, thread, number));
    must(zelamiku_thread_end(own));
    return NULL;
}

int main(int argc, char **argv) {
    static zelamiku_field fields[FIELDS];
    static uint32_t numbers[THREADS];
    zelamiku_plan plan = {.size = sizeof(zelamiku_plan), .fields = fields, .count = FIELDS, .objects = FIELDS, .lanes = THREADS};
    zelamiku_thread own;
    pthread_t threads[THREADS];
    if (argc < 2) {
        fprintf(stderr, "bank FILE [SECONDS]\n");
        return 2;
    }
    setvbuf(stdout, NULL, _IOLBF, 0);
    for (uint32_t i = 0; i < FIELDS; i++) fields[i] = (zelamiku_field){i, i, i < ACCOUNTS ? BEGUN_WITH : 0, 0};
    must(zelamiku_heap_open(&heap, argv[1], &plan, NULL));
    must(zelamiku_thread_begin(&own, heap));
    look(own, counts);
    must(zelamiku_thread_end(own));
    for (uint32_t i = 0; i < THREADS; i++) {
        numbers[i] = i;
        if (pthread_create(&threads[i], NULL, work, &numbers[i]) != 0) return 2;
    }
    struct timespec time = {argc > 2 ? atoi(argv[2]) : 1, 0};
    do
        (void)nanosleep(&time, NULL);
    while (argc <= 2);
    stopping = true;
    for (uint32_t i = 0; i < THREADS; i++)
        if (pthread_join(threads[i], NULL) != 0) return 2;
    must(zelamiku_heap_close(heap));
    return 0;
}
