/* Tests of a pool by C: its calls' answers, and a stack that is linked by slots, which a heap opened again still has.
 *
 *     pool      prints nothing but a last line, and answers 0, where all is as it must be */
#include <stdio.h>
#include <stdlib.h>
#include <string.h>
#include "zelamiku_core.h"
#include "must.h"

/* Object 1 guards the stack: its top, the pool, and for each slot a value and the slot below, plus one. Object 0 guards another field. */
enum { OTHER = 0, STACK = 1, SLOTS = 5, FIRST = 0, TOP = 1, HEAD = 2, VALUE = HEAD + 1 + SLOTS, BELOW = VALUE + SLOTS, FIELDS = BELOW + SLOTS };

static void push(zelamiku_handle *session, uint64_t value) {
    uint32_t slot;
    uint64_t top;
    OK(zelamiku_try_enter(session, STACK));
    OK(zelamiku_pool_take(session, HEAD, SLOTS, &slot));
    OK(zelamiku_load(session, TOP, &top));
    OK(zelamiku_store(session, VALUE + slot, value));
    OK(zelamiku_store(session, BELOW + slot, top));
    OK(zelamiku_store(session, TOP, slot + 1));
    OK(zelamiku_exit(session, STACK));
}

static uint64_t pop(zelamiku_handle *session) {
    uint64_t top, value, below;
    OK(zelamiku_try_enter(session, STACK));
    OK(zelamiku_load(session, TOP, &top));
    MUST(top > 0);
    OK(zelamiku_load(session, VALUE + (uint32_t)top - 1, &value));
    OK(zelamiku_load(session, BELOW + (uint32_t)top - 1, &below));
    OK(zelamiku_store(session, TOP, below));
    OK(zelamiku_pool_give(session, HEAD, SLOTS, (uint32_t)top - 1));
    OK(zelamiku_exit(session, STACK));
    return value;
}

static void refusals(zelamiku_handle *session, zelamiku_handle *heap) {
    uint32_t slot = 7;
    zelamiku_handle none = ZELAMIKU_NONE;
    MUST(zelamiku_pool_take(&none, HEAD, SLOTS, &slot) == ZELAMIKU_NOTHING && slot == ZELAMIKU_NO_NUMBER);
    MUST(zelamiku_pool_take(heap, HEAD, SLOTS, &slot) == ZELAMIKU_WRONG_KIND && slot == ZELAMIKU_NO_NUMBER);
    MUST(zelamiku_pool_give(heap, HEAD, SLOTS, 0) == ZELAMIKU_WRONG_KIND);
    MUST(zelamiku_pool_take(session, HEAD, SLOTS, &slot) == ZELAMIKU_NOT_HELD && slot == ZELAMIKU_NO_NUMBER);
    OK(zelamiku_try_enter(session, STACK));
    MUST(zelamiku_pool_give(session, HEAD, SLOTS, 0) == ZELAMIKU_NOT_TAKEN);
    MUST(zelamiku_pool_give(session, HEAD, SLOTS, SLOTS) == ZELAMIKU_NOT_TAKEN);
    MUST(zelamiku_pool_take(session, FIELDS, SLOTS, &slot) == ZELAMIKU_UNKNOWN_FIELD);
    MUST(zelamiku_pool_take(session, HEAD, ZELAMIKU_MOST_SLOTS, &slot) == ZELAMIKU_UNKNOWN_FIELD);
    MUST(zelamiku_pool_take(session, UINT32_MAX, UINT32_MAX, &slot) == ZELAMIKU_UNKNOWN_FIELD);
    MUST(zelamiku_pool_give(session, HEAD, UINT32_MAX, 0) == ZELAMIKU_UNKNOWN_FIELD);
    OK(zelamiku_store(session, VALUE, 1000));
    MUST(zelamiku_pool_take(session, VALUE, SLOTS, &slot) == ZELAMIKU_DAMAGED && slot == ZELAMIKU_NO_NUMBER);
    OK(zelamiku_store(session, VALUE, 0));
    MUST(zelamiku_pool_take(session, VALUE, SLOTS, &slot) == ZELAMIKU_POOL_EMPTY);
    OK(zelamiku_exit(session, STACK));
}

/* All slots, in their order, and then none; the one given last comes first. */
static void all_slots(zelamiku_handle *session) {
    uint32_t slot;
    OK(zelamiku_try_enter(session, STACK));
    for (uint32_t i = 0; i < SLOTS; i++) {
        OK(zelamiku_pool_take(session, HEAD, SLOTS, &slot));
        MUST(slot == i);
    }
    MUST(zelamiku_pool_take(session, HEAD, SLOTS, &slot) == ZELAMIKU_POOL_EMPTY && slot == ZELAMIKU_NO_NUMBER);
    OK(zelamiku_pool_give(session, HEAD, SLOTS, 3));
    OK(zelamiku_pool_give(session, HEAD, SLOTS, 1));
    OK(zelamiku_pool_take(session, HEAD, SLOTS, &slot));
    MUST(slot == 1);
    for (uint32_t i = 0; i < SLOTS; i++)
        if (i != 3) OK(zelamiku_pool_give(session, HEAD, SLOTS, i));
    OK(zelamiku_exit(session, STACK));
}

static void lay_out(zelamiku_field *fields) {
    zelamiku_field none[1] = {{7, 8, 9, 10}};
    MUST(zelamiku_pool_fields(STACK, none, 1) == ZELAMIKU_BAD_ARGUMENT && none[0].owner == 7 && none[0].first == 9);
    for (uint32_t i = 0; i < FIELDS; i++) fields[i] = (zelamiku_field){STACK, STACK, 0, 0};
    fields[FIRST] = (zelamiku_field){OTHER, OTHER, 0, 0};
    OK(zelamiku_pool_fields(STACK, &fields[HEAD], SLOTS + 1));
    const uint64_t firsts[SLOTS + 1] = {1, 2, 3, 4, 5, 0};
    for (uint32_t i = 0; i <= SLOTS; i++) {
        const zelamiku_field *field = &fields[HEAD + i];
        MUST(field->owner == STACK && field->guard == STACK && field->first == firsts[i] && field->is_transient == 0);
    }
}

static uint8_t device[1 << 20];

static void make_calls(zelamiku_handle *heap) {
    zelamiku_call call;
    uint8_t bytes[ZELAMIKU_MOST_BYTES];
    for (;;) {
        OK(zelamiku_next_call(heap, &call, bytes, sizeof bytes));
        if (call.kind == ZELAMIKU_NO_CALL) return;
        MUST(call.at + call.size <= sizeof device);
        if (call.kind == ZELAMIKU_WRITE) memcpy(device + call.at, bytes, (size_t)call.size);
        OK(zelamiku_call_done(heap));
    }
}

static void make_rounds(zelamiku_handle *heap) {
    uint64_t count;
    make_calls(heap);
    OK(zelamiku_round(heap, ZELAMIKU_ALL, &count));
    make_calls(heap);
}

int main(void) {
    uint64_t size;
    MUST(zelamiku_version() == ZELAMIKU_VERSION_NUMBER);
    zelamiku_field fields[FIELDS];
    lay_out(fields);
    zelamiku_handle heap = ZELAMIKU_NONE, session = ZELAMIKU_NONE;
    OK(zelamiku_format(&heap, 2, fields, FIELDS, 2, ZELAMIKU_LEAST_CAPACITY, 1, ZELAMIKU_LEAST_RING, &size));
    OK(zelamiku_session(&heap, &session));
    refusals(&session, &heap);
    all_slots(&session);
    for (uint64_t value = 10; value < 13; value++) push(&session, value);
    MUST(pop(&session) == 12);
    make_rounds(&heap);
    push(&session, 99); /* and no round: it is lost */
    zelamiku_free(&session);
    zelamiku_free(&heap);
    zelamiku_told told = {0};
    zelamiku_dropped_section none = {0};
    OK(zelamiku_open(&heap, device, (size_t)size, 1, ZELAMIKU_LEAST_RING, &told, &none, 0));
    OK(zelamiku_session(&heap, &session));
    /* Two slots are taken, and three free. */
    push(&session, 20);
    push(&session, 21);
    push(&session, 22);
    uint32_t slot;
    OK(zelamiku_try_enter(&session, STACK));
    MUST(zelamiku_pool_take(&session, HEAD, SLOTS, &slot) == ZELAMIKU_POOL_EMPTY);
    OK(zelamiku_exit(&session, STACK));
    const uint64_t left[SLOTS] = {22, 21, 20, 11, 10};
    for (uint32_t i = 0; i < SLOTS; i++) MUST(pop(&session) == left[i]);
    /* A heap that is closed says so. */
    OK(zelamiku_end(&session));
    OK(zelamiku_close(&heap));
    uint64_t applied;
    MUST(zelamiku_round(&heap, ZELAMIKU_ALL, &applied) == ZELAMIKU_CLOSED && zelamiku_close(&heap) == ZELAMIKU_CLOSED);
    MUST(zelamiku_session(&heap, &session) == ZELAMIKU_CLOSED);
    MUST(zelamiku_acknowledged(&heap, 0, &applied) == ZELAMIKU_CLOSED);
    zelamiku_free(&heap);
    MUST(zelamiku_round(&heap, ZELAMIKU_ALL, &applied) == ZELAMIKU_NOTHING);
    puts("a pool, by C: as it must be");
    return 0;
}
