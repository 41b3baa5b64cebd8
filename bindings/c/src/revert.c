/* Reverting a section: old values are saved as the section stores, and zelamiku_thread_revert stores them again. Room for that is reserved too,
 * so the open section's records are counted here, as the library counts them.
 *
 * Only the thread itself reads and writes what it has saved: there is no lock. */
static zelamiku_status why_not(seat *own, zelamiku_thread thread, const char *call);
static zelamiku_status why_not_of(heap *heap, seat *own, zelamiku_thread thread, const char *call);
static zelamiku_status refused(seat *own, zelamiku_status status, const char *call, kind kind, uint32_t number);
static zelamiku_status enter_slowly(seat *own, uint32_t object, zelamiku_status status, uint64_t deadline);

/* ---- the section's changes ---- */

/* Forgets all saved values. */
static inline void keep_nothing(changes *changes) {
    changes->stamp++;
    changes->last = NO_FIELD;
    changes->guard = NO_OBJECT;
    changes->guards = 0;
}

/* The open section's changes. Resets them if they belong to an earlier section. Every step but the first enter calls this, so then the section
 * has only taken its first monitor. */
static inline changes *changes_of(seat *own) {
    changes *changes = own->changes;
    if (changes->section != own->ended) {
        changes->section = own->ended;
        changes->used = 2; /* to take that monitor and to free it */
        changes->is_past = false;
        keep_nothing(changes);
    }
    return changes;
}

/* Whether there is room for a step of so many records. Freeing a monitor was counted when it was taken. */
static inline bool has_room(const changes *changes, uint32_t more) {
    return changes->used + more <= ZELAMIKU_MOST_RECORDS;
}

static bool has_stored_under(const changes *changes, uint32_t object) {
    for (uint32_t i = 0; i < changes->guards; i++)
        if (changes->under[i] == object) return true;
    return false;
}

/* The section stores under this monitor, which it holds. If it has stored under 16 others, one of those isn't held any more. A revert will find
 * that one, and needn't find this one too. */
static void note_guard(changes *changes, uint16_t guard) {
    changes->guard = guard;
    if (has_stored_under(changes, guard)) return;
    if (changes->guards < ZELAMIKU_MOST_HELD) changes->under[changes->guards++] = guard;
}

static inline bool is_kept(const changes *changes, uint32_t field) {
    return changes->fields[field].stamp == changes->stamp;
}

/* Saves the value of a field before the section's first store to it. */
static inline void keep(changes *changes, kept_field *kept, uint32_t field, uint64_t before) {
    kept->stamp = changes->stamp;
    kept->value = before;
    kept->next = changes->last;
    changes->last = field;
    if (changes->guard != kept->guard) note_guard(changes, kept->guard);
}

/* ---- stores ---- */

/* There is no room for a store to the field. But if the field's guard isn't held, returns that error, as the library would. */
COLD zelamiku_status no_room(seat *own, uint32_t field) {
    uint64_t value = 0;
    zelamiku_status status = zelamiku_load(&own->session, field, &value);
    return refused(own, status == ZELAMIKU_OK ? ZELAMIKU_SECTION_FULL : status, "store", OF_FIELD, field);
}

/* Stores, and saves the old value. Returns what the library returns. */
static __attribute__((noinline)) zelamiku_status store_keeping(seat *own, uint32_t field, uint64_t value) {
    changes *changes = changes_of(own);
    if (SELDOM(field >= changes->count)) return refused(own, ZELAMIKU_UNKNOWN_FIELD, "store", OF_FIELD, field);
    kept_field *kept = &changes->fields[field];
    uint64_t before = 0;
    bool is_first = kept->stamp != changes->stamp;
    if (SELDOM(!has_room(changes, kept->records << is_first))) return no_room(own, field);
    zelamiku_status status = ZELAMIKU_OK;
    if (is_first) status = zelamiku_load(&own->session, field, &before);
    if (SELDOM(status != ZELAMIKU_OK)) return refused(own, status, "store", OF_FIELD, field);
    status = zelamiku_store(&own->session, field, value);
    if (SELDOM(status != ZELAMIKU_OK)) return refused(own, status, "store", OF_FIELD, field);
    own->records += kept->records;
    own->has_stored |= kept->records;
    changes->used += (uint32_t)kept->records << is_first;
    if (is_first) keep(changes, kept, field, before);
    return ZELAMIKU_OK;
}

/* Two fields that one call of a pool stores to, and their values. */
typedef struct {
    uint32_t head, cell;
    uint64_t head_value, cell_value;
} pool_stores;

static bool loads(seat *own, uint32_t field, uint64_t *value) {
    return zelamiku_load(&own->session, field, value) == ZELAMIKU_OK;
}

/* Whether the pool's call stores to two fields, if there is room. Otherwise the library refuses it for another reason. */
static bool takes(seat *own, uint32_t head, uint32_t slots, pool_stores *two) {
    two->head = head;
    if ((uint64_t)head + slots >= ZELAMIKU_MOST_FIELDS || !loads(own, head, &two->head_value)) return false;
    if (two->head_value == 0 || two->head_value > slots) return false;
    two->cell = head + (uint32_t)two->head_value;
    return loads(own, two->cell, &two->cell_value) && two->cell_value <= slots;
}

static bool gives(seat *own, uint32_t head, uint32_t slots, uint32_t slot, pool_stores *two) {
    two->head = head;
    if ((uint64_t)head + slots >= ZELAMIKU_MOST_FIELDS || slot >= slots) return false;
    two->cell = head + 1 + slot;
    return loads(own, two->cell, &two->cell_value) && two->cell_value == UINT64_MAX && loads(own, head, &two->head_value) &&
           two->head_value <= slots;
}

/* How many of the section's records a store to the field takes: its own, and for the first one also the record that would restore the old value. */
static uint32_t room_for(const changes *changes, uint32_t field) {
    return (uint32_t)changes->fields[field].records << !is_kept(changes, field);
}

static bool has_room_for(const changes *changes, const pool_stores *two) {
    return has_room(changes, room_for(changes, two->head) + room_for(changes, two->cell));
}

static void note_stores(changes *changes, const pool_stores *two) {
    changes->used += room_for(changes, two->head) + room_for(changes, two->cell);
    if (!is_kept(changes, two->head)) keep(changes, &changes->fields[two->head], two->head, two->head_value);
    if (!is_kept(changes, two->cell)) keep(changes, &changes->fields[two->cell], two->cell, two->cell_value);
}

/* A pool's calls, with old values saved. */
static zelamiku_status take_keeping(seat *own, uint32_t head, uint32_t slots, uint32_t *slot) {
    changes *changes = changes_of(own);
    pool_stores two = {0, 0, 0, 0};
    bool is_taken = takes(own, head, slots, &two);
    if (is_taken && !has_room_for(changes, &two)) return ZELAMIKU_SECTION_FULL;
    zelamiku_status status = zelamiku_pool_take(&own->session, head, slots, slot);
    assert((status == ZELAMIKU_OK) == is_taken);
    if (is_taken) note_stores(changes, &two);
    return status;
}

static zelamiku_status give_keeping(seat *own, uint32_t head, uint32_t slots, uint32_t slot) {
    changes *changes = changes_of(own);
    pool_stores two = {0, 0, 0, 0};
    bool is_given = gives(own, head, slots, slot, &two);
    if (is_given && !has_room_for(changes, &two)) return ZELAMIKU_SECTION_FULL;
    zelamiku_status status = zelamiku_pool_give(&own->session, head, slots, slot);
    assert((status == ZELAMIKU_OK) == is_given);
    if (is_given) note_stores(changes, &two);
    return status;
}

/* ---- monitors ---- */

/* The section goes on and has taken a monitor that it didn't hold. If it had stored under it before, others may have stored there since. */
static void note_taken(changes *changes, uint32_t object) {
    changes->used += 2;
    assert(has_room(changes, 0));
    if (has_stored_under(changes, object)) changes->is_past = true;
}

/* One lock more, where a section is open. */
static __attribute__((noinline)) zelamiku_status enter_keeping(seat *own, uint32_t object, uint64_t deadline) {
    changes *changes = changes_of(own);
    zelamiku_sight sight = {ZELAMIKU_NOBODY, 0, 0};
    bool is_more = zelamiku_look(&own->session, object, &sight) == ZELAMIKU_OK && sight.owner != own->lane;
    if (SELDOM(is_more && !has_room(changes, 2))) return refused(own, ZELAMIKU_SECTION_FULL, "enter", OF_OBJECT, object);
    zelamiku_status status = zelamiku_try_enter(&own->session, object);
    if (SELDOM(status != ZELAMIKU_OK)) status = enter_slowly(own, object, status, deadline);
    if (SELDOM(status != ZELAMIKU_OK)) return status;
    if (is_more) note_taken(changes, object);
    own->locks++;
    return ZELAMIKU_OK;
}

/* ---- reverting ---- */

/* Whether the section still holds each monitor under which it has stored. Exits aren't tracked here: a monitor that was freed is free now, or
 * was taken again. */
static bool can_revert(seat *own, changes *changes) {
    for (uint32_t i = 0; i < changes->guards && !changes->is_past; i++) changes->is_past = locks_of(own, changes->under[i]) == 0;
    return !changes->is_past;
}

/* Stores the saved values back. No store is refused: each guard is held, and there is room. Goes on even if the heap has ended: nothing of an
 * unfinished section is durable then, so half a revert doesn't matter. */
static void put_back(seat *own, changes *changes) {
    for (uint32_t field = changes->last; field != NO_FIELD; field = changes->fields[field].next) {
        assert(is_kept(changes, field));
        zelamiku_status status = zelamiku_store(&own->session, field, changes->fields[field].value);
        assert(status == ZELAMIKU_OK);
        (void)status;
        own->records += changes->fields[field].records;
    }
    keep_nothing(changes);
}

/* Why nothing is restored. */
static zelamiku_status not_reverted_of(heap *heap, seat *own, zelamiku_thread thread, bool was_open) {
    zelamiku_status status = why_not_of(heap, own, thread, "revert");
    if (status != ZELAMIKU_OK) return status;
    if (!was_open) return fail(heap->path, ZELAMIKU_NOT_HELD, 0, "no section is open", "enter an object before", "revert");
    if (heap->reverts)
        return fail(heap->path, ZELAMIKU_NOT_REVERTED, 0, "the section has freed a monitor under which it had stored",
                    "revert before that, or store the old values by calls of your own", "revert");
    bool has_stored = own->has_stored != 0 || own->passed == own->ended + 1;
    if (!has_stored) return ZELAMIKU_OK;
    return fail(heap->path, ZELAMIKU_NOT_REVERTED, 0, "the heap's plan doesn't keep what a section changes", "open it with reverts", "revert");
}

zelamiku_status zelamiku_thread_revert(zelamiku_thread thread) {
    seat *own = seat_of(thread);
    bool was_open = is_open(own, thread);
    if (was_open && own->changes != NULL && can_revert(own, changes_of(own))) {
        put_back(own, own->changes);
        return is_open(own, thread) ? ZELAMIKU_OK : why_not(own, thread, "revert");
    }
    return COUNTED(place_of(own), not_reverted_of(place_of(own), own, thread, was_open));
}

/* ---- room for it ---- */

/* Room for all fields that one section may change, so no store allocates; it shares no cache line with another lane's. */
static changes *new_changes(uint32_t count) {
    const size_t line = 128;
    size_t size = (sizeof(changes) + (size_t)count * sizeof(kept_field) + line - 1) / line * line;
    changes *changes = aligned_alloc(line, size);
    if (changes == NULL) return NULL;
    memset(changes, 0, size);
    changes->section = UINT64_MAX; /* none yet; the stamp of each that comes is above 0, as no field's is now */
    changes->count = count;
    return changes;
}

/* Notes which guard each field has, and whether it is transient. */
static void note_fields(changes *changes, const zelamiku_field *fields) {
    for (uint32_t i = 0; i < changes->count; i++) {
        changes->fields[i].guard = (uint16_t)fields[i].guard;
        changes->fields[i].records = fields[i].is_transient == 0;
    }
}

/* From now on every lane saves what its sections change. The memory is freed with the heap's place, also after a failure. */
static zelamiku_status keep_changes(heap *heap, zelamiku_handle *handle) {
    zelamiku_shape shape = {0};
    zelamiku_field *fields = (zelamiku_field *)calloc(ZELAMIKU_MOST_FIELDS, sizeof *fields);
    zelamiku_status status = fields == NULL ? ZELAMIKU_NO_MEMORY : zelamiku_fields(handle, &shape, fields, ZELAMIKU_MOST_FIELDS);
    for (uint32_t lane = 0; status == ZELAMIKU_OK && lane < heap->lanes; lane++) {
        seat *own = seat_at(heap, lane);
        own->changes = new_changes(shape.fields);
        if (own->changes == NULL)
            status = ZELAMIKU_NO_MEMORY;
        else
            note_fields(own->changes, fields);
    }
    free(fields);
    return status;
}
