/* A thread's calls, from enter to await.
 *
 * A seat belongs to its thread while a section is open (`open` is the handle) or a call is inside one (`is_busy`): enter, exit, load and store
 * take no lock. A thread that ends the heap, or borrows another's session to look, sets `number` to 0 and then reads `is_busy`; the seat's
 * thread writes `is_busy` and then reads `number`. So one of the two sees the other. The heap's mutex guards which lanes are lent. */
/* ---- a thread's use of it ---- */

/* Marks the lane busy before it checks whether the heap has ended: the thread that ends the heap sees the mark, or is seen here. */
static inline bool begin_section(seat *own, zelamiku_thread thread) {
    if (SELDOM(atomic_load_explicit(&own->number, memory_order_relaxed) != thread.number)) return false;
    own->is_busy = 1;
    return own->number == thread.number;
}

/* Before a section's end is counted: a thread that sees its count sees whether it has stored. */
static inline void note_stored(seat *own) {
    if (own->has_stored == 0) return;
    atomic_store_explicit(&own->last_stored, own->ended + 1, memory_order_relaxed);
    own->has_stored = 0;
}

/* Ends the section; true if no other thread needs to be notified. `ended` is stored, and the words below are loaded, sequentially consistently:
 * a leader reads `ended` after it has set `has_work` to 0. */
static inline bool end_section(seat *own, zelamiku_thread thread) {
    atomic_store_explicit(&own->open, 0, memory_order_relaxed);
    note_stored(own);
    own->ended = own->ended + 1;
    if (SELDOM(own->heap->has_work == 0 || own->records >= own->heap->enough)) return false;
    atomic_store_explicit(&own->is_busy, 0, memory_order_release);
    return own->number == thread.number;
}

/* Lends a lane that nobody has. */
static zelamiku_status lend(heap *heap, zelamiku_thread *thread) {
    lock(&heap->mutex);
    zelamiku_status status = heap->end_status != 0 ? (zelamiku_status)heap->end_status : ZELAMIKU_NONE_LEFT;
    for (uint32_t lane = 0; lane < heap->lanes && status == ZELAMIKU_NONE_LEFT; lane++) {
        seat *own = seat_at(heap, lane);
        if (own->is_lent) continue;
        assert(own->locks == 0 && own->lent_number == 0 && own->wanted == 0 && own->event == 0);
        own->is_busy = 0; /* see is_inside */
        own->is_lent = true;
        own->earlier = own->ended;
        thread->number = new_number((size_t)(own - seats) * sizeof *own);
        own->lent_number = thread->number;
        own->number = thread->number;
        status = ZELAMIKU_OK;
    }
    unlock(&heap->mutex);
    if (status == ZELAMIKU_OK) return ZELAMIKU_OK;
    return status == ZELAMIKU_NONE_LEFT ? fail(heap->path, status, 0, NULL, NULL, "begin") : tell_end(heap, status, heap->error, "begin");
}

zelamiku_status zelamiku_thread_begin(zelamiku_thread *thread, zelamiku_heap handle) {
    if (thread == NULL) return null_pointer("begin", "give a thread");
    thread->number = 0;
    return ON_HEAP(handle, "begin", lend(heap, thread));
}

/* Whether the handle is that of a lane of the place's heap, also after that has ended. It stays so while the call is counted. */
static bool is_lane_of(const heap *heap, const seat *own, zelamiku_thread thread) {
    return thread.number != 0 && heap->number != 0 && own->lent_number == thread.number;
}

/* Why a call with this handle isn't made. OK: another thread was checking whether the heap can be closed, and has finished: try again. */
static zelamiku_status why_not_of(heap *heap, seat *own, zelamiku_thread thread, const char *call) {
    if (!is_lane_of(heap, own, thread)) return nothing(call);
    if (heap->end_status == ZELAMIKU_FORKED) return fail(heap->path, ZELAMIKU_FORKED, 0, NULL, NULL, "%s", call);
    lock(&heap->mutex);
    zelamiku_status status = (zelamiku_status)heap->end_status;
    unlock(&heap->mutex);
    if (status == ZELAMIKU_OK) return ZELAMIKU_OK;
    leave(heap, own);
    return tell_end(heap, status, heap->error, call);
}

COLD zelamiku_status why_not(seat *own, zelamiku_thread thread, const char *call) {
    return COUNTED(place_of(own), why_not_of(place_of(own), own, thread, call));
}

static const char *const KINDS[] = {"object", "field", "the pool at field"};

/* A failure of a call on that object or field. */
static zelamiku_status fail_on(const heap *heap, zelamiku_status status, int error, const char *cause, const char *call, kind kind, uint32_t number) {
    (void)fail(heap->path, status, error, cause, NULL, "%s %s %u", call, KINDS[kind], number);
    return kind == OF_OBJECT ? name_object(status, number) : name_field(status, number);
}

static zelamiku_status not_open_of(heap *heap, seat *own, zelamiku_thread thread, const char *call, kind kind, uint32_t number) {
    zelamiku_status status = why_not_of(heap, own, thread, call);
    if (status != ZELAMIKU_OK) return status;
    bool is_known = number < (kind == OF_OBJECT ? heap->objects : heap->fields);
    status = is_known ? ZELAMIKU_NOT_HELD : kind == OF_OBJECT ? ZELAMIKU_UNKNOWN_OBJECT : ZELAMIKU_UNKNOWN_FIELD;
    return fail_on(heap, status, 0, NULL, call, kind, number);
}

/* The same for a call that needs a monitor, when no section is open. */
COLD zelamiku_status not_open(seat *own, zelamiku_thread thread, const char *call, kind kind, uint32_t number) {
    return COUNTED(place_of(own), not_open_of(place_of(own), own, thread, call, kind, number));
}

/* The library has stopped because a sync has failed: ends the heap, even before the leader has reported that and its errno. After this no lane
 * is lent whose session still waits or holds a monitor. */
static zelamiku_status note_stop(heap *heap) {
    lock(&heap->mutex);
    if (heap->end_status == 0) heap->error = EIO;
    end(heap, ZELAMIKU_LOST);
    unlock(&heap->mutex);
    return ZELAMIKU_LOST;
}

/* The library has refused a call, or the heap has ended: the library may report a failed sync to a session before the leader has reported its
 * cause. The thread is busy, so its heap keeps the place. */
static zelamiku_status refused_of(heap *heap, seat *own, zelamiku_status status, const char *call, kind kind, uint32_t number) {
    if (status == ZELAMIKU_NOTHING) return nothing(call);
    if (status == ZELAMIKU_STOPPED) status = note_stop(heap);
    if (status == (zelamiku_status)heap->end_status || status == ZELAMIKU_LOST) {
        leave(heap, own);
        return tell_end(heap, status, heap->error, call);
    }
    const char *cause = status == ZELAMIKU_DEVICE ? "a write has failed" : NULL;
    if (status == ZELAMIKU_SECTION_FULL && own->changes != NULL)
        cause = "the section would have more than 1,000 records, with those that take it back";
    return fail_on(heap, status, status == ZELAMIKU_DEVICE ? heap->error : 0, cause, call, kind, number);
}

COLD zelamiku_status refused(seat *own, zelamiku_status status, const char *call, kind kind, uint32_t number) {
    return COUNTED(place_of(own), refused_of(place_of(own), own, status, call, kind, number));
}

static zelamiku_status give_back(heap *heap, seat *own, zelamiku_thread thread) {
    while (thread.number == 0 || own->number != thread.number) {
        zelamiku_status status = why_not_of(heap, own, thread, "end");
        if (status == ZELAMIKU_OK) continue;
        if (is_lane_of(heap, own, thread) && status != ZELAMIKU_FORKED) drop_event(heap, own);
        return status;
    }
    if (own->locks > 0) return fail(heap->path, ZELAMIKU_RUNNING, 0, "the thread holds a monitor", "exit it before", "end");
    drop_event(heap, own);
    lock(&heap->mutex);
    own->is_lent = false;
    own->number = 0;
    own->lent_number = 0;
    unlock(&heap->mutex);
    return ZELAMIKU_OK;
}

zelamiku_status zelamiku_thread_end(zelamiku_thread thread) {
    seat *own = seat_of(thread);
    return COUNTED(place_of(own), give_back(place_of(own), own, thread));
}

/* Sleeps until the monitor can be taken, or the deadline: HELD and BEHIND then. */
static zelamiku_status enter_asleep(heap *heap, seat *own, uint32_t object, uint64_t deadline) {
    unsigned demands = 0;
    bool is_wanted = false, is_late = false;
    uint64_t look = after(SECOND);
    zelamiku_status status;
    for (;;) {
        uint64_t step = heap->steps;
        status = (zelamiku_status)heap->end_status;
        if (status == ZELAMIKU_OK) status = zelamiku_try_enter(&own->session, object);
        if (is_late || (status != ZELAMIKU_HELD && status != ZELAMIKU_BEHIND)) break;
        if (status == ZELAMIKU_HELD) {
            if (!want(heap, own, object)) is_late = !sleep_for_monitor(heap, own, &look, deadline);
            is_wanted = true;
            continue;
        }
        if (is_wanted) want_no_more(heap, own, false);
        is_wanted = false;
        status = await_room(heap, own, step, &demands, deadline, &is_late);
        if (status != ZELAMIKU_OK) break;
    }
    if (is_wanted) want_no_more(heap, own, status == ZELAMIKU_OK);
    return status;
}

/* The first try has returned this status. With a deadline that has passed nothing sleeps. */
COLD zelamiku_status enter_slowly(seat *own, uint32_t object, zelamiku_status status, uint64_t deadline) {
    heap *heap = own->heap;
    if (heap == NULL) return nothing("enter");
    bool may_sleep = deadline > 0;
    for (unsigned tries = 1; may_sleep && status == ZELAMIKU_HELD && tries < TRIES; tries++) status = zelamiku_try_enter(&own->session, object);
    if (!may_sleep && status == ZELAMIKU_BEHIND) {
        note_no_room(heap, own);
        status = zelamiku_try_enter(&own->session, object); /* a round may have made room before it was noted, and rung nobody */
    }
    if (may_sleep && (status == ZELAMIKU_HELD || status == ZELAMIKU_BEHIND)) status = enter_asleep(heap, own, object, deadline);
    if (status == ZELAMIKU_OK) return ZELAMIKU_OK;
    count_call(heap); /* before it isn't busy */
    if (own->locks == 0) own->is_busy = 0;
    if (status != ZELAMIKU_HELD && status != ZELAMIKU_BEHIND) status = refused_of(heap, own, status, "enter", OF_OBJECT, object);
    end_call(heap);
    return status;
}

static inline zelamiku_status enter(zelamiku_thread thread, uint32_t object, uint64_t deadline) {
    seat *own = seat_of(thread);
    while (!is_open(own, thread) && !begin_section(own, thread)) {
        zelamiku_status status = why_not(own, thread, "enter");
        if (status != ZELAMIKU_OK) return status;
    }
    if (own->changes != NULL && own->locks > 0) return enter_keeping(own, object, deadline);
    zelamiku_status status = zelamiku_try_enter(&own->session, object);
    if (SELDOM(status != ZELAMIKU_OK)) {
        status = enter_slowly(own, object, status, deadline);
        if (status != ZELAMIKU_OK) return status;
    }
    assert(own->is_busy);
    own->locks++;
    atomic_store_explicit(&own->open, thread.number, memory_order_relaxed);
    return ZELAMIKU_OK;
}

zelamiku_status zelamiku_thread_enter(zelamiku_thread thread, uint32_t object) {
    return enter(thread, object, ZELAMIKU_NO_DEADLINE);
}

zelamiku_status zelamiku_thread_enter_until(zelamiku_thread thread, uint32_t object, uint64_t deadline) {
    return enter(thread, object, deadline);
}

static zelamiku_status exited_of(heap *heap, seat *own, zelamiku_thread thread, uint32_t object) {
    if (is_lane_of(heap, own, thread)) tell_and_wake(own, object, false);
    return own->number == thread.number ? ZELAMIKU_OK : why_not_of(heap, own, thread, "exit");
}

/* Another thread must be notified of an exit. The section may have ended, so the lane isn't busy; its heap may have ended since. */
COLD zelamiku_status exited(seat *own, zelamiku_thread thread, uint32_t object) {
    return COUNTED(place_of(own), exited_of(place_of(own), own, thread, object));
}

zelamiku_status zelamiku_thread_exit(zelamiku_thread thread, uint32_t object) {
    seat *own = seat_of(thread);
    if (SELDOM(!is_open(own, thread))) return not_open(own, thread, "exit", OF_OBJECT, object);
    zelamiku_status status = zelamiku_exit(&own->session, object);
    if (SELDOM(status != ZELAMIKU_OK)) return refused(own, status, "exit", OF_OBJECT, object);
    assert(own->locks > 0 && own->is_busy);
    own->records += 2; /* it was taken before */
    bool is_quiet = --own->locks > 0 || end_section(own, thread);
    return is_quiet && own->heap->waiting[object % BUCKETS] == 0 ? ZELAMIKU_OK : exited(own, thread, object);
}

zelamiku_status zelamiku_thread_load(zelamiku_thread thread, uint32_t field, uint64_t *value) {
    seat *own = seat_of(thread);
    if (SELDOM(value == NULL)) return null_pointer("load", "give a value");
    if (SELDOM(!is_open(own, thread))) {
        *value = 0;
        return not_open(own, thread, "load", OF_FIELD, field);
    }
    zelamiku_status status = zelamiku_load(&own->session, field, value);
    return SELDOM(status != ZELAMIKU_OK) ? refused(own, status, "load", OF_FIELD, field) : ZELAMIKU_OK;
}

/* The section has made so many records by stores to persistent fields: once it has ended, a round comes for it. */
static inline void note_stores_of(seat *own, uint32_t records) {
    own->records += records;
    own->has_stored = 1;
}

zelamiku_status zelamiku_thread_store(zelamiku_thread thread, uint32_t field, uint64_t value) {
    seat *own = seat_of(thread);
    if (SELDOM(!is_open(own, thread))) return not_open(own, thread, "store", OF_FIELD, field);
    if (own->changes != NULL) return store_keeping(own, field, value);
    zelamiku_status status = zelamiku_store(&own->session, field, value);
    if (SELDOM(status != ZELAMIKU_OK)) return refused(own, status, "store", OF_FIELD, field);
    if (own->heap->transient == NULL || !own->heap->transient[field])
        note_stores_of(own, 1);
    else
        own->passed = own->ended + 1;
    return ZELAMIKU_OK;
}

zelamiku_status zelamiku_thread_take(zelamiku_thread thread, uint32_t head, uint32_t slots, uint32_t *slot) {
    seat *own = seat_of(thread);
    if (slot == NULL) return null_pointer("take", "give a slot");
    *slot = ZELAMIKU_NO_NUMBER;
    if (!is_open(own, thread)) return not_open(own, thread, "take of", OF_POOL, head);
    zelamiku_status status = own->changes != NULL ? take_keeping(own, head, slots, slot) : zelamiku_pool_take(&own->session, head, slots, slot);
    if (status == ZELAMIKU_OK) note_stores_of(own, 2);
    bool is_answer = status == ZELAMIKU_OK || status == ZELAMIKU_POOL_EMPTY;
    return is_answer ? status : refused(own, status, "take of", OF_POOL, head);
}

zelamiku_status zelamiku_thread_give(zelamiku_thread thread, uint32_t head, uint32_t slots, uint32_t slot) {
    seat *own = seat_of(thread);
    if (!is_open(own, thread)) return not_open(own, thread, "give to", OF_POOL, head);
    zelamiku_status status = own->changes != NULL ? give_keeping(own, head, slots, slot) : zelamiku_pool_give(&own->session, head, slots, slot);
    if (status != ZELAMIKU_OK) return refused(own, status, "give to", OF_POOL, head);
    note_stores_of(own, 2);
    return ZELAMIKU_OK;
}

/* Joins the monitor's wait set. Waits for room only for a few rounds: the room may depend on this section, which holds the monitor. */
static zelamiku_status begin_wait(heap *heap, seat *own, uint32_t object) {
    unsigned demands = 0;
    bool is_late = false;
    for (;;) {
        uint64_t step = heap->steps;
        zelamiku_status status = (zelamiku_status)heap->end_status;
        if (status == ZELAMIKU_OK) status = zelamiku_begin_wait(&own->session, object);
        if (status != ZELAMIKU_BEHIND || demands == DEMANDS) return status;
        status = await_room(heap, own, step, &demands, ZELAMIKU_NO_DEADLINE, &is_late);
        if (status != ZELAMIKU_OK) return status;
    }
}

/* Sleeps until the session was notified and has taken the monitor again. */
static zelamiku_status resume(heap *heap, seat *own, uint32_t object) {
    zelamiku_status status;
    for (;;) {
        status = (zelamiku_status)heap->end_status;
        if (status == ZELAMIKU_OK) status = zelamiku_try_resume(&own->session);
        if (status != ZELAMIKU_HELD && status != ZELAMIKU_IN_SET) break;
        if (status == ZELAMIKU_IN_SET || !want(heap, own, object)) (void)sleep_seat(own, ZELAMIKU_NO_DEADLINE);
    }
    want_no_more(heap, own, status == ZELAMIKU_OK);
    return status;
}

zelamiku_status zelamiku_thread_wait(zelamiku_thread thread, uint32_t object) {
    seat *own = seat_of(thread);
    if (!is_open(own, thread)) return not_open(own, thread, "wait for", OF_OBJECT, object);
    heap *heap = own->heap;
    if (heap == NULL) return nothing("wait");
    uint32_t locks = locks_of(own, object);
    bool keeps = own->changes != NULL && locks > 0 && own->locks > locks; /* the section goes on */
    if (keeps && !has_room(changes_of(own), 2)) return refused(own, ZELAMIKU_SECTION_FULL, "wait for", OF_OBJECT, object);
    zelamiku_status status = begin_wait(heap, own, object);
    if (status != ZELAMIKU_OK) return refused(own, status, "wait for", OF_OBJECT, object);
    assert(locks > 0 && locks <= own->locks);
    own->locks -= locks;
    own->records += 2;
    if (own->locks == 0) {
        own->open = 0;
        note_stored(own);
        own->ended++;
    }
    tell_and_wake(own, object, true);
    status = resume(heap, own, object);
    if (status != ZELAMIKU_OK) return refused(own, status, "wait for", OF_OBJECT, object);
    if (keeps) note_taken(own->changes, object);
    own->locks += locks;
    own->open = thread.number;
    return ZELAMIKU_OK;
}

/* The notified lanes wait for the monitor from now on: they are woken when it is free, and not before. */
static void put(heap *heap, uint64_t lanes, uint32_t object) {
    for (uint32_t lane = 0; lanes != 0 && lane < heap->lanes; lane++)
        if (lanes >> lane & 1) (void)want(heap, seat_at(heap, lane), object);
}

zelamiku_status zelamiku_thread_notify(zelamiku_thread thread, uint32_t object, bool all, uint64_t *lanes) {
    seat *own = seat_of(thread);
    uint64_t notified = 0;
    uint32_t lane = ZELAMIKU_NOBODY;
    if (lanes != NULL) *lanes = 0;
    if (!is_open(own, thread)) return not_open(own, thread, "notify", OF_OBJECT, object);
    zelamiku_status status = all ? zelamiku_notify_all(&own->session, object, &notified) : zelamiku_notify(&own->session, object, &lane);
    if (status != ZELAMIKU_OK) return refused(own, status, "notify", OF_OBJECT, object);
    if (lane != ZELAMIKU_NOBODY) notified = (uint64_t)1 << lane;
    put(own->heap, notified, object);
    if (lanes != NULL) *lanes = notified;
    return ZELAMIKU_OK;
}

zelamiku_status zelamiku_thread_look(zelamiku_thread thread, uint32_t object, zelamiku_sight *sight) {
    seat *own = seat_of(thread);
    if (sight == NULL) return null_pointer("look", "give a sight");
    zelamiku_sight free_one = {ZELAMIKU_NOBODY, 0, 0};
    *sight = free_one;
    bool was_open = thread.number != 0 && is_open(own, thread);
    while (!was_open && (thread.number == 0 || !begin_section(own, thread))) {
        zelamiku_status status = why_not(own, thread, "look");
        if (status != ZELAMIKU_OK) return status;
    }
    heap *heap = place_of(own);
    count_call(heap); /* before it isn't busy */
    zelamiku_status status = zelamiku_look(&own->session, object, sight);
    if (!was_open) own->is_busy = 0;
    if (status != ZELAMIKU_OK) status = refused_of(heap, own, status, "look at", OF_OBJECT, object);
    end_call(heap);
    return status;
}

static zelamiku_status progress_of(const heap *heap, const seat *own, zelamiku_thread thread, zelamiku_progress *progress) {
    uint64_t ended = own->ended, acknowledged = own->acknowledged, earlier = own->earlier;
    if (ended < acknowledged) ended = acknowledged; /* a round may take a section before its last exit has counted it */
    zelamiku_status end_status = (zelamiku_status)heap->end_status;
    progress->lane = (uint32_t)((own - seats) % ZELAMIKU_MOST_LANES); /* of a stale handle `lane` may be written meanwhile */
    progress->is_open = own->was_cut_off || (own->is_busy && end_status != ZELAMIKU_OK) || own->open == thread.number;
    progress->end = end_status;
    progress->sections = ended - earlier;
    progress->durable = acknowledged > earlier ? acknowledged - earlier : 0;
    progress->earlier = earlier;
    /* Checked after the counts were read: otherwise they may be those of the next thread with this lane. */
    if (!is_lane_of(heap, own, thread)) return nothing("progress");
    return end_status == ZELAMIKU_FORKED ? fail(heap->path, ZELAMIKU_FORKED, 0, NULL, NULL, "progress") : ZELAMIKU_OK;
}

zelamiku_status zelamiku_thread_progress(zelamiku_thread thread, zelamiku_progress *given) {
    zelamiku_progress progress = {0}, none = {.lane = ZELAMIKU_NOBODY};
    if (given == NULL) return null_pointer("progress", "give one");
    if (!has_size(given, LEAST_PROGRESS)) return wrong_size("progress", "zelamiku_progress");
    seat *own = seat_of(thread);
    zelamiku_status status = COUNTED(place_of(own), progress_of(place_of(own), own, thread, &progress));
    give_out(given, status == ZELAMIKU_OK ? &progress : &none, sizeof progress);
    return status;
}

/* Sleeps until so many sections of the lane are durable. */
static zelamiku_status await_sections(heap *heap, seat *own, uint64_t sections, uint64_t deadline, bool *is_all) {
    zelamiku_status status = ZELAMIKU_OK;
    uint64_t troubles = heap->troubles, counted = UINT64_MAX;
    run_soon();
    heap->arrivals++;
    for (bool is_early = true;;) {
        uint32_t seen = heap->round_bell;
        /* Before the sections are looked at, since what a last round acknowledges comes before it says so. */
        if (heap->is_settled) status = (zelamiku_status)heap->end_status;
        *is_all = is_durable(own, sections);
        if (*is_all) status = ZELAMIKU_OK;
        if (!*is_all && status == ZELAMIKU_OK) status = trouble_since(heap, troubles);
        if (*is_all || status != ZELAMIKU_OK || !is_early) break;
        if (leads_or_counts(heap, deadline != ZELAMIKU_NO_DEADLINE || is_one_of_groups(heap, own), &counted))
            (void)lead(heap, ZELAMIKU_ROUND_AWAITED, false);
        else
            is_early = sleep_on(&heap->round_bell, seen, deadline);
    }
    count_no_more(heap, counted);
    return status;
}

/* Whether all sections of the handle can be awaited. An open one can't: it ends after this call. One that was cut off when the heap ended never
 * ends, even if its thread hasn't learned that yet, and so is busy. */
static zelamiku_status can_await_all(heap *heap, const seat *own, zelamiku_thread thread) {
    zelamiku_status over = (zelamiku_status)heap->end_status;
    if (own->was_cut_off || (own->is_busy && over != ZELAMIKU_OK)) return tell_end(heap, over, heap->error, "await");
    bool is_open = own->open == thread.number && over == ZELAMIKU_OK;
    return is_open ? fail(heap->path, ZELAMIKU_RUNNING, 0, "the thread has a section open", "exit its monitors before", "await") : ZELAMIKU_OK;
}

static zelamiku_status await_of(heap *heap, seat *own, zelamiku_thread thread, uint64_t sections, uint64_t deadline, bool *is_all) {
    uint64_t ended = own->ended, before = own->earlier;
    /* Checked after the counts were read: otherwise they may be those of the next thread with this lane. */
    if (!is_lane_of(heap, own, thread)) return nothing("await");
    if (heap->end_status == ZELAMIKU_FORKED) return fail(heap->path, ZELAMIKU_FORKED, 0, NULL, NULL, "await");
    if (sections > ended - before) {
        zelamiku_status status = can_await_all(heap, own, thread);
        if (status != ZELAMIKU_OK) return status;
        sections = ended - before;
    }
    *is_all = is_durable(own, before + sections);
    if (*is_all) return ZELAMIKU_OK;
    zelamiku_status status = await_sections(heap, own, before + sections, deadline, is_all);
    return status == ZELAMIKU_OK ? status : tell_end(heap, status, heap->error, "await");
}

zelamiku_status zelamiku_thread_await_until(zelamiku_thread thread, uint64_t sections, uint64_t deadline, bool *is_all) {
    if (is_all == NULL) return null_pointer("await", "give is_durable");
    *is_all = false;
    seat *own = seat_of(thread);
    return COUNTED(place_of(own), await_of(place_of(own), own, thread, sections, deadline, is_all));
}
