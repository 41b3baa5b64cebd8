/* A heap's life once its device is open: begin, close, stop, stats, copy.
 *
 * A heap ends once (`end_status`), under its mutex. One thread takes over its ending (`is_being_ended`): it ends the helper, waits until nobody
 * leads, and frees everything. What is durable then is final (`is_settled`), and no round comes after it. If another thread ends the heap too,
 * it waits until the first one has finished (`has_ended`). */
/* ---- the beginning of a heap ---- */

/* Resets the seat as if no thread had the lane, even if an earlier heap had this lane and this one doesn't. Calls with old handles may read its
 * atomic members meanwhile. */
static void clear_seat(heap *heap, uint32_t lane) {
    seat *own = seat_at(heap, lane);
    assert(own->changes == NULL && own->event == 0);
    own->lent_number = 0;
    own->number = own->open = 0;
    own->ended = own->acknowledged = own->earlier = own->last_stored = 0;
    own->bell = own->is_behind = own->session_use = own->was_cut_off = own->is_busy = 0;
    own->wanted = own->locks = own->records = own->has_stored = 0;
    own->is_lent = own->frees_session = own->is_logged = false;
    own->turn = own->counted = own->passed = 0;
    own->begun = 0;
    own->asked = own->loop_knows = own->troubles = own->lacked_at = 0;
    own->demands = 0;
    own->lacks_room = own->may_have_room = own->counts_as_waiting = own->is_rung = false;
    own->lane = lane;
    own->heap = heap;
    memset(&own->session, 0, sizeof own->session);
}

/* Whether the session is the first of its lane: none of its sections has ended. */
static inline bool is_first_of(seat *own) {
    uint32_t lane = ZELAMIKU_NOBODY;
    uint64_t ended = 1;
    return zelamiku_lane(&own->session, &lane, &ended) == ZELAMIKU_OK && lane == own->lane && ended == 0;
}

/* Takes the sessions of all lanes; a heap that was just opened hands them out from 0 on. */
static zelamiku_status take_lanes(heap *heap, zelamiku_handle *handle) {
    zelamiku_status status = ZELAMIKU_OK;
    for (uint32_t lane = 0; lane < ZELAMIKU_MOST_LANES; lane++) clear_seat(heap, lane);
    for (heap->lanes = 0; heap->lanes < ZELAMIKU_MOST_LANES; heap->lanes++) {
        seat *own = seat_at(heap, heap->lanes);
        status = zelamiku_session(handle, &own->session);
        if (status != ZELAMIKU_OK) break;
        assert(is_first_of(own));
    }
    return status == ZELAMIKU_NONE_LEFT ? ZELAMIKU_OK : status;
}

static void mark_atomics(heap *heap) {
    ARE_ATOMIC(heap->number, sizeof heap->number + sizeof heap->underway);
    ARE_ATOMIC(heap->waiting, sizeof *heap - offsetof(struct heap, waiting));
    for (uint32_t lane = 0; lane < heap->lanes; lane++) {
        seat *own = seat_at(heap, lane);
        ARE_ATOMIC(own->bell, offsetof(seat, wanted));
        ARE_ATOMIC(own->was_cut_off, sizeof own->was_cut_off);
        ARE_ATOMIC(own->earlier, sizeof own->earlier);
        ARE_ATOMIC(own->begun, sizeof own->begun);
        ARE_ATOMIC(own->has_event, sizeof own->has_event);
        ARE_ATOMIC(own->number, sizeof *own - offsetof(seat, number));
    }
}

/* Removes all that an earlier heap has left in the place. */
static void clear_place(heap *heap, const zelamiku_plan *plan) {
    heap->processors = (uint32_t)sysconf(_SC_NPROCESSORS_ONLN); /* the most there could be, if it isn't known */
    heap->linger = (uint64_t)(plan->linger != 0 ? plan->linger : ZELAMIKU_DEFAULT_LINGER) * 1000;
    heap->log = plan->log;
    heap->log_context = plan->log_context;
    heap->reverts = plan->reverts != 0;
    assert(heap->transient == NULL && !is_journaled(heap));
    heap->last_calls = heap->affordable = heap->syncs_made = heap->syncs_before = heap->turns = 0;
    heap->urgent = heap->waiting_to_lead = heap->sessions_out = heap->sleepers = heap->loops = heap->expected_sections = 0;
    heap->is_led = heap->leader_waits = heap->is_ending = heap->is_troubled = heap->is_being_ended = heap->has_ended = false;
    memset(&heap->stats, 0, sizeof heap->stats);
    for (unsigned i = 0; i < BUCKETS; i++) heap->waiting[i] = 0;
    heap->has_work = heap->is_settled = heap->awaiting = heap->arrivals = heap->expected = heap->has_more = heap->has_timer = heap->has_reads = 0;
    heap->steps = heap->poll_until = heap->rounds = heap->troubles = 0;
    heap->hooks_underway = 0; /* clang joins no atomics of two types */
}

/* Sets how many records a lane takes, by its ring and its log, and after how many a section's end requests a round: three quarters of the
 * records after which a section finds no room. */
static void set_room(heap *heap, uint32_t ring, uint32_t capacity) {
    if (capacity < ring) ring = capacity;
    heap->room = ring > ZELAMIKU_LEAST_CAPACITY ? ring : ZELAMIKU_LEAST_CAPACITY;
    assert(heap->room > ZELAMIKU_MOST_RECORDS);
    heap->enough = (uint32_t)(heap->room - ZELAMIKU_MOST_RECORDS) / 4 * 3;
}

/* A place for a heap of this path and plan; NULL: none, for the reason in `status`. */
static heap *place_for(const char *path, const zelamiku_plan *plan, zelamiku_status *status) {
    heap *heap = new_place();
    if (heap == NULL) {
        *status = fail(path, ZELAMIKU_NONE_LEFT, 0, "255 heaps are open", "close one", "open");
        return NULL;
    }
    free(heap->path);
    free(heap->where);
    heap->where = NULL;
    heap->path = strdup(path);
    clear_place(heap, plan);
    if (heap->path != NULL) return heap;
    free_place(heap);
    *status = fail(path, ZELAMIKU_NO_MEMORY, 0, NULL, NULL, "open");
    return NULL;
}

/* Starts the helper, with all signals blocked. */
static int start_helper(heap *heap) {
    sigset_t all, before;
    (void)sigfillset(&all);
    (void)pthread_sigmask(SIG_SETMASK, &all, &before);
    int answer = pthread_create(&heap->helper, NULL, help, heap);
    (void)pthread_sigmask(SIG_SETMASK, &before, NULL);
    return answer;
}

/* The handle's heap has the place from now on. After a failure the sessions are free. */
static zelamiku_status occupy(heap *heap, zelamiku_handle *handle, zelamiku_heap *begun) {
    zelamiku_status status = take_lanes(heap, handle);
    if (status == ZELAMIKU_OK && heap->reverts) {
        status = keep_changes(heap, handle);
        if (status != ZELAMIKU_OK) zelamiku_free(handle); /* its sessions go */
    }
    if (status == ZELAMIKU_OK) {
        mark_atomics(heap);
        heap->syncs_made = heap->journal.calls = heap->journal.syncs = 0; /* those of the opening aren't counted */
        heap->handle = *handle;
        memset(handle, 0, sizeof *handle);
        begun->number = new_number((size_t)(heap - heaps) << 8 | 1);
        heap->number = begun->number;
        int error = start_helper(heap);
        if (error == 0) return ZELAMIKU_OK;
        heap->number = begun->number = 0;
        zelamiku_free(&heap->handle);
        status = fail(heap->path, ZELAMIKU_NO_MEMORY, error, "the helper's thread can't be started", NULL, "open");
    } else {
        (void)fail(heap->path, status, 0, NULL, NULL, "open");
    }
    for (uint32_t lane = 0; lane < ZELAMIKU_MOST_LANES; lane++) zelamiku_free(&seat_at(heap, lane)->session);
    return status;
}

/* ---- the end of a heap ---- */

/* No more rounds will come. Wakes every thread that waits for one, or for its turn to lead. */
static void tell_end_of_rounds(heap *heap) {
    heap->is_settled = 1;
    lock(&heap->mutex);
    heap->is_led = false;
    tell_loops(heap, false, true);
    unlock(&heap->mutex);
    tell_all(heap);
}

/* Under the mutex: whether the lane's thread is in a section or a call. A thread of an earlier heap of this place may have been suspended after
 * it checked its handle, and write `is_busy` here only now. In a lane that isn't lent, that means nothing. */
static bool is_inside(const seat *own) {
    assert(holds(&place_of(own)->mutex));
    return own->is_lent && own->is_busy;
}

/* Releases the file, the library's memory, and the place. Sessions of threads in sections stay: each thread frees its own with its next call,
 * and the last one frees the place. */
static void release(heap *heap) {
    zelamiku_free(&heap->handle);
    zelamiku_free(&heap->journal.handle);
    close_file(heap);
    lock(&heap->mutex);
    assert(heap->end_status != 0 && heap->is_settled && !heap->is_led && heap->sessions_out == 0);
    free(heap->dropped);
    heap->dropped = NULL;
    for (uint32_t lane = 0; lane < heap->lanes; lane++) {
        seat *own = seat_at(heap, lane);
        own->frees_session = is_inside(own);
        if (own->frees_session)
            heap->sessions_out++;
        else
            zelamiku_free(&own->session);
    }
    bool is_free = heap->sessions_out == 0;
    unlock(&heap->mutex);
    if (is_free) free_place(heap);
}

/* A thread has learned that the heap has ended, and leaves its section. */
COLD void leave(heap *heap, seat *own) {
    bool is_last = false;
    lock(&heap->mutex);
    if (own->locks > 0) own->was_cut_off = 1;
    own->locks = 0;
    own->open = 0;
    own->is_busy = 0;
    if (own->frees_session) {
        assert(heap->end_status != 0 && heap->sessions_out > 0);
        own->frees_session = false;
        zelamiku_free(&own->session);
        is_last = --heap->sessions_out == 0;
    }
    unlock(&heap->mutex);
    if (is_last) free_place(heap);
}

/* Under the mutex: sleeps until another round has ended. */
static void await_next_round(heap *heap) {
    assert(holds(&heap->mutex));
    uint64_t rounds = heap->rounds;
    while (heap->rounds == rounds) {
        uint32_t seen = heap->round_bell;
        unlock(&heap->mutex);
        (void)sleep_on(&heap->round_bell, seen, ZELAMIKU_NO_DEADLINE);
        lock(&heap->mutex);
    }
}

/* Under the mutex. OK: nothing is open and all is durable, and no section can begin any more. RUNNING: a section is open or a thread waits.
 * CALLS_LEFT: a section has ended since the last round. */
static zelamiku_status try_stop(heap *heap) {
    assert(holds(&heap->mutex));
    zelamiku_status status = ZELAMIKU_OK;
    shut(heap, false);
    for (uint32_t lane = 0; lane < heap->lanes; lane++) {
        seat *own = seat_at(heap, lane);
        if (is_inside(own))
            status = ZELAMIKU_RUNNING;
        else if (status == ZELAMIKU_OK && !is_durable(own, own->ended))
            status = ZELAMIKU_CALLS_LEFT;
    }
    for (uint32_t lane = 0; status != ZELAMIKU_OK && lane < heap->lanes; lane++)
        if (seat_at(heap, lane)->is_lent) seat_at(heap, lane)->number = seat_at(heap, lane)->lent_number;
    return status;
}

/* Under the mutex: waits until all is durable and nothing is open. */
static zelamiku_status settle(heap *heap) {
    assert(holds(&heap->mutex));
    uint64_t troubles = heap->troubles;
    zelamiku_status status = (zelamiku_status)heap->end_status;
    while (status == ZELAMIKU_OK && (status = try_stop(heap)) == ZELAMIKU_CALLS_LEFT) {
        heap->urgent = ZELAMIKU_ROUND_CLOSING;
        ring_helper(heap);
        await_next_round(heap);
        status = trouble_since(heap, troubles);
        if (status == ZELAMIKU_OK) status = (zelamiku_status)heap->end_status;
    }
    return status;
}

/* Under the mutex, which it releases: ends the helper, and waits until nobody leads. */
static void end_helper(heap *heap) {
    assert(holds(&heap->mutex));
    assert(heap->end_status != 0 && !heap->is_being_ended);
    heap->is_being_ended = heap->is_ending = true;
    ring_helper(heap);
    unlock(&heap->mutex);
    (void)pthread_join(heap->helper, NULL);
    lock(&heap->mutex);
    lead_as_guest(heap);
    unlock(&heap->mutex);
}

/* Closes the heap in the library, once its sessions have all ended. All sections are durable already: if the close's own calls fail, the next
 * open recovers what they leave. */
static zelamiku_status close_cleanly(heap *heap) {
    zelamiku_status status = ZELAMIKU_OK;
    uint64_t calls = 0;
    for (uint32_t lane = 0; status == ZELAMIKU_OK && lane < heap->lanes; lane++) status = zelamiku_end(&seat_at(heap, lane)->session);
    if (status == ZELAMIKU_OK) status = zelamiku_close(&heap->handle);
    if (status == ZELAMIKU_OK && has_its_file(heap)) status = make_calls(heap, &calls);
    return status == ZELAMIKU_DEVICE ? ZELAMIKU_OK : public_status(status);
}

static zelamiku_status tell_end(heap *heap, zelamiku_status status, int error, const char *call) {
    if (status == ZELAMIKU_OK) {
        tell_log(heap, ZELAMIKU_LOG_INFO, "%s", text_of(heap->end_status, 0));
        return ZELAMIKU_OK;
    }
    bool has_cause = status == ZELAMIKU_LOST || status == ZELAMIKU_DEVICE;
    return fail(heap->path, status, has_cause ? error : 0, status == ZELAMIKU_DEVICE ? "a write has failed" : NULL, NULL, "%s", call);
}

/* Under the mutex, which it releases: waits until the other thread that ends the heap has finished. */
static zelamiku_status await_end(heap *heap, const char *call) {
    assert(holds(&heap->mutex));
    while (!heap->has_ended) {
        uint32_t seen = heap->round_bell;
        unlock(&heap->mutex);
        (void)sleep_on(&heap->round_bell, seen, ZELAMIKU_NO_DEADLINE);
        lock(&heap->mutex);
    }
    unlock(&heap->mutex);
    return tell_end(heap, (zelamiku_status)heap->end_status, heap->error, call);
}

/* This thread has released all of the heap, and logged that. Wakes the calls that wait for it, and returns. */
static zelamiku_status ended(heap *heap, zelamiku_status status) {
    await_hooks(heap);
    lock(&heap->mutex);
    heap->has_ended = true;
    unlock(&heap->mutex);
    tell_all(heap);
    return status;
}

static zelamiku_status close_heap(heap *heap) {
    lock(&heap->mutex);
    zelamiku_status status = heap->is_being_ended ? ZELAMIKU_OK : settle(heap);
    if (heap->is_being_ended) return await_end(heap, "close");
    if (status == ZELAMIKU_RUNNING || status == ZELAMIKU_DEVICE) {
        unlock(&heap->mutex);
        return tell_end(heap, status, heap->error, "close");
    }
    end(heap, ZELAMIKU_CLOSED);
    bool is_clean = status == ZELAMIKU_OK;
    if (is_clean) heap->is_settled = 1; /* else the leader may have yet to report the cause */
    end_helper(heap);
    int error = heap->error;
    if (is_clean) {
        status = close_cleanly(heap);
        if (status != ZELAMIKU_OK) error = errno;
    }
    tell_end_of_rounds(heap);
    release(heap);
    return ended(heap, tell_end(heap, status, error, "close"));
}

zelamiku_status zelamiku_heap_close(zelamiku_heap handle) {
    return ON_HEAP(handle, "close", close_heap(heap));
}

/* Stops the heap: all calls return this status. */
static zelamiku_status stop_heap(heap *heap, zelamiku_status why) {
    lock(&heap->mutex);
    if (heap->is_being_ended) return await_end(heap, "stop");
    zelamiku_status status = (zelamiku_status)heap->end_status;
    end(heap, why);
    end_helper(heap);
    int error = heap->error;
    if (status == ZELAMIKU_OK) {
        /* A last round, for the sections that have ended. */
        status = lead(heap, ZELAMIKU_ROUND_CLOSING, true);
        error = heap->error;
    }
    if (status == ZELAMIKU_DEVICE && !has_stores(heap)) status = ZELAMIKU_OK; /* the next open recovers what the calls leave */
    tell_end_of_rounds(heap);
    release(heap);
    if (status == ZELAMIKU_DEVICE) /* nobody makes that write again */
        status = fail(heap->path, ZELAMIKU_LOST, error, "a write has failed, and what wasn't durable is lost", NULL, "stop");
    else
        status = tell_end(heap, status, error, "stop");
    return ended(heap, status);
}

zelamiku_status zelamiku_heap_stop(zelamiku_heap handle, zelamiku_status why) {
    if (why != ZELAMIKU_CLOSED && why != ZELAMIKU_ABANDONED)
        return fail(NULL, ZELAMIKU_BAD_ARGUMENT, 0, "the reason is wrong", "give ZELAMIKU_CLOSED or ZELAMIKU_ABANDONED", "stop");
    return ON_HEAP(handle, "stop", stop_heap(heap, why));
}

/* ---- what a service asks of it ---- */

static zelamiku_status stats_of(heap *heap, zelamiku_stats *stats) {
    lock(&heap->mutex);
    *stats = heap->stats;
    stats->troubles = heap->troubles;
    stats->awaiting = heap->awaiting + heap->leader_waits;
    for (uint32_t lane = 0; lane < heap->lanes; lane++) {
        seat *other = seat_at(heap, lane);
        stats->sections += other->acknowledged;
        stats->lent += other->is_lent;
        stats->entering += other->wanted != 0;
    }
    unlock(&heap->mutex);
    return ZELAMIKU_OK;
}

zelamiku_status zelamiku_heap_stats(zelamiku_heap handle, zelamiku_stats *given) {
    zelamiku_stats stats = {0};
    if (given == NULL) return null_pointer("stats", "give each");
    if (!has_size(given, LEAST_STATS)) return wrong_size("stats", "zelamiku_stats");
    zelamiku_status status = ON_HEAP(handle, "stats", stats_of(heap, &stats));
    give_out(given, &stats, sizeof stats);
    return status;
}

/* Sleeps until more rounds have ended than were seen. */
static zelamiku_status await_round(heap *heap, uint64_t seen, uint64_t deadline, uint64_t *rounds) {
    zelamiku_status status = ZELAMIKU_OK;
    uint64_t troubles = heap->troubles;
    run_soon();
    heap->awaiting++;
    if (heap->has_work || heap->has_reads) {
        heap->arrivals++;
        demand(heap, ZELAMIKU_ROUND_AWAITED);
    }
    for (bool is_early = true;;) {
        uint32_t word = heap->round_bell;
        *rounds = heap->rounds;
        if (heap->is_settled) status = (zelamiku_status)heap->end_status;
        if (status == ZELAMIKU_OK) status = trouble_since(heap, troubles);
        if (*rounds > seen || status != ZELAMIKU_OK || !is_early) break;
        is_early = sleep_on(&heap->round_bell, word, deadline);
    }
    heap->awaiting--;
    return status == ZELAMIKU_OK ? status : tell_end(heap, status, heap->error, "await a round");
}

zelamiku_status zelamiku_heap_await_round(zelamiku_heap handle, uint64_t seen, uint64_t deadline, uint64_t *rounds) {
    if (rounds == NULL) return null_pointer("await a round", "give each");
    *rounds = 0;
    return ON_HEAP(handle, "await a round", await_round(heap, seen, deadline, rounds));
}

/* The heap's bytes, of a moment between two rounds: what the device holds once all pending calls are made. And the mode of its file, or that of a
 * new file if it has none. */
static zelamiku_status take_bytes(heap *heap, uint8_t *bytes, mode_t *mode) {
    struct stat info = {.st_mode = 0600};
    uint64_t copied = 0;
    lock(&heap->mutex);
    zelamiku_status status = (zelamiku_status)heap->end_status;
    if (status == ZELAMIKU_OK) {
        lead_as_guest(heap);
        status = (zelamiku_status)heap->end_status;
        if (status == ZELAMIKU_OK) {
            unlock(&heap->mutex);
            if (heap->file >= 0) (void)fstat(heap->file, &info);
            status = zelamiku_copy(&heap->handle, 0, bytes, (size_t)heap->size, &copied);
            assert(status == ZELAMIKU_OK && copied == heap->size);
            lock(&heap->mutex);
        }
        lead_no_more(heap, false); /* if the heap has ended, before anybody sees `is_led`: the thread that ends it frees it meanwhile */
    }
    unlock(&heap->mutex);
    tell_all(heap);
    *mode = S_ISBLK(info.st_mode) ? 0600 : info.st_mode & 0777;
    return status;
}

/* Opens and locks what is at the draft's path, if there is something. DEVICE, by errno. */
static zelamiku_status take_target(draft *draft) {
    struct stat info;
    bool is_for_reading = !open_listed(&draft->old, draft->path, O_RDWR, 0) && errno == EACCES;
    if (is_for_reading) (void)open_listed(&draft->old, draft->path, O_RDONLY, 0);
    if (draft->old < 0) return errno == ENOENT ? ZELAMIKU_OK : ZELAMIKU_DEVICE;
    if (fstat(draft->old, &info) != 0) return ZELAMIKU_DEVICE;
    if (S_ISREG(info.st_mode)) return is_open_here(&info) ? ZELAMIKU_BUSY : lock_alone(draft->old);
    return errno = EINVAL, ZELAMIKU_DEVICE;
}

static zelamiku_status no_copy(const char *path) {
    return fail(path, ZELAMIKU_DEVICE, errno, "the copy can't be written", errno == EINVAL ? "name a regular file" : NULL, "copy");
}

/* Begins a copy: locks the file at the path, where its links lead, until the copy has replaced it. So that file is no heap that is open, and
 * opening it meanwhile is BUSY. */
static zelamiku_status begin_copy(draft *draft, const char *path) {
    const char *cause = "a heap of that path is open";
    zelamiku_status status = find_real_path(path, draft->path) ? take_target(draft) : ZELAMIKU_DEVICE;
    if (status == ZELAMIKU_OK) status = begin_draft(draft, 0600, &cause);
    if (status == ZELAMIKU_BUSY) return fail(path, status, 0, cause, "give another path, or try again", "copy");
    return status == ZELAMIKU_OK ? status : no_copy(path);
}

/* Writes the copy, and puts it in its place. */
static zelamiku_status write_copy(draft *draft, const char *path, const uint8_t *bytes, uint64_t size, mode_t mode) {
    if (fchmod(draft->file, mode) != 0) errno = 0; /* the system has no such rights */
    if (!write_all(draft->file, bytes, size, 0) || !sync_file(draft->file)) return no_copy(path);
    if (put_in_place(draft)) return ZELAMIKU_OK;
    if (!draft->is_in_place) return no_copy(path);
    return fail(path, ZELAMIKU_DEVICE, errno, "the new copy is at the path, but its folder can't be synced",
                "a power failure may bring back what was there before: copy again", "copy");
}

static zelamiku_status copy_to(heap *heap, const char *path) {
    zelamiku_status status = ZELAMIKU_OK;
    if (heap->end_status != 0) return tell_end(heap, (zelamiku_status)heap->end_status, heap->error, "copy");
    uint64_t size = heap->size;
    uint8_t *bytes = (uint8_t *)malloc(size);
    if (bytes == NULL) return fail(heap->path, ZELAMIKU_NO_MEMORY, 0, NULL, NULL, "copy");
    draft draft;
    mode_t mode = 0;
    list_draft(&draft, NULL);
    status = begin_copy(&draft, path);
    if (status == ZELAMIKU_OK) {
        status = take_bytes(heap, bytes, &mode);
        status = status == ZELAMIKU_OK ? write_copy(&draft, path, bytes, size, mode) : tell_end(heap, status, heap->error, "copy");
    }
    end_draft(&draft);
    free(bytes);
    return status;
}

zelamiku_status zelamiku_heap_copy(zelamiku_heap handle, const char *path) {
    if (path == NULL) return null_pointer("copy", "give a path");
    return ON_HEAP(handle, "copy", copy_to(heap, path));
}
