/* Handles and the places of heaps: the registry, forks, and the lookup of a handle.
 *
 * The registry's mutex guards which places are used (`is_used`, `freed`), each heap's descriptor, device and inode, and each event's descriptor.
 * A handle is looked up without it: by a count of calls in progress, and the place's number. */
/* ---- places of heaps, and forks ---- */

/* In the child: ends its parent's heaps here, and closes their descriptors, which would keep the locks. Touches nothing else: another thread of
 * the parent may have been changing it, even of a heap that had ended. So calls with such handles may not lock its mutex. */
static void forked(void) {
    for (size_t place = 1; place < ZELAMIKU_MOST_HEAPS; place++) {
        heap *heap = &heaps[place];
        close_events(heap);
        if (!heap->is_used && heap->number == 0) continue;
        heap->end_status = ZELAMIKU_FORKED;
        shut(heap, true);
        if (!heap->is_used) continue;
        if (has_its_file(heap)) (void)close(heap->file); /* where there is none, -1, which closes nothing */
        heap->file = -1; /* a child of this child may have another file by that number */
        heap->volume = heap->inode = 0;
    }
    for (const draft *draft = drafts; draft != NULL; draft = draft->next) {
        (void)close(draft->old);
        (void)close(draft->file);
    }
    drafts = NULL;
    opens_underway = 0; /* their threads aren't here */
    unlock(&registry);
}

/* Waits for files that are being opened: a child must know each file that it has, to close it. Only for so long, because an open may hang. */
static void before_fork(void) {
    lock(&registry);
    for (unsigned naps = 0; opens_underway > 0 && naps < OPENING_NAPS; naps++) nap(NAP);
}

static void after_fork(void) {
    unlock(&registry);
}

/* Registered before any handler of the program: so a fork locks the registry's mutex after all that the program's handlers lock, and unlocks it
 * first. */
__attribute__((constructor)) static void watch_forks(void) {
    (void)pthread_atfork(before_fork, after_fork, forked);
}

/* ---- calls in progress ---- */

/* Under the registry's mutex: whether the place, which has no heap, can be reused. After that no call finds its old heap. */
static bool is_vacated(heap *heap) {
    assert(holds(&registry));
    uint64_t number = heap->number;
    heap->number = 0;
    if (heap->underway == 0) return true;
    heap->number = number;
    return false;
}

/* Under the registry's mutex: the place that is free longest, so calls with handles of its old heap get that heap's status for long. NULL: each
 * is used. */
static heap *longest_free(void) {
    assert(holds(&registry));
    for (;;) {
        heap *found = NULL;
        for (size_t place = 1; place < ZELAMIKU_MOST_HEAPS; place++) {
            heap *heap = &heaps[place];
            if (!heap->is_used && heap->underway == 0 && (found == NULL || heap->freed < found->freed)) found = heap;
        }
        if (found == NULL || is_vacated(found)) return found;
    }
}

/* A place for a heap; NULL: each is used. */
static heap *new_place(void) {
    lock(&registry);
    heap *found = longest_free();
    if (found != NULL) {
        if (!found->has_mutex) (void)pthread_mutex_init(&found->mutex.mutex, NULL);
        found->has_mutex = true;
        close_events(found); /* of threads that have never ended their use of the heap before */
        found->file = -1;
        found->volume = found->inode = 0;
        found->lanes = 0;
        found->end_status = 0;
        found->is_used = true;
    }
    unlock(&registry);
    return found;
}

/* No thread is in a section of the heap that was here, and none can begin one. */
static void free_changes(heap *heap) {
    for (uint32_t lane = 0; lane < heap->lanes; lane++) {
        free(seat_at(heap, lane)->changes);
        seat_at(heap, lane)->changes = NULL;
    }
    free(heap->transient);
    heap->transient = NULL;
}

static void free_place(heap *heap) {
    free_changes(heap);
    lock(&registry);
    assert(heap->is_used);
    heap->is_used = false;
    heap->freed = ++handed_out;
    unlock(&registry);
}

/* Unlocks and closes a file whose descriptor the registry has. Closing isn't enough: a forked child shares the lock until it runs. */
static void close_listed(int *descriptor) {
    lock(&registry);
    int file = *descriptor;
    *descriptor = -1;
    unlock(&registry);
    if (file < 0) return;
    (void)AGAIN(flock(file, LOCK_UN));
    (void)close(file);
}

static void close_file(heap *heap) {
    bool is_ours = has_its_file(heap);
    lock(&registry);
    heap->volume = heap->inode = 0;
    if (!is_ours) heap->file = -1;
    unlock(&registry);
    close_listed(&heap->file);
}

/* The heap of a handle, valid until end_call; NULL: NOTHING or FORKED, as `status` says. */
static heap *begin_call(zelamiku_heap handle, const char *call, zelamiku_status *status) {
    heap *heap = &heaps[handle.number >> 8 & (ZELAMIKU_MOST_HEAPS - 1)];
    count_call(heap);
    *status = ZELAMIKU_OK;
    if ((handle.number & 255) != 1 || heap->number != handle.number)
        *status = nothing(call);
    else if (heap->end_status == ZELAMIKU_FORKED)
        *status = fail(heap->path, ZELAMIKU_FORKED, 0, NULL, NULL, "%s", call);
    if (*status == ZELAMIKU_OK) return heap;
    end_call(heap);
    return NULL;
}

/* The call on the heap of the handle, which it names `heap`; or NOTHING, FORKED. */
#define ON_HEAP(handle, name, call) \
    ({ \
        zelamiku_status status_; \
        heap *heap = begin_call((handle), (name), &status_); \
        if (heap != NULL) { \
            status_ = (call); \
            end_call(heap); \
        } \
        status_; \
    })
