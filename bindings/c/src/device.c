/* A heap's device: its four functions, and the calls that the proved library requests.
 *
 * The thread that opens the heap uses the device first, and then the leader. No lock is held in a call, which may hang. */
/* ---- the four functions ---- */

/* A function's result: OK, DEVICE or LOST. errno has the cause. */
static zelamiku_status answer_of(zelamiku_status answer) {
    if (answer == ZELAMIKU_OK) return ZELAMIKU_OK;
    if (errno == 0) errno = EIO;
    return answer == ZELAMIKU_DEVICE ? ZELAMIKU_DEVICE : ZELAMIKU_LOST;
}

static zelamiku_status read_device(const zelamiku_device *from, uint64_t at, void *bytes, size_t size) {
    errno = 0;
    return answer_of(from->read(from->context, at, bytes, size));
}

static zelamiku_status write_device(const zelamiku_device *to, uint64_t at, const void *bytes, size_t size) {
    errno = 0;
    return answer_of(to->write(to->context, at, bytes, size));
}

static zelamiku_status sync_device(const zelamiku_device *device) {
    errno = 0;
    return answer_of(device->sync(device->context));
}

static zelamiku_status tell_size(const zelamiku_device *device, uint64_t *size) {
    errno = 0;
    *size = 0;
    return answer_of(device->length(device->context, size));
}

static bool has_functions(const zelamiku_device *device) {
    return device->read != NULL && device->write != NULL && device->sync != NULL && device->length != NULL;
}

/* Whether the heap's descriptor still is its file's. Another file is neither written nor taken for the heap's. errno is EBADF then. */
static bool has_its_file(const heap *heap) {
    if (heap->file < 0 || heap->inode == 0) return true; /* it is on a device, or not open yet */
    if (is_of_file(heap->file, heap->volume, heap->inode)) return true;
    errno = EBADF;
    return false;
}

/* ---- the proved library's calls ---- */

/* Makes one call, and tells the library, which returns one that has failed again. */
static zelamiku_status make_call(zelamiku_handle *handle, const zelamiku_device *on, const zelamiku_call *call, const uint8_t *bytes) {
    bool is_sync = call->kind == ZELAMIKU_SYNC;
    assert(is_sync || (call->size > 0 && call->size <= ZELAMIKU_MOST_BYTES));
    zelamiku_status status = is_sync ? sync_or_order(handle, on) : write_device(on, call->at, bytes, (size_t)call->size);
    if (status == ZELAMIKU_OK) return zelamiku_call_done(handle);
    return status;
}

/* Makes the pending calls of a heap or a journal, in order, and counts them and the syncs. DEVICE: the failed call is the first one next time. */
static zelamiku_status make_calls_on(zelamiku_handle *handle, const zelamiku_device *on, uint64_t *made, uint64_t *syncs) {
    uint8_t bytes[ZELAMIKU_MOST_BYTES] = {0};
    zelamiku_call call = {ZELAMIKU_NO_CALL, 0, 0};
    for (*made = 0;; ++*made) {
        zelamiku_status status = zelamiku_next_call(handle, &call, bytes, sizeof bytes);
        if (status != ZELAMIKU_OK || call.kind == ZELAMIKU_NO_CALL) return status;
        status = make_call(handle, on, &call, bytes);
        if (status != ZELAMIKU_OK) return status;
        *syncs += call.kind == ZELAMIKU_SYNC;
    }
}
