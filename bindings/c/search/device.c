
static void device_begin(device *it, uint64_t size) {
    it->size = size;
    it->now = realloc(it->now, size);
    it->durable = realloc(it->durable, size);
    it->left = realloc(it->left, size);
    memset(it->now, 0, size);
    memset(it->durable, 0, size);
    it->count = 0;
    it->calls = 0;
    it->in_call = 0;
}

/* ---- what a crash leaves ---- */

enum { SECTOR = 512, PAGE = 4096, JOURNAL = (2 + 2 * ZELAMIKU_HALF) * PAGE /* at most, beside the image */ };
static bool sectors_tear; /* also below a journal, which the judge has to see */
static uint64_t crashing; /* the chances */

static uint64_t crash_chance(void) {
    return next_random(&crashing);
}

/* Puts what a write has there between these bytes. */
static void put_part(const device *it, size_t write, uint64_t from, uint64_t end, uint8_t *image) {
    uint64_t at = it->pending[write].at, last = at + it->pending[write].size;
    if (from < at) from = at;
    if (end > last) end = last;
    if (from < end) memcpy(image + from, it->pending[write].bytes + (from - at), end - from);
}

/* Each sector is as it was at the last sync, or as it was after one of the writes since then: crates/atomic_sectors, IsMix. */
static void mix_sectors(const device *it, uint8_t *image) {
    for (uint64_t at = 0; at < it->size; at += SECTOR) {
        size_t made = crash_chance() % (it->count + 1);
        for (size_t i = 0; i < made; i++) put_part(it, i, at, at + SECTOR, image);
    }
}

/* Each range that was written since the last sync may have any bytes: those before, those written, some of them, or others. Below a journal there
 * are no others: they would be seen too easily. */
static void tear_writes(const device *it, uint8_t *image) {
    for (size_t i = 0; i < it->count; i++) {
        uint64_t at = it->pending[i].at, size = it->pending[i].size, how = crash_chance() % (it->keeps_sectors ? 3 : 4);
        if (how > 0) put_part(it, i, at, at + (how == 1 ? size : crash_chance() % size), image);
        for (uint64_t byte = at; how == 3 && byte < at + size; byte++) image[byte] = (uint8_t)crash_chance();
    }
}

static const uint8_t *left_by_crash(const device *it) {
    memcpy(it->left, it->durable, it->size);
    if (it->keeps_sectors && !sectors_tear)
        mix_sectors(it, it->left);
    else
        tear_writes(it, it->left);
    return it->left;
}

/* ---- its calls ---- */

static bool fails(device *it, bool is_sync) {
    if (it->calls < it->fault_at || it->calls >= it->fault_ends) return false;
    if (it->fault == CALL_HANGS) search_nap(300000000 + search_chance() % 3000000000);
    return it->fault == (is_sync ? SYNC_FAILS : WRITE_FAILS);
}

/* A system may mix the sectors of a page that is written twice between two syncs, but for a write that is made again. */
static void must_be_lone(const device *it, uint64_t at, const uint8_t *bytes, uint64_t size) {
    for (size_t i = 0; i < it->count; i++) {
        uint64_t other = it->pending[i].at, length = it->pending[i].size;
        bool is_same = other == at && length == size && memcmp(it->pending[i].bytes, bytes, size) == 0;
        bool is_beside = other / PAGE <= (at + size - 1) / PAGE && at / PAGE <= (other + length - 1) / PAGE;
        if (is_beside && !is_same) search_fail("the page at byte %llu is written twice between two syncs", (unsigned long long)(at / PAGE * PAGE));
    }
}

static void write_bytes(device *it, uint64_t at, const uint8_t *bytes, uint64_t size) {
    if (it->keeps_sectors) must_be_lone(it, at, bytes, size);
    memcpy(it->now + at, bytes, size);
    if (it->count == it->room) it->pending = realloc(it->pending, (it->room = 2 * it->room + 16) * sizeof *it->pending);
    it->pending[it->count].at = at;
    it->pending[it->count].size = size;
    memcpy(it->pending[it->count++].bytes, bytes, size);
}

/* A sync takes no time, or some. */
static void sync_bytes(device *it) {
    if (search_chance() % 2 == 1) search_nap(1000 + search_chance() % 60000);
    for (size_t i = 0; i < it->count; i++) memcpy(it->durable + it->pending[i].at, it->pending[i].bytes, it->pending[i].size);
    it->count = 0;
}

/* A call of the device begins: whether it fails. */
static bool begin_device_call(device *it, bool is_sync) {
    if (it->in_call++ > 0) search_fail("two threads make calls of one device");
    search_step();
    bool is_failed = fails(it, is_sync);
    it->calls++;
    if (is_failed) it->fails(it->of, it->fault);
    return is_failed;
}

/* A sync that has failed may have lost what was written. */
static zelamiku_status end_device_call(device *it, bool is_failed, bool is_sync) {
    it->in_call--;
    if (it->is_over) search_fail("a call of the device after the heap's end");
    errno = is_failed ? EIO : 0;
    return !is_failed ? ZELAMIKU_OK : is_sync ? ZELAMIKU_LOST : ZELAMIKU_DEVICE;
}

static zelamiku_status read_it(void *of, uint64_t at, void *bytes, size_t size) {
    memcpy(bytes, ((device *)of)->now + at, size);
    return ZELAMIKU_OK;
}

static zelamiku_status write_it(void *of, uint64_t at, const void *bytes, size_t size) {
    device *it = of;
    bool is_failed = begin_device_call(it, false), is_made = !is_failed || crash_chance() % 2 == 1;
    for (uint64_t from = 0, count; is_made && from < size; from += count) {
        count = size - from < ZELAMIKU_MOST_BYTES ? size - from : ZELAMIKU_MOST_BYTES;
        write_bytes(it, at + from, (const uint8_t *)bytes + from, count);
    }
    return end_device_call(it, is_failed, false);
}

static zelamiku_status sync_it(void *of) {
    device *it = of;
    bool is_failed = begin_device_call(it, true);
    if (crash_chance() % 4 == 0) it->crashes(it->of);
    if (!is_failed) sync_bytes(it);
    return end_device_call(it, is_failed, true);
}

static zelamiku_status tell_size(void *of, uint64_t *size) {
    *size = ((device *)of)->size;
    return ZELAMIKU_OK;
}

static zelamiku_device device_functions(device *it) {
    return (zelamiku_device){sizeof(zelamiku_device), read_it, write_it, sync_it, tell_size, it};
}
