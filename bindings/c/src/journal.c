/* A journal as a device, where the real one keeps sectors whole: so a round takes one sync (docs/FORMAT.md, "A journal in two halves").
 *
 * Reads and writes go to the journal, which works in memory. A sync asks it for a turn, and makes the journal's own calls on the real device. Where
 * such a call fails, the calls wait in the journal, and the sync is given again. As nothing was written meanwhile, that adds none, unless what was
 * written fits into no batch: then the journal turns at once. */
/* ---- the journal as a device ---- */

static bool is_journaled(const heap *heap) {
    return heap->journal.handle.is_open;
}

/* The journal's answer to a read or a write, which may be tried again: it refuses a write that it has no memory for. */
static zelamiku_status answer_or_device(zelamiku_status status) {
    if (status == ZELAMIKU_OK) return ZELAMIKU_OK;
    errno = status == ZELAMIKU_FAULT ? ENOMEM : EIO;
    return ZELAMIKU_DEVICE;
}

static zelamiku_status read_journal(void *context, uint64_t at, void *bytes, size_t size) {
    journal *journal = context;
    return answer_or_device(zelamiku_journal_read(&journal->handle, at, (uint8_t *)bytes, size));
}

static zelamiku_status write_journal(void *context, uint64_t at, const void *bytes, size_t size) {
    journal *journal = context;
    return answer_or_device(zelamiku_journal_write(&journal->handle, at, (const uint8_t *)bytes, size));
}

/* Makes the journal's calls, after a turn or an order. FAULT, if there was none for want of memory: it may be that there never is one again. */
static zelamiku_status after_turn(journal *journal, zelamiku_status turned) {
    uint64_t made = 0;
    errno = ENOMEM;
    if (turned != ZELAMIKU_OK) return turned;
    zelamiku_status status = make_calls_on(&journal->handle, &journal->below, &made, &journal->syncs);
    journal->calls += made;
    return status;
}

static zelamiku_status sync_journal(void *context) {
    journal *journal = context;
    return after_turn(journal, zelamiku_journal_sync(&journal->handle));
}

static zelamiku_status length_of_journal(void *context, uint64_t *length) {
    *length = ((const journal *)context)->size;
    return ZELAMIKU_OK;
}

static zelamiku_device device_of_journal(journal *journal) {
    zelamiku_device device = {sizeof device, read_journal, write_journal, sync_journal, length_of_journal, journal};
    return device;
}

/* Syncs the device of the handle's heap. If that is a journal, and the heap has more calls behind this sync, these are only put in order: the last
 * sync makes all of them durable. */
static zelamiku_status sync_or_order(zelamiku_handle *handle, const zelamiku_device *on) {
    uint32_t waiting = 0;
    if (on->sync != sync_journal) return sync_device(on);
    zelamiku_status status = zelamiku_waiting(handle, &waiting);
    assert(status == ZELAMIKU_OK);
    if (status != ZELAMIKU_OK || waiting == 0) return sync_journal(on->context);
    journal *journal = on->context;
    return after_turn(journal, zelamiku_journal_order(&journal->handle));
}

/* What was made on the real device counts, in place of what was made on the journal. */
static void take_counts(journal *journal, uint64_t *calls, uint64_t *syncs) {
    *calls = journal->calls;
    *syncs = journal->syncs;
    journal->calls = journal->syncs = 0;
}

/* ---- finding and making one ---- */

enum { JOURNAL_PAGE = 4096, LABEL_BYTES = 24, HALF_PAGES = ZELAMIKU_HALF /* 133: for 32,984 words */ };

/* How many bytes a journal takes, by the pages of a half and of the image. */
static uint64_t bytes_of_journal(uint64_t half, uint64_t image) {
    return (1 + 2 * half + image) * JOURNAL_PAGE;
}

static uint64_t pages_of(uint64_t bytes) {
    return bytes / JOURNAL_PAGE + (bytes % JOURNAL_PAGE != 0);
}

static uint64_t number_at(const uint8_t *bytes) {
    uint64_t number = 0;
    for (int i = 0; i < 8; i++) number = number << 8 | bytes[i];
    return number;
}

/* Whether a device begins with the name of a journal; `takes` gets how many bytes its label counts, or the most where no device has so many. */
static bool is_label(const uint8_t *begun, uint64_t *takes) {
    uint64_t half = number_at(begun + 8), image = number_at(begun + 16);
    *takes = half <= UINT32_MAX && image <= UINT32_MAX ? bytes_of_journal(half, image) : UINT64_MAX;
    return memcmp(begun, "MONIHALF", 8) == 0;
}

/* Puts a journal with an image of so many bytes, which was opened or made, in the place of the heap's device. The first sync makes its calls. */
static void put_journal(heap *heap, const zelamiku_device *below, uint64_t size) {
    journal *journal = &heap->journal;
    assert(is_journaled(heap) && below->sync != sync_journal);
    journal->below = *below;
    journal->size = size;
    journal->calls = journal->syncs = 0;
    heap->device = device_of_journal(journal);
}

/* Makes a journal for an image of so many bytes. */
static zelamiku_status make_journal(heap *heap, const zelamiku_device *below, uint64_t size) {
    uint64_t pages = pages_of(size);
    zelamiku_status status = zelamiku_journal_create(&heap->journal.handle, HALF_PAGES, (uint32_t)pages);
    if (status == ZELAMIKU_OK) put_journal(heap, below, pages * JOURNAL_PAGE);
    return status;
}

/* Whether a page of zeros has what a making of a journal writes there before the label: an empty batch, whose stamp 2 each sector has. */
static bool has_first_batch(const uint8_t *page) {
    bool is_so = true;
    for (unsigned at = 0; at < JOURNAL_PAGE; at++) is_so &= page[at] == 0 || (at % 512 == 7 && page[at] == 2);
    return is_so;
}
