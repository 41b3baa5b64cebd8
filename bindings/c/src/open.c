/* Opening a heap by its path, or on a device: lock, recover or make, compare with the plan.
 *
 * Nobody knows the heap before it is open. So no lock is needed but the registry's, for descriptors and for whether this process has the file
 * open. */
/* ---- opening ---- */

/* An open in progress. */
typedef struct {
    heap *heap;
    const char *path; /* or the device's name */
    zelamiku_plan plan;
    zelamiku_device device; /* of the plan, if it has one */
    zelamiku_report report;
    zelamiku_handle handle;
    uint32_t threads, capacity, ring; /* of the plan, in which threads are `lanes` */
    uint32_t lanes;                   /* of the image */
    zelamiku_shape shape;             /* what the file begins with */
    bool is_volume;                   /* the path leads to a block device, */
    bool is_claimed;                  /* which was opened for this open alone */
    char cause[160], cure[160];
} opening;

static zelamiku_status refuse(opening *opening, zelamiku_status status, int error) {
    assert(status != ZELAMIKU_OK);
    return fail(opening->path, status, error, opening->cause[0] != 0 ? opening->cause : NULL, opening->cure[0] != 0 ? opening->cure : NULL, "open");
}

/* The file or the device has failed; errno says how. */
static zelamiku_status no_device(opening *opening, const char *cause) {
    int error = errno;
    (void)snprintf(opening->cause, sizeof opening->cause, "%s", cause);
    return refuse(opening, ZELAMIKU_DEVICE, error);
}

/* The proved library has refused to open or to make the heap. Each refusal of a file's bytes is DAMAGED_FILE; the report says which it was. */
static zelamiku_status refuse_heap(opening *opening, zelamiku_status status) {
    static const struct {
        uint8_t status, damage;
        const char *cause;
    } DAMAGES[] = {
        {26, ZELAMIKU_DAMAGED_HEADER, "a number of the heap is out of its limits"},
        {27, ZELAMIKU_DAMAGED_LENGTH, "the bytes are fewer than the heap has"},
        {28, ZELAMIKU_DAMAGED_CONTROL, "the heap has no control"},
        {29, ZELAMIKU_DAMAGED_CONTROL, "the heap's control can't be read"},
        {30, ZELAMIKU_DAMAGED_RECORD, "the heap has a record that can't be read"},
        {31, ZELAMIKU_DAMAGED_LOG, "no threads can have left the heap's log"},
    };
    zelamiku_report *report = &opening->report;
    for (size_t i = 0; i < sizeof DAMAGES / sizeof *DAMAGES; i++) {
        if (DAMAGES[i].status != (uint32_t)status) continue;
        report->damage = DAMAGES[i].damage;
        int begun = snprintf(opening->cause, sizeof opening->cause, "%s", DAMAGES[i].cause);
        if (report->bad_lane != ZELAMIKU_NOBODY)
            (void)snprintf(opening->cause + begun, sizeof opening->cause - (size_t)begun, ": lane %u, place %llu", report->bad_lane,
                           (unsigned long long)report->bad_place);
        return refuse(opening, ZELAMIKU_DAMAGED_FILE, 0);
    }
    return refuse(opening, status == ZELAMIKU_FAULT ? ZELAMIKU_NO_MEMORY : public_status(status), 0);
}

static zelamiku_status limit(opening *opening, const char *name, uint64_t value, uint64_t least, uint64_t most) {
    if (value >= least && value <= most) return ZELAMIKU_OK;
    (void)snprintf(opening->cause, sizeof opening->cause, "%s is %llu in the plan", name, (unsigned long long)value);
    (void)snprintf(opening->cure, sizeof opening->cure, "it may be %llu to %llu", (unsigned long long)least, (unsigned long long)most);
    return refuse(opening, ZELAMIKU_BAD_ARGUMENT, 0);
}

/* Whether a heap can be made by the plan, memory aside. */
static zelamiku_status check_plan(opening *opening) {
    const zelamiku_plan *plan = &opening->plan;
    zelamiku_status status = limit(opening, "objects", plan->objects, 1, ZELAMIKU_MOST_OBJECTS);
    if (status == ZELAMIKU_OK) status = limit(opening, "count of fields", plan->count, 1, ZELAMIKU_MOST_FIELDS - (plan->fingerprint != 0));
    if (status == ZELAMIKU_OK) status = limit(opening, "lanes", opening->threads, 1, ZELAMIKU_MOST_LANES);
    if (status == ZELAMIKU_OK) status = limit(opening, "ring", opening->ring, ZELAMIKU_LEAST_RING, ZELAMIKU_MOST_RING);
    if (status == ZELAMIKU_OK) status = limit(opening, "capacity", opening->capacity, ZELAMIKU_LEAST_CAPACITY, ZELAMIKU_MOST_CAPACITY);
    if (status == ZELAMIKU_OK) status = limit(opening, "reserved", plan->reserved, 0, 0);
    for (uint32_t i = 0; status == ZELAMIKU_OK && i < plan->count; i++) {
        const zelamiku_field *field = &plan->fields[i];
        char name[48];
        bool is_owner = field->owner >= plan->objects;
        (void)snprintf(name, sizeof name, "the %s of field %u", is_owner ? "owner" : "guard", i);
        status = limit(opening, name, is_owner ? field->owner : field->guard, 0, plan->objects - 1);
        if (status != ZELAMIKU_OK) (void)name_field(status, i);
    }
    return status;
}

/* How many lanes a heap has for so many threads: one more for the helper, unless that exceeds the limit. The same rule as `lanes_for` of
 * crates/thread_work, which hosts in Rattle use: the proved library takes the number from its caller. */
static uint32_t lanes_for(uint64_t threads) {
    return threads < ZELAMIKU_MOST_LANES ? (uint32_t)threads + 1 : ZELAMIKU_MOST_LANES;
}

/* Notes a difference, if there is one. */
static bool differs(opening *opening, uint32_t difference, uint32_t field, uint64_t has, uint64_t planned) {
    static const char *const NAMES[] = {"", "lanes", "objects", "fields", "the owner of field", "the guard of field", "the transient mark of field"};
    bool is_less = difference == ZELAMIKU_DIFFERENT_LANES && has >= planned;
    if (has == planned || is_less) return false;
    zelamiku_report *report = &opening->report;
    assert(report->difference == 0); /* the first one is reported */
    report->difference = difference;
    report->field = field;
    report->has = has;
    report->planned = planned;
    char number[16] = "";
    if (difference >= ZELAMIKU_DIFFERENT_OWNER) (void)snprintf(number, sizeof number, " %u", field);
    if (difference == ZELAMIKU_DIFFERENT_FINGERPRINT)
        (void)snprintf(opening->cause, sizeof opening->cause, "the plan's fingerprint is %llu, the heap has %llu: its names or their order differ",
                       (unsigned long long)planned, (unsigned long long)has);
    else
        (void)snprintf(opening->cause, sizeof opening->cause, "%s%s: %llu in the file, and %llu in the plan", NAMES[difference], number,
                       (unsigned long long)has, (unsigned long long)planned);
    if (difference == ZELAMIKU_DIFFERENT_LANES)
        (void)snprintf(opening->cure, sizeof opening->cure, "heapctl dump, then heapctl format --lanes %u", lanes_for(planned));
    return true;
}

/* The fingerprint in this field: the first value of a transient field of object 0, guarded by it. 0: it has none. */
static uint64_t fingerprint_in(const zelamiku_field *field) {
    return field->guard == 0 && field->owner == 0 && field->is_transient != 0 ? field->first : 0;
}

/* The heap's fingerprint, for a plan that has one. It is in the heap's last field, one more than the plan has, which isn't counted from now on.
 * 0: the heap has none, but as many fields as the plan. If its last field is the fingerprint of a plan with one field less, that one is
 * returned: its first value differs from the planned one. */
static uint64_t take_fingerprint(opening *opening, const zelamiku_field *has) {
    const zelamiku_plan *plan = &opening->plan;
    uint32_t *fields = &opening->report.fields;
    if (plan->fingerprint == 0 || (*fields != plan->count && *fields != plan->count + 1)) return 0;
    uint64_t number = fingerprint_in(&has[*fields - 1]);
    if (*fields == plan->count) return number != plan->fields[plan->count - 1].first ? number : 0;
    *fields -= number != 0;
    return number;
}

static bool differs_in_fields(opening *opening, const zelamiku_field *has) {
    bool is_other = false;
    for (uint32_t i = 0; !is_other && i < opening->plan.count; i++) {
        const zelamiku_field *field = &opening->plan.fields[i];
        is_other = differs(opening, ZELAMIKU_DIFFERENT_OWNER, i, has[i].owner, field->owner) ||
                   differs(opening, ZELAMIKU_DIFFERENT_GUARD, i, has[i].guard, field->guard) ||
                   differs(opening, ZELAMIKU_DIFFERENT_MARK, i, has[i].is_transient, field->is_transient != 0);
    }
    return is_other;
}

/* Whether the numbers, fields and fingerprint of the heap that was opened are those of the plan. */
static zelamiku_status compare(opening *opening) {
    const zelamiku_plan *plan = &opening->plan;
    const zelamiku_report *report = &opening->report;
    zelamiku_field *has = (zelamiku_field *)calloc(report->fields, sizeof *has);
    if (has == NULL) return refuse(opening, ZELAMIKU_NO_MEMORY, 0);
    zelamiku_status status = zelamiku_fields(&opening->handle, &opening->shape, has, report->fields);
    assert(status == ZELAMIKU_OK);
    uint64_t fingerprint = take_fingerprint(opening, has);
    if (differs(opening, ZELAMIKU_DIFFERENT_OBJECTS, 0, report->objects, plan->objects) ||
        differs(opening, ZELAMIKU_DIFFERENT_COUNT, 0, report->fields, plan->count) ||
        differs(opening, ZELAMIKU_DIFFERENT_LANES, 0, report->lanes, opening->threads) || differs_in_fields(opening, has) ||
        (fingerprint != 0 && differs(opening, ZELAMIKU_DIFFERENT_FINGERPRINT, 0, fingerprint, plan->fingerprint)))
        status = ZELAMIKU_OTHER_HEAP;
    free(has);
    return status == ZELAMIKU_OK ? status : refuse(opening, status, 0);
}

/* How many records a ring holds, if a lane's log takes so many: a ring never holds more than the log has room for. */
static uint32_t ring_for(const opening *opening, uint32_t capacity) {
    if (opening->ring <= capacity) return opening->ring;
    return capacity > ZELAMIKU_LEAST_RING ? capacity : ZELAMIKU_LEAST_RING;
}

/* Opens the heap of these bytes. Few sections of threads are dropped, and mostly at most one of the helper's for each object. If there are more,
 * it opens the heap again with more room, which makes no call of the device. */
static zelamiku_status open_bytes(opening *opening, const uint8_t *image, size_t size, zelamiku_opening *by, zelamiku_told *told) {
    heap *heap = opening->heap;
    uint32_t ring = ring_for(opening, opening->shape.capacity);
    for (size_t room = 256 + opening->shape.objects;;) {
        zelamiku_dropped_section *dropped = (zelamiku_dropped_section *)calloc(room, sizeof *dropped);
        if (dropped == NULL) return ZELAMIKU_NO_MEMORY;
        zelamiku_status status = by(&opening->handle, image, size, opening->threads, ring, told, dropped, room);
        bool is_whole = status != ZELAMIKU_OK || told->found.dropped <= room;
        heap->dropped = is_whole && status == ZELAMIKU_OK ? dropped : NULL;
        if (heap->dropped == NULL) free(dropped);
        if (is_whole) {
            heap->dropped_count = status == ZELAMIKU_OK ? (size_t)told->found.dropped : 0;
            return status;
        }
        room = (size_t)told->found.dropped;
        zelamiku_free(&opening->handle);
    }
}

/* Reports what recovery has found, without the helper's lane: the last lane, if the heap has one for it. */
static void report_found(opening *opening, const zelamiku_told *told) {
    const zelamiku_found *found = &told->found;
    zelamiku_report *report = &opening->report;
    heap *heap = opening->heap;
    size_t count = 0;
    for (size_t i = 0; i < heap->dropped_count; i++)
        if (heap->dropped[i].lane < found->threads) heap->dropped[count++] = heap->dropped[i];
    heap->dropped_count = count;
    report->bytes = found->size;
    report->objects = found->objects;
    report->fields = found->fields;
    report->lanes = found->threads;
    report->capacity = found->capacity;
    report->dropped = count;
    report->undone = count == 0 ? 0 : found->undone; /* all of these values were the helper's lane's: zelamiku.h says so of the report */
    memcpy(report->kept, told->kept, found->threads * sizeof *report->kept);
    opening->lanes = found->lanes;
}

enum { HEADER_BYTES = 64 }; /* a device with fewer has no heap, and its bytes aren't examined further */

/* Opens the heap of the device's bytes, which are durable. NOT_FORMATTED sets no failure yet: the first bytes are no header. */
static zelamiku_status open_image(opening *opening, uint64_t size) {
    uint8_t begun[ZELAMIKU_HEAD_BYTES] = {0};
    zelamiku_told told = {.bad_lane = ZELAMIKU_NOBODY};
    const zelamiku_device *from = &opening->heap->device;
    if (size < HEADER_BYTES) return ZELAMIKU_NOT_FORMATTED;
    size_t there = size < sizeof begun ? (size_t)size : sizeof begun;
    if (read_device(from, 0, begun, there) != ZELAMIKU_OK) return no_device(opening, "it can't be read");
    zelamiku_status status = zelamiku_head(begun, sizeof begun, &opening->shape);
    if (status == ZELAMIKU_NOT_FORMATTED) return status;
    if (status == ZELAMIKU_OK && size < opening->shape.size) status = ZELAMIKU_TOO_SMALL;
    if (status != ZELAMIKU_OK) return refuse_heap(opening, status);
    size_t whole = (size_t)opening->shape.size;
    uint8_t *image = (uint8_t *)malloc(whole);
    if (image == NULL) return refuse(opening, ZELAMIKU_NO_MEMORY, 0);
    if (read_device(from, 0, image, whole) != ZELAMIKU_OK) {
        free(image);
        return no_device(opening, "it can't be read");
    }
    status = open_bytes(opening, image, whole, zelamiku_open, &told);
    if (status == ZELAMIKU_OLD_VERSION && opening->plan.upgrades != 0) {
        status = open_bytes(opening, image, whole, zelamiku_upgrade, &told);
        opening->report.is_upgraded = status == ZELAMIKU_OK;
    }
    free(image);
    opening->report.bad_lane = told.bad_lane;
    opening->report.bad_place = told.bad_place;
    if (status != ZELAMIKU_OK) return refuse_heap(opening, status);
    report_found(opening, &told);
    return compare(opening);
}

/* Whether the device has only zeros from there on, up to `size`. */
static zelamiku_status look_for_zeros(opening *opening, uint64_t from, uint64_t size, bool *has_zeros) {
    uint8_t bytes[4096];
    static const uint8_t zeros[sizeof bytes];
    *has_zeros = true;
    for (uint64_t count; *has_zeros && from < size; from += count) {
        count = size - from < sizeof bytes ? size - from : sizeof bytes;
        if (read_device(&opening->heap->device, from, bytes, (size_t)count) != ZELAMIKU_OK) return no_device(opening, "it can't be read");
        *has_zeros = memcmp(bytes, zeros, (size_t)count) == 0;
    }
    return ZELAMIKU_OK;
}

/* Whether the device has zeros alone up to `size`, or those and what a journal's making has left that was cut off before its label. */
static zelamiku_status look_for_first_batch(opening *opening, uint64_t size, bool *is_left) {
    uint8_t page[JOURNAL_PAGE];
    *is_left = false;
    if (size < 2 * JOURNAL_PAGE) return ZELAMIKU_OK;
    if (read_device(&opening->heap->device, JOURNAL_PAGE, page, sizeof page) != ZELAMIKU_OK) return no_device(opening, "it can't be read");
    zelamiku_status status = look_for_zeros(opening, 0, JOURNAL_PAGE, is_left);
    if (status == ZELAMIKU_OK && *is_left) status = look_for_zeros(opening, 2 * JOURNAL_PAGE, size, is_left);
    *is_left &= has_first_batch(page);
    return status;
}

/* A device that stands for a making: it compares each write with another device's bytes, and stores nothing. */
typedef struct {
    const zelamiku_device *with;
    uint64_t end; /* of the writes */
    bool is_left; /* each byte is a zero, or the one that the making writes there */
} comparison;

static zelamiku_status compare_write(void *context, uint64_t at, const void *bytes, size_t size) {
    comparison *compared = (comparison *)context;
    uint8_t there[ZELAMIKU_MOST_BYTES];
    assert(size <= sizeof there);
    zelamiku_status status = read_device(compared->with, at, there, size);
    for (size_t i = 0; status == ZELAMIKU_OK && i < size; i++) compared->is_left &= there[i] == 0 || there[i] == ((const uint8_t *)bytes)[i];
    if (at + size > compared->end) compared->end = at + size;
    return status;
}

static zelamiku_status compare_sync(void *context) {
    (void)context;
    return ZELAMIKU_OK;
}

/* Whether the device may hold what a making of the handle's heap has left that was cut off before its last gate: any of its writes, whole or
 * torn. Nothing was acknowledged then. It takes the handle's first calls, and writes nothing. */
static zelamiku_status compare_with_making(opening *opening, uint64_t size, bool *is_left) {
    comparison compared = {.with = &opening->heap->device, .is_left = true};
    const zelamiku_device device = {.write = compare_write, .sync = compare_sync, .context = &compared};
    uint64_t calls = 0, syncs = 0;
    zelamiku_status status = make_calls_on(&opening->handle, &device, &calls, &syncs);
    if (status != ZELAMIKU_OK) return no_device(opening, "it can't be read");
    *is_left = compared.is_left;
    return compared.is_left ? look_for_zeros(opening, compared.end, size, is_left) : ZELAMIKU_OK;
}

/* Whether a heap may replace the first `size` bytes of the device, in which the library has found no heap. There are none, or only zeros, or a
 * making in place that was cut off has left them, of this heap or of another. For another heap, the library finds out from the first bytes from
 * where on there must be zeros. A heap with a changed byte isn't free: its control shows that there was one, or its lanes' areas do. */
static zelamiku_status must_be_free(opening *opening, uint64_t size) {
    const zelamiku_shape *begun = &opening->shape;
    bool is_whole = size >= ZELAMIKU_HEAD_BYTES, has_name = begun->is_damaged != 0 || begun->zeros_from != 0, is_free = false;
    zelamiku_status status = ZELAMIKU_OK;
    if (begun->is_damaged == 0) status = look_for_zeros(opening, is_whole ? begun->zeros_from : 0, size, &is_free);
    if (status != ZELAMIKU_OK || is_free) return status;
    if (has_name) {
        (void)snprintf(opening->cause, sizeof opening->cause, "it begins as a heap does, and has none: its first bytes are damaged");
        (void)snprintf(opening->cure, sizeof opening->cure, "it was left as it is: take the back-up");
    }
    return refuse(opening, ZELAMIKU_NOT_FORMATTED, 0);
}

/* Writes zeros from there on up to `end`, durably, so space is allocated before anything is stored there. */
static zelamiku_status write_zeros(const zelamiku_device *to, uint64_t from, uint64_t end) {
    static const uint8_t zeros[1 << 16];
    zelamiku_status status = ZELAMIKU_OK;
    for (uint64_t at = from, count; status == ZELAMIKU_OK && at < end; at += count) {
        count = end - at < sizeof zeros ? end - at : sizeof zeros;
        status = write_device(to, at, zeros, (size_t)count);
    }
    return status == ZELAMIKU_OK ? sync_device(to) : status;
}

/* Whether the heap is to be made with a journal. One that is there already stays. */
static bool wants_journal(const opening *opening, const zelamiku_device *to) {
    return opening->plan.atomic_sectors != 0 && to->sync != sync_journal;
}

/* Makes the handle's heap on the device, by all of its first calls, on zeros. From now on it is the heap's device, or its journal is. */
static zelamiku_status make_on(opening *opening, const zelamiku_device *to, uint64_t size) {
    heap *heap = opening->heap;
    uint64_t calls = 0;
    bool is_new = wants_journal(opening, to);
    zelamiku_status status = is_new ? make_journal(heap, to, size) : write_zeros(to, 0, size);
    if (status == ZELAMIKU_OK && !is_new) heap->device = *to;
    if (status == ZELAMIKU_OK) status = make_calls_on(&opening->handle, &heap->device, &calls, &heap->syncs_made);
    if (status == ZELAMIKU_DEVICE || status == ZELAMIKU_LOST) return no_device(opening, "a heap can't be made in it");
    return status == ZELAMIKU_OK ? status : refuse_heap(opening, status);
}

/* Gives the new file the old file's owner and mode. A file system without rights keeps its own rule. */
static void keep_rights(const draft *draft) {
    struct stat info;
    if (draft->old < 0 || fstat(draft->old, &info) != 0) return;
    if (fchown(draft->file, info.st_uid, info.st_gid) != 0) errno = 0;
    if (fchmod(draft->file, info.st_mode & 0777) != 0) errno = 0;
}

/* Writes the handle's heap into the draft's file, by all of its first calls, and puts the file in its place. Another open that comes meanwhile
 * is BUSY. */
static zelamiku_status make_file(opening *opening, draft *draft, uint64_t size) {
    const char *cause = NULL;
    if (!find_real_path(opening->path, draft->path)) return no_device(opening, "it can't be opened");
    zelamiku_status status = begin_draft(draft, draft->old < 0 ? 0666 : 0600, &cause);
    if (status == ZELAMIKU_OK && (status = claim(opening->heap, draft->file)) != ZELAMIKU_OK) cause = "it can't be used";
    if (status == ZELAMIKU_DEVICE) return no_device(opening, cause);
    if (status != ZELAMIKU_OK) return fail(opening->path, status, 0, cause, "open it again", "open");
    keep_rights(draft);
    zelamiku_free(&opening->heap->journal.handle); /* of a free file, if it has one */
    zelamiku_device file = device_of_file(draft->file);
    status = make_on(opening, &file, size);
    if (status != ZELAMIKU_OK) return status;
    if (put_in_place(draft)) return ZELAMIKU_OK;
    status = no_device(opening, draft->is_in_place ? "its folder can't be synced" : "a heap can't be made in it");
    if (draft->is_in_place && draft->old < 0) (void)unlink(draft->path); /* as long as it is locked */
    return status;
}

/* The draft's file, claimed already, becomes the heap's file. */
static void adopt(heap *heap, draft *draft) {
    lock(&registry);
    heap->file = draft->file; /* its device has this descriptor */
    draft->file = -1;
    unlock(&registry);
}

/* The heap of the plan, with its fingerprint, and how many bytes it takes. */
static zelamiku_status format(opening *opening, uint64_t *size) {
    const zelamiku_plan *plan = &opening->plan;
    uint32_t ring = ring_for(opening, opening->capacity), count = plan->count + (plan->fingerprint != 0);
    zelamiku_field *fields = (zelamiku_field *)calloc(count, sizeof *fields);
    if (fields == NULL) return refuse(opening, ZELAMIKU_NO_MEMORY, 0);
    memcpy(fields, plan->fields, plan->count * sizeof *fields);
    zelamiku_field fingerprint = {.first = plan->fingerprint, .is_transient = 1};
    if (count > plan->count) fields[plan->count] = fingerprint;
    opening->lanes = lanes_for(opening->threads);
    zelamiku_status status = zelamiku_format(&opening->handle, plan->objects, fields, count, opening->lanes, opening->capacity, opening->threads,
                                             ring, size);
    free(fields);
    return status == ZELAMIKU_OK ? status : refuse_heap(opening, status);
}

static void report_made(opening *opening, uint64_t size) {
    zelamiku_report *report = &opening->report;
    report->is_made = 1;
    report->bytes = size;
    report->objects = opening->plan.objects;
    report->fields = opening->plan.count;
    report->lanes = opening->threads;
    report->capacity = opening->capacity;
}

/* Whether the plan lets a heap be made. */
static zelamiku_status may_make(opening *opening, int error) {
    return opening->plan.must_exist == 0 ? ZELAMIKU_OK : refuse(opening, ZELAMIKU_NO_HEAP, error);
}

/* The path has no heap: makes one, beside the path, if the plan is good. After a kill at any moment the path has what was there, or the heap. */
static zelamiku_status make_at_path(opening *opening) {
    uint64_t size = 0;
    zelamiku_status status = may_make(opening, opening->heap->file < 0 ? ENOENT : 0);
    if (status == ZELAMIKU_OK) status = format(opening, &size);
    if (status != ZELAMIKU_OK) return status;
    draft draft;
    list_draft(&draft, &opening->heap->file);
    status = make_file(opening, &draft, size);
    if (status == ZELAMIKU_OK) {
        report_made(opening, size);
        adopt(opening->heap, &draft);
    }
    end_draft(&draft);
    return status;
}

/* A device of `has` bytes is too small. If it is a journal, a making has left that which was cut off, for a smaller heap. */
static zelamiku_status too_small(opening *opening, uint64_t has, uint64_t takes) {
    (void)snprintf(opening->cause, sizeof opening->cause, "the device has %llu bytes, and the heap takes %llu", (unsigned long long)has,
                   (unsigned long long)takes);
    if (is_journaled(opening->heap)) (void)snprintf(opening->cure, sizeof opening->cure, "write zeros over all of the device: it holds no heap");
    return refuse(opening, ZELAMIKU_TOO_SMALL, 0);
}

/* Another heap's making was cut off on the device: writes zeros over what it has left, before a journal is made. The first bytes tell what it is, so
 * they go last: whenever this is cut off, the next opening knows what is left. */
static zelamiku_status clear_for_journal(opening *opening, uint64_t takes) {
    const zelamiku_device *on = &opening->heap->device;
    zelamiku_status status = write_zeros(on, JOURNAL_PAGE, takes);
    if (status == ZELAMIKU_OK) status = write_zeros(on, 0, JOURNAL_PAGE);
    return status == ZELAMIKU_OK ? status : no_device(opening, "a heap can't be made in it");
}

/* A device of `has` bytes has no heap: makes one in place, if those bytes are free. */
static zelamiku_status make_in_place(opening *opening, uint64_t has) {
    uint64_t size = 0;
    bool is_left = false, is_new = wants_journal(opening, &opening->heap->device);
    zelamiku_status status = format(opening, &size);
    uint64_t takes = is_new ? bytes_of_journal(HALF_PAGES, pages_of(size)) : size;
    if (status == ZELAMIKU_OK && has >= takes) status = look_for_first_batch(opening, takes, &is_left);
    bool is_clear = is_left;
    if (status == ZELAMIKU_OK && !is_left && has >= takes) status = compare_with_making(opening, takes, &is_left);
    if (status == ZELAMIKU_OK && !is_left) status = must_be_free(opening, has < takes ? has : takes);
    if (status == ZELAMIKU_OK) status = may_make(opening, 0);
    if (status != ZELAMIKU_OK) return status;
    if (has < takes) return too_small(opening, has, takes);
    zelamiku_free(&opening->handle); /* its first calls were compared */
    status = format(opening, &size);
    if (status == ZELAMIKU_OK && is_new && !is_clear) status = clear_for_journal(opening, takes);
    if (status == ZELAMIKU_OK) status = make_on(opening, &opening->heap->device, size);
    if (status == ZELAMIKU_OK) report_made(opening, size);
    return status;
}

/* Locks a block device as lock_alone does. The system's udevd locks a device for a moment after a program has closed it. */
static zelamiku_status lock_volume(int file) {
    zelamiku_status status = lock_alone(file);
    for (int tries = 0; status == ZELAMIKU_BUSY && tries < 100; tries++) {
        nap(SECOND / 100);
        status = lock_alone(file);
    }
    return status;
}

/* Locks the file for this open alone, and checks that the path still leads to it: heapctl may have replaced it meanwhile, and what was written
 * to the old file would be lost. */
static zelamiku_status lock_file(opening *opening) {
    struct stat own;
    heap *heap = opening->heap;
    if (fstat(heap->file, &own) != 0) return no_device(opening, "it can't be used");
    opening->is_volume = S_ISBLK(own.st_mode);
    bool is_right = opening->is_volume ? opening->is_claimed : S_ISREG(own.st_mode);
    if (!is_right) return errno = EINVAL, no_device(opening, "it is neither a regular file nor a block device");
    zelamiku_status status = opening->is_volume ? lock_volume(heap->file) : lock_alone(heap->file);
    if (status == ZELAMIKU_OK) status = claim(heap, heap->file);
    if (status == ZELAMIKU_DEVICE) return no_device(opening, "it can't be locked");
    if (status == ZELAMIKU_BUSY && is_open_here(&own)) {
        (void)snprintf(opening->cause, sizeof opening->cause, "this process has its heap open already");
        (void)snprintf(opening->cure, sizeof opening->cure, "use that one's handle, or close it before");
    }
    if (status != ZELAMIKU_OK) return refuse(opening, status, 0);
    status = leads_to(opening->path, heap->file);
    if (status == ZELAMIKU_DEVICE) return no_device(opening, "it can't be used");
    if (status == ZELAMIKU_OK) return ZELAMIKU_OK;
    (void)snprintf(opening->cause, sizeof opening->cause, "the file was replaced or removed while it was opened");
    (void)snprintf(opening->cure, sizeof opening->cure, "open it again");
    return refuse(opening, status, 0);
}

/* Writes the gates of the header and of the control's slots back with what they read; recovery begins with a sync. If a sync of an earlier
 * opening has failed, reads may return cached data that never reached the device, and no later sync writes it; POSIX_FADV_DONTNEED is only
 * advice. Each gate is written alone between two syncs, so at most one differs on the device, and either value of it is right. The bytes that a
 * gate makes valid were synced before it, and recovery writes again each field that it has to restore. A gate that the device has is written
 * with its own value, which a crash must keep (docs/FORMAT.md, "What the device keeps"). */
static zelamiku_status write_gates_back(const zelamiku_device *on) {
    static const uint64_t GATES[] = {8, 64, 1112};
    zelamiku_status status = ZELAMIKU_OK;
    for (size_t i = 0; i < sizeof GATES / sizeof *GATES && status == ZELAMIKU_OK; i++) {
        uint8_t gate;
        status = read_device(on, GATES[i], &gate, 1);
        if (status == ZELAMIKU_OK) status = write_device(on, GATES[i], &gate, 1);
    }
    return status;
}

/* The program that renamed the file to its path may have been killed before the folder was synced, and an overlay has just made the name.
 * Without the name, what becomes durable in the file would be lost. */
static bool keep_name(const opening *opening) {
    char real[PATH_MAX];
    return find_real_path(opening->path, real) && sync_name(real, opening->heap->file);
}

/* The device's journal can't be opened: nothing was written. */
static zelamiku_status refuse_journal(opening *opening, zelamiku_status status) {
    const char *cause = status == ZELAMIKU_WORN_JOURNAL ? "the numbers of its journal's batches have come to their end"
                                                        : "its journal's label is damaged, or the bytes are fewer than it says";
    if (status == ZELAMIKU_NO_MEMORY || status == ZELAMIKU_FAULT) return refuse(opening, ZELAMIKU_NO_MEMORY, 0);
    (void)snprintf(opening->cause, sizeof opening->cause, "%s", cause);
    if (status == ZELAMIKU_WORN_JOURNAL) return refuse(opening, ZELAMIKU_WORN, 0);
    opening->report.damage = ZELAMIKU_DAMAGED_LENGTH;
    return refuse(opening, ZELAMIKU_DAMAGED_FILE, 0);
}

/* If the device of `size` bytes begins with a journal's label, the journal takes the device's place, and its image has `size` bytes. Nothing is
 * written before the heap's first sync: until then the opening may be refused. */
static zelamiku_status find_journal(opening *opening, uint64_t *size) {
    heap *heap = opening->heap;
    uint8_t begun[LABEL_BYTES];
    uint64_t takes = 0, image = 0;
    if (*size < sizeof begun) return ZELAMIKU_OK;
    if (read_device(&heap->device, 0, begun, sizeof begun) != ZELAMIKU_OK) return no_device(opening, "it can't be read");
    if (!is_label(begun, &takes)) return ZELAMIKU_OK;
    if (*size < takes) return refuse_journal(opening, ZELAMIKU_TOO_SMALL);
    uint8_t *bytes = (uint8_t *)malloc((size_t)takes);
    if (bytes == NULL) return refuse(opening, ZELAMIKU_NO_MEMORY, 0);
    bool is_read = read_device(&heap->device, 0, bytes, (size_t)takes) == ZELAMIKU_OK;
    int error = errno;
    zelamiku_status status = is_read ? zelamiku_journal_open(&heap->journal.handle, bytes, (size_t)takes, &image) : ZELAMIKU_OK;
    free(bytes);
    errno = error;
    if (!is_read) return no_device(opening, "it can't be read");
    if (status != ZELAMIKU_OK) return refuse_journal(opening, status);
    zelamiku_device below = heap->device;
    put_journal(heap, &below, image);
    *size = image;
    return ZELAMIKU_OK;
}

/* The heap of the device, which nobody else writes: recovered, or made. Its first calls are made here. */
static zelamiku_status recover_or_make(opening *opening) {
    const zelamiku_device *on = &opening->heap->device;
    bool is_file = opening->heap->file >= 0 && !opening->is_volume;
    uint64_t calls = 0, size = 0;
    /* What an earlier process wrote may be in a cache alone: sync it first, then read it from the device. */
    if (sync_device(on) != ZELAMIKU_OK || tell_size(on, &size) != ZELAMIKU_OK) return no_device(opening, "it can't be synced");
    if (opening->heap->file >= 0) (void)posix_fadvise(opening->heap->file, 0, 0, POSIX_FADV_DONTNEED);
    zelamiku_status status = find_journal(opening, &size);
    if (status == ZELAMIKU_OK) status = open_image(opening, size);
    if (status == ZELAMIKU_NOT_FORMATTED) {
        if (!is_file) return make_in_place(opening, size);
        status = must_be_free(opening, size);
        return status == ZELAMIKU_OK ? make_at_path(opening) : status;
    }
    if (status != ZELAMIKU_OK) return status;
    if (!is_journaled(opening->heap)) status = write_gates_back(on); /* a journal's opening writes again what it trusts */
    if (status == ZELAMIKU_OK && is_file && !keep_name(opening)) return no_device(opening, "its folder can't be synced");
    if (status == ZELAMIKU_OK) status = make_calls_on(&opening->handle, on, &calls, &opening->heap->syncs_made);
    if (status == ZELAMIKU_OK) return ZELAMIKU_OK;
    if (status != ZELAMIKU_DEVICE && status != ZELAMIKU_LOST) return refuse_heap(opening, status);
    return no_device(opening, "a write or a sync of it has failed");
}

/* Opens what is at the path; returns whether there is something. A block device is opened for this open alone (O_EXCL), as mkfs opens one: so it
 * is neither mounted nor in another's use. */
static zelamiku_status open_at_path(opening *opening, bool *is_there) {
    struct stat its;
    opening->is_claimed = stat(opening->path, &its) == 0 && S_ISBLK(its.st_mode);
    *is_there = open_listed(&opening->heap->file, opening->path, opening->is_claimed ? O_RDWR | O_EXCL : O_RDWR, 0);
    if (*is_there || errno == ENOENT) return ZELAMIKU_OK;
    if (!opening->is_claimed || errno != EBUSY) return no_device(opening, "it can't be opened");
    (void)snprintf(opening->cause, sizeof opening->cause, "the device is in use");
    (void)snprintf(opening->cure, sizeof opening->cure, "unmount it, or end the program that has it");
    return refuse(opening, ZELAMIKU_BUSY, 0);
}

/* If there is no file, none is made for a bad plan. */
static zelamiku_status open_path(opening *opening) {
    bool is_there = false;
    zelamiku_status status = open_at_path(opening, &is_there);
    if (status == ZELAMIKU_OK) status = check_plan(opening);
    if (status != ZELAMIKU_OK) return status;
    if (!is_there) return make_at_path(opening);
    opening->heap->device = device_of_file(opening->heap->file);
    status = lock_file(opening);
    return status == ZELAMIKU_OK ? recover_or_make(opening) : status;
}

static zelamiku_status open_device(opening *opening) {
    opening->heap->device = opening->device;
    zelamiku_status status = check_plan(opening);
    return status == ZELAMIKU_OK ? recover_or_make(opening) : status;
}

/* Notes which fields of the plan are transient, if one is. False: there is no memory. */
static bool note_transient(heap *heap, const zelamiku_plan *plan) {
    for (uint32_t i = 0; i < plan->count; i++) {
        if (plan->fields[i].is_transient == 0) continue;
        if (heap->transient == NULL) heap->transient = (bool *)calloc(plan->count + 1, sizeof *heap->transient); /* one more for a fingerprint */
        if (heap->transient == NULL) return false;
        heap->transient[i] = true;
    }
    return true;
}

/* The heap of the device or the file is open. */
static zelamiku_status start_heap(opening *opening, zelamiku_heap *opened) {
    heap *heap = opening->heap;
    const zelamiku_report *report = &opening->report;
    heap->size = report->bytes;
    heap->objects = report->objects;
    heap->fields = report->fields;
    set_room(heap, opening->ring, report->capacity);
    if (heap->inode != 0) heap->where = path_from_root(opening->path);
    heap->path_checked = zelamiku_now();
    if (!note_transient(heap, &opening->plan)) return refuse(opening, ZELAMIKU_NO_MEMORY, 0);
    return occupy(heap, &opening->handle, opened);
}

static void drop_heap(opening *opening) {
    heap *heap = opening->heap;
    zelamiku_free(&opening->handle);
    zelamiku_free(&heap->journal.handle);
    close_file(heap);
    free(heap->dropped);
    heap->dropped = NULL;
    free_place(heap);
}

static void log_opening(const opening *opening) {
    const heap *heap = opening->heap;
    const zelamiku_report *report = &opening->report;
    const char *how = report->is_made != 0 ? "made" : report->is_upgraded != 0 ? "upgraded and recovered" : "recovered";
    tell_log(heap, ZELAMIKU_LOG_INFO, "%s: %llu bytes, %u lanes; %llu sections were dropped%s", how, (unsigned long long)heap->size, heap->lanes,
             (unsigned long long)report->dropped, is_journaled(heap) ? "; a round takes one sync" : "");
    if (is_journaled(heap) && heap->file >= 0 && may_tear(heap->file))
        tell_log(heap, ZELAMIKU_LOG_WARNING, "it has a journal, and lies on a disk by ATA or SCSI, which needn't keep sectors whole: a power failure may lose what is durable");
    if (!is_journaled(heap) && opening->lanes == heap->lanes)
        tell_log(heap, ZELAMIKU_LOG_WARNING, "no lane is the helper's, so a round takes four syncs in place of two; %s",
                 opening->lanes < ZELAMIKU_MOST_LANES ? "heapctl dump, then heapctl format with one lane more" : "open it for 31 threads at most");
}

static zelamiku_status open_planned(opening *opening, zelamiku_heap *opened) {
    const zelamiku_plan *plan = &opening->plan;
    zelamiku_status status = ZELAMIKU_OK;
    opening->threads = plan->lanes != 0 ? plan->lanes : ZELAMIKU_DEFAULT_LANES;
    opening->ring = plan->ring != 0 ? plan->ring : ZELAMIKU_DEFAULT_RING;
    opening->capacity = plan->capacity != 0 ? plan->capacity : opening->ring;
    opening->heap = place_for(opening->path, plan, &status);
    if (opening->heap == NULL) return status;
    status = plan->device != NULL ? open_device(opening) : open_path(opening);
    if (status == ZELAMIKU_OK) status = start_heap(opening, opened);
    if (status == ZELAMIKU_OK)
        log_opening(opening);
    else
        drop_heap(opening);
    return status;
}

zelamiku_status zelamiku_heap_open(zelamiku_heap *opened, const char *path, const zelamiku_plan *plan, zelamiku_report *report) {
    opening opening = {.path = path, .report.bad_lane = ZELAMIKU_NOBODY};
    if (opened != NULL) opened->number = 0;
    if (report != NULL && !has_size(report, LEAST_REPORT)) return wrong_size("open", "zelamiku_report");
    if (report != NULL) give_out(report, &opening.report, sizeof opening.report);
    if (opened == NULL || path == NULL || plan == NULL) return null_pointer("open", "give each");
    if (!take_in(&opening.plan, sizeof opening.plan, plan, LEAST_PLAN)) return wrong_size("open", "zelamiku_plan");
    if (opening.plan.fields == NULL && opening.plan.count > 0) return null_pointer("open", "give the plan fields");
    const zelamiku_device *device = opening.plan.device;
    if (device != NULL && !take_in(&opening.device, sizeof opening.device, device, LEAST_DEVICE)) return wrong_size("open", "zelamiku_device");
    if (device != NULL && !has_functions(&opening.device)) return null_pointer("open", "give the device its four functions");
    zelamiku_status status = open_planned(&opening, opened);
    if (report != NULL) give_out(report, &opening.report, sizeof opening.report);
    return status;
}

/* Section `index` that recovery has dropped; none if there are fewer, or the heap has ended. */
static zelamiku_status dropped_of(heap *heap, size_t index, zelamiku_dropped *dropped) {
    lock(&heap->mutex);
    if (heap->dropped != NULL && index < heap->dropped_count) {
        const zelamiku_dropped_section *section = &heap->dropped[index];
        zelamiku_dropped found = {.why = section->why, .lane = section->lane, .other_lane = section->other_lane, .section = section->section,
                                  .other_section = section->other_section};
        *dropped = found;
    }
    unlock(&heap->mutex);
    return ZELAMIKU_OK;
}

zelamiku_status zelamiku_heap_dropped(zelamiku_heap handle, size_t index, zelamiku_dropped *given) {
    zelamiku_dropped dropped = {.why = ZELAMIKU_NOT_DROPPED, .lane = ZELAMIKU_NOBODY, .other_lane = ZELAMIKU_NOBODY};
    if (given == NULL) return null_pointer("dropped", "give one");
    if (!has_size(given, LEAST_DROPPED)) return wrong_size("dropped", "zelamiku_dropped");
    zelamiku_status status = ON_HEAP(handle, "dropped", dropped_of(heap, index, &dropped));
    give_out(given, &dropped, sizeof dropped);
    return status;
}
