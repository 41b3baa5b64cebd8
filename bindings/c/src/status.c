/* Statuses as texts, a thread's last failure, structs of other sizes, and the log hook. A failure belongs to its thread; the hook is called
 * under no lock. */
/* ---- texts ---- */

enum { MOST_PATH = 500, MOST_TEXT = 1024 };

/* The calling thread's last call that failed. */
static _Thread_local struct {
    zelamiku_failure is;
    char path[MOST_PATH + 1], call[48], cause[192], cure[192], text[MOST_TEXT];
} failure;

static const char *const TEXTS[][2] = {
    [ZELAMIKU_OK] = {"ok", ""},
    [ZELAMIKU_NOTHING] = {"nothing is open by this handle", "open or begin it first, and don't use it after it has ended"},
    [ZELAMIKU_NO_MEMORY] = {"there was no memory", "free some, and try again"},
    [ZELAMIKU_NONE_LEFT] = {"all lanes are in use",
                            "end another thread's session, or make a heap with more lanes: heapctl dump, then heapctl format --lanes"},
    [ZELAMIKU_RUNNING] = {"a section is open or a thread waits", "let it end first, or stop the heap"},
    [ZELAMIKU_UNKNOWN_OBJECT] = {"there is no such object", "objects are numbered from 0"},
    [ZELAMIKU_UNKNOWN_FIELD] = {"there is no such field", "fields are numbered from 0"},
    [ZELAMIKU_NOT_HELD] = {"the thread doesn't hold the monitor", "enter the object, or the field's guard, first"},
    [ZELAMIKU_BEHIND] = {"there is no room for a whole section's records before a round", "try again"},
    [ZELAMIKU_SECTION_FULL] = {"the section would have more than 1,000 records", "end sections earlier"},
    [ZELAMIKU_TOO_MANY] = {"the thread holds 16 monitors", "exit one first"},
    [ZELAMIKU_TOO_DEEP] = {"the thread has 65,536 locks of the monitor", "exit some first"},
    [ZELAMIKU_NO_FAT] = {"1,024 other monitors were waited on, or locked more than 256 times, since the open", "open the heap again"},
    [ZELAMIKU_WORN] = {"a number has reached its limit", "move the values to a new heap"},
    [ZELAMIKU_HELD] = {"another thread has the monitor", "try again"},
    [ZELAMIKU_FAILED] = {"the heap has stopped: there was no memory for the calls of the device", "close the heap and open it again"},
    [ZELAMIKU_BAD_ARGUMENT] = {"an argument is wrong", "give one that the call takes"},
    [ZELAMIKU_NOT_FORMATTED] = {"it has no heap, and isn't empty", "it was left as it is: give another path, or remove it"},
    [ZELAMIKU_TOO_SMALL] = {"the device has fewer bytes than the heap takes",
                            "give it more, or the plan fewer lanes or a smaller capacity"},
    [ZELAMIKU_DEVICE] = {"a call of the file or the device has failed", "see the system's error, and call again"},
    [ZELAMIKU_LOST] = {"a sync has failed, the connection has ended or the file was closed, and the heap has stopped",
                       "close the heap and open it again: after ENOSPC make room first, after EIO mount the file system again"},
    [ZELAMIKU_BUSY] = {"another process has the heap", "wait until it ends, or end it"},
    [ZELAMIKU_POOL_EMPTY] = {"no slot of the pool is free", "give one back first"},
    [ZELAMIKU_NOT_TAKEN] = {"the slot isn't taken, or the pool has no such slot", "give back what was taken, once"},
    [ZELAMIKU_DAMAGED] = {"a field of the pool names no slot", "store to a pool's fields by its calls alone"},
    [ZELAMIKU_CLOSED] = {"the heap was closed or stopped", "open it again"},
    [ZELAMIKU_OLD_VERSION] = {"the heap has version 1, from before there were transient fields",
                              "keep a copy, and let the open upgrade it, or heapctl upgrade"},
    [ZELAMIKU_FORKED] = {"the heap belongs to the parent process", "open a heap in this process after the fork"},
    [ZELAMIKU_ABANDONED] = {"the heap was abandoned", "open it again"},
    [ZELAMIKU_OTHER_HEAP] = {"the file's heap isn't that of the plan",
                             "open it by its own plan, or give another path; docs/EMBEDDING.md, \"Upgrades\", adds fields"},
    [ZELAMIKU_NO_HEAP] = {"there is no heap", "mount its volume, or let the open make one"},
    [ZELAMIKU_DAMAGED_FILE] = {"the file's heap can't be read", "take the back-up: something else has written the file"},
    [ZELAMIKU_NOT_REVERTED] = {"the section can't be reverted", "let it end, or stop the heap"},
};

static const char *text_of(uint32_t status, unsigned which) {
    assert(which < 2);
    bool is_there = status < sizeof TEXTS / sizeof *TEXTS && TEXTS[status][0] != NULL;
    return is_there ? TEXTS[status][which] : "no status of zelamiku.h";
}

const char *zelamiku_status_text(uint32_t status) {
    return text_of(status, 0);
}

/* How a user can mend a failure: by the system's error, or by the status. heapctl has the same cures (crates/heapctl_commands). */
static const char *cure_of(zelamiku_status status, int error) {
    bool is_full = error == ENOSPC || error == EDQUOT;
    if (status == ZELAMIKU_LOST && is_full) return "make room, then close the heap and open it again";
    if (status != ZELAMIKU_DEVICE) return text_of(status, 1);
    switch (error) {
    case ENOSPC: case EDQUOT: return "make room";
    case EIO: return "its disk has failed: mount the file system again";
    case EROFS: return "mount the file system for writing";
    case EACCES: case EPERM: return "ask its owner for the right to read and write it";
    case ENOENT: return "make its folder first";
    case EMFILE: case ENFILE: return "close some files, or allow more of them (ulimit -n)";
    case ENOLCK: return "use a file system that has locks";
    case EISDIR: return "name a file";
    default: return text_of(status, 1);
    }
}

/* ---- structs whose size the program says ---- */

static uint32_t size_in(const void *given) {
    uint32_t size;
    memcpy(&size, given, sizeof size);
    return size;
}

/* Whether a program can have a struct of that size: a member that nobody has set is garbage, mostly. */
static bool has_size(const void *given, uint32_t least) {
    return size_in(given) >= least && size_in(given) <= MOST_STRUCT;
}

/* Takes in a struct that the program has filled in: `known` bytes of it; what the program doesn't have is 0. False: it has no size that a program
 * can have, or sets a member that this library doesn't know. */
static bool take_in(void *own, uint32_t known, const void *given, uint32_t least) {
    uint32_t size = size_in(given);
    if (!has_size(given, least)) return false;
    memset(own, 0, known);
    memcpy(own, given, size < known ? size : known);
    for (uint32_t i = known; i < size; i++)
        if (((const uint8_t *)given)[i] != 0) return false;
    return true;
}

/* Fills in a struct of the program's, all but its size: with what it has room for, and zeros where this library has nothing. */
static void give_out(void *given, const void *own, uint32_t known) {
    uint32_t size = size_in(given), both = size < known ? size : known;
    const size_t begin = sizeof size;
    memcpy((uint8_t *)given + begin, (const uint8_t *)own + begin, both - begin);
    memset((uint8_t *)given + both, 0, size - both);
}

/* ---- failures ---- */

const char *zelamiku_heap_failure(zelamiku_failure *given) {
    if (given == NULL) return failure.text;
    if (!has_size(given, LEAST_FAILURE)) return NULL;
    bool is_none = failure.is.path == NULL;
    if (is_none) failure.is.path = failure.is.call = failure.is.cause = failure.is.cure = "";
    if (is_none) failure.is.object = failure.is.field = ZELAMIKU_NO_NUMBER;
    give_out(given, &failure.is, sizeof failure.is);
    return failure.text;
}

/* Notes which object or which field the failed call has named. Returns the status. */
static zelamiku_status name_object(zelamiku_status status, uint32_t object) {
    failure.is.object = object;
    return status;
}

static zelamiku_status name_field(zelamiku_status status, uint32_t field) {
    failure.is.field = field;
    return status;
}

/* Composes the line of it all. */
static void compose(int error) {
    char system[96] = "";
    const char *path = failure.path, *call = failure.call, *cause = failure.cause, *cure = failure.cure;
    (void)snprintf(failure.text, sizeof failure.text, "%s%s%s: %s%s%s; %s", path, path[0] != 0 ? ": " : "", call, cause, error != 0 ? ": " : "",
                   error != 0 ? strerror_r(error, system, sizeof system) : "", cure);
}

/* Keeps for the thread why its call has failed: the path, the call, the status or `cause` in its place, the system's error, and the cure, which is
 * cure_of's if NULL. Returns the status. */
__attribute__((format(printf, 6, 7))) COLD zelamiku_status fail(const char *path, zelamiku_status status, int error, const char *cause,
                                                               const char *cure, const char *call, ...) {
    assert(status != ZELAMIKU_OK);
    va_list numbers;
    va_start(numbers, call);
    (void)vsnprintf(failure.call, sizeof failure.call, call, numbers);
    va_end(numbers);
    size_t length = path == NULL ? 0 : strlen(path);
    if (length > MOST_PATH) path += length - MOST_PATH;
    (void)snprintf(failure.path, sizeof failure.path, "%s", path == NULL ? "" : path);
    (void)snprintf(failure.cause, sizeof failure.cause, "%s", cause != NULL ? cause : text_of(status, 0));
    (void)snprintf(failure.cure, sizeof failure.cure, "%s", cure != NULL ? cure : cure_of(status, error));
    zelamiku_failure is = {.status = status, .error = error, .object = ZELAMIKU_NO_NUMBER, .field = ZELAMIKU_NO_NUMBER, .path = failure.path,
                           .call = failure.call, .cause = failure.cause, .cure = failure.cure};
    failure.is = is;
    compose(error);
    return status;
}

/* The handle is open to nothing. */
COLD zelamiku_status nothing(const char *call) {
    return fail(NULL, ZELAMIKU_NOTHING, 0, NULL, NULL, "%s", call);
}

COLD zelamiku_status null_pointer(const char *call, const char *cure) {
    return fail(NULL, ZELAMIKU_BAD_ARGUMENT, 0, "a pointer is NULL", cure, "%s", call);
}

COLD zelamiku_status wrong_size(const char *call, const char *type) {
    char cure[80];
    (void)snprintf(cure, sizeof cure, "set its size to sizeof(%s), and all that isn't used to 0", type);
    return fail(NULL, ZELAMIKU_BAD_ARGUMENT, 0, "a struct has a wrong size", cure, "%s", call);
}

/* A status of the proved library, as programs know it. */
static zelamiku_status public_status(zelamiku_status status) {
    if (status == ZELAMIKU_STOPPED) return ZELAMIKU_LOST;
    if (status == ZELAMIKU_FAULT) return ZELAMIKU_FAILED;
    assert(status != ZELAMIKU_WAITING && status != ZELAMIKU_WRONG_KIND && status != ZELAMIKU_BAD_LANE);
    return status;
}

/* ---- the log ---- */

__attribute__((format(printf, 3, 4))) COLD void tell_log(const heap *heap, uint32_t level, const char *format, ...) {
    if (heap->log == NULL) return;
    char text[MOST_TEXT];
    int begun = snprintf(text, sizeof text, "%.500s: ", heap->path);
    assert(begun > 0 && (size_t)begun < sizeof text);
    va_list numbers;
    va_start(numbers, format);
    (void)vsnprintf(text + begun, sizeof text - (size_t)begun, format, numbers);
    va_end(numbers);
    heap->log(heap->log_context, level, text);
}
