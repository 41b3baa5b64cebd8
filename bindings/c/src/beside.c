/* Files that are made beside a path and take its place once they are whole: locks, where a path leads, drafts.
 *
 * The registry has the list of drafts, and every descriptor from its opening to its closing: a fork's child closes all of them. Otherwise a
 * draft belongs to its caller. Locks of the system on the files (flock) keep other processes out. */
/* ---- locks and paths ---- */

/* Opens a file, and lists its descriptor in the registry as soon as it is open, for a fork, which waits for `opens_underway`. No mutex is held,
 * because an open may hang. A file that was made for this is removed if it gets no descriptor. */
static bool open_listed(int *descriptor, const char *path, int flags, mode_t mode) {
    opens_underway++;
    int file = AGAIN(open(path, flags | O_CLOEXEC | O_NOCTTY | O_NONBLOCK, mode));
    *descriptor = above_streams(file);
    int error = errno;
    opens_underway--;
    if (SELDOM(file >= 0 && *descriptor < 0 && (flags & O_CREAT) != 0)) (void)unlink(path);
    errno = error;
    return *descriptor >= 0;
}

/* Locks a file for this open of it alone. BUSY: another open has it. DEVICE: it can't be locked; errno says why. */
static zelamiku_status lock_alone(int file) {
    if (AGAIN(flock(file, LOCK_EX | LOCK_NB)) == 0) return ZELAMIKU_OK;
    return errno == EWOULDBLOCK ? ZELAMIKU_BUSY : ZELAMIKU_DEVICE;
}

/* Under the registry's mutex: whether a heap of this process has the file. */
static bool is_known(const struct stat *its) {
    assert(holds(&registry));
    bool is = false;
    for (size_t place = 1; place < ZELAMIKU_MOST_HEAPS; place++)
        is |= heaps[place].is_used && heaps[place].volume == its->st_dev && heaps[place].inode == its->st_ino;
    return is;
}

static bool is_open_here(const struct stat *its) {
    lock(&registry);
    bool is = is_known(its);
    unlock(&registry);
    return is;
}

/* The heap has the file from now on; this descriptor has it locked. BUSY: another heap of this process has it, and the program has closed that
 * one's descriptor, which released the lock. DEVICE with errno. */
static zelamiku_status claim(heap *heap, int file) {
    struct stat its;
    if (fstat(file, &its) != 0) return ZELAMIKU_DEVICE;
    lock(&registry);
    zelamiku_status status = is_known(&its) ? ZELAMIKU_BUSY : mark(file, MARK_OF_FILE) ? ZELAMIKU_OK : ZELAMIKU_DEVICE;
    if (status == ZELAMIKU_OK) {
        heap->volume = its.st_dev;
        heap->inode = its.st_ino;
    }
    unlock(&registry);
    return status;
}

/* Whether the path leads to this file, or to none if `file` is -1. BUSY: it doesn't. DEVICE: the system can't say; errno says why. */
static zelamiku_status leads_to(const char *path, int file) {
    struct stat own, named;
    bool is_there = stat(path, &named) == 0;
    if (!is_there && errno != ENOENT) return ZELAMIKU_DEVICE;
    if (!is_there || file < 0) return is_there == (file >= 0) ? ZELAMIKU_OK : ZELAMIKU_BUSY;
    if (fstat(file, &own) != 0) return ZELAMIKU_DEVICE;
    return own.st_dev == named.st_dev && own.st_ino == named.st_ino ? ZELAMIKU_OK : ZELAMIKU_BUSY;
}

/* How many bytes of the path are its folder's, with the last slash. */
static size_t folder_size(const char *path) {
    const char *slash = strrchr(path, '/');
    return slash == NULL ? 0 : (size_t)(slash + 1 - path);
}

/* Replaces the path by the target of the link there. False if there is no link, or if the target is too long: ENAMETOOLONG. */
static bool follow_link(char *path) {
    char link[PATH_MAX];
    ssize_t length = readlink(path, link, sizeof link - 1);
    if (length < 0) return false;
    link[length] = 0;
    size_t kept = link[0] == '/' ? 0 : folder_size(path);
    bool fits = kept + (size_t)length < PATH_MAX;
    if (fits) memcpy(path + kept, link, (size_t)length + 1);
    errno = fits ? 0 : ENAMETOOLONG;
    return fits;
}

/* The real path of a file that doesn't exist yet. */
static bool find_new_path(const char *path, char *real) {
    char folder[PATH_MAX] = ".";
    size_t kept = folder_size(path), name = strlen(path) - kept;
    if (name == 0) return errno = ENOENT, false;
    if (kept > 0) memcpy(folder, path, kept), folder[kept] = 0;
    if (realpath(folder, real) == NULL) return false;
    size_t length = strlen(real);
    if (length + 1 + name >= PATH_MAX) return errno = ENAMETOOLONG, false;
    if (real[length - 1] != '/') real[length++] = '/';
    memcpy(real + length, path + kept, name + 1);
    return true;
}

/* Where the path leads after all links, even if there is no file yet but its folder exists. `real` takes PATH_MAX bytes. */
static bool find_real_path(const char *path, char *real) {
    enum { MOST_LINKS = 40 }; /* as the system follows */
    char at[PATH_MAX];
    if ((size_t)snprintf(at, sizeof at, "%s", path) >= sizeof at) return errno = ENAMETOOLONG, false;
    for (int links = 0; links < MOST_LINKS; links++) {
        if (realpath(at, real) != NULL) return true;
        if (errno != ENOENT) return false;
        if (!follow_link(at)) return errno != ENAMETOOLONG && find_new_path(at, real);
    }
    return errno = ELOOP, false;
}

/* The absolute path, which holds when the process changes its folder. NULL: it can't be found out. */
static char *path_from_root(const char *path) {
    char folder[PATH_MAX];
    if (path[0] == '/') return strdup(path);
    if (getcwd(folder, sizeof folder) == NULL) return NULL;
    size_t size = strlen(folder) + strlen(path) + 2;
    char *whole = (char *)malloc(size);
    if (whole != NULL) (void)snprintf(whole, size, "%s/%s", folder, path);
    return whole;
}

/* ---- drafts ---- */

/* The suffix of a draft's name. heapctl has the same one: a making, a copy and a `heapctl format` of one path keep each other out. */
#define BESIDE ".heapctl-new"

/* From now on a fork's child closes the draft's descriptors. It takes over `old`, if there is one. */
static void list_draft(draft *draft, int *old) {
    draft->is_in_place = false;
    draft->old = draft->file = -1;
    lock(&registry);
    if (old != NULL) {
        draft->old = *old;
        *old = -1;
    }
    draft->next = drafts;
    drafts = draft;
    unlock(&registry);
}

/* Removes the draft; a file that is in its place by now stays. errno stays. */
static void end_draft(draft *draft) {
    int error = errno;
    if (draft->file >= 0 && !draft->is_in_place) (void)unlink(draft->beside);
    close_listed(&draft->file);
    close_listed(&draft->old);
    lock(&registry);
    struct draft **from = &drafts;
    for (; *from != draft; from = &(*from)->next)
        assert(*from != NULL);
    *from = draft->next;
    unlock(&registry);
    errno = error;
}

/* Opens and locks the file beside the path, or a new one; `is_new` says which. `has_gone`: there was one, and it vanished meanwhile. */
static zelamiku_status open_beside(draft *draft, mode_t mode, bool *is_new, bool *has_gone) {
    *is_new = open_listed(&draft->file, draft->beside, O_RDWR | O_CREAT | O_EXCL | O_NOFOLLOW, mode);
    if (!*is_new) {
        bool was_there = errno == EEXIST, is_open = was_there && open_listed(&draft->file, draft->beside, O_RDWR | O_NOFOLLOW, 0);
        *has_gone = was_there && !is_open && errno == ENOENT;
        if (!is_open) return ZELAMIKU_DEVICE;
    }
    zelamiku_status status = lock_alone(draft->file);
    if (status == ZELAMIKU_OK) return ZELAMIKU_OK;
    int error = errno;
    if (status == ZELAMIKU_DEVICE && *is_new) (void)unlink(draft->beside);
    close_listed(&draft->file);
    errno = error;
    return status;
}

/* Makes the file beside the path, locked. First removes the file of a draft that was cut off, whatever its mode and owner. If another file
 * has taken the name between the opening and the lock, closes this one and tries again. */
static zelamiku_status make_beside(draft *draft, mode_t mode) {
    for (int tries = 0; tries < 5; tries++) {
        bool is_new = false, has_gone = false;
        assert(draft->file < 0);
        zelamiku_status status = open_beside(draft, mode, &is_new, &has_gone);
        if (has_gone) continue;
        if (status != ZELAMIKU_OK) return status;
        status = leads_to(draft->beside, draft->file);
        if (status == ZELAMIKU_OK && is_new) return ZELAMIKU_OK;
        int error = errno;
        if (status == ZELAMIKU_OK || (status == ZELAMIKU_DEVICE && is_new)) (void)unlink(draft->beside);
        close_listed(&draft->file);
        errno = error;
        if (status == ZELAMIKU_DEVICE) return status;
    }
    return ZELAMIKU_BUSY;
}

/* Begins a listed draft for its path, where `old` is. After a failure `cause` says what it was; DEVICE with errno. */
static zelamiku_status begin_draft(draft *draft, mode_t mode, const char **cause) {
    bool fits = (size_t)snprintf(draft->beside, sizeof draft->beside, "%s" BESIDE, draft->path) < sizeof draft->beside;
    if (!fits) errno = ENAMETOOLONG;
    zelamiku_status status = fits ? make_beside(draft, mode) : ZELAMIKU_DEVICE;
    *cause = status == ZELAMIKU_DEVICE ? "a file can't be made beside it" : "a heap, a copy or an image is being made there";
    if (status != ZELAMIKU_OK) return status;
    status = leads_to(draft->path, draft->old);
    *cause = status == ZELAMIKU_DEVICE ? "it can't be used" : "the file was replaced or removed meanwhile";
    return status;
}

/* Puts the draft, whose bytes are durable, in its place. False: it isn't there; or it is (`is_in_place`), and that isn't durable. */
static bool put_in_place(draft *draft) {
    assert(draft->file >= 0 && !draft->is_in_place);
    if (rename(draft->beside, draft->path) != 0) return false;
    draft->is_in_place = true;
    return sync_name(draft->path, draft->file);
}
