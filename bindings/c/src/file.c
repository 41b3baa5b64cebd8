/* A file as a device: read, write, sync, size. The leader uses it, or the thread that opens the heap; there is no lock. */
/* ---- the file ---- */

/* Duplicates the descriptor to a number above that one. -1 with errno. */
static int move_above(int file, int number) {
    int above = fcntl(file, F_DUPFD_CLOEXEC, number + 1);
    int error = above < 0 && errno == EINVAL ? EMFILE : errno; /* the process may have no such number */
    (void)close(file);
    errno = error;
    return above;
}

/* Duplicates the descriptor to a number that no standard stream has. A program may have been started without these: a file would get their
 * number, and the program's output would be written to it. -1 with errno. */
static int above_streams(int file) {
    return file < 0 || file > STDERR_FILENO ? file : move_above(file, STDERR_FILENO);
}

/* Marks the library's own opens. The system keeps the mark with the open: another open of the same file doesn't have it. All of the system's
 * events and timers have one inode: only the mark tells them apart. It is the signal of O_ASYNC, which nobody asks for here. */
enum { MARK_OF_FILE = 64, MARK_OF_EVENT = 63 };

static bool mark(int descriptor, int its_mark) {
    return fcntl(descriptor, F_SETSIG, its_mark) == 0;
}

static bool has_mark(int descriptor, int its_mark) {
    return fcntl(descriptor, F_GETSIG) == its_mark;
}

/* Whether the descriptor still is the library's open of that file. If the program has closed it, the number may be another file's by now. */
static bool is_of_file(int descriptor, dev_t volume, ino_t inode) {
    struct stat its;
    if (fstat(descriptor, &its) != 0) return errno != EBADF;
    return its.st_dev == volume && its.st_ino == inode && has_mark(descriptor, MARK_OF_FILE);
}

static bool write_all(int file, const uint8_t *bytes, uint64_t size, uint64_t at) {
    while (size > 0) {
        ssize_t count = AGAIN(pwrite(file, bytes, size, (off_t)at));
        if (count == 0) errno = EIO;
        if (count <= 0) return false;
        assert((uint64_t)count <= size);
        bytes += count;
        size -= (uint64_t)count;
        at += (uint64_t)count;
    }
    return true;
}

static bool read_all(int file, uint8_t *bytes, uint64_t size, uint64_t at) {
    while (size > 0) {
        ssize_t count = AGAIN(pread(file, bytes, size, (off_t)at));
        if (count == 0) errno = EIO; /* the file was cut meanwhile */
        if (count <= 0) return false;
        assert((uint64_t)count <= size);
        bytes += count;
        size -= (uint64_t)count;
        at += (uint64_t)count;
    }
    return true;
}

static bool sync_file(int file) {
    return AGAIN(fdatasync(file)) == 0;
}

/* Whether both lie in one file system. A file that is mounted by itself isn't in that of its folder. */
static bool is_beside(int folder, int file) {
    struct stat own, its;
    return fstat(folder, &own) == 0 && fstat(file, &its) == 0 && own.st_dev == its.st_dev;
}

/* Makes the file's real path durable, by a sync of its folder: otherwise a power failure may lose the name, and with it all that is durable in
 * the file. If that folder can't be read, has no syncs, or is in another file system, syncs the file's whole file system. False with errno. */
static bool sync_name(const char *real, int file) {
    char name[PATH_MAX];
    (void)snprintf(name, sizeof name, "%s", real);
    int folder = AGAIN(open(dirname(name), O_RDONLY | O_DIRECTORY | O_CLOEXEC)), error = folder < 0 ? errno : 0;
    if (folder >= 0) {
        if (!is_beside(folder, file))
            error = EINVAL;
        else if (AGAIN(fsync(folder)) != 0)
            error = errno;
        (void)close(folder);
    }
    if (error == EACCES || error == EINVAL) error = AGAIN(syncfs(file)) == 0 ? 0 : errno;
    errno = error;
    return error == 0;
}

/* ---- what a file lies on ---- */

/* The list of what is below this block device: a partition's is the whole device's. NULL: there is none. `listed` gets where it is. */
static DIR *open_slaves(const char *path, char *listed, size_t size) {
    static const char *const WHERE[] = {"%s/slaves", "%s/../slaves"};
    DIR *slaves = NULL;
    for (size_t i = 0; i < sizeof WHERE / sizeof *WHERE && slaves == NULL; i++)
        if (snprintf(listed, size, WHERE[i], path) < (int)size) slaves = opendir(listed);
    return slaves;
}

/* Whether this block device is a disk by ATA or SCSI, or lies on one, at most so many levels down: LVM, encryption and RAID show what is below them. */
static bool is_on_scsi(const char *path, unsigned levels) {
    char target[512], listed[512], below[512];
    ssize_t length = readlink(path, target, sizeof target - 1);
    if (length < 0) return false;
    target[length] = 0;
    bool is_so = strstr(target, "/block/sd") != NULL;
    DIR *slaves = levels > 0 && !is_so ? open_slaves(path, listed, sizeof listed) : NULL;
    if (slaves == NULL) return is_so;
    for (const struct dirent *it; !is_so && (it = readdir(slaves)) != NULL;) {
        int count = snprintf(below, sizeof below, "%s/%s", listed, it->d_name);
        is_so = count < (int)sizeof below && is_on_scsi(below, levels - 1);
    }
    (void)closedir(slaves);
    return is_so;
}

/* Whether the system shows that the file, or the block device, lies on a disk of which its standard doesn't promise that sectors stay whole
 * (docs/FORMAT.md, "What the device keeps"). Of other storage it doesn't show whether they do. */
static bool may_tear(int file) {
    struct stat its;
    char path[64];
    if (fstat(file, &its) != 0) return false;
    dev_t volume = S_ISBLK(its.st_mode) ? its.st_rdev : its.st_dev;
    (void)snprintf(path, sizeof path, ZELAMIKU_BLOCKS "/%u:%u", major(volume), minor(volume));
    return is_on_scsi(path, 8);
}

/* ---- a file as a device ---- */

static int descriptor_of(void *context) {
    return (int)(intptr_t)context;
}

static zelamiku_status read_file(void *context, uint64_t at, void *bytes, size_t size) {
    return read_all(descriptor_of(context), (uint8_t *)bytes, size, at) ? ZELAMIKU_OK : ZELAMIKU_DEVICE;
}

static zelamiku_status write_file(void *context, uint64_t at, const void *bytes, size_t size) {
    return write_all(descriptor_of(context), (const uint8_t *)bytes, size, at) ? ZELAMIKU_OK : ZELAMIKU_DEVICE;
}

/* The system may have dropped the pages that it couldn't write. */
static zelamiku_status sync_of_file(void *context) {
    return sync_file(descriptor_of(context)) ? ZELAMIKU_OK : ZELAMIKU_LOST;
}

static zelamiku_status length_of_file(void *context, uint64_t *size) {
    off_t end = lseek(descriptor_of(context), 0, SEEK_END); /* also of a block device, whose st_size is 0 */
    if (end < 0) return ZELAMIKU_DEVICE;
    *size = (uint64_t)end;
    return ZELAMIKU_OK;
}

static zelamiku_device device_of_file(int file) {
    zelamiku_device device = {sizeof device, read_file, write_file, sync_of_file, length_of_file, (void *)(intptr_t)file};
    return device;
}
