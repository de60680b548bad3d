/* Loaded before a program, changes what its system calls and its requests for memory do.

   FAULT says which calls are counted, and what happens to call number FAULT_AT of them:
   - fail: opens, locks, reads, writes, syncs, closes, look-ups, links, renames, removals, requests for random bytes. It
     fails.
   - unread, starve: reads. It fails with an I/O error, or out of memory.
   - nothing: writes. It takes no byte.
   - short: reads and writes. It transfers one byte.
   - memory: allocations. It fails.
   - interrupt, trickle: every other read and write is interrupted, or each one transfers one byte.

   Each call that opens a new file or a folder, or that writes, syncs, changes, links, renames, locks or removes a file,
   has a line: the call, the names of its files without their folders, and in octal the mode of a new file or of a change.
   The lines are written to the file STAGE_LOG. Before the first call whose line begins with STAGE_AT, the shell command
   STAGE_DO is run once. A look at a name, and not at what it leads to, has the line `look NAME`, which isn't logged.
   Calls whose lines begin with STAGE_FAIL fail with error number STAGE_ERROR, and are logged too. The file with inode
   number STAGE_UID_OF appears to belong to another user, that of STAGE_GID_OF to another group.

   The files whose inode numbers are in BLOCK_DEVICE, separated by commas, appear as nodes of block devices. A number may
   be followed by the number of the device, as in `77@8:1`. If PRETENDED names a folder, it replaces /proc, /sys and /dev
   for what is opened or looked up there. Write number FAILING_WRITE at an offset of a file, counted from 1, fails after
   half of its bytes.

   When the program ends, the library writes files: FAULT_COUNT has the number of counted calls, FAULT_READ the number of
   bytes read, FAULT_WRONG what the call that failed was to do, and WRITE_COUNT the number of writes at an offset, and of
   data syncs directly after one. */
#define _GNU_SOURCE
#include <errno.h>
#include <fcntl.h>
#include <limits.h>
#include <stdarg.h>
#include <stdio.h>
#include <stdlib.h>
#include <string.h>
#include <sys/stat.h>
#include <sys/syscall.h>
#include <unistd.h>

extern void *__libc_malloc(size_t size);
extern void *__libc_realloc(void *old, size_t size);

static long calls, taken;
static unsigned long long writes, syncs;

/* Whether there was no sync since the last write. */
static int is_unsynced;

/* The last file opened below /proc. Bytes read from it aren't counted. */
static int of_process = -1;

/* What the call with the fault was to do, or nothing if there was none. */
static char wrong[16];

static int is_fault(const char *fault) {
    const char *asked = getenv("FAULT");
    return asked && strcmp(asked, fault) == 0;
}

/* Whether this variable of the environment has this number. */
static int is_number(const char *name, unsigned long long number) {
    const char *asked = getenv(name);
    return asked && strtoull(asked, NULL, 10) == number;
}

/* Counts a call, and returns whether it is the one with the fault. */
static int is_now(void) { return is_number("FAULT_AT", ++calls); }

/* Whether this call, which was to do this, fails: `make` and `folder` are ways to open. */
static int is_faulty(const char *line) {
    if (!is_fault("fail") || !is_now()) {
        return 0;
    }
    sscanf(line, "%15s", wrong);
    if (strcmp(wrong, "make") == 0 || strcmp(wrong, "folder") == 0) {
        strcpy(wrong, "open");
    }
    errno = EIO;
    return 1;
}

/* The name of a file without its folder. */
static const char *last(const char *path) {
    const char *slash = strrchr(path, '/');
    return slash && slash[1] ? slash + 1 : path;
}

/* The name of an open file. */
static const char *name_of(int file) {
    static char path[PATH_MAX];
    char link[40];
    snprintf(link, sizeof link, "/proc/self/fd/%d", file);
    ssize_t length = readlink(link, path, sizeof path - 1);
    path[length < 0 ? 0 : length] = 0;
    return last(path);
}

/* Whether a line begins with the value of this variable of the environment. */
static int is_asked(const char *name, const char *line) {
    const char *asked = getenv(name);
    return asked && strncmp(line, asked, strlen(asked)) == 0;
}

/* Runs the shell command, without this library, and not again. */
static void act(void) {
    char *command = strdup(getenv("STAGE_DO"));
    unsetenv("LD_PRELOAD");
    unsetenv("STAGE_AT");
    if (system(command)) {
        abort();
    }
    free(command);
}

/* Logs the line of a call before it is made, and returns whether the call has to fail. */
static int fails(const char *form, ...) {
    char line[2 * PATH_MAX];
    const char *name = getenv("STAGE_LOG");
    va_list rest;
    va_start(rest, form);
    vsnprintf(line, sizeof line, form, rest);
    va_end(rest);
    if (is_asked("STAGE_AT", line)) {
        act();
    }
    int log = name ? (int)syscall(SYS_openat, AT_FDCWD, name, O_WRONLY | O_CREAT | O_APPEND, 0600) : -1;
    if (log >= 0) {
        syscall(SYS_write, log, line, strlen(line));
        syscall(SYS_write, log, "\n", 1);
        syscall(SYS_close, log);
    }
    if (is_asked("STAGE_FAIL", line)) {
        errno = atoi(getenv("STAGE_ERROR"));
        return 1;
    }
    return is_faulty(line);
}

/* The name of the file that replaces a file of the system. */
static const char *pretended(const char *name, char *whole) {
    const char *folder = getenv("PRETENDED");
    int is_system = !strncmp(name, "/proc/", 6) || !strncmp(name, "/sys/", 5) || !strncmp(name, "/dev/", 5);
    if (!folder || !is_system) {
        return name;
    }
    snprintf(whole, PATH_MAX, "%s%s", folder, name);
    return whole;
}

static int is_folder(const char *name) {
    struct stat found;
    return syscall(SYS_newfstatat, AT_FDCWD, name, &found, 0) == 0 && S_ISDIR(found.st_mode);
}

int open(const char *name, int flags, ...) {
    char whole[PATH_MAX];
    va_list rest;
    va_start(rest, flags);
    int mode = flags & O_CREAT ? va_arg(rest, int) : 0;
    va_end(rest);
    const char *folder = getenv("STAGE_LOG") && !(flags & O_CREAT) && is_folder(name) ? realpath(name, whole) : NULL;
    if (flags & O_CREAT ? fails("make %s %o", last(name), mode)
                        : fails("%s %s", folder ? "folder" : "open", last(folder ? folder : name))) {
        return -1;
    }
    int file = (int)syscall(SYS_openat, AT_FDCWD, pretended(name, whole), flags, mode);
    if (file >= 0) {
        of_process = strncmp(name, "/proc/", strlen("/proc/")) == 0 ? file : of_process == file ? -1 : of_process;
    }
    return file;
}

int openat(int folder, const char *name, int flags, ...) {
    char whole[PATH_MAX];
    return (int)syscall(SYS_openat, folder, pretended(name, whole), flags, 0);
}

/* Makes the status of a file that of a block device, if BLOCK_DEVICE has its number. */
static void make_device(struct statx *found) {
    const char *asked = getenv("BLOCK_DEVICE");
    while (asked && *asked) {
        char *end;
        unsigned major = 0, minor = 0;
        int is_asked = strtoull(asked, &end, 10) == found->stx_ino;
        sscanf(end, "@%u:%u", &major, &minor);
        if (is_asked) {
            found->stx_mode = (found->stx_mode & ~S_IFMT) | S_IFBLK;
            found->stx_rdev_major = major;
            found->stx_rdev_minor = minor;
        }
        asked = strchr(end, ',');
        asked = asked ? asked + 1 : NULL;
    }
}

int statx(int folder, const char *name, int flags, unsigned mask, struct statx *found) {
    char line[PATH_MAX], whole[PATH_MAX];
    snprintf(line, sizeof line, "look %s", last(name));
    if (flags & AT_SYMLINK_NOFOLLOW && is_asked("STAGE_AT", line)) {
        act();
    }
    if (is_faulty(line) || syscall(SYS_statx, folder, pretended(name, whole), flags, mask, found)) {
        return -1;
    }
    found->stx_uid += is_number("STAGE_UID_OF", found->stx_ino);
    found->stx_gid += is_number("STAGE_GID_OF", found->stx_ino);
    make_device(found);
    return 0;
}

off_t lseek(int file, off_t at, int from) { return is_faulty("look") ? -1 : (off_t)syscall(SYS_lseek, file, at, from); }

off_t lseek64(int file, off_t at, int from) { return lseek(file, at, from); }

int flock(int file, int how) { return fails("lock %s", name_of(file)) ? -1 : (int)syscall(SYS_flock, file, how); }

int fsync(int file) { return fails("sync %s", name_of(file)) ? -1 : (int)syscall(SYS_fsync, file); }

int fdatasync(int file) {
    syncs += is_unsynced;
    is_unsynced = 0;
    return fails("sync %s", name_of(file)) ? -1 : (int)syscall(SYS_fdatasync, file);
}

int fchmod(int file, mode_t mode) {
    return fails("change %s %o", name_of(file), mode) ? -1 : (int)syscall(SYS_fchmod, file, mode);
}

int rename(const char *old, const char *new) {
    return fails("rename %s %s", last(old), last(new)) ? -1 : (int)syscall(SYS_rename, old, new);
}

int link(const char *old, const char *new) {
    return fails("link %s %s", last(old), last(new)) ? -1 : (int)syscall(SYS_link, old, new);
}

int unlink(const char *name) { return fails("remove %s", last(name)) ? -1 : (int)syscall(SYS_unlink, name); }

int getentropy(void *bytes, size_t length) {
    return is_faulty("draw") ? -1 : syscall(SYS_getrandom, bytes, length, 0) == (ssize_t)length ? 0 : -1;
}

/* A close that fails has closed the file, as on Linux. */
int close(int file) {
    int is_bad = is_faulty("close");
    int closed = (int)syscall(SYS_close, file);
    return is_bad ? -1 : closed;
}

/* Makes a call that transfers bytes. `at` is an offset in the file for calls that take one. */
static ssize_t moved(long call, int file, const void *bytes, size_t length, off_t at) {
    if (is_fault("interrupt") && ++calls % 2) {
        errno = EINTR;
        return -1;
    }
    if (is_fault("trickle") || (is_fault("short") && is_now())) {
        length = length ? 1 : 0;
    }
    return syscall(call, file, bytes, length, at);
}

/* Makes a call that reads, and counts its bytes. */
static ssize_t received(long call, int file, void *bytes, size_t length, off_t at) {
    if ((is_fault("unread") || is_fault("starve")) && is_now()) {
        errno = is_fault("starve") ? ENOMEM : EIO;
        return -1;
    }
    ssize_t given = is_faulty("read") ? -1 : moved(call, file, bytes, length, at);
    taken += given > 0 && file != of_process ? given : 0;
    return given;
}

ssize_t read(int file, void *bytes, size_t length) { return received(SYS_read, file, bytes, length, 0); }

ssize_t pread64(int file, void *bytes, size_t length, off_t at) {
    return received(SYS_pread64, file, bytes, length, at);
}

ssize_t pread(int file, void *bytes, size_t length, off_t at) { return pread64(file, bytes, length, at); }

/* Makes a call that writes, to an output or to another file. */
static ssize_t sent(long call, int file, const void *bytes, size_t length, off_t at) {
    const char *what = file <= STDERR_FILENO ? "print" : "write";
    if (fails("%s %s", what, name_of(file))) {
        return -1;
    }
    if (is_fault("nothing") && is_now()) {
        strcpy(wrong, what);
        return 0;
    }
    return moved(call, file, bytes, length, at);
}

ssize_t write(int file, const void *bytes, size_t length) { return sent(SYS_write, file, bytes, length, 0); }

ssize_t __write(int file, const void *bytes, size_t length) { return write(file, bytes, length); }

ssize_t pwrite64(int file, const void *bytes, size_t length, off_t at) {
    is_unsynced = 1;
    if (!is_number("FAILING_WRITE", ++writes)) {
        return sent(SYS_pwrite64, file, bytes, length, at);
    }
    syscall(SYS_pwrite64, file, bytes, length / 2, at);
    errno = ENOSPC;
    return -1;
}

ssize_t pwrite(int file, const void *bytes, size_t length, off_t at) { return pwrite64(file, bytes, length, at); }

static int has_no_memory(void) {
    if (!is_fault("memory") || !is_now()) {
        return 0;
    }
    errno = ENOMEM;
    return 1;
}

void *malloc(size_t size) { return has_no_memory() ? NULL : __libc_malloc(size); }

void *realloc(void *old, size_t size) { return has_no_memory() ? NULL : __libc_realloc(old, size); }

/* Writes a text to the file that this variable of the environment names, if any. */
__attribute__((format(printf, 2, 3))) static void report(const char *where, const char *form, ...) {
    const char *name = getenv(where);
    FILE *file = name ? fopen(name, "w") : NULL;
    va_list rest;
    va_start(rest, form);
    if (file) {
        vfprintf(file, form, rest);
        fclose(file);
    }
    va_end(rest);
}

__attribute__((destructor)) static void tell(void) {
    unsetenv("FAULT");
    unsetenv("STAGE_LOG");
    unsetenv("PRETENDED");
    long bytes_read = taken;
    unsigned long long written = writes, synced = syncs;
    report("FAULT_COUNT", "%ld\n", calls);
    report("FAULT_READ", "%ld\n", bytes_read);
    report("FAULT_WRONG", "%s\n", wrong);
    report("WRITE_COUNT", "%llu %llu\n", written, synced);
}
