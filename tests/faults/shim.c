/*
 * Loaded before the C library (LD_PRELOAD), this stands between a program and every call by which
 * it writes files. It counts them from 1 and can make one fail, or be the last of the process.
 *
 *   SHIM_AT   the number of the call
 *   SHIM_HOW  what happens there:
 *     EIO, ENOSPC, EINTR  it fails with this error, and nothing is done
 *     short               a write does half of its bytes, and says so
 *     before, after       the process is killed before it, or after it
 *     torn                a write does half of its bytes, and then the process is killed
 *     full                from here on, whatever takes room fails with ENOSPC
 *     dead                from here on, everything fails with EIO
 *   SHIM_LOG  the file to which every call is added with its outcome, one line each:
 *     number, name, result (if it failed, the error's number below 0), then by name:
 *     open: what for (r reads, w writes, c makes, t empties, d a folder) and path
 *     write: file, offset and the bytes written in hexadecimal
 *     fsync, fdatasync, close, flock, fchmod, fchown: file
 *     ftruncate: file and length
 *     rename: old and new path
 *     unlink, mkdir: path
 *   The fields are separated by tabs. An open that neither writes nor is of a folder is in the
 *   log, for its file's name, but isn't counted: its number is 0.
 */
#define _GNU_SOURCE
#include <errno.h>
#include <fcntl.h>
#include <signal.h>
#include <stdarg.h>
#include <stdbool.h>
#include <stdint.h>
#include <stdio.h>
#include <stdlib.h>
#include <string.h>
#include <sys/file.h>
#include <sys/stat.h>
#include <sys/syscall.h>
#include <unistd.h>

enum how { NOTHING, FAIL, SHORT, BEFORE, AFTER, TORN, FULL, DEAD };

/* Whether a call needs room on the disk, so that a full one fails it. */
enum room { NO_ROOM, TAKES_ROOM };

enum { FILES_MAX = 1024, LOG_FD = 900, HEX_STEP = 1024, SECONDS_MAX = 60 };

static unsigned long calls, at;
static enum how how;
static int error;
static int log_fd = -1;
static bool writes[FILES_MAX]; /* the open files that the program writes */

static const struct {
    const char *name;
    enum how how;
    int error;
} ways[] = {
    {"EIO", FAIL, EIO},     {"ENOSPC", FAIL, ENOSPC}, {"EINTR", FAIL, EINTR},
    {"short", SHORT, 0},    {"before", BEFORE, 0},    {"after", AFTER, 0},
    {"torn", TORN, 0},      {"full", FULL, ENOSPC},   {"dead", DEAD, EIO},
};

static _Noreturn void give_up(const char *why)
{
    fprintf(stderr, "shim: %s\n", why);
    _exit(99);
}

__attribute__((constructor)) static void read_plan(void)
{
    const char *number = getenv("SHIM_AT"), *way = getenv("SHIM_HOW"), *log = getenv("SHIM_LOG");

    alarm(SECONDS_MAX); /* a program that never ends is ended, by SIGALRM */
    if (number != NULL)
        at = strtoul(number, NULL, 10);
    for (size_t i = 0; way != NULL && i < sizeof ways / sizeof ways[0]; i++)
        if (strcmp(ways[i].name, way) == 0) {
            how = ways[i].how;
            error = ways[i].error;
        }
    if ((at != 0) != (how != NOTHING))
        give_up("SHIM_AT and SHIM_HOW don't make a plan");
    if (log != NULL) {
        int fd = (int)syscall(SYS_openat, AT_FDCWD, log, O_WRONLY | O_CREAT | O_APPEND, 0666);

        /* High up, so that the program gets the numbers that it would get anyway. */
        log_fd = fcntl(fd, F_DUPFD_CLOEXEC, LOG_FD);
        if (fd < 0 || log_fd < 0)
            give_up("can't open SHIM_LOG");
        syscall(SYS_close, fd);
    }
}

static void log_bytes(const char *bytes, size_t length)
{
    if (syscall(SYS_write, log_fd, bytes, length) != (long)length)
        give_up("can't write SHIM_LOG");
}

/* Adds a part of a line to the log. */
__attribute__((format(printf, 1, 2))) static void note(const char *format, ...)
{
    char text[4096];
    va_list arguments;
    int length;

    if (log_fd < 0)
        return;
    va_start(arguments, format);
    length = vsnprintf(text, sizeof text, format, arguments);
    va_end(arguments);
    if (length < 0 || (size_t)length >= sizeof text)
        give_up("a line is too long for SHIM_LOG");
    log_bytes(text, (size_t)length);
}

static void note_hex(const uint8_t *bytes, size_t length)
{
    static const char digits[] = "0123456789abcdef";
    char text[2 * HEX_STEP];

    for (size_t done = 0; log_fd >= 0 && done < length; done += HEX_STEP) {
        size_t step = length - done < HEX_STEP ? length - done : HEX_STEP;

        for (size_t i = 0; i < step; i++) {
            text[2 * i] = digits[bytes[done + i] >> 4];
            text[2 * i + 1] = digits[bytes[done + i] & 15];
        }
        log_bytes(text, 2 * step);
    }
}

static void die(void)
{
    syscall(SYS_kill, syscall(SYS_getpid), SIGKILL);
    for (;;)
        pause();
}

/* Counts a call that is about to be made. False if it has to fail; errno says by what. */
static bool allowed(enum room room)
{
    calls++;
    if (at == 0 || calls < at)
        return true;
    if (calls == at && how == BEFORE)
        die();
    if ((calls == at && how == FAIL) || how == DEAD || (how == FULL && room == TAKES_ROOM)) {
        errno = error;
        return false;
    }
    return true;
}

/* What is noted of a call: its result, or the error's number below 0. */
static long noted(long result)
{
    return result < 0 ? -(long)errno : result;
}

/* The call has been made and noted. */
static long done(long result)
{
    int saved = errno;

    note("\n");
    if (calls == at && (how == AFTER || how == TORN))
        die();
    errno = saved;
    return result;
}

static int opened(int folder, const char *path, int flags, mode_t mode)
{
    bool writing = (flags & (O_ACCMODE | O_CREAT | O_TRUNC)) != O_RDONLY;
    bool counted = writing || (flags & O_DIRECTORY) != 0;
    long fd = -1;

    if (folder != AT_FDCWD || (flags & O_TMPFILE) == O_TMPFILE)
        give_up("this way of opening a file isn't known");
    if (!counted || allowed((flags & O_CREAT) != 0 ? TAKES_ROOM : NO_ROOM))
        fd = syscall(SYS_openat, AT_FDCWD, path, flags, mode);
    if (fd >= FILES_MAX)
        give_up("too many open files");
    if (fd >= 0)
        writes[fd] = writing;
    note("%lu\topen\t%ld\t%s%s%s%s\t%s", counted ? calls : 0, noted(fd),
         (flags & O_ACCMODE) == O_RDONLY ? "r" : "w", (flags & O_CREAT) != 0 ? "c" : "",
         (flags & O_TRUNC) != 0 ? "t" : "", (flags & O_DIRECTORY) != 0 ? "d" : "", path);
    if (counted)
        return (int)done(fd);
    note("\n");
    return (int)fd;
}

/* The mode that follows the flags of an opening, if one does. */
#define MODE_AFTER(flags, mode)                   \
    do {                                          \
        va_list arguments;                        \
        va_start(arguments, flags);               \
        if (((flags) & O_CREAT) != 0)             \
            (mode) = va_arg(arguments, mode_t);   \
        va_end(arguments);                        \
    } while (0)

int open(const char *path, int flags, ...)
{
    mode_t mode = 0;

    MODE_AFTER(flags, mode);
    return opened(AT_FDCWD, path, flags, mode);
}

int open64(const char *path, int flags, ...)
{
    mode_t mode = 0;

    MODE_AFTER(flags, mode);
    return opened(AT_FDCWD, path, flags, mode);
}

/* What a C library that checks its arguments calls where an opening has no mode. */
int __open_2(const char *path, int flags)
{
    return opened(AT_FDCWD, path, flags, 0);
}

int __open64_2(const char *path, int flags)
{
    return opened(AT_FDCWD, path, flags, 0);
}

int openat(int folder, const char *path, int flags, ...)
{
    mode_t mode = 0;

    MODE_AFTER(flags, mode);
    return opened(folder, path, flags, mode);
}

int openat64(int folder, const char *path, int flags, ...)
{
    mode_t mode = 0;

    MODE_AFTER(flags, mode);
    return opened(folder, path, flags, mode);
}

static ssize_t written(int fd, const void *from, size_t length, off_t offset)
{
    long put = -1;

    if (allowed(TAKES_ROOM)) {
        if (calls == at && (how == SHORT || how == TORN))
            length = (length + 1) / 2;
        put = syscall(SYS_pwrite64, fd, from, length, offset);
    }
    note("%lu\twrite\t%ld\t%d\t%ld\t", calls, noted(put), fd, (long)offset);
    if (put > 0)
        note_hex(from, (size_t)put);
    return done(put);
}

ssize_t write(int fd, const void *from, size_t length)
{
    off_t offset;
    ssize_t put;

    if (fd < 0 || fd >= FILES_MAX || !writes[fd])
        return syscall(SYS_write, fd, from, length);
    offset = lseek(fd, 0, SEEK_CUR);
    put = written(fd, from, length, offset);
    if (put > 0)
        lseek(fd, offset + put, SEEK_SET);
    return put;
}

ssize_t pwrite(int fd, const void *from, size_t length, off_t offset)
{
    return written(fd, from, length, offset);
}

ssize_t pwrite64(int fd, const void *from, size_t length, off64_t offset)
{
    return written(fd, from, length, offset);
}

/* A call on an open file that takes no room. */
static int on_file(const char *name, long number, int fd, long argument, long second)
{
    long result = allowed(NO_ROOM) ? syscall(number, fd, argument, second) : -1;

    note("%lu\t%s\t%ld\t%d", calls, name, noted(result), fd);
    return (int)done(result);
}

int fsync(int fd)
{
    return on_file("fsync", SYS_fsync, fd, 0, 0);
}

int fdatasync(int fd)
{
    return on_file("fdatasync", SYS_fdatasync, fd, 0, 0);
}

int flock(int fd, int operation)
{
    return on_file("flock", SYS_flock, fd, operation, 0);
}

int fchmod(int fd, mode_t mode)
{
    return on_file("fchmod", SYS_fchmod, fd, (long)mode, 0);
}

int fchown(int fd, uid_t owner, gid_t group)
{
    return on_file("fchown", SYS_fchown, fd, (long)owner, (long)group);
}

int ftruncate(int fd, off_t length)
{
    long result = allowed(TAKES_ROOM) ? syscall(SYS_ftruncate, fd, length) : -1;

    note("%lu\tftruncate\t%ld\t%d\t%ld", calls, noted(result), fd, (long)length);
    return (int)done(result);
}

int ftruncate64(int fd, off64_t length)
{
    return ftruncate(fd, length);
}

/* A file is closed even where closing it fails. */
int close(int fd)
{
    long result;
    int failure;

    if (fd < 0 || fd >= FILES_MAX || !writes[fd])
        return (int)syscall(SYS_close, fd);
    writes[fd] = false;
    failure = allowed(NO_ROOM) ? 0 : errno;
    result = syscall(SYS_close, fd);
    if (failure != 0) {
        result = -1;
        errno = failure;
    }
    note("%lu\tclose\t%ld\t%d", calls, noted(result), fd);
    return (int)done(result);
}

int renameat(int old_folder, const char *old, int new_folder, const char *new)
{
    long result = -1;

    if (old_folder != AT_FDCWD || new_folder != AT_FDCWD)
        give_up("this way of renaming a file isn't known");
    if (allowed(TAKES_ROOM))
        result = syscall(SYS_renameat2, AT_FDCWD, old, AT_FDCWD, new, 0);
    note("%lu\trename\t%ld\t%s\t%s", calls, noted(result), old, new);
    return (int)done(result);
}

int rename(const char *old, const char *new)
{
    return renameat(AT_FDCWD, old, AT_FDCWD, new);
}

int unlink(const char *path)
{
    long result = allowed(NO_ROOM) ? syscall(SYS_unlinkat, AT_FDCWD, path, 0) : -1;

    note("%lu\tunlink\t%ld\t%s", calls, noted(result), path);
    return (int)done(result);
}

int mkdir(const char *path, mode_t mode)
{
    long result = allowed(TAKES_ROOM) ? syscall(SYS_mkdirat, AT_FDCWD, path, mode) : -1;

    note("%lu\tmkdir\t%ld\t%s", calls, noted(result), path);
    return (int)done(result);
}
