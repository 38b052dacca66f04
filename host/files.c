#include "files.h"

#include <errno.h>
#include <fcntl.h>
#include <stdio.h>
#include <stdlib.h>
#include <string.h>
#include <sys/file.h>
#include <sys/stat.h>
#include <unistd.h>

static char *failure;
static int cause;

const char *file_failure(void)
{
    return failure;
}

bool file_missing(void)
{
    return cause == ENOENT || cause == ENOTDIR;
}

bool file_misnamed(void)
{
    return file_missing() || cause == EACCES || cause == EPERM || cause == EISDIR ||
           cause == ELOOP || cause == ENAMETOOLONG || cause == EINVAL;
}

/* Takes a text that says what failed. */
static bool failed_as(int error, char *text)
{
    free(failure);
    failure = text;
    cause = error;
    return false;
}

static bool failed(const char *what, const char *path)
{
    int error = errno;

    return failed_as(error, text_of("can't %s %s: %s", what, path, strerror(error)));
}

static int open_as(const char *path, int flags, mode_t mode)
{
    int fd;

    do
        fd = open(path, flags | O_CLOEXEC, mode);
    while (fd < 0 && errno == EINTR);
    if (fd < 0)
        failed((flags & O_CREAT) != 0 ? "create" : "open", path);
    return fd;
}

int file_open(const char *path, int flags)
{
    return open_as(path, flags, 0666);
}

bool file_read(int fd, const char *path, size_t limit, struct bytes *into)
{
    enum { STEP = 65536 };
    size_t room = 0;

    into->at = NULL;
    into->length = 0;
    for (;;) {
        size_t wanted = limit - into->length < STEP ? limit - into->length : STEP;
        ssize_t got;

        if (into->length + wanted >= room) {
            room = 2 * (into->length + wanted) + 1;
            into->at = resized(into->at, room);
        }
        got = read(fd, into->at + into->length, wanted);
        if (got < 0 && errno == EINTR)
            continue;
        if (got < 0) {
            failed("read", path);
            bytes_free(into);
            return false;
        }
        if (got == 0)
            break;
        into->length += (size_t)got;
    }
    /* Exactly as long as what was read, so that a memory checker sees a step past its end. */
    into->at = resized(into->at, into->length > 0 ? into->length : 1);
    return true;
}

bool file_load(const char *path, size_t limit, struct bytes *into)
{
    int fd = file_open(path, O_RDONLY);
    bool good = fd >= 0 && file_read(fd, path, limit, into);

    if (fd >= 0)
        close(fd);
    return good;
}

static bool is_regular(int fd, const char *path)
{
    struct stat found;

    if (fstat(fd, &found) != 0)
        return failed("look at", path);
    if (S_ISDIR(found.st_mode))
        return failed_as(EISDIR, text_of("%s is a folder; name a file", path));
    if (!S_ISREG(found.st_mode))
        return failed_as(EINVAL,
                         text_of("%s is no regular file; name one, or - for standard input", path));
    return true;
}

bool file_load_foreign(const char *path, size_t limit, struct bytes *into)
{
    bool standard = strcmp(path, "-") == 0, good;
    int fd = standard ? STDIN_FILENO : file_open(path, O_RDONLY | O_NONBLOCK | O_NOCTTY);

    if (standard)
        return file_read(fd, "standard input", limit, into);
    good = fd >= 0 && is_regular(fd, path) && file_read(fd, path, limit, into);
    if (fd >= 0)
        close(fd);
    return good;
}

bool file_write(int fd, const char *path, const uint8_t *from, size_t length)
{
    while (length > 0) {
        ssize_t put = write(fd, from, length);

        if (put < 0 && errno == EINTR)
            continue;
        if (put <= 0)
            return failed("write", path);
        from += put;
        length -= (size_t)put;
    }
    return true;
}

bool file_write_at(int fd, const char *path, const uint8_t *from, size_t length, size_t offset)
{
    while (length > 0) {
        ssize_t put = pwrite(fd, from, length, (off_t)offset);

        if (put < 0 && errno == EINTR)
            continue;
        if (put <= 0)
            return failed("write", path);
        from += put;
        length -= (size_t)put;
        offset += (size_t)put;
    }
    return true;
}

bool file_empty(int fd, const char *path)
{
    int result;

    do
        result = ftruncate(fd, 0);
    while (result != 0 && errno == EINTR);
    return result == 0 || failed("empty", path);
}

bool file_remove(const char *path)
{
    return unlink(path) == 0 || failed("remove", path);
}

bool file_sync(int fd, const char *path)
{
    int result;

    do
        result = fsync(fd);
    while (result != 0 && errno == EINTR);
    return result == 0 || failed("sync", path);
}

bool file_sync_bytes(int fd, const char *path)
{
    int result;

    do
        result = fdatasync(fd);
    while (result != 0 && errno == EINTR);
    return result == 0 || failed("sync", path);
}

bool folder_sync(const char *folder)
{
    int fd = file_open(folder, O_RDONLY | O_DIRECTORY);
    bool good = fd >= 0 && file_sync(fd, folder);

    if (fd >= 0)
        close(fd);
    return good;
}

char *folder_of(const char *path)
{
    char *folder = copy_text(path);
    size_t end = strlen(folder);

    while (end > 1 && folder[end - 1] == '/')
        end--;
    while (end > 0 && folder[end - 1] != '/')
        end--;
    while (end > 1 && folder[end - 1] == '/')
        end--;
    folder[end] = '\0';
    if (end > 0)
        return folder;
    free(folder);
    return copy_text(".");
}

bool folder_make(const char *folder)
{
    char *parent;
    bool good;

    if (mkdir(folder, 0700) != 0 && errno != EEXIST)
        return failed("make the folder", folder);
    /* Also if it was there: a call before may have been cut off between the two. */
    parent = folder_of(folder);
    good = folder_sync(parent);
    free(parent);
    return good;
}

char *file_beside(const char *path)
{
    return join_text(path, ".aspenbox", ".new");
}

/* Removes a temporary file that nobody writes. Who writes one has it locked until it is renamed, so
 * that a file which still has the name and can be locked was left. */
static void remove_left(const char *temporary)
{
    struct stat opened, named;
    int fd = file_open(temporary, O_RDONLY | O_NOFOLLOW | O_NONBLOCK);

    if (fd < 0)
        return;
    if (flock(fd, LOCK_EX | LOCK_NB) == 0 && fstat(fd, &opened) == 0 &&
        lstat(temporary, &named) == 0 && opened.st_dev == named.st_dev &&
        opened.st_ino == named.st_ino)
        unlink(temporary);
    close(fd);
}

/* Makes the temporary file, for this process alone. */
static int make_temporary(const char *temporary, mode_t mode)
{
    struct stat found;
    int fd;

    remove_left(temporary);
    if (lstat(temporary, &found) == 0 && S_ISDIR(found.st_mode)) {
        failed_as(EISDIR, text_of("the folder %s is in the way; remove it", temporary));
        return -1;
    }
    fd = open_as(temporary, O_WRONLY | O_CREAT | O_EXCL, mode);
    /* A file system without locks has to do without. */
    if (fd < 0 || flock(fd, LOCK_EX | LOCK_NB) == 0 || errno != EWOULDBLOCK)
        return fd;
    failed("lock", temporary);
    close(fd);
    return -1;
}

/* Gives the new file the old one's owner, group and mode. Where the group can't be kept, the new
 * one is given to no group. */
static bool keep_access(int fd, const char *path, const struct stat *old)
{
    mode_t mode = old->st_mode & 07777;

    if (fchown(fd, old->st_uid, old->st_gid) != 0 && fchown(fd, (uid_t)-1, old->st_gid) != 0)
        mode &= ~(mode_t)(S_IRWXG | S_ISUID | S_ISGID);
    return fchmod(fd, mode) == 0 || failed("set the mode of", path);
}

bool file_replace(const char *path, const struct replacement *how, struct bytes bytes)
{
    const char *temporary = how->temporary;
    struct stat old;
    bool keep = how->keep && stat(path, &old) == 0, good;
    int fd = make_temporary(temporary, keep ? 0600 : how->mode);

    if (fd < 0)
        return false;
    good = (!keep || keep_access(fd, temporary, &old)) &&
           file_write(fd, temporary, bytes.at, bytes.length) && file_sync(fd, temporary);
    if (good && rename(temporary, path) != 0)
        good = failed("replace", path);
    if (!good)
        unlink(temporary);
    close(fd);
    return good;
}
