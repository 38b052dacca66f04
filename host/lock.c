#include "lock.h"

#include "dates.h"
#include "files.h"
#include "messages.h"
#include "prints.h"

#include <errno.h>
#include <fcntl.h>
#include <stdio.h>
#include <stdlib.h>
#include <string.h>
#include <sys/file.h>
#include <sys/random.h>
#include <unistd.h>

/* The file is exactly: FIRST_LINE, then "day-zero DATE", "store ID" and "digest DIGEST" in
 * hexadecimal. The digest is of the three lines before it; the first stores had no fourth line. */
#define FIRST_LINE "aspenbox 1\n"
#define DAY_ZERO "day-zero "
#define STORE "store "
#define DIGEST "digest "

enum {
    DATE_AT = sizeof FIRST_LINE - 1 + sizeof DAY_ZERO - 1,
    DATE_LENGTH = 10,
    ID_AT = DATE_AT + DATE_LENGTH + 1 + sizeof STORE - 1,
    THREE_LINES = ID_AT + 2 * STORE_ID_SIZE + 1,
    FILE_LENGTH = THREE_LINES + sizeof DIGEST - 1 + 2 * DIGEST_SIZE + 1
};

/* Writes bytes in hexadecimal and a newline; answers how many characters that are. */
static int add_hex(char *text, const uint8_t *bytes, int count)
{
    for (int i = 0; i < count; i++)
        snprintf(text + 2 * i, 3, "%02x", bytes[i]);
    snprintf(text + 2 * count, 2, "\n");
    return 2 * count + 1;
}

static void compose(const struct lock *lock, char *text)
{
    uint8_t digest[DIGEST_SIZE];
    char date[DATE_TEXT];
    int at = snprintf(text, FILE_LENGTH + 1, FIRST_LINE DAY_ZERO "%s\n" STORE,
                      date_write(lock->day_zero, date));

    at += add_hex(text + at, lock->id, STORE_ID_SIZE);
    sha256((const uint8_t *)text, (size_t)at, digest);
    at += snprintf(text + at, sizeof DIGEST, DIGEST);
    add_hex(text + at, digest, DIGEST_SIZE);
}

/* Reads the file back; true if it is what compose writes. */
static bool parse(struct lock *lock, struct bytes file)
{
    const char *text = (const char *)file.at;
    char date[DATE_LENGTH + 1] = "", again[FILE_LENGTH + 1];

    if (file.length != FILE_LENGTH && file.length != THREE_LINES)
        return false;
    lock->digested = file.length == FILE_LENGTH;
    memcpy(date, text + DATE_AT, DATE_LENGTH);
    if (!date_read(date, &lock->day_zero))
        return false;
    for (int i = 0; i < STORE_ID_SIZE; i++) {
        char digits[3] = {text[ID_AT + 2 * i], text[ID_AT + 2 * i + 1], '\0'};

        lock->id[i] = (uint8_t)strtoul(digits, NULL, 16);
    }
    compose(lock, again);
    return memcmp(again, text, file.length) == 0;
}

static void take(const struct lock *lock, int operation, bool wait)
{
    if (flock(lock->fd, operation | LOCK_NB) == 0)
        return;
    if (errno == EWOULDBLOCK && !wait)
        fail(STATUS_BUSY, "another aspenbox uses the store; try again later, or without --no-wait");
    if (errno == EWOULDBLOCK)
        note_now("another aspenbox uses the store; waiting for it");
    while (flock(lock->fd, operation) != 0)
        if (errno != EINTR)
            fail(STATUS_FILES, "can't lock %s: %s", lock->path, strerror(errno));
}

void lock_take(struct lock *lock, const char *folder, enum lock_use use, bool wait)
{
    struct bytes bytes;

    *lock = (struct lock){.path = join_text(folder, "/", "lock")};
    lock->fd = file_open(lock->path, use == LOCK_TO_WRITE ? O_RDWR : O_RDONLY);
    if (lock->fd < 0 && file_missing())
        fail(STATUS_STORE, "%s is no store: it has no file lock; aspenbox format makes a store",
             folder);
    if (lock->fd < 0)
        fail(STATUS_FILES, "%s", file_failure());
    take(lock, use == LOCK_TO_WRITE ? LOCK_EX : LOCK_SH, wait);
    if (!file_read(lock->fd, lock->path, FILE_LENGTH + 1, &bytes))
        fail(STATUS_FILES, "%s", file_failure());
    lock->whole = parse(lock, bytes);
    bytes_free(&bytes);
}

void lock_take_new(struct lock *lock, const char *folder, bool wait)
{
    static const char ours[] = FIRST_LINE;
    struct bytes bytes;

    *lock = (struct lock){.path = join_text(folder, "/", "lock")};
    lock->fd = file_open(lock->path, O_RDWR | O_CREAT);
    if (lock->fd < 0)
        fail(STATUS_FILES, "%s", file_failure());
    take(lock, LOCK_EX, wait);
    if (!file_read(lock->fd, lock->path, sizeof ours - 1, &bytes))
        fail(STATUS_FILES, "%s", file_failure());
    /* A format that was cut off leaves zeros where the bytes weren't on disk yet. */
    for (size_t i = 0; i < bytes.length; i++)
        if (bytes.at[i] != 0 && bytes.at[i] != (uint8_t)ours[i])
            fail(STATUS_USAGE, "%s is a file of something else; format another folder", lock->path);
    bytes_free(&bytes);
}

void lock_fill(struct lock *lock, long day_zero)
{
    char text[FILE_LENGTH + 1];

    lock->day_zero = day_zero;
    if (getrandom(lock->id, sizeof lock->id, 0) != sizeof lock->id)
        fail(STATUS_FILES, "the system gives no random bytes: %s", strerror(errno));
    compose(lock, text);
    if (!file_empty(lock->fd, lock->path) ||
        !file_write_at(lock->fd, lock->path, (const uint8_t *)text, FILE_LENGTH, 0) ||
        !file_sync(lock->fd, lock->path))
        fail(STATUS_FILES, "%s", file_failure());
}

bool lock_is_ours(const char *folder)
{
    static const char ours[] = FIRST_LINE;
    char *path = join_text(folder, "/", "lock");
    struct bytes bytes;
    bool is = false;

    if (file_load_foreign(path, sizeof ours - 1, &bytes)) {
        is = bytes.length == sizeof ours - 1 && memcmp(bytes.at, ours, bytes.length) == 0;
        bytes_free(&bytes);
    }
    free(path);
    return is;
}

void lock_drop(struct lock *lock)
{
    close(lock->fd);
    free(lock->path);
}
