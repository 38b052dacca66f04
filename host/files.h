/* The file system, with every answer checked: interrupted calls are made again, short writes go
 * on. What fails returns false (an opening -1), and file_failure() says what it was. */
#ifndef ASPENBOX_FILES_H
#define ASPENBOX_FILES_H

#include "memory.h"

#include <stdbool.h>
#include <sys/types.h>

/* What failed last, in words with the file's name. */
const char *file_failure(void);
/* Whether that was because there is no such file. */
bool file_missing(void);
/* Whether it was for what the name stands for (nothing there, no permission, a folder, a pipe), and
 * not for the file system. */
bool file_misnamed(void);

/* Opens with O_CLOEXEC; a file that is made gets the mode that the umask leaves. */
int file_open(const char *path, int flags);

/* Reads up to `limit` bytes from where the file stands; the caller frees them. */
bool file_read(int fd, const char *path, size_t limit, struct bytes *into);
/* Opens, reads up to `limit` bytes and closes. */
bool file_load(const char *path, size_t limit, struct bytes *into);
/* The same for a file that isn't the store's, which has to be a regular file: nobody waits for a
 * pipe or a device. The path - is standard input. */
bool file_load_foreign(const char *path, size_t limit, struct bytes *into);

bool file_write(int fd, const char *path, const uint8_t *from, size_t length);
bool file_write_at(int fd, const char *path, const uint8_t *from, size_t length, size_t offset);
bool file_empty(int fd, const char *path);
bool file_remove(const char *path);

bool file_sync(int fd, const char *path);
/* Syncs only the bytes and what is needed to read them. */
bool file_sync_bytes(int fd, const char *path);
/* Syncs the names in a folder. */
bool folder_sync(const char *folder);
/* The folder that this file's name stands in; the caller frees it. */
char *folder_of(const char *path);
/* Makes the folder if it isn't there, for its owner alone, and syncs its name. */
bool folder_make(const char *folder);

/* A name beside the file for its next version; the caller frees it. */
char *file_beside(const char *path);

/* How a file is replaced. */
struct replacement {
    const char *temporary; /* the name under which the new one is written */
    mode_t mode;           /* its mode, as far as the umask leaves it */
    bool keep;             /* or owner, group and mode of the one that is there */
};

/* Replaces the file: writes the temporary one, syncs it and renames it. On failure `path` is as it
 * was and the temporary file is gone. A temporary file that was left by one that was cut off is
 * removed; one that is being written is left alone, and that is a failure. The new name lasts once
 * the folder is synced. */
bool file_replace(const char *path, const struct replacement *how, struct bytes bytes);

#endif
