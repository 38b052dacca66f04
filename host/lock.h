/* The store's file `lock`: who may use the store now, and what it has kept since it was made. The
 * file is never replaced, since the lock stands on the file and not on its name. */
#ifndef ASPENBOX_LOCK_H
#define ASPENBOX_LOCK_H

#include <stdbool.h>
#include <stdint.h>

enum { STORE_ID_SIZE = 16 };

enum lock_use {
    LOCK_TO_READ, /* beside other readers */
    LOCK_TO_WRITE /* alone */
};

struct lock {
    char *path;
    int fd;
    bool whole;                /* whether the file is as lock_fill writes it; only then is there: */
    bool digested;             /* whether it has a digest, which the first stores didn't */
    long day_zero;             /* the date of day 0 */
    uint8_t id[STORE_ID_SIZE]; /* drawn by chance when the store was made */
};

/* Opens the store's lock, takes it and reads what the file keeps; a format that was cut off may
 * leave it not whole. Without `wait` a store that is in use ends the program. */
void lock_take(struct lock *lock, const char *folder, enum lock_use use, bool wait);

/* Takes the lock of a store that is to be made, making the file if there is none. */
void lock_take_new(struct lock *lock, const char *folder, bool wait);
/* Writes the file for a new store with this day 0, and syncs it. */
void lock_fill(struct lock *lock, long day_zero);

void lock_drop(struct lock *lock);

/* Whether the folder has the lock of a store. */
bool lock_is_ours(const char *folder);

#endif
