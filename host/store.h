/* A store on disk: the folder with its files `book`, `pool` and `lock`.
 *
 * What is on disk is whole at every moment. A backup writes only pool blocks that the book on disk
 * doesn't hold, and syncs them before the new book takes the old one's place. For this the book
 * that a writer starts from has to be on disk for good, which store_open sees to. */
#ifndef ASPENBOX_STORE_H
#define ASPENBOX_STORE_H

#include "lengths.h"
#include "lock.h"
#include "memory.h"

struct store {
    const char *folder;
    struct lock lock;
    char *book_path, *pool_path;
    struct bytes book, pool; /* the book is in today's layout, whatever it has on disk */
    struct lengths lengths;  /* of the images */
    uint16_t layout;         /* of the book on disk, 0 if that is too short to have one */
    bool sealed;             /* whether the file has a seal behind its book */
    const char *fault;       /* what is wrong with a book that is in form; null if nothing is */
};

/* Opens the store in a folder and reads its book. One of an older layout is brought to today's, in
 * memory alone. Answers the number by which the library refuses the book, or 0; then the book was
 * audited too. A folder that is no store ends the program, and so does, without `wait`, a store
 * that is in use. */
uint16_t store_open(struct store *store, const char *folder, enum lock_use use, bool wait);
/* Reads the pool. Its length is checked by the call that it is given to. */
void store_load_pool(struct store *store);
/* Hands the pool over. The store has none in memory from then on, so whatever becomes of it can't
 * be written back. */
struct bytes store_take_pool(struct store *store);
void store_close(struct store *store);

/* Makes a store with this fresh book in a folder that has none. */
void store_make(const char *folder, bool wait, struct bytes book, long day_zero);

/* For each block of the pool 1 if it is free in the old book and held in the store's, else 0. */
struct bytes store_taken(const struct store *store, struct bytes old_book);
/* Writes the marked pool blocks, those with a 1, and syncs them; answers how many. */
uint16_t store_write_blocks(const struct store *store, struct bytes marks);
/* Puts the book in memory, with the lengths, in the place of that on disk. */
void store_replace_book(const struct store *store);

/* The same where the book on disk has an older layout. The old book is kept beside it until the new
 * one lasts and was read back, under the name of its layout: book.1, book.2. */
void store_upgrade_book(const struct store *store);
/* Removes an old book that is still kept; answers whether there was one. */
bool store_drop_old(const struct store *store);

/* The date of a day, into DATE_TEXT bytes; the result is `text`. */
char *store_date(const struct store *store, long day, char *text);

/* Whether a path names a file of a store. */
bool store_has_file(const char *path);

#endif
