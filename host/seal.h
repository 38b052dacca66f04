/* What the store's file `book` holds: the library's book, behind it the lengths of the images, and
 * a digest over all of it, so that a changed bit is noticed when the store is opened. All of it is
 * one file, so that a power cut can't leave a book with the lengths of another.
 *
 * After the book: for each length volume and number as u16 and the bytes as u32; then the store's
 * identity (16 bytes), the length of the book and the number of lengths as u32, "aspnseal", and the
 * SHA-256 of everything before it. The first stores, whose lock has no digest, had the book alone.
 */
#ifndef ASPENBOX_SEAL_H
#define ASPENBOX_SEAL_H

#include "lengths.h"
#include "lock.h"
#include "memory.h"

/* The most bytes that follow a book. */
size_t seal_limit(void);

/* Takes the file of the store with this lock apart. What has no seal, or one that doesn't fit the
 * file's length, is taken for a book alone. Answers what is wrong with the file, or null. */
const char *seal_open(struct bytes file, const struct lock *lock, struct bytes *book,
                      struct lengths *lengths);

/* The file for a book; the caller frees it. */
struct bytes seal_make(struct bytes book, const struct lengths *lengths, const uint8_t *store_id);

#endif
