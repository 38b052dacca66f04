/* Opens the store of a command, its first word, and ends the program where it can't be used. */
#ifndef ASPENBOX_OPENING_H
#define ASPENBOX_OPENING_H

#include "args.h"
#include "store.h"

/* Whatever the state of a book that is in form. */
void open_to_look(struct store *store, const struct request *request);
/* A book that is at fault is told, and given all the same: a damaged page may be better than
 * none. */
void open_to_read(struct store *store, const struct request *request);
/* Nothing is written on the word of a book that is at fault. */
void open_to_write(struct store *store, const struct request *request);
/* To work out what a command will write, and let the store go before it is written: the same, but
 * beside other readers. */
void open_to_plan(struct store *store, const struct request *request);
/* As to write, for a book whose layout may be an older one. All others take today's layout
 * alone. */
void open_to_upgrade(struct store *store, const struct request *request);

/* The status to end with: that of the work, or 1 if the book was at fault. */
int status_of(const struct store *store, int status);

#endif
