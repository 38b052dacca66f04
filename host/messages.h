/* What the program says: its answer, notes on the way, and what went wrong. In all of it control
 * characters, which a file's name may have, are shown as \xHH. */
#ifndef ASPENBOX_MESSAGES_H
#define ASPENBOX_MESSAGES_H

#include "status.h"

#include <stdbool.h>

/* Whether the answer, an error included, is one JSON object on standard output. */
void messages_as_json(bool json);
bool messages_json(void);

/* Adds a line to the answer. */
void say(const char *format, ...) __attribute__((format(printf, 1, 2)));

/* Ends the program with a message. */
_Noreturn void fail(enum status status, const char *format, ...)
    __attribute__((format(printf, 2, 3)));

/* Ends the program with the number of a refusal and a message that says what to do. */
_Noreturn void fail_refused(enum status status, unsigned number, const char *format, ...)
    __attribute__((format(printf, 3, 4)));

/* Tells something that doesn't stop the work: on standard error, or among the answer's notes. It is
 * written when the answer is, for the same reason. */
void note(const char *format, ...) __attribute__((format(printf, 1, 2)));
/* The same, but written at once; for what is told before the store is locked. */
void note_now(const char *format, ...) __attribute__((format(printf, 1, 2)));
/* Writes the notes so far at once, for somebody who is asked something. */
void notes_now(void);

/* Writes the notes into the open JSON object. */
void notes_to_json(void);

/* Sends the answer on its way; fails if it can't be written. */
void flush_answer(void);

#endif
