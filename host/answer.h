/* The answer of a command. It is built in memory and written once the store is let go, so that
 * somebody who is slow to read it keeps no other aspenbox waiting. */
#ifndef ASPENBOX_ANSWER_H
#define ASPENBOX_ANSWER_H

#include <stdbool.h>
#include <stddef.h>

void answer_add(const void *bytes, size_t length);
/* Writes it to standard output; false if that fails, and errno says why. */
bool answer_send(void);

#endif
