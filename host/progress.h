/* How far long work has come, on one line of the terminal. */
#ifndef ASPENBOX_PROGRESS_H
#define ASPENBOX_PROGRESS_H

#include <stddef.h>

/* Shows nothing from now on. */
void progress_off(void);
/* Shows that so much is done, if standard error is a terminal. */
void progress(const char *what, size_t done, size_t total);
/* Takes the line away. */
void progress_end(void);

#endif
