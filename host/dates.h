/* Dates of the Gregorian calendar, counted in days. */
#ifndef ASPENBOX_DATES_H
#define ASPENBOX_DATES_H

#include <stdbool.h>

enum { DATE_TEXT = 64 };

/* The day that a text like 2026-01-31 names, as days since 0001-01-01; years are 1900 to 2999. */
bool date_read(const char *text, long *day);
/* The date of such a day, into DATE_TEXT bytes; the result is `text`. */
char *date_write(long day, char *text);
/* Today by the clock, in UTC. */
long date_today(void);

#endif
