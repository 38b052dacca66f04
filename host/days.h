/* The days that a command line names. */
#ifndef ASPENBOX_DAYS_H
#define ASPENBOX_DAYS_H

#include "args.h"
#include "store.h"

/* The day that a command is given by --day or --day-number, or today. One far ahead ends the
 * program unless --ahead is given: the box's day can't go back. */
uint16_t day_asked(const struct store *store, const struct request *request);

/* The day, counted from the store's day 0, of the date that this option gives. */
long day_of_option(const struct store *store, const struct request *request, enum option option);

#endif
