/* Which backup of a volume is meant. */
#ifndef ASPENBOX_CHOOSING_H
#define ASPENBOX_CHOOSING_H

#include "memory.h"

/* The newest of the volume's backups on or before a day, by the rows of its backups; 0 if there is
 * none. */
uint16_t newest_by(struct bytes rows, long day);

/* The newest backup if it is kept, and 0 if it isn't or there is none. Only that of a retired volume
 * may not be kept, and then no earlier one is either: each is kept for as many days. */
uint16_t newest_kept(struct bytes rows);

#endif
