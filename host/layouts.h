/* Books of older layouts. The library's calls take a book of today's layout, ASPEN_LAYOUT, and its
 * converters bring an older one there. */
#ifndef ASPENBOX_LAYOUTS_H
#define ASPENBOX_LAYOUTS_H

#include "memory.h"

/* Brings a book of an older layout to today's; one of today's stays as it is. Answers the number
 * by which the library refuses the book, or 0: then it is in form. */
uint16_t layouts_renew(struct bytes *book);

/* Of a book that was brought here from this layout, the backup of a volume that was kept there at
 * the book's day and isn't any more: its number, 0 if there is none. There is one at most, since
 * a volume's days rise. */
uint16_t layouts_ended(uint16_t layout, struct bytes book, uint16_t volume);

#endif
