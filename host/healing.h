/* Bytes of the pool that changed by themselves, brought back from an image that has them. */
#ifndef ASPENBOX_HEALING_H
#define ASPENBOX_HEALING_H

#include "image.h"

/* Looks for held blocks whose fingerprint a block of the image has and whose bytes in the pool are
 * others that don't fit it. Since a fingerprint is the hash of the block, the image's bytes are
 * those that were sent: they are put into the pool in memory. Marks these blocks with 1; answers
 * how many. */
uint16_t heal_pool(struct store *store, const struct image *image, struct bytes marks);
/* Tells which blocks these are. */
void note_healed(struct bytes marks, const char *from);

#endif
