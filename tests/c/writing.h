/* A call of aspen_write_list with the checks that it owes, and a box for what it writes. */
#ifndef ASPEN_TESTS_WRITING_H
#define ASPEN_TESTS_WRITING_H

#include "box.h"
#include "buffer.h"

/* The arguments of one call. */
struct writing {
    uint16_t l;
    struct buffer marks, prints, image, list;
};

/* A volume with these marks; the print and the block of LBN i are full of bytes of its own, which
 * 100 LBNs on come again. */
struct writing writing_new(uint16_t l, const char *marks, size_t list_len);
void writing_free(struct writing *call);

/* Makes the call; gives the length answered. */
uint32_t write_list(struct writing *call, uint16_t expected);

/* The list of these marks comes out whole, in an output of just its length and in longer ones; a
 * byte less is too short. */
void check_marks(const char *marks, size_t runs, size_t changes);

/* A box of so many blocks, with room for one backup of l LBNs, and with volume 0 enrolled. */
struct box box_for(unsigned n, unsigned l);

/* The block of this LBN reads as this block of the pool, and stands there with its print. */
void check_block(const struct box *box, const struct writing *call, uint16_t lbn, unsigned pbn);

#endif
