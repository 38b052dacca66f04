/* A box, mostly of the cases' sizes, and calls that check what every call owes: its number, that a
 * refused one left book, pool and answers as they were, and that nothing was written outside the
 * buffers.
 */
#ifndef ASPEN_TESTS_BOX_H
#define ASPEN_TESTS_BOX_H

#include "buffer.h"

struct box {
    struct buffer book, pool, spare;
};

struct backed_up {
    uint16_t number, taken, touched;
};

/* The byte that the pool's blocks have before they are taken. */
enum { POOL_BYTE = 0x5A };

/* A fresh book of these sizes with no volume enrolled. */
struct box box_of(unsigned n, unsigned l, unsigned s, unsigned j);
/* One of the cases' sizes. */
struct box box_fresh(void);
/* The box after case d. */
struct box box_after_d(void);
void box_free(struct box *box);

/* A list of one run from this LBN, with a letter for each fingerprint and for each block. */
struct buffer list_of(unsigned lbn, const char *prints, const char *blocks);

/* The bytes of the pool's blocks, a letter for each. */
void check_pool(const struct box *box, const char *letters);

void call_enrol(struct box *box, uint16_t volume, uint16_t retention, uint16_t expected);
/* Frees the list. */
struct backed_up call_backup(struct box *box, uint16_t volume, uint16_t day, struct buffer list,
                             uint16_t expected);
uint16_t call_retire(struct box *box, uint16_t volume, uint16_t day, uint16_t expected);
uint16_t call_collect(struct box *box, uint16_t day, uint16_t expected);
uint32_t call_read(const struct box *box, uint16_t volume, uint16_t number, uint16_t lbn,
                   uint16_t expected);
/* Restores to an output of so many bytes, and checks its blocks, a letter for each, and that the
 * rest is as it was; after a refusal all of it. */
void call_restore(const struct box *box, uint16_t volume, uint16_t number, uint16_t first,
                  uint16_t length, size_t room, const char *letters, uint16_t expected);
uint16_t call_audit(const struct box *box, uint16_t expected);

#endif
