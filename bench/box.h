/* Boxes to measure on: a book and a pool as a run of backups leaves them. */
#ifndef ASPEN_BENCH_BOX_H
#define ASPEN_BENCH_BOX_H

#include <aspen.h>
#include <stdbool.h>

/* The sizes but for n are the largest. */
enum { CELLS = ASPEN_MAX_LBNS, SLOTS = ASPEN_MAX_SLOTS, RECORDS = ASPEN_MAX_RECORDS };

/* Volumes 0 to 6 are enrolled and have backups; the last is left for enrol. */
enum { AIDS = 7, FIRST_RECORDS = AIDS * CELLS, RETENTION = ASPEN_MAX_RETENTION };

/* How many bytes all fingerprints share, from the first on and up to the last; the others are at random. Together at most 15. */
struct alike {
    unsigned first, last;
};

/* What was done with a box. */
struct past {
    struct alike alike;
    bool used;        /* else it is fresh */
    bool left;        /* each aid's second backup went over to the first KEPT blocks; the others wait for collection */
    unsigned blocks;  /* n */
    unsigned held;    /* the first blocks, each with the bytes of its number */
    unsigned records; /* used, at least FIRST_RECORDS */
    unsigned cells;   /* mapped in the last aid's volume; all are in the others */
};

enum { KEPT = 64 };

struct box {
    unsigned blocks;
    uint16_t day;    /* of the last backup */
    uint16_t newest; /* number of volume 0's last backup */
    size_t book_len, pool_len;
    uint8_t *book, *pool, *spare;
    uint8_t *room; /* as long as the longest list */
    const uint8_t *made_book, *made_pool;
};

/* Makes the box that has this past, in the place of the last one. Ends the program with a message if a call is refused. */
void box_make(struct box *box, const struct past *past);

/* Book and pool as they were made; of the pool, the blocks from this one on. */
void box_restore(struct box *box, unsigned from_block);

/* Bytes that look random but depend on the seed only; n is a multiple of 8. */
void scatter(uint8_t *b, size_t n, uint64_t seed);

bool same_alike(struct alike a, struct alike b);

/* The fingerprint of the block of this number: no other number below 65,536 has it, below 256 where 15 bytes are alike. */
void put_print(uint8_t *print, struct alike alike, unsigned number);

/* How many runs a change list has for so many LBNs in a row. */
unsigned runs_of(unsigned changes);

/* The change list of so many LBNs from `lbn` on, each with a block of its own number, from `numbers`. Answers its length. */
size_t change_list(uint8_t *list, struct alike alike, unsigned lbn, unsigned changes, const uint16_t *numbers);

#endif
