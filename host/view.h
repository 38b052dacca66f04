/* What the library shows of a book in form. Where a field stands in the book only the library
 * knows. */
#ifndef ASPENBOX_VIEW_H
#define ASPENBOX_VIEW_H

#include "memory.h"

#include <aspen.h>
#include <stdbool.h>

struct figures {
    uint16_t blocks, cells, slots, records; /* the sizes */
    uint16_t slots_used, records_used, day;
};

struct volume {
    bool enrolled; /* only then is there: */
    uint16_t keep, backups;
    bool retired;
    uint16_t retired_on; /* its day, if it is */
};

struct backup {
    uint16_t day, changes;
    uint16_t until; /* the last day on which it is kept, ASPEN_NO_END if there is none */
    bool kept;
};

struct figures view_figures(struct bytes book);
struct volume view_volume(struct bytes book, uint16_t volume);

/* The rows of a volume's backups, which is enrolled, and backup `number` of them. */
struct bytes view_backups(struct bytes book, uint16_t volume);
struct backup view_backup(struct bytes rows, uint16_t number);

/* The current map of a volume, which is enrolled, and the block at an LBN or
 * ASPEN_UNMAPPED_PBN. */
struct bytes view_cells(struct bytes book, uint16_t volume);
uint16_t view_cell(struct bytes rows, uint16_t lbn);

/* The rows of the pool's blocks; whether one is held, and its fingerprint. */
struct bytes view_blocks(struct bytes book);
bool view_held(struct bytes rows, uint16_t pbn);
const uint8_t *view_print(struct bytes rows, uint16_t pbn);

#endif
