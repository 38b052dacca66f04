/* The second implementation behind the C interface of the library. */
#ifndef REFERENCE_H
#define REFERENCE_H

#include <aspen.h>

/* The functions of aspen.h, of the same types. */
extern __typeof__(aspen_format) reference_format;
extern __typeof__(aspen_enrol) reference_enrol;
extern __typeof__(aspen_backup) reference_backup;
extern __typeof__(aspen_retire) reference_retire;
extern __typeof__(aspen_collect) reference_collect;
extern __typeof__(aspen_read) reference_read;
extern __typeof__(aspen_restore) reference_restore;
extern __typeof__(aspen_audit) reference_audit;
extern __typeof__(aspen_form) reference_form;
extern __typeof__(aspen_count) reference_count;
extern __typeof__(aspen_sizes) reference_sizes;
extern __typeof__(aspen_used) reference_used;
extern __typeof__(aspen_volume) reference_volume;
extern __typeof__(aspen_backups) reference_backups;
extern __typeof__(aspen_cells) reference_cells;
extern __typeof__(aspen_blocks) reference_blocks;
extern __typeof__(aspen_play) reference_play;
extern __typeof__(aspen_write_list) reference_write_list;
extern __typeof__(aspen_convert_1_2) reference_convert_1_2;
extern __typeof__(aspen_convert_2_1) reference_convert_2_1;
extern __typeof__(aspen_convert_2_3) reference_convert_2_3;

/* A box as a seeded run of calls leaves it, with what the run would send next; the pointers are
 * good until the next one is made. */
struct reference_made {
    const uint8_t *book;
    size_t book_len;
    const uint8_t *pool;
    size_t pool_len;
    const uint8_t *list;
    size_t list_len;
    uint16_t number[4]; /* in the order of the call's arguments */
};

/* Makes the box of a run, and disturbs its book so many times. Shape, seed and calls choose among
 * some hundred runs. `call` is 'e', 'b', 'c', 'r', 's' or 't' for enrol, backup, collect, read,
 * restore and retire; others send no numbers. */
struct reference_made reference_make(uint8_t shape, uint16_t seed, uint8_t calls,
                                     uint8_t disturbed, uint8_t call);

#endif
