/* The length of the image at each backup. The library knows blocks only; by this note a restore
 * gives back a file of the very length that was backed up. */
#ifndef ASPENBOX_LENGTHS_H
#define ASPENBOX_LENGTHS_H

#include <stdbool.h>
#include <stddef.h>
#include <stdint.h>

struct length {
    uint16_t volume, number; /* the backup */
    uint32_t bytes;
};

struct lengths {
    struct length *at;
    size_t count;
};

void lengths_add(struct lengths *lengths, struct length length);
/* Whether the length at this backup is noted, and then what it is. */
bool lengths_find(const struct lengths *lengths, uint16_t volume, uint16_t number, size_t *bytes);
/* Drops what is noted for the volume's backups from this number on. */
void lengths_cut(struct lengths *lengths, uint16_t volume, uint16_t number);
void lengths_free(struct lengths *lengths);

#endif
