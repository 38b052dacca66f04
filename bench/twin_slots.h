/* A volume's backups among the used slots, for the twin. By form its retirement, if there is one, is its last slot. */
#ifndef ASPEN_BENCH_TWIN_SLOTS_H
#define ASPEN_BENCH_TWIN_SLOTS_H

#include "twin.h"
#include "twin_layout.h"

/* The number-th slot of the volume from 1, or `end`. */
static inline const uint8_t *own_slot(const uint8_t *slot, const uint8_t *end, unsigned volume, unsigned number)
{
    for (; slot < end; slot += SLOT)
        if (slot[SLOT_VOLUME] == volume && --number == 0)
            return slot;
    return end;
}

/* Whether the backup in this slot is kept. `next` is the volume's next slot: `end` after the newest, if the volume isn't retired. */
static inline int is_kept(const uint8_t *book, const uint8_t *slot, const uint8_t *next, const uint8_t *end)
{
    return next == end || u16_at(slot + SLOT_DAY) + retention_of(book, slot[SLOT_VOLUME]) >= u16_at(book + AT_DAY);
}

/* Until when a block is needed that the backup or the retirement in this slot replaces, by the day of the volume's last backup before it, which is 0
 * at first. For slots from the oldest on. */
static inline unsigned until_of(const uint8_t *book, const uint8_t *slot, unsigned *last)
{
    unsigned volume = slot[SLOT_VOLUME], until = last[volume] + retention_of(book, volume);
    last[volume] = u16_at(slot + SLOT_DAY);
    return until;
}

/* The checks that read and restore share, up to 16; then a is the layout, and the volume's later slots are among those from `next` to `end`. */
static inline uint16_t find_kept(const uint8_t *book, size_t book_len, size_t pool_len, unsigned volume, unsigned number, struct layout *a,
                                 const uint8_t **next, const uint8_t **end)
{
    uint16_t refused = twin_form(book, book_len);
    if (refused != 0)
        return refused;
    *a = layout_in(book);
    if (pool_len != BLOCK * a->n)
        return 3;
    if (volume >= VOLUMES || retention_of(book, volume) == 0)
        return 5;
    const uint8_t *slots = book + a->slots;
    *end = slots + SLOT * u16_at(book + AT_SLOTS_USED);
    const uint8_t *own = number == 0 ? *end : own_slot(slots, *end, volume, number);
    if (own == *end || own[SLOT_RETIRES] == 1)
        return 15;
    *next = own_slot(own + SLOT, *end, volume, 1);
    return is_kept(book, own, *next, *end) ? 0 : 16;
}

#endif
