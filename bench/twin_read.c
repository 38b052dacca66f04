/* Read: the first record of the LBN after the backup, that of the retirement too, else the map. */
#include "twin_slots.h"

/* The before of the LBN's first record in the volume's slots from this one on, or the cell of its map. */
static unsigned block_before(const uint8_t *book, const struct layout *a, const uint8_t *slot, const uint8_t *end, unsigned volume, unsigned lbn)
{
    for (; slot < end; slot += SLOT) {
        if (slot[SLOT_VOLUME] != volume)
            continue;
        const uint8_t *record = book + a->records + RECORD * u16_at(slot + SLOT_FIRST);
        const uint8_t *last = record + RECORD * u16_at(slot + SLOT_NUMBER);
        for (; record < last; record += RECORD)
            if (u16_at(record + RECORD_LBN) == lbn)
                return u16_at(record + RECORD_BEFORE);
    }
    return u16_at(book + a->maps + CELL * (volume * a->l + lbn));
}

uint16_t twin_read(const uint8_t *book, size_t book_len, const uint8_t *pool, size_t pool_len, uint16_t volume, uint16_t number, uint16_t lbn,
                   uint32_t *at)
{
    struct layout a;
    const uint8_t *next, *end;
    uint16_t refused = find_kept(book, book_len, pool_len, volume, number, &a, &next, &end);
    (void)pool;
    if (refused != 0)
        return refused;
    if (lbn >= a.l)
        return 17;
    unsigned p = block_before(book, &a, next, end, volume, lbn);
    if (p == UNMAPPED)
        return 18;
    *at = BLOCK * p;
    return 0;
}
