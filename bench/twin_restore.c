/* Restore: one check of the form, one pass back over the later records that leaves each LBN with the before of its first one, then the blocks. */
#include "twin_slots.h"

#include <string.h>

/* The PBN of each LBN as of the backup before `next`: the map, with the befores of the volume's slots undone from the newest on. */
static void undo(uint16_t *pbns, const uint8_t *book, const struct layout *a, const uint8_t *next, const uint8_t *end, unsigned volume)
{
    const uint8_t *map = book + a->maps + CELL * volume * a->l;
    for (size_t i = 0; i < a->l; i++)
        pbns[i] = (uint16_t)u16_at(map + CELL * i);
    for (const uint8_t *slot = end; slot > next;) {
        slot -= SLOT;
        if (slot[SLOT_VOLUME] != volume)
            continue;
        const uint8_t *first = book + a->records + RECORD * u16_at(slot + SLOT_FIRST);
        for (const uint8_t *record = first + RECORD * u16_at(slot + SLOT_NUMBER); record > first;) {
            record -= RECORD;
            pbns[u16_at(record + RECORD_LBN)] = (uint16_t)u16_at(record + RECORD_BEFORE);
        }
    }
}

uint16_t twin_restore(const uint8_t *book, size_t book_len, const uint8_t *pool, size_t pool_len, uint16_t volume, uint16_t number, uint16_t first,
                      uint16_t length, uint8_t *out, size_t out_len)
{
    uint16_t pbns[MAX_LBNS];
    struct layout a;
    const uint8_t *next, *end;
    uint16_t refused = find_kept(book, book_len, pool_len, volume, number, &a, &next, &end);
    if (refused != 0)
        return refused;
    if ((size_t)first + length > a.l || out_len < (size_t)BLOCK * length)
        return 21;
    undo(pbns, book, &a, next, end, volume);
    for (size_t i = 0; i < length; i++)
        if (pbns[first + i] == UNMAPPED)
            return 18;
    for (size_t i = 0; i < length; i++)
        memcpy(out + BLOCK * i, pool + BLOCK * pbns[first + i], BLOCK);
    return 0;
}
