/* Retire: the cells are cleared in a copy of the book in the spare; the book is written once nothing can be refused. */
#include "twin.h"
#include "twin_taking.h"

#include <string.h>

static unsigned mapped(const uint8_t *map, size_t l)
{
    unsigned number = 0;
    for (size_t i = 0; i < l; i++)
        number += u16_at(map + CELL * i) != UNMAPPED;
    return number;
}

/* Step 3 and a record for each mapped cell; then all are unmapped. Gives 0 where a block has count 0. */
static int clear(uint8_t *book, const struct layout *a, unsigned volume, unsigned until)
{
    uint8_t *map = book + a->maps + CELL * volume * a->l, *record = book + a->records + RECORD * u16_at(book + AT_RECORDS_USED);
    for (unsigned lbn = 0; lbn < a->l; lbn++) {
        unsigned before = u16_at(map + CELL * lbn);
        if (before == UNMAPPED)
            continue;
        if (!lower(book + ENTRIES + ENTRY * before, until))
            return 0;
        put_record(record, lbn, before, UNMAPPED);
        record += RECORD;
    }
    memset(map, 255, CELL * a->l);
    return 1;
}

uint16_t twin_retire(uint8_t *book, size_t book_len, uint8_t *spare, size_t spare_len, uint16_t volume, uint16_t day, uint16_t *cells)
{
    struct so_far so_far;
    uint16_t refused = twin_form(book, book_len);
    if (refused != 0)
        return refused;
    struct layout a = layout_in(book);
    if (spare_len < book_len)
        return 4;
    refused = taker_refused(book, &a, volume, day, &so_far);
    if (refused != 0)
        return refused;
    unsigned number = mapped(book + a.maps + CELL * volume * a.l, a.l);
    refused = room_refused(book, &a, number);
    if (refused != 0)
        return refused;
    memcpy(spare, book, book_len);
    if (!clear(spare, &a, volume, so_far.until))
        return 13;
    add_slot(spare, &a, volume, 1, day, number);
    memcpy(book, spare, book_len);
    *cells = (uint16_t)number;
    return 0;
}
