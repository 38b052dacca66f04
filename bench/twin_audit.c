/* Audit: one pass over the records for all that follows from them, then one over the maps and two over the entries. */
#include "twin_prints.h"
#include "twin_slots.h"

#include <string.h>

/* What the records say: the maps, each block's expiry, the slot that an LBN was last seen in, from 1, and the day of each volume's last backup. */
struct replayed {
    uint16_t cells[VOLUMES * MAX_LBNS];
    uint16_t expiries[MAX_BLOCKS];
    uint16_t seen[MAX_LBNS];
    unsigned last[VOLUMES];
};

/* Whether the records of a slot, numbered from 1, replace what the cells hold and, where the backup before it is kept, no free block. Only the
 * first record of an LBN says what that backup held. */
static int slot_sound(const uint8_t *book, const struct layout *a, const uint8_t *slot, unsigned number, struct replayed *r)
{
    unsigned volume = slot[SLOT_VOLUME], until = until_of(book, slot, r->last);
    int kept = until >= u16_at(book + AT_DAY);
    const uint8_t *record = book + a->records + RECORD * u16_at(slot + SLOT_FIRST), *end = record + RECORD * u16_at(slot + SLOT_NUMBER);
    for (; record < end; record += RECORD) {
        unsigned lbn = u16_at(record + RECORD_LBN), before = u16_at(record + RECORD_BEFORE);
        uint16_t *cell = &r->cells[volume * a->l + lbn];
        if (*cell != before)
            return 0;
        *cell = (uint16_t)u16_at(record + RECORD_AFTER);
        int first = r->seen[lbn] != number;
        r->seen[lbn] = (uint16_t)number;
        if (before == UNMAPPED)
            continue;
        if (r->expiries[before] < until)
            r->expiries[before] = (uint16_t)until;
        if (kept && first && book[ENTRIES + ENTRY * before + ENTRY_STATE] == 0)
            return 0;
    }
    return 1;
}

static int records_sound(const uint8_t *book, const struct layout *a, struct replayed *r)
{
    unsigned used = u16_at(book + AT_SLOTS_USED);
    memset(r->cells, 255, sizeof r->cells);
    memset(r->expiries, 0, sizeof r->expiries);
    memset(r->seen, 0, sizeof r->seen);
    memset(r->last, 0, sizeof r->last);
    for (unsigned q = 0; q < used; q++)
        if (!slot_sound(book, a, book + a->slots + SLOT * q, q + 1, r))
            return 0;
    return 1;
}

/* Whether the maps are the cells replayed; counts how often each block is named. */
static int maps_sound(const uint8_t *book, const struct layout *a, const uint16_t *cells, uint16_t *counts)
{
    for (size_t i = 0; i < VOLUMES * a->l; i++) {
        unsigned p = u16_at(book + a->maps + CELL * i);
        if (p != cells[i])
            return 0;
        if (p != UNMAPPED)
            counts[p]++;
    }
    return 1;
}

/* A free block has count 0 by form, so no map names it if the counts are right. */
static int entries_sound(const uint8_t *e, size_t n, const uint16_t *counts, const uint16_t *expiries)
{
    for (size_t p = 0; p < n; p++, e += ENTRY)
        if (u16_at(e + ENTRY_COUNT) != counts[p] || u16_at(e + ENTRY_EXPIRY) != expiries[p])
            return 0;
    return 1;
}

static int prints_differ(const uint8_t *entries, size_t n)
{
    struct prints table;
    const uint8_t *e = entries;
    prints_clear(&table);
    for (size_t p = 0; p < n; p++, e += ENTRY) {
        if (e[ENTRY_STATE] == 0)
            continue;
        uint16_t *place = prints_place(&table, entries, e + ENTRY_PRINT);
        if (*place != UNMAPPED)
            return 0;
        *place = (uint16_t)p;
    }
    return 1;
}

uint16_t twin_audit(const uint8_t *book, size_t len, uint16_t *sound)
{
    struct replayed r;
    uint16_t counts[MAX_BLOCKS] = { 0 }, refused = twin_form(book, len);
    if (refused != 0)
        return refused;
    struct layout a = layout_in(book);
    *sound = records_sound(book, &a, &r) && maps_sound(book, &a, r.cells, counts) && entries_sound(book + ENTRIES, a.n, counts, r.expiries)
             && prints_differ(book + ENTRIES, a.n);
    return 0;
}
