/* The converters: one check of the form, then the parts before and after the entries are copied, and the entries one by one; to layout 3 the whole
 * book, and then the expiries. */
#include "twin_slots.h"

#include <string.h>

/* What isn't an entry is the same in both layouts, but for the number. */
static void copy_rest(uint8_t *out, const struct layout *to, const uint8_t *book, const struct layout *from, unsigned layout)
{
    memcpy(out, book, ENTRIES);
    put_u16(out + AT_LAYOUT, layout);
    memcpy(out + to->maps, book + from->maps, from->length - from->maps);
}

uint16_t twin_convert_1_2(const uint8_t *book, size_t book_len, uint8_t *out, size_t out_len)
{
    uint16_t refused = twin_form_narrow(book, book_len);
    if (refused != 0)
        return refused;
    struct layout from = narrow_in(book), to = layout_in(book);
    if (out_len < to.length)
        return 4;
    copy_rest(out, &to, book, &from, BEFORE);
    const uint8_t *e = book + ENTRIES;
    for (uint8_t *w = out + ENTRIES; w < out + to.maps; w += ENTRY, e += NARROW_ENTRY) {
        put_u16(w, e[0]);
        memcpy(w + COUNT, e + NARROW_COUNT, ENTRY - COUNT);
    }
    return 0;
}

static int counts_fit(const uint8_t *entries, size_t n)
{
    for (size_t p = 0; p < n; p++)
        if (u16_at(entries + ENTRY * p) > 255)
            return 0;
    return 1;
}

uint16_t twin_convert_2_1(const uint8_t *book, size_t book_len, uint8_t *out, size_t out_len)
{
    uint16_t refused = twin_form_before(book, book_len);
    if (refused != 0)
        return refused;
    struct layout from = layout_in(book), to = narrow_in(book);
    if (out_len < to.length)
        return 4;
    if (!counts_fit(book + ENTRIES, from.n))
        return 22;
    copy_rest(out, &to, book, &from, NARROW);
    const uint8_t *e = book + ENTRIES;
    for (uint8_t *w = out + ENTRIES; w < out + to.maps; w += NARROW_ENTRY, e += ENTRY) {
        w[0] = e[0];
        memcpy(w + NARROW_COUNT, e + COUNT, ENTRY - COUNT);
    }
    return 0;
}

/* Each block's expiry as the records have it. */
static void work_out(const uint8_t *book, const struct layout *a, uint16_t *expiries)
{
    const uint8_t *slot = book + a->slots, *end = slot + SLOT * u16_at(book + AT_SLOTS_USED), *record = book + a->records;
    unsigned last[VOLUMES] = { 0 };
    for (; slot < end; slot += SLOT) {
        unsigned until = until_of(book, slot, last);
        for (const uint8_t *next = record + RECORD * u16_at(slot + SLOT_NUMBER); record < next; record += RECORD) {
            unsigned before = u16_at(record + RECORD_BEFORE);
            if (before != UNMAPPED && expiries[before] < until)
                expiries[before] = (uint16_t)until;
        }
    }
}

uint16_t twin_convert_2_3(const uint8_t *book, size_t book_len, uint8_t *out, size_t out_len)
{
    uint16_t expiries[MAX_BLOCKS] = { 0 }, refused = twin_form_before(book, book_len);
    if (refused != 0)
        return refused;
    struct layout a = layout_in(book);
    if (out_len < a.length)
        return 4;
    work_out(book, &a, expiries);
    memcpy(out, book, a.length);
    put_u16(out + AT_LAYOUT, LAYOUT);
    for (size_t p = 0; p < a.n; p++)
        put_u16(out + ENTRIES + ENTRY * p + ENTRY_EXPIRY, expiries[p]);
    return 0;
}
