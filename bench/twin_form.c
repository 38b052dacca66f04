/* The form check as a C programmer would write it: one pass over each section, left at the first fault. */
#include "twin.h"
#include "twin_layout.h"

#include <string.h>

/* Each byte equals the one before it, and the first is zero. */
static int all_zero(const uint8_t *b, size_t n)
{
    return n == 0 || (b[0] == 0 && memcmp(b, b + 1, n - 1) == 0);
}

static int header_ok(const uint8_t *b, const struct layout *a)
{
    if (u16_at(b + AT_SLOTS_USED) > a->s || u16_at(b + AT_RECORDS_USED) > a->j || u16_at(b + AT_ZERO) != 0)
        return 0;
    if (u16_at(b + AT_DAY) > MAX_DAY || u16_at(b + AT_CURSOR) >= a->n)
        return 0;
    for (unsigned v = 0; v < VOLUMES; v++)
        if (retention_of(b, v) > MAX_RETENTION)
            return 0;
    return 1;
}

/* Of an entry, from its state on; the count is that before it. */
static inline int entry_ok(const uint8_t *e, unsigned count)
{
    static const uint8_t no_print[PRINT];
    if (e[0] > 1 || u16_at(e + ENTRY_EXPIRY - ENTRY_STATE) > MAX_DAY + MAX_RETENTION)
        return 0;
    return e[0] != 0 || (count == 0 && memcmp(e + ENTRY_PRINT - ENTRY_STATE, no_print, PRINT) == 0);
}

static int entries_ok(const uint8_t *e, size_t n)
{
    for (size_t p = 0; p < n; p++, e += ENTRY)
        if (!entry_ok(e + COUNT, u16_at(e)))
            return 0;
    return 1;
}

static int narrow_entries_ok(const uint8_t *e, size_t n)
{
    for (size_t p = 0; p < n; p++, e += NARROW_ENTRY)
        if (!entry_ok(e + NARROW_COUNT, e[0]))
            return 0;
    return 1;
}

static int pbn_ok(unsigned p, size_t n)
{
    return p < n || p == UNMAPPED;
}

static int maps_ok(const uint8_t *cells, const struct layout *a)
{
    for (size_t i = 0; i < VOLUMES * a->l; i++)
        if (!pbn_ok(u16_at(cells + CELL * i), a->n))
            return 0;
    return 1;
}

/* `last` has the first day that a volume's next slot may have; after a retirement that is none. `most` is the largest second byte. */
static int slots_ok(const uint8_t *book, const struct layout *a)
{
    unsigned last[VOLUMES] = { 0 }, previous = 0, header_day = u16_at(book + AT_DAY), most = u16_at(book + AT_LAYOUT) == LAYOUT;
    size_t at = 0, used = u16_at(book + AT_SLOTS_USED);
    const uint8_t *b = book + a->slots;
    for (size_t q = 0; q < used; q++, b += SLOT) {
        unsigned volume = b[SLOT_VOLUME], day = u16_at(b + SLOT_DAY);
        if (volume >= VOLUMES || retention_of(book, volume) == 0 || b[SLOT_RETIRES] > most)
            return 0;
        if (day > header_day || day < previous || day < last[volume] || u16_at(b + SLOT_FIRST) != at)
            return 0;
        previous = day;
        last[volume] = b[SLOT_RETIRES] == 1 ? MAX_DAY + 1 : day + 1;
        at += u16_at(b + SLOT_NUMBER);
    }
    return at == u16_at(book + AT_RECORDS_USED) && all_zero(b, SLOT * (a->s - used));
}

/* Of the records up to `end`, all of one slot: an after is unmapped where it retires the volume, and a block where it doesn't. */
static inline int slot_records_ok(const uint8_t *b, const uint8_t *end, const struct layout *a, unsigned retires)
{
    for (; b < end; b += RECORD) {
        unsigned after = u16_at(b + RECORD_AFTER);
        if (u16_at(b + RECORD_LBN) >= a->l || !pbn_ok(u16_at(b + RECORD_BEFORE), a->n) || (retires == 1 ? after != UNMAPPED : after >= a->n))
            return 0;
    }
    return 1;
}

/* Where the slots are in form, so that each has the records after those of the last. */
static int records_ok(const uint8_t *book, const struct layout *a)
{
    const uint8_t *slot = book + a->slots, *end = slot + SLOT * u16_at(book + AT_SLOTS_USED), *b = book + a->records;
    for (; slot < end; slot += SLOT) {
        const uint8_t *next = b + RECORD * u16_at(slot + SLOT_NUMBER);
        if (!slot_records_ok(b, next, a, slot[SLOT_RETIRES]))
            return 0;
        b = next;
    }
    return all_zero(b, RECORD * (a->j - u16_at(book + AT_RECORDS_USED)));
}

static uint16_t wide_form(const uint8_t *book, size_t len, unsigned layout)
{
    if (len < HEADER || u16_at(book + AT_LAYOUT) != layout)
        return 1;
    struct layout a = layout_in(book);
    if (!layout_ok(&a, len))
        return 1;
    if (!header_ok(book, &a) || !entries_ok(book + ENTRIES, a.n) || !maps_ok(book + a.maps, &a))
        return 2;
    return slots_ok(book, &a) && records_ok(book, &a) ? 0 : 2;
}

uint16_t twin_form(const uint8_t *book, size_t len)
{
    return wide_form(book, len, LAYOUT);
}

uint16_t twin_form_before(const uint8_t *book, size_t len)
{
    return wide_form(book, len, BEFORE);
}

uint16_t twin_form_narrow(const uint8_t *book, size_t len)
{
    if (len < HEADER || u16_at(book + AT_LAYOUT) != NARROW)
        return 1;
    struct layout a = narrow_in(book);
    if (!layout_ok(&a, len))
        return 1;
    if (!header_ok(book, &a) || !narrow_entries_ok(book + ENTRIES, a.n) || !maps_ok(book + a.maps, &a))
        return 2;
    return slots_ok(book, &a) && records_ok(book, &a) ? 0 : 2;
}
