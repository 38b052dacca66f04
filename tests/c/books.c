#include "books.h"

#include <string.h>

enum { HEADER = 36, ENTRY = 21, CELL = 2, SLOT = 8, RECORD = 6, VOLUMES = 8, PRINT = 16 };

size_t case_entry(unsigned pbn)
{
    return HEADER + ENTRY * pbn;
}

size_t case_cell(unsigned volume, unsigned lbn)
{
    return case_entry(CASE_N) + CELL * (CASE_L * volume + lbn);
}

size_t case_slot(unsigned slot)
{
    return case_cell(VOLUMES, 0) + SLOT * slot;
}

size_t case_record(unsigned record)
{
    return case_slot(CASE_S) + RECORD * record;
}

size_t slot_in(const uint8_t *book, unsigned slot)
{
    size_t n = get_u16(book, AT_N), l = get_u16(book, AT_L);

    return HEADER + ENTRY * n + CELL * VOLUMES * l + SLOT * slot;
}

size_t record_in(const uint8_t *book, unsigned record)
{
    return slot_in(book, get_u16(book, AT_S)) + RECORD * record;
}

unsigned get_u16(const uint8_t *bytes, size_t at)
{
    return bytes[at] + 256u * bytes[at + 1];
}

void put_u16(uint8_t *bytes, size_t at, unsigned value)
{
    bytes[at] = (uint8_t)(value % 256);
    bytes[at + 1] = (uint8_t)(value / 256);
}

void book_fresh(uint8_t *book, unsigned n, unsigned l, unsigned s, unsigned j)
{
    size_t maps = HEADER + ENTRY * (size_t)n;
    size_t slots = maps + CELL * VOLUMES * (size_t)l;

    memset(book, 0, slots + SLOT * (size_t)s + RECORD * (size_t)j);
    memset(book + maps, 255, slots - maps);
    put_u16(book, AT_LAYOUT, 3);
    put_u16(book, AT_N, n);
    put_u16(book, AT_L, l);
    put_u16(book, AT_S, s);
    put_u16(book, AT_J, j);
}

static void put_entry(uint8_t *book, unsigned pbn, unsigned count, unsigned expiry, char letter)
{
    uint8_t *entry = book + case_entry(pbn);

    put_u16(entry, ENTRY_COUNT, count);
    entry[ENTRY_STATE] = 1;
    put_u16(entry, ENTRY_EXPIRY, expiry);
    memset(entry + ENTRY_PRINT, letter, PRINT);
}

static void put_slot(uint8_t *book, unsigned slot, uint8_t volume, unsigned day, unsigned first,
                     unsigned number)
{
    uint8_t *at = book + case_slot(slot);

    at[SLOT_VOLUME] = volume;
    put_u16(at, SLOT_DAY, day);
    put_u16(at, SLOT_FIRST, first);
    put_u16(at, SLOT_NUMBER, number);
}

static void put_record(uint8_t *book, unsigned record, unsigned lbn, unsigned before,
                       unsigned after)
{
    uint8_t *at = book + case_record(record);

    put_u16(at, RECORD_LBN, lbn);
    put_u16(at, RECORD_BEFORE, before);
    put_u16(at, RECORD_AFTER, after);
}

void book_after_d(uint8_t *book)
{
    book_fresh(book, CASE_N, CASE_L, CASE_S, CASE_J);
    put_u16(book, AT_SLOTS_USED, 4);
    put_u16(book, AT_RECORDS_USED, 5);
    put_u16(book, AT_DAY, 9);
    put_u16(book, AT_CURSOR, 3);
    put_u16(book, AT_RETENTIONS, 10);
    put_u16(book, AT_RETENTIONS + 2, 3);
    put_entry(book, 0, 0, 15, 'A');
    put_entry(book, 1, 2, 0, 'B');
    put_entry(book, 2, 1, 0, 'C');
    put_u16(book, case_cell(0, 0), 2);
    put_u16(book, case_cell(0, 1), 1);
    put_u16(book, case_cell(1, 3), 1);
    put_slot(book, 0, 0, 5, 0, 2);
    put_slot(book, 1, 1, 6, 2, 1);
    put_slot(book, 2, 0, 8, 3, 1);
    put_slot(book, 3, 1, 9, 4, 1);
    put_record(book, 0, 0, PBN_UNMAPPED, 0);
    put_record(book, 1, 1, PBN_UNMAPPED, 1);
    put_record(book, 2, 3, PBN_UNMAPPED, 0);
    put_record(book, 3, 0, 0, 2);
    put_record(book, 4, 3, 0, 1);
}

void book_after_d_in_2(uint8_t *book)
{
    book_after_d(book);
    put_u16(book, AT_LAYOUT, 2);
    put_u16(book, case_entry(0) + ENTRY_EXPIRY, 18);
}

void book_narrow(uint8_t *narrow, const uint8_t *book, size_t length)
{
    size_t n = get_u16(book, AT_N), maps = HEADER + ENTRY * n, i;

    memcpy(narrow, book, HEADER);
    put_u16(narrow, AT_LAYOUT, 1);
    for (i = 0; i < n; i++) {
        const uint8_t *entry = book + HEADER + ENTRY * i;
        uint8_t *at = narrow + HEADER + (ENTRY - 1) * i;

        at[0] = entry[ENTRY_COUNT];
        memcpy(at + 1, entry + ENTRY_STATE, ENTRY - ENTRY_STATE);
    }
    memcpy(narrow + maps - n, book + maps, length - maps);
}
