/* The book's layout, for the twin: 3, which the calls take, and what differs in 1. Layout 2 has the places of 3; only in 3 does a slot retire its
 * volume. */
#ifndef ASPEN_BENCH_TWIN_LAYOUT_H
#define ASPEN_BENCH_TWIN_LAYOUT_H

#include <stddef.h>
#include <stdint.h>

enum { VOLUMES = 8, BLOCK = 512, PRINT = 16, UNMAPPED = 65535, MAX_DAY = 60000, MAX_RETENTION = 5000 };
enum { MAX_BLOCKS = 4096, MAX_LBNS = 1024, MAX_SLOTS = 1024, MAX_RECORDS = 16384 };

/* Bytes of each part. */
enum { HEADER = 20, ENTRIES = HEADER + 2 * VOLUMES, ENTRY = 21, CELL = 2, SLOT = 8, RECORD = 6 };

/* The number of the layout, of the one before it, and of that with counts of one byte. */
enum { LAYOUT = 3, BEFORE = 2, NARROW = 1 };

/* In layout 1 the count has one byte, and the rest of an entry follows it as here. */
enum { COUNT = 2, NARROW_COUNT = 1, NARROW_ENTRY = ENTRY - COUNT + NARROW_COUNT };

/* Where the header's fields stand. */
enum { AT_LAYOUT = 0, AT_N = 2, AT_L = 4, AT_S = 6, AT_J = 8, AT_SLOTS_USED = 10, AT_RECORDS_USED = 12, AT_DAY = 14, AT_CURSOR = 16, AT_ZERO = 18 };

/* Where the fields of an entry, a slot and a record stand within it. */
enum { ENTRY_COUNT = 0, ENTRY_STATE = COUNT, ENTRY_EXPIRY = COUNT + 1, ENTRY_PRINT = COUNT + 3 };
enum { SLOT_VOLUME = 0, SLOT_RETIRES = 1, SLOT_DAY = 2, SLOT_FIRST = 4, SLOT_NUMBER = 6 };
enum { RECORD_LBN = 0, RECORD_BEFORE = 2, RECORD_AFTER = 4 };

static inline unsigned u16_at(const uint8_t *b)
{
    return b[0] | (unsigned)b[1] << 8;
}

static inline void put_u16(uint8_t *b, unsigned v)
{
    b[0] = (uint8_t)v;
    b[1] = (uint8_t)(v >> 8);
}

/* A book's sizes, and where its sections start. */
struct layout {
    size_t n, l, s, j;
    size_t maps, slots, records, length;
};

/* Of entries with so many bytes. */
static inline struct layout layout_with(size_t entry, size_t n, size_t l, size_t s, size_t j)
{
    struct layout a = { .n = n, .l = l, .s = s, .j = j };
    a.maps = ENTRIES + entry * n;
    a.slots = a.maps + CELL * VOLUMES * l;
    a.records = a.slots + SLOT * s;
    a.length = a.records + RECORD * j;
    return a;
}

static inline struct layout layout_of(size_t n, size_t l, size_t s, size_t j)
{
    return layout_with(ENTRY, n, l, s, j);
}

/* Of a book at least as long as a header. */
static inline struct layout layout_in(const uint8_t *book)
{
    return layout_of(u16_at(book + AT_N), u16_at(book + AT_L), u16_at(book + AT_S), u16_at(book + AT_J));
}

/* The same with the entries of layout 1. */
static inline struct layout narrow_in(const uint8_t *book)
{
    return layout_with(NARROW_ENTRY, u16_at(book + AT_N), u16_at(book + AT_L), u16_at(book + AT_S), u16_at(book + AT_J));
}

static inline int layout_ok(const struct layout *a, size_t length)
{
    return a->n >= 1 && a->n <= MAX_BLOCKS && a->l >= 1 && a->l <= MAX_LBNS && a->s >= 1 && a->s <= MAX_SLOTS && a->j >= 1 && a->j <= MAX_RECORDS
           && a->length == length;
}

static inline unsigned retention_of(const uint8_t *book, unsigned volume)
{
    return u16_at(book + HEADER + 2 * volume);
}

#endif
