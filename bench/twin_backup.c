/* Backup: the changes are made on a copy of the book in the spare; the pool and the book are written once nothing can be refused. */
#include "twin.h"
#include "twin_layout.h"
#include "twin_list.h"
#include "twin_prints.h"
#include "twin_taking.h"

#include <string.h>

struct backup {
    struct layout a;
    const uint8_t *book, *pool;
    uint8_t *work, *record; /* the copy, and the next record in it */
    struct list list;
    struct prints *table; /* null where the entries are gone through */
    struct so_far so_far;
    unsigned volume, cursor, taken, befores;
    uint16_t by[MAX_BLOCKS]; /* for a block taken, the change that took it */
    uint16_t took[MAX_LBNS]; /* the blocks taken */
};

static uint8_t *entry_of(const struct backup *b, unsigned p)
{
    return b->work + ENTRIES + ENTRY * p;
}

/* The lowest held block with this fingerprint, or UNMAPPED. The last byte is looked at first: clients put a salt into the first ones. */
static unsigned scan(const struct backup *b, const uint8_t *print)
{
    const uint8_t *e = b->work + ENTRIES;
    for (size_t p = 0; p < b->a.n; p++, e += ENTRY)
        if (e[ENTRY_PRINT + PRINT - 1] == print[PRINT - 1] && e[ENTRY_STATE] == 1 && memcmp(e + ENTRY_PRINT, print, PRINT) == 0)
            return (unsigned)p;
    return UNMAPPED;
}

/* From block 0 up, so that the lowest of equal ones stays. */
static void fill_table(const struct backup *b)
{
    const uint8_t *entries = b->work + ENTRIES, *e = entries;
    prints_clear(b->table);
    for (size_t p = 0; p < b->a.n; p++, e += ENTRY) {
        if (e[ENTRY_STATE] != 1)
            continue;
        uint16_t *place = prints_place(b->table, entries, e + ENTRY_PRINT);
        if (*place == UNMAPPED)
            *place = (uint16_t)p;
    }
}

/* The bytes that held block p has, or will have when the pool is written. */
static const uint8_t *bytes_of(const struct backup *b, unsigned p)
{
    if (b->book[ENTRIES + ENTRY * p + ENTRY_STATE] == 1)
        return b->pool + BLOCK * p;
    return b->list.blocks + BLOCK * b->by[p];
}

static unsigned first_free(const struct backup *b)
{
    for (unsigned p = b->cursor; p < b->a.n; p++)
        if (entry_of(b, p)[ENTRY_STATE] == 0)
            return p;
    for (unsigned p = 0; p < b->cursor; p++)
        if (entry_of(b, p)[ENTRY_STATE] == 0)
            return p;
    return UNMAPPED;
}

/* Steps 1 and 2: the block of change i, or 11 or 12. */
static uint16_t place(struct backup *b, size_t i, unsigned *at)
{
    const uint8_t *print = b->list.prints + PRINT * i;
    uint16_t *known = b->table == NULL ? NULL : prints_place(b->table, b->work + ENTRIES, print);
    unsigned p = known == NULL ? scan(b, print) : *known;
    if (p != UNMAPPED) {
        *at = p;
        return memcmp(bytes_of(b, p), b->list.blocks + BLOCK * i, BLOCK) == 0 ? 0 : 11;
    }
    *at = p = first_free(b);
    if (p == UNMAPPED)
        return 12;
    uint8_t *e = entry_of(b, p);
    e[ENTRY_STATE] = 1;
    memcpy(e + ENTRY_PRINT, print, PRINT);
    if (known != NULL)
        *known = (uint16_t)p;
    b->cursor = p + 1 == b->a.n ? 0 : p + 1;
    b->by[p] = (uint16_t)i;
    b->took[b->taken++] = (uint16_t)p;
    return 0;
}

/* Steps 3 and 4: the cell goes to block p. Else 13 or 14. */
static uint16_t move(struct backup *b, unsigned lbn, unsigned p)
{
    uint8_t *cell = b->work + b->a.maps + CELL * (b->volume * b->a.l + lbn), *e = entry_of(b, p);
    unsigned before = u16_at(cell);
    if (before != UNMAPPED) {
        if (!lower(entry_of(b, before), b->so_far.until))
            return 13;
        b->befores++;
    }
    unsigned count = u16_at(e + ENTRY_COUNT);
    if (count == 65535)
        return 14;
    put_u16(e + ENTRY_COUNT, count + 1);
    put_u16(cell, p);
    put_record(b->record, lbn, before, p);
    b->record += RECORD;
    return 0;
}

static uint16_t all_changes(struct backup *b)
{
    size_t i = 0;
    if (b->table != NULL)
        fill_table(b);
    for (size_t q = 0; q < b->list.pairs; q++) {
        unsigned lbn = u16_at(b->list.pair + PAIR * q), end = lbn + u16_at(b->list.pair + PAIR * q + 2);
        for (; lbn < end; lbn++, i++) {
            unsigned p;
            uint16_t refused = place(b, i, &p);
            if (refused == 0)
                refused = move(b, lbn, p);
            if (refused != 0)
                return refused;
        }
    }
    return 0;
}

/* The slot and the header in the copy, the blocks taken into the pool, the copy into the book. */
static void finish(struct backup *b, uint8_t *book, uint8_t *pool, unsigned day)
{
    add_slot(b->work, &b->a, b->volume, 0, day, (unsigned)b->list.n);
    put_u16(b->work + AT_CURSOR, b->cursor);
    for (unsigned k = 0; k < b->taken; k++)
        memcpy(pool + BLOCK * b->took[k], b->list.blocks + BLOCK * b->by[b->took[k]], BLOCK);
    memcpy(book, b->work, b->a.length);
}

/* Numbers 1 to 10. */
static uint16_t refused_first(struct backup *b, size_t book_len, size_t pool_len, size_t spare_len, unsigned day, const uint8_t *list,
                              size_t list_len)
{
    uint16_t refused = twin_form(b->book, book_len);
    if (refused != 0)
        return refused;
    b->a = layout_in(b->book);
    if (pool_len != BLOCK * b->a.n)
        return 3;
    if (spare_len < book_len)
        return 4;
    refused = taker_refused(b->book, &b->a, b->volume, day, &b->so_far);
    if (refused != 0)
        return refused;
    if (!list_of(&b->list, list, list_len, b->a.l))
        return 8;
    return room_refused(b->book, &b->a, b->list.n);
}

static uint16_t backup(struct prints *table, uint8_t *book, size_t book_len, uint8_t *pool, size_t pool_len, uint8_t *spare, size_t spare_len,
                       uint16_t volume, uint16_t day, const uint8_t *list, size_t list_len, uint16_t *number, uint16_t *taken, uint16_t *touched)
{
    struct backup b;
    b.book = book;
    b.pool = pool;
    b.work = spare;
    b.table = table;
    b.volume = volume;
    uint16_t refused = refused_first(&b, book_len, pool_len, spare_len, day, list, list_len);
    if (refused != 0)
        return refused;
    memcpy(b.work, book, book_len);
    b.record = b.work + b.a.records + RECORD * u16_at(book + AT_RECORDS_USED);
    b.cursor = u16_at(book + AT_CURSOR);
    b.taken = b.befores = 0;
    refused = all_changes(&b);
    if (refused != 0)
        return refused;
    finish(&b, book, pool, day);
    *number = (uint16_t)(b.so_far.backups + 1);
    *taken = (uint16_t)b.taken;
    *touched = (uint16_t)(b.list.n + b.befores);
    return 0;
}

uint16_t twin_backup_scan(uint8_t *book, size_t book_len, uint8_t *pool, size_t pool_len, uint8_t *spare, size_t spare_len, uint16_t volume,
                          uint16_t day, const uint8_t *list, size_t list_len, uint16_t *number, uint16_t *taken, uint16_t *touched)
{
    return backup(NULL, book, book_len, pool, pool_len, spare, spare_len, volume, day, list, list_len, number, taken, touched);
}

uint16_t twin_backup_hash(uint8_t *book, size_t book_len, uint8_t *pool, size_t pool_len, uint8_t *spare, size_t spare_len, uint16_t volume,
                          uint16_t day, const uint8_t *list, size_t list_len, uint16_t *number, uint16_t *taken, uint16_t *touched)
{
    struct prints table;
    return backup(&table, book, book_len, pool, pool_len, spare, spare_len, volume, day, list, list_len, number, taken, touched);
}
