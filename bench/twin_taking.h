/* What a backup and a retirement share, for the twin: who may take a slot on which day, step 3, and what they add to the journal. */
#ifndef ASPEN_BENCH_TWIN_TAKING_H
#define ASPEN_BENCH_TWIN_TAKING_H

#include "twin_layout.h"

/* How many backups a volume has, and until when a block of the last one is needed; 0 is its day where there is none. */
struct so_far {
    unsigned backups, until;
};

/* Number 5 or 7; else 0, with what the volume has so far. */
static inline uint16_t taker_refused(const uint8_t *book, const struct layout *a, unsigned volume, unsigned day, struct so_far *so_far)
{
    const uint8_t *slot = book + a->slots, *end = slot + SLOT * u16_at(book + AT_SLOTS_USED), *last = NULL;
    if (volume >= VOLUMES || retention_of(book, volume) == 0)
        return 5;
    so_far->backups = 0;
    for (; slot < end; slot += SLOT)
        if (slot[SLOT_VOLUME] == volume) {
            last = slot;
            so_far->backups++;
        }
    if (last != NULL && last[SLOT_RETIRES] == 1)
        return 5;
    so_far->until = retention_of(book, volume) + (last == NULL ? 0 : u16_at(last + SLOT_DAY));
    return day > MAX_DAY || day < u16_at(book + AT_DAY) || (last != NULL && day <= u16_at(last + SLOT_DAY)) ? 7 : 0;
}

/* Number 9 or 10, for so many records more. */
static inline uint16_t room_refused(const uint8_t *book, const struct layout *a, size_t records)
{
    if (u16_at(book + AT_SLOTS_USED) == a->s)
        return 9;
    return u16_at(book + AT_RECORDS_USED) + records > a->j ? 10 : 0;
}

/* Step 3 on the entry of a before. Gives 0 if its count is 0. */
static inline int lower(uint8_t *e, unsigned until)
{
    unsigned count = u16_at(e + ENTRY_COUNT);
    if (count == 0)
        return 0;
    put_u16(e + ENTRY_COUNT, count - 1);
    if (u16_at(e + ENTRY_EXPIRY) < until)
        put_u16(e + ENTRY_EXPIRY, until);
    return 1;
}

static inline void put_record(uint8_t *record, unsigned lbn, unsigned before, unsigned after)
{
    put_u16(record + RECORD_LBN, lbn);
    put_u16(record + RECORD_BEFORE, before);
    put_u16(record + RECORD_AFTER, after);
}

/* The next slot, for so many records after the used ones; they are used then, and the header has the day. */
static inline void add_slot(uint8_t *book, const struct layout *a, unsigned volume, unsigned retires, unsigned day, unsigned number)
{
    unsigned slots = u16_at(book + AT_SLOTS_USED), records = u16_at(book + AT_RECORDS_USED);
    uint8_t *slot = book + a->slots + SLOT * slots;
    slot[SLOT_VOLUME] = (uint8_t)volume;
    slot[SLOT_RETIRES] = (uint8_t)retires;
    put_u16(slot + SLOT_DAY, day);
    put_u16(slot + SLOT_FIRST, records);
    put_u16(slot + SLOT_NUMBER, number);
    put_u16(book + AT_SLOTS_USED, slots + 1);
    put_u16(book + AT_RECORDS_USED, records + number);
    put_u16(book + AT_DAY, day);
}

#endif
