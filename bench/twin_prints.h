/* A hash table of fingerprints, with open addressing, that says which entry has one. */
#ifndef ASPEN_BENCH_TWIN_PRINTS_H
#define ASPEN_BENCH_TWIN_PRINTS_H

#include "twin_layout.h"

#include <string.h>

enum { PLACE_BITS = 13, PLACES = 1 << PLACE_BITS };

/* At each place a PBN, or UNMAPPED where it is empty. At most half of the places are ever filled. */
struct prints {
    uint16_t at[PLACES];
};

static inline void prints_clear(struct prints *t)
{
    memset(t->at, 255, sizeof t->at);
}

static inline size_t prints_hash(const uint8_t *print)
{
    uint64_t low, high;
    memcpy(&low, print, 8);
    memcpy(&high, print + 8, 8);
    return ((low ^ high * 0x9E3779B97F4A7C15u) * 0xD6E8FEB86659FD93u) >> (64 - PLACE_BITS);
}

/* The place of a fingerprint: it has the PBN of the entry with it, or is where that would go. */
static inline uint16_t *prints_place(struct prints *t, const uint8_t *entries, const uint8_t *print)
{
    size_t i = prints_hash(print);
    while (t->at[i] != UNMAPPED && memcmp(entries + ENTRY * t->at[i] + ENTRY_PRINT, print, PRINT) != 0)
        i = (i + 1) % PLACES;
    return &t->at[i];
}

#endif
