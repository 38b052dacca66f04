/* The change list, for the twin. */
#ifndef ASPEN_BENCH_TWIN_LIST_H
#define ASPEN_BENCH_TWIN_LIST_H

#include "twin_layout.h"

/* Bytes of a pair, and the most blocks of a run. */
enum { PAIR = 4, MAX_RUN = 64 };

/* A list that was checked: its pairs, then the fingerprints and the blocks of its n changes. */
struct list {
    size_t pairs, n;
    const uint8_t *pair, *prints, *blocks;
};

/* Whether the bytes are a list for volumes of l blocks. */
static inline int list_of(struct list *list, const uint8_t *bytes, size_t len, size_t l)
{
    size_t end = 0, n = 0;
    if (len < 2)
        return 0;
    size_t pairs = u16_at(bytes);
    if (len < 2 + PAIR * pairs)
        return 0;
    for (const uint8_t *pair = bytes + 2; pair < bytes + 2 + PAIR * pairs; pair += PAIR) {
        size_t first = u16_at(pair), length = u16_at(pair + 2);
        if (length == 0 || length > MAX_RUN || first < end || first + length > l)
            return 0;
        end = first + length;
        n += length;
    }
    *list = (struct list){ pairs, n, bytes + 2, bytes + 2 + PAIR * pairs, bytes + 2 + PAIR * pairs + PRINT * n };
    return len == 2 + PAIR * pairs + (PRINT + BLOCK) * n;
}

#endif
