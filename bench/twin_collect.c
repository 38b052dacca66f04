/* Collect: one pass over the entries. */
#include "twin.h"
#include "twin_layout.h"

#include <string.h>

uint16_t twin_collect(uint8_t *book, size_t len, uint16_t day, uint16_t *freed)
{
    uint16_t refused = twin_form(book, len), count = 0;
    if (refused != 0)
        return refused;
    if (day > MAX_DAY || day < u16_at(book + AT_DAY))
        return 7;
    uint8_t *e = book + ENTRIES, *end = e + ENTRY * u16_at(book + AT_N);
    for (; e < end; e += ENTRY) {
        if (e[ENTRY_STATE] != 1 || u16_at(e + ENTRY_COUNT) != 0 || u16_at(e + ENTRY_EXPIRY) >= day)
            continue;
        e[ENTRY_STATE] = 0;
        memset(e + ENTRY_PRINT, 0, PRINT);
        count++;
    }
    put_u16(book + AT_DAY, day);
    *freed = count;
    return 0;
}
