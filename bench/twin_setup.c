/* Format and enrol. */
#include "twin.h"
#include "twin_layout.h"

#include <string.h>

uint16_t twin_format(uint8_t *book, size_t len, uint16_t n, uint16_t l, uint16_t s, uint16_t j)
{
    struct layout a = layout_of(n, l, s, j);
    if (!layout_ok(&a, len))
        return 1;
    memset(book, 0, a.maps);
    put_u16(book + AT_LAYOUT, LAYOUT);
    put_u16(book + AT_N, n);
    put_u16(book + AT_L, l);
    put_u16(book + AT_S, s);
    put_u16(book + AT_J, j);
    memset(book + a.maps, 255, a.slots - a.maps);
    memset(book + a.slots, 0, a.length - a.slots);
    return 0;
}

uint16_t twin_enrol(uint8_t *book, size_t len, uint16_t volume, uint16_t retention)
{
    uint16_t refused = twin_form(book, len);
    if (refused != 0)
        return refused;
    if (volume >= VOLUMES || retention_of(book, volume) != 0)
        return 5;
    if (retention == 0 || retention > MAX_RETENTION)
        return 6;
    put_u16(book + HEADER + 2 * volume, retention);
    return 0;
}
