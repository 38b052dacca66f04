#include "layouts.h"

#include "view.h"

#include <aspen.h>

struct step {
    uint16_t from, to;
    uint16_t (*convert)(const uint8_t *book, size_t book_len, uint8_t *out, size_t out_len);
};

/* From the oldest layout on, each to the next, so that one pass goes all the way. */
static const struct step steps[] = {
    {1, 2, aspen_convert_1_2},
    {2, 3, aspen_convert_2_3},
};

/* The last layout by whose rule a backup's days counted from the day of the next one. Since then
 * they count from its own. */
enum { LAST_BY_NEXT = 2 };

/* A book that is refused stays as it is. */
static uint16_t take(const struct step *step, struct bytes *book)
{
    struct bytes out = bytes_new(aspen_converted_size(step->to, book->at, book->length));
    uint16_t number = step->convert(book->at, book->length, out.at, out.length);

    if (number != ASPEN_OK) {
        bytes_free(&out);
        return number;
    }
    bytes_free(book);
    *book = out;
    return ASPEN_OK;
}

uint16_t layouts_renew(struct bytes *book)
{
    for (size_t i = 0; i < sizeof steps / sizeof steps[0]; i++) {
        uint16_t number = ASPEN_OK;

        if (aspen_layout(book->at, book->length) == steps[i].from)
            number = take(&steps[i], book);
        if (number != ASPEN_OK)
            return number;
    }
    return aspen_form(book->at, book->length);
}

uint16_t layouts_ended(uint16_t layout, struct bytes book, uint16_t volume)
{
    struct volume found = view_volume(book, volume);
    uint16_t day = view_figures(book).day, ended = 0;
    struct bytes rows;

    if (layout > LAST_BY_NEXT || !found.enrolled)
        return 0;
    rows = view_backups(book, volume);
    for (uint16_t number = 1; number < found.backups; number++) {
        uint16_t next = view_backup(rows, (uint16_t)(number + 1)).day;

        if (!view_backup(rows, number).kept && next + found.keep >= day)
            ended = number;
    }
    bytes_free(&rows);
    return ended;
}
