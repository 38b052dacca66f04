/* aspen_retire on any book and spare. */
#include "../fuzz.h"

#include <stdio.h>
#include <stdlib.h>

int LLVMFuzzerTestOneInput(const uint8_t *input, size_t length);

typedef __typeof__(aspen_retire) retire_call;

static uint16_t call(retire_call *retire, struct side *side, const struct sent *sent,
                     uint16_t *cells)
{
    struct buffer *book = &side->part[BOOK], *spare = &side->part[SPARE];

    *cells = UNTOUCHED;
    return retire(book->bytes, book->length, spare->bytes, spare->length, sent->number[0],
                  sent->number[1], cells);
}

/* How many retirements had cells, how many had none, how many were of a retired volume, and how many
 * stopped at a cell, printed at the end. */
static unsigned long with_cells, without, again, stopped;

static void print_retired(void)
{
    fprintf(stderr, "retired: cells=%lu none=%lu again=%lu 13=%lu\n", with_cells, without, again,
            stopped);
}

/* Whether the volume of a book in form is retired. */
static int is_retired(const struct sent *sent)
{
    const struct buffer *book = &sent->part[BOOK];
    uint16_t retention, backups, retired = ASPEN_NO_END;

    reference_volume(book->bytes, book->length, sent->number[0], &retention, &backups, &retired);
    return retired != ASPEN_NO_END;
}

static void note(uint16_t number, uint16_t cells, const struct sent *sent)
{
    static int noted;

    if (!noted)
        noted = atexit(print_retired) == 0;
    with_cells += number == ASPEN_OK && cells > 0;
    without += number == ASPEN_OK && cells == 0;
    again += number == ASPEN_BAD_VOLUME && is_retired(sent);
    stopped += number == ASPEN_COUNT_ZERO;
}

int LLVMFuzzerTestOneInput(const uint8_t *input, size_t length)
{
    struct sent sent = sent_of(input, length, 't');
    struct side ours = lent(&sent), theirs = lent(&sent);
    uint16_t cells, expected;
    uint16_t number = call(aspen_retire, &ours, &sent, &cells);

    CHECK_EQ(number, call(reference_retire, &theirs, &sent, &expected));
    check_answer(number, cells, expected, UNTOUCHED);
    note(number, cells, &sent);
    check_left(number, &sent, &ours, &theirs);
    return 0;
}
