/* aspen_restore on any book and pool. The spare stands for the output: it is as long as the run,
 * and as much longer as the control says. */
#include "../fuzz.h"

#include <stdio.h>
#include <stdlib.h>

int LLVMFuzzerTestOneInput(const uint8_t *input, size_t length);

typedef __typeof__(aspen_restore) restore_call;

static uint16_t call(restore_call *restore, struct side *side, const struct sent *sent)
{
    const struct buffer *book = &side->part[BOOK], *pool = &side->part[POOL];
    struct buffer *out = &side->part[SPARE];

    return restore(book->bytes, book->length, pool->bytes, pool->length, sent->number[0],
                   sent->number[1], sent->number[2], sent->number[3], out->bytes, out->length);
}

/* How many runs of more than one block were written, and how many refused by 21 and by 18, printed
 * at the end. */
static unsigned long several, bad, unmapped;

static void print_runs(void)
{
    fprintf(stderr, "runs: several=%lu 21=%lu 18=%lu\n", several, bad, unmapped);
}

static void note_run(uint16_t number, uint16_t length)
{
    static int noted;

    if (!noted)
        noted = atexit(print_runs) == 0;
    several += number == ASPEN_OK && length > 1;
    bad += number == ASPEN_BAD_RUN;
    unmapped += number == ASPEN_UNMAPPED;
}

/* No volume has a longer run, so a longer output would change nothing. */
static size_t room_for(uint16_t length)
{
    return aspen_run_size(length <= ASPEN_MAX_LBNS ? length : ASPEN_MAX_LBNS);
}

int LLVMFuzzerTestOneInput(const uint8_t *input, size_t length)
{
    struct control control = control_of(input, length);
    struct sent sent = sent_of(input, length, 's');
    struct side ours, theirs;
    uint16_t number;

    buffer_free(&sent.part[SPARE]);
    sent.part[SPARE] = buffer_filled(room_for(sent.number[3]), 0xA5);
    make_longer(&sent.part[SPARE], control.longer[SPARE]);
    sent.free = PARTS;
    ours = lent(&sent);
    theirs = lent(&sent);
    number = call(aspen_restore, &ours, &sent);
    CHECK_EQ(number, call(reference_restore, &theirs, &sent));
    note_run(number, sent.number[3]);
    check_left(number, &sent, &ours, &theirs);
    return 0;
}
