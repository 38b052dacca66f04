/* aspen_read on any book and pool. */
#include "../fuzz.h"

int LLVMFuzzerTestOneInput(const uint8_t *input, size_t length);

typedef __typeof__(aspen_read) read_call;

static uint16_t call(read_call *read, const struct side *side, const struct sent *sent,
                     uint32_t *at)
{
    const struct buffer *book = &side->part[BOOK], *pool = &side->part[POOL];

    *at = UNTOUCHED_WIDE;
    return read(book->bytes, book->length, pool->bytes, pool->length, sent->number[0],
                sent->number[1], sent->number[2], at);
}

int LLVMFuzzerTestOneInput(const uint8_t *input, size_t length)
{
    struct sent sent = sent_of(input, length, 'r');
    struct side ours = lent(&sent), theirs = lent(&sent);
    uint32_t at, expected;
    uint16_t number = call(aspen_read, &ours, &sent, &at);

    CHECK_EQ(number, call(reference_read, &theirs, &sent, &expected));
    check_answer(number, at, expected, UNTOUCHED_WIDE);
    check_left(number, &sent, &ours, &theirs);
    return 0;
}
