/* aspen_count on any book. */
#include "../fuzz.h"

int LLVMFuzzerTestOneInput(const uint8_t *input, size_t length);

struct counts {
    uint16_t blocks, held, waiting;
    uint32_t references;
};

static const struct counts untouched = { UNTOUCHED, UNTOUCHED, UNTOUCHED, UNTOUCHED_WIDE };

int LLVMFuzzerTestOneInput(const uint8_t *input, size_t length)
{
    struct sent sent = sent_of(input, length, 'n');
    struct side ours = lent(&sent), theirs = lent(&sent);
    struct buffer *book = &ours.part[BOOK], *other = &theirs.part[BOOK];
    struct counts got = untouched, expected = untouched;
    uint16_t number = aspen_count(book->bytes, book->length, &got.blocks, &got.held, &got.waiting,
                                  &got.references);

    CHECK_EQ(number, reference_count(other->bytes, other->length, &expected.blocks, &expected.held,
                                     &expected.waiting, &expected.references));
    check_answer(number, got.blocks, expected.blocks, UNTOUCHED);
    check_answer(number, got.held, expected.held, UNTOUCHED);
    check_answer(number, got.waiting, expected.waiting, UNTOUCHED);
    check_answer(number, got.references, expected.references, UNTOUCHED_WIDE);
    check_left(number, &sent, &ours, &theirs);
    return 0;
}
