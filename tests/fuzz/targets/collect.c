/* aspen_collect on any book. */
#include "../fuzz.h"

int LLVMFuzzerTestOneInput(const uint8_t *input, size_t length);

int LLVMFuzzerTestOneInput(const uint8_t *input, size_t length)
{
    struct sent sent = sent_of(input, length, 'c');
    struct side ours = lent(&sent), theirs = lent(&sent);
    struct buffer *book = &ours.part[BOOK], *other = &theirs.part[BOOK];
    uint16_t day = sent.number[0], freed = UNTOUCHED, expected = UNTOUCHED;
    uint16_t number = aspen_collect(book->bytes, book->length, day, &freed);

    CHECK_EQ(number, reference_collect(other->bytes, other->length, day, &expected));
    check_answer(number, freed, expected, UNTOUCHED);
    check_left(number, &sent, &ours, &theirs);
    return 0;
}
