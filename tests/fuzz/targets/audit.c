/* aspen_audit on any book. */
#include "../fuzz.h"

int LLVMFuzzerTestOneInput(const uint8_t *input, size_t length);

int LLVMFuzzerTestOneInput(const uint8_t *input, size_t length)
{
    struct sent sent = sent_of(input, length, 'a');
    struct side ours = lent(&sent), theirs = lent(&sent);
    struct buffer *book = &ours.part[BOOK], *other = &theirs.part[BOOK];
    uint16_t sound = UNTOUCHED, expected = UNTOUCHED;
    uint16_t number = aspen_audit(book->bytes, book->length, &sound);

    CHECK_EQ(number, reference_audit(other->bytes, other->length, &expected));
    check_answer(number, sound, expected, UNTOUCHED);
    check_left(number, &sent, &ours, &theirs);
    return 0;
}
