/* aspen_form on any bytes. */
#include "../fuzz.h"

int LLVMFuzzerTestOneInput(const uint8_t *input, size_t length);

int LLVMFuzzerTestOneInput(const uint8_t *input, size_t length)
{
    struct sent sent = sent_of(input, length, 'f');
    struct side ours = lent(&sent), theirs = lent(&sent);
    struct buffer *book = &ours.part[BOOK], *other = &theirs.part[BOOK];
    uint16_t number = aspen_form(book->bytes, book->length);

    CHECK_EQ(number, reference_form(other->bytes, other->length));
    check_left(number, &sent, &ours, &theirs);
    return 0;
}
