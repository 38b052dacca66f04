/* aspen_enrol on any book. */
#include "../fuzz.h"

int LLVMFuzzerTestOneInput(const uint8_t *input, size_t length);

int LLVMFuzzerTestOneInput(const uint8_t *input, size_t length)
{
    struct sent sent = sent_of(input, length, 'e');
    struct side ours = lent(&sent), theirs = lent(&sent);
    struct buffer *book = &ours.part[BOOK], *other = &theirs.part[BOOK];
    uint16_t volume = sent.number[0], retention = sent.number[1];
    uint16_t number = aspen_enrol(book->bytes, book->length, volume, retention);

    CHECK_EQ(number, reference_enrol(other->bytes, other->length, volume, retention));
    check_left(number, &sent, &ours, &theirs);
    return 0;
}
