/* aspen_format over any bytes; its sizes are those in the book's header, XORed with the numbers. */
#include "../fuzz.h"

int LLVMFuzzerTestOneInput(const uint8_t *input, size_t length);

static uint16_t field(const struct buffer *book, size_t at)
{
    return book->length < at + 2 ? 0 : (uint16_t)(book->bytes[at] | book->bytes[at + 1] << 8);
}

int LLVMFuzzerTestOneInput(const uint8_t *input, size_t length)
{
    struct sent sent = sent_of(input, length, 'f');
    struct side ours = lent(&sent), theirs = lent(&sent);
    struct buffer *book = &ours.part[BOOK], *other = &theirs.part[BOOK];
    uint16_t n = field(book, 2) ^ sent.number[0], l = field(book, 4) ^ sent.number[1];
    uint16_t s = field(book, 6) ^ sent.number[2], j = field(book, 8);
    uint16_t number = aspen_format(book->bytes, book->length, n, l, s, j);

    CHECK_EQ(number, reference_format(other->bytes, other->length, n, l, s, j));
    check_left(number, &sent, &ours, &theirs);
    return 0;
}
