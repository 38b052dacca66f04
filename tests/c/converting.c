#include "converting.h"

#include "check.h"

#include <aspen.h>
#include <string.h>

enum { OUT_BYTE = 0xA5 };

void converts(converter *convert, const struct buffer *book, size_t room,
              const struct buffer *wanted, uint16_t expected)
{
    struct buffer before = buffer_copy(book), out = buffer_filled(room, OUT_BYTE);
    struct buffer after = buffer_copy(&out);

    CHECK_EQ(convert(book->bytes, book->length, out.bytes, out.length), expected);
    if (expected == ASPEN_OK)
        memcpy(after.bytes, wanted->bytes, wanted->length);
    CHECK_BYTES(out.bytes, after.bytes, room);
    CHECK_BYTES(book->bytes, before.bytes, before.length);
    CHECK_GUARDS(&out);
    CHECK_GUARDS(book);
    buffer_free(&before);
    buffer_free(&out);
    buffer_free(&after);
}

void converter_refuses(converter *convert, const struct buffer *book, size_t room,
                       uint16_t expected)
{
    converts(convert, book, room, NULL, expected);
}
