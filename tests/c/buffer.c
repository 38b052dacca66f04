#include "buffer.h"

#include "check.h"

#include <stdio.h>
#include <stdlib.h>
#include <string.h>

static const uint8_t guard_byte = 0xC7;
static const size_t guard = GUARD;

struct buffer buffer_new(size_t length)
{
    struct buffer buffer;

    /* A byte more at length 0, since malloc(0) may give a null pointer. */
    buffer.memory = (uint8_t *)malloc(2 * guard + length + (length == 0));
    if (buffer.memory == NULL) {
        fprintf(stderr, "out of memory\n");
        exit(1);
    }
    buffer.bytes = buffer.memory + guard;
    buffer.length = length;
    memset(buffer.memory, guard_byte, guard);
    memset(buffer.bytes + length, guard_byte, guard);
    return buffer;
}

struct buffer buffer_filled(size_t length, uint8_t byte)
{
    struct buffer buffer = buffer_new(length);

    memset(buffer.bytes, byte, length);
    return buffer;
}

struct buffer buffer_copy(const struct buffer *original)
{
    struct buffer copy = buffer_new(original->length);

    memcpy(copy.bytes, original->bytes, original->length);
    return copy;
}

void buffer_resize(struct buffer *buffer, size_t length)
{
    struct buffer resized = buffer_filled(length, 0);

    memcpy(resized.bytes, buffer->bytes, length < buffer->length ? length : buffer->length);
    buffer_free(buffer);
    *buffer = resized;
}

void buffer_free(struct buffer *buffer)
{
    free(buffer->memory);
}

void check_guards(const char *file, int line, const char *what, const struct buffer *buffer)
{
    uint8_t whole[GUARD + 1];

    memset(whole, guard_byte, sizeof whole);
    check_bytes(file, line, what, buffer->memory, whole, guard);
    check_bytes(file, line, what, buffer->bytes + buffer->length, whole, guard);
}
