#include "memory.h"

#include "status.h"

#include <stdio.h>
#include <stdlib.h>
#include <string.h>

static void *there(void *memory)
{
    if (memory == NULL) {
        fputs("aspenbox: out of memory\n", stderr);
        exit(STATUS_FILES);
    }
    return memory;
}

struct bytes bytes_new(size_t length)
{
    /* The library wants no null pointer, even at length 0. */
    struct bytes bytes = {there(calloc(length > 0 ? length : 1, 1)), length};

    return bytes;
}

struct bytes bytes_copy(struct bytes original)
{
    struct bytes copy = bytes_new(original.length);

    memcpy(copy.at, original.at, original.length);
    return copy;
}

void bytes_free(struct bytes *bytes)
{
    free(bytes->at);
    bytes->at = NULL;
    bytes->length = 0;
}

void bytes_add(struct bytes *bytes, const void *added, size_t length)
{
    bytes->at = resized(bytes->at, bytes->length + length + 1);
    memcpy(bytes->at + bytes->length, added, length);
    bytes->length += length;
}

char *copy_text(const char *text)
{
    return join_text(text, "", "");
}

char *join_text(const char *first, const char *second, const char *third)
{
    return text_of("%s%s%s", first, second, third);
}

char *text_of(const char *format, ...)
{
    va_list arguments;
    char *text;

    va_start(arguments, format);
    text = text_from(format, arguments);
    va_end(arguments);
    return text;
}

char *text_from(const char *format, va_list arguments)
{
    va_list again;
    char *text;
    int length;

    va_copy(again, arguments);
    length = vsnprintf(NULL, 0, format, again);
    va_end(again);
    text = there(malloc((size_t)length + 1));
    vsnprintf(text, (size_t)length + 1, format, arguments);
    return text;
}

void *resized(void *memory, size_t size)
{
    return there(realloc(memory, size));
}
