/* Calls of converters that check what each owes: its number, that the book is as it was, and that the
 * output is written as a whole or not at all. */
#ifndef ASPEN_TESTS_CONVERTING_H
#define ASPEN_TESTS_CONVERTING_H

#include "buffer.h"

typedef uint16_t converter(const uint8_t *book, size_t book_len, uint8_t *out, size_t out_len);

/* Converts to an output of so many bytes, which starts with this book then, and goes on as it was;
 * after a refusal all of it is as it was. */
void converts(converter *convert, const struct buffer *book, size_t room,
              const struct buffer *wanted, uint16_t expected);
void converter_refuses(converter *convert, const struct buffer *book, size_t room,
                       uint16_t expected);

#endif
