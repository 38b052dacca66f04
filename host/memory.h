/* Memory that is there: a program without it ends with a message. */
#ifndef ASPENBOX_MEMORY_H
#define ASPENBOX_MEMORY_H

#include <stdarg.h>
#include <stddef.h>
#include <stdint.h>

struct bytes {
    uint8_t *at; /* never null once made */
    size_t length;
};

/* So many zeros. */
struct bytes bytes_new(size_t length);
struct bytes bytes_copy(struct bytes original);
void bytes_free(struct bytes *bytes);
/* Adds bytes at the end. */
void bytes_add(struct bytes *bytes, const void *added, size_t length);

char *copy_text(const char *text);
/* The three put together. */
char *join_text(const char *first, const char *second, const char *third);
/* A text of any length; the caller frees it. */
char *text_of(const char *format, ...) __attribute__((format(printf, 1, 2)));
char *text_from(const char *format, va_list arguments) __attribute__((format(printf, 1, 0)));

/* More or less room for what realloc is given. */
void *resized(void *memory, size_t size);

#endif
