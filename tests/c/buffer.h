/* Byte buffers between guard bytes, to lend to the library. */
#ifndef ASPEN_TESTS_BUFFER_H
#define ASPEN_TESTS_BUFFER_H

#include <stddef.h>
#include <stdint.h>

/* Guard bytes on each side; odd, so that the buffer is at an odd address. With 0 a memory checker
 * sees every access outside. */
#ifndef GUARD
#define GUARD 61
#endif

struct buffer {
    uint8_t *memory;
    uint8_t *bytes; /* never null */
    size_t length;
};

#define CHECK_GUARDS(buffer) check_guards(__FILE__, __LINE__, #buffer, buffer)

/* A buffer of any bytes. */
struct buffer buffer_new(size_t length);
/* A buffer with this byte all over. */
struct buffer buffer_filled(size_t length, uint8_t byte);
struct buffer buffer_copy(const struct buffer *original);
/* Cuts the buffer off or goes on with zeros. */
void buffer_resize(struct buffer *buffer, size_t length);
void buffer_free(struct buffer *buffer);
void check_guards(const char *file, int line, const char *what, const struct buffer *buffer);

#endif
