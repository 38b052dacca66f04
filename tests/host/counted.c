/* Counts how often a command asks the library for blocks: linked with --wrap=aspen_restore and
 * --wrap=aspen_read, writes both numbers to the file that ASPEN_CALLS names. */
#include <aspen.h>
#include <stdio.h>
#include <stdlib.h>

__typeof__(aspen_restore) __real_aspen_restore, __wrap_aspen_restore;
__typeof__(aspen_read) __real_aspen_read, __wrap_aspen_read;

static unsigned restores, reads;

static void write_counts(void)
{
    const char *path = getenv("ASPEN_CALLS");
    FILE *file = path == NULL ? NULL : fopen(path, "w");

    if (file == NULL)
        return;
    fprintf(file, "%u %u\n", restores, reads);
    fclose(file);
}

static void count(unsigned *calls)
{
    if (restores + reads == 0)
        atexit(write_counts);
    ++*calls;
}

uint16_t __wrap_aspen_restore(const uint8_t *book, size_t book_len, const uint8_t *pool,
                              size_t pool_len, uint16_t volume, uint16_t number, uint16_t first,
                              uint16_t length, uint8_t *out, size_t out_len)
{
    count(&restores);
    return __real_aspen_restore(book, book_len, pool, pool_len, volume, number, first, length, out,
                                out_len);
}

uint16_t __wrap_aspen_read(const uint8_t *book, size_t book_len, const uint8_t *pool,
                           size_t pool_len, uint16_t volume, uint16_t number, uint16_t lbn,
                           uint32_t *at)
{
    count(&reads);
    return __real_aspen_read(book, book_len, pool, pool_len, volume, number, lbn, at);
}
