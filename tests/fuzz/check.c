/* The checks of ../c/check.h, for a fuzzer: the first that fails stops the program. */
#include "../c/check.h"

#include <stdio.h>
#include <stdlib.h>
#include <string.h>

void check_eq(const char *file, int line, const char *what, unsigned long actual,
              unsigned long expected)
{
    if (actual == expected)
        return;
    fprintf(stderr, "%s:%d: %s is %lu, expected %lu\n", file, line, what, actual, expected);
    abort();
}

void check_bytes(const char *file, int line, const char *what, const uint8_t *actual,
                 const uint8_t *expected, size_t length)
{
    size_t at = 0;

    if (length == 0 || memcmp(actual, expected, length) == 0)
        return;
    while (actual[at] == expected[at])
        at++;
    fprintf(stderr, "%s:%d: byte %lu of %s is %u, expected %u\n", file, line, (unsigned long)at,
            what, actual[at], expected[at]);
    abort();
}
