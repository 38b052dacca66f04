#include "check.h"

#include <stdio.h>

static const char *subject = "";
static unsigned long passed, failed;

void check_about(const char *about)
{
    subject = about;
}

void check_eq(const char *file, int line, const char *what, unsigned long actual,
              unsigned long expected)
{
    if (actual == expected) {
        passed++;
        return;
    }
    failed++;
    printf("%s:%d: %s: %s is %lu, expected %lu\n", file, line, subject, what, actual, expected);
}

void check_bytes(const char *file, int line, const char *what, const uint8_t *actual,
                 const uint8_t *expected, size_t length)
{
    size_t at = 0;

    while (at < length && actual[at] == expected[at])
        at++;
    if (at == length) {
        passed++;
        return;
    }
    failed++;
    printf("%s:%d: %s: byte %lu of %s is %u, expected %u\n", file, line, subject,
           (unsigned long)at, what, actual[at], expected[at]);
}

int check_report(void)
{
    printf("%lu passed, %lu failed\n", passed, failed);
    return failed != 0 || passed == 0;
}
