/* Checks that count themselves. A check that fails prints file, line and values. */
#ifndef ASPEN_TESTS_CHECK_H
#define ASPEN_TESTS_CHECK_H

#include <stddef.h>
#include <stdint.h>

#define CHECK_EQ(actual, expected) \
    check_eq(__FILE__, __LINE__, #actual, (unsigned long)(actual), (unsigned long)(expected))
#define CHECK_BYTES(actual, expected, length) \
    check_bytes(__FILE__, __LINE__, #actual, actual, expected, length)

/* Says what the next checks are about; printed with a failure. */
void check_about(const char *about);

void check_eq(const char *file, int line, const char *what, unsigned long actual,
              unsigned long expected);
void check_bytes(const char *file, int line, const char *what, const uint8_t *actual,
                 const uint8_t *expected, size_t length);

/* Prints `N passed, M failed` and gives the program's exit status. */
int check_report(void);

#endif
