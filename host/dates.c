#include "dates.h"

#include <ctype.h>
#include <stdio.h>
#include <stdlib.h>
#include <string.h>
#include <time.h>

enum { SECONDS_A_DAY = 86400, EPOCH = 719162 }; /* 1970-01-01 */

static bool is_leap(long year)
{
    return year % 4 == 0 && (year % 100 != 0 || year % 400 == 0);
}

static long month_length(long year, long month)
{
    static const int lengths[] = {31, 28, 31, 30, 31, 30, 31, 31, 30, 31, 30, 31};

    return lengths[month - 1] + (month == 2 && is_leap(year) ? 1 : 0);
}

/* Days from 0001-01-01 to the first of January. */
static long year_start(long year)
{
    long before = year - 1;

    return 365 * before + before / 4 - before / 100 + before / 400;
}

static bool has_shape(const char *text)
{
    for (size_t i = 0; i < 10; i++) {
        bool hyphen = i == 4 || i == 7;

        if (hyphen ? text[i] != '-' : !isdigit((unsigned char)text[i]))
            return false;
    }
    return text[10] == '\0';
}

bool date_read(const char *text, long *day)
{
    long year, month, of_month;

    if (!has_shape(text))
        return false;
    year = strtol(text, NULL, 10);
    month = strtol(text + 5, NULL, 10);
    of_month = strtol(text + 8, NULL, 10);
    if (year < 1900 || year > 2999 || month < 1 || month > 12 || of_month < 1 ||
        of_month > month_length(year, month))
        return false;
    *day = year_start(year) + of_month - 1;
    for (long m = 1; m < month; m++)
        *day += month_length(year, m);
    return true;
}

char *date_write(long day, char *text)
{
    long year = day / 366 + 1, month = 1;

    while (year_start(year + 1) <= day)
        year++;
    day -= year_start(year);
    while (day >= month_length(year, month))
        day -= month_length(year, month++);
    snprintf(text, DATE_TEXT, "%04ld-%02ld-%02ld", year, month, day + 1);
    return text;
}

long date_today(void)
{
    return EPOCH + (long)(time(NULL) / SECONDS_A_DAY);
}
