#include "days.h"

#include "dates.h"
#include "messages.h"
#include "view.h"

#include <ctype.h>
#include <stdlib.h>
#include <string.h>

enum { FAR_AHEAD = 60 }; /* days after the box's day */

long day_of_option(const struct store *store, const struct request *request, enum option option)
{
    const char *text = request->options[option], *name = option_text(option);
    long day;

    if (!date_read(text, &day))
        fail(STATUS_USAGE, "%s %s is no date like 2026-01-31, from 1900 to 2999%s", name, text,
             option == OPTION_DAY && text[strspn(text, "0123456789")] == '\0'
                 ? "; for a number of days give --day-number"
                 : "");
    return day - store->lock.day_zero;
}

static long day_given(const struct store *store, const struct request *request)
{
    if (request->options[OPTION_DAY] != NULL && request->options[OPTION_DAY_NUMBER] != NULL)
        fail(STATUS_USAGE, "give --day or --day-number, not both");
    if (request->options[OPTION_DAY_NUMBER] != NULL)
        return option_number(request, OPTION_DAY_NUMBER);
    if (request->options[OPTION_DAY] != NULL)
        return day_of_option(store, request, OPTION_DAY);
    return date_today() - store->lock.day_zero;
}

static _Noreturn void refuse_ahead(const struct store *store, long day, const char *why)
{
    char date[DATE_TEXT], again[DATE_TEXT];

    fail(
        STATUS_USAGE,
        "%s is %s. The box's day would become %s, and until then every other aid's backup would be "
        "refused. Look at the date, or give --ahead if it is meant",
        store_date(store, day, date), why, store_date(store, day, again));
}

static void check_ahead(const struct store *store, long day)
{
    struct figures figures = view_figures(store->book);
    char date[DATE_TEXT], *why;

    if (day > date_today() + 1 - store->lock.day_zero)
        refuse_ahead(store, day, "later than tomorrow by the clock");
    /* A box to which nothing was given yet has no day to compare with. */
    if ((figures.day == 0 && figures.slots_used == 0) || day <= figures.day + FAR_AHEAD)
        return;
    why = text_of("more than %d days after the box's day, %s", FAR_AHEAD,
                  store_date(store, figures.day, date));
    refuse_ahead(store, day, why);
}

uint16_t day_asked(const struct store *store, const struct request *request)
{
    bool given = request->options[OPTION_DAY] != NULL;
    const char *shown = given ? request->options[OPTION_DAY] : "today";
    long day = day_given(store, request);
    char zero[DATE_TEXT];

    if (day < 0)
        fail(STATUS_USAGE, "%s is before day 0 of the store, %s; %s", shown,
             date_write(store->lock.day_zero, zero),
             given ? "give a later day" : "set the clock, or give --day");
    if (day > UINT16_MAX)
        fail(STATUS_USAGE, "%s is more than %d days after day 0 of the store, %s", shown,
             UINT16_MAX, date_write(store->lock.day_zero, zero));
    if (request->options[OPTION_AHEAD] == NULL)
        check_ahead(store, day);
    return (uint16_t)day;
}
