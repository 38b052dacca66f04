/* The commands that change the book alone: format, enrol, collect, upgrade. */
#include "commands.h"
#include "dates.h"
#include "days.h"
#include "json.h"
#include "layouts.h"
#include "messages.h"
#include "opening.h"
#include "refusals.h"
#include "view.h"

#include <aspen.h>

static long day_zero(const struct request *request)
{
    const char *text = request->options[OPTION_DAY_ZERO];
    long day;

    if (text == NULL)
        return date_today();
    if (!date_read(text, &day))
        fail(STATUS_USAGE, "--day-zero %s is no date like 2026-01-31, from 1900 to 2999", text);
    return day;
}

static void show_format(const char *folder, const struct figures *sizes, long zero)
{
    char date[DATE_TEXT];

    date_write(zero, date);
    if (!messages_json()) {
        say("made the store %s: %u blocks, volumes of %u blocks, %u backups, %u changes; day 0 "
            "is %s",
            folder, sizes->blocks, sizes->cells, sizes->slots, sizes->records, date);
        return;
    }
    json_start();
    json_string("store", folder);
    json_number("blocks", sizes->blocks);
    json_number("cells", sizes->cells);
    json_number("slots", sizes->slots);
    json_number("journal", sizes->records);
    json_string("day_zero", date);
    notes_to_json();
    json_send();
}

int run_format(const struct request *request)
{
    uint16_t n = option_number(request, OPTION_BLOCKS), l = option_number(request, OPTION_CELLS);
    uint16_t s = option_number(request, OPTION_SLOTS), j = option_number(request, OPTION_JOURNAL);
    struct bytes book = bytes_new(aspen_book_size(n, l, s, j));
    long zero = day_zero(request);
    struct figures sizes;

    if (aspen_format(book.at, book.length, n, l, s, j) != ASPEN_OK)
        refuse_sizes();
    store_make(request->words[0], request->options[OPTION_NO_WAIT] == NULL, book, zero);
    sizes = view_figures(book);
    show_format(request->words[0], &sizes, zero);
    bytes_free(&book);
    return STATUS_DONE;
}

int run_enrol(const struct request *request)
{
    uint16_t volume = read_number("VOLUME", request->words[1]);
    uint16_t keep = option_number(request, OPTION_KEEP);
    struct store store;
    uint16_t number;

    open_to_write(&store, request);
    number = aspen_enrol(store.book.at, store.book.length, volume, keep);
    if (number != ASPEN_OK)
        refuse_enrol(&store, number, volume, keep);
    store_replace_book(&store);
    if (messages_json()) {
        json_start();
        json_number("volume", volume);
        json_number("keep", keep);
        notes_to_json();
        json_send();
    } else {
        say("enrolled volume %u; its backups are kept %u days", volume, keep);
    }
    store_close(&store);
    return STATUS_DONE;
}

static void show_collect(const struct store *store, uint16_t day, uint16_t freed)
{
    char date[DATE_TEXT];

    store_date(store, day, date);
    if (messages_json()) {
        json_start();
        json_number("day", day);
        json_string("date", date);
        json_number("freed", freed);
        notes_to_json();
        json_send();
    } else {
        say("collected as of %s; blocks freed: %u", date, freed);
    }
}

int run_collect(const struct request *request)
{
    struct store store;
    struct asked asked = {.store = &store};
    uint16_t number, freed = 0;

    open_to_write(&store, request);
    asked.day = day_asked(&store, request);
    number = aspen_collect(store.book.at, store.book.length, asked.day, &freed);
    if (number != ASPEN_OK)
        refuse(number, &asked);
    store_replace_book(&store);
    show_collect(&store, asked.day, freed);
    store_close(&store);
    return STATUS_DONE;
}

static void note_ended(const struct store *store, uint16_t volume, uint16_t number)
{
    struct bytes rows = view_backups(store->book, volume);
    struct backup backup = view_backup(rows, number);
    char date[DATE_TEXT], until[DATE_TEXT];

    note("backup %u of volume %u, of %s, is past its days in layout %d: it was kept until %s",
         number, volume, store_date(store, backup.day, date), ASPEN_LAYOUT,
         store_date(store, backup.until, until));
    bytes_free(&rows);
}

/* Names the backups that can be read now and not after the upgrade, from which nothing leads back.
 * Where there are some, it has to be forced. */
static void check_ended(const struct store *store, bool forced)
{
    unsigned count = 0;

    for (uint16_t volume = 0; volume < ASPEN_VOLUMES; volume++) {
        uint16_t number = layouts_ended(store->layout, store->book, volume);

        if (number == 0)
            continue;
        note_ended(store, volume, number);
        count++;
    }
    if (count > 0 && !forced)
        fail(STATUS_USAGE,
             "the upgrade of %s ends %u backup%s that can be read now; nothing was written; restore "
             "what is still wanted with the aspenbox that made the store, and then give --force",
             store->folder, count, count == 1 ? "" : "s");
}

static void show_upgrade(const char *folder, uint16_t from)
{
    if (messages_json()) {
        json_start();
        json_string("store", folder);
        json_number("from", from);
        json_number("to", ASPEN_LAYOUT);
        notes_to_json();
        json_send();
    } else if (from == ASPEN_LAYOUT) {
        say("%s has layout %d already", folder, ASPEN_LAYOUT);
    } else {
        say("upgraded %s from layout %u to layout %d", folder, from, ASPEN_LAYOUT);
    }
}

int run_upgrade(const struct request *request)
{
    struct store store;

    open_to_upgrade(&store, request);
    if (store.layout != ASPEN_LAYOUT) {
        check_ended(&store, request->options[OPTION_FORCE] != NULL);
        store_upgrade_book(&store);
    } else if (store_drop_old(&store)) {
        note("removed the old book that an upgrade which was cut off had left");
    }
    show_upgrade(store.folder, store.layout);
    store_close(&store);
    return STATUS_DONE;
}
