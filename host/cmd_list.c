/* The command list. */
#include "choosing.h"
#include "commands.h"
#include "dates.h"
#include "days.h"
#include "json.h"
#include "messages.h"
#include "opening.h"
#include "refusals.h"
#include "view.h"

#include <aspen.h>

/* What is to be listed of a store. */
struct listing {
    const struct store *store;
    const char *date; /* that of --date, null if it isn't given */
    long day;         /* its day */
};

struct shown {
    struct backup backup;
    bool endless;                           /* whether it is kept without an end */
    char date[DATE_TEXT], until[DATE_TEXT]; /* `until` only if there is an end */
};

static struct shown look_up(const struct store *store, struct bytes rows, uint16_t number)
{
    struct shown shown = {.backup = view_backup(rows, number)};

    shown.endless = shown.backup.until == ASPEN_NO_END;
    store_date(store, shown.backup.day, shown.date);
    if (!shown.endless)
        store_date(store, shown.backup.until, shown.until);
    return shown;
}

/* Which backups restore would take. */
static void show_chosen_text(const struct listing *listing, struct bytes rows)
{
    uint16_t newest = newest_kept(rows), number;

    if (newest > 0)
        say("  restore --latest takes backup %u", newest);
    else if (rows.length > 0)
        say("  restore --latest takes none: no backup is kept any more");
    if (listing->date == NULL)
        return;
    number = newest_by(rows, listing->day);
    if (number > 0)
        say("  restore --date %s takes backup %u", listing->date, number);
    else
        say("  restore --date %s takes none: there is no backup by then", listing->date);
}

static void show_head_text(const struct listing *listing, uint16_t volume,
                           const struct volume *found)
{
    char date[DATE_TEXT];

    if (found->retired)
        say("volume %u was retired on %s; its backups are kept %u days", volume,
            store_date(listing->store, found->retired_on, date), found->keep);
    else
        say("volume %u keeps its backups %u days", volume, found->keep);
    if (found->backups > 0)
        say("  number  day         kept until  changed");
    else
        say("%s", found->retired ? "  no backup" : "  no backup yet");
}

static void show_text(const struct listing *listing, uint16_t volume, const struct volume *found,
                      struct bytes rows)
{
    uint16_t backups = (uint16_t)(rows.length / ASPEN_BACKUP_ROW);

    show_head_text(listing, volume, found);
    for (uint16_t number = 1; number <= backups; number++) {
        struct shown shown = look_up(listing->store, rows, number);

        say("  %6u  %s  %-10s  %7u%s", number, shown.date, shown.endless ? "newest" : shown.until,
            shown.backup.changes, shown.backup.kept ? "" : "  no longer kept");
    }
    show_chosen_text(listing, rows);
}

static void show_backup_json(const struct store *store, struct bytes rows, uint16_t number)
{
    struct shown shown = look_up(store, rows, number);

    json_open(NULL, '{');
    json_number("number", number);
    json_number("day", shown.backup.day);
    json_string("date", shown.date);
    json_bool("kept", shown.backup.kept);
    if (shown.endless)
        json_null("kept_until");
    else
        json_string("kept_until", shown.until);
    json_number("changed", shown.backup.changes);
    json_close('}');
}

static void json_choice(const char *key, uint16_t number)
{
    if (number > 0)
        json_number(key, number);
    else
        json_null(key);
}

static void show_json(const struct listing *listing, uint16_t volume, const struct volume *found,
                      struct bytes rows)
{
    uint16_t backups = (uint16_t)(rows.length / ASPEN_BACKUP_ROW);
    char date[DATE_TEXT];

    json_open(NULL, '{');
    json_number("volume", volume);
    json_number("keep", found->keep);
    if (found->retired)
        json_string("retired", store_date(listing->store, found->retired_on, date));
    json_open("backups", '[');
    for (uint16_t number = 1; number <= backups; number++)
        show_backup_json(listing->store, rows, number);
    json_close(']');
    json_choice("latest_takes", newest_kept(rows));
    if (listing->date != NULL)
        json_choice("date_takes", newest_by(rows, listing->day));
    json_close('}');
}

static void show_volumes(const struct listing *listing, uint16_t first, uint16_t last)
{
    for (uint16_t volume = first; volume <= last; volume++) {
        struct volume found = view_volume(listing->store->book, volume);
        struct bytes rows;

        if (!found.enrolled)
            continue;
        rows = view_backups(listing->store->book, volume);
        (messages_json() ? show_json : show_text)(listing, volume, &found, rows);
        bytes_free(&rows);
    }
}

static void show(const struct listing *listing, uint16_t first, uint16_t last)
{
    uint16_t day = view_figures(listing->store->book).day;
    char date[DATE_TEXT];

    store_date(listing->store, day, date);
    if (!messages_json()) {
        say("the box's day is %s", date);
        show_volumes(listing, first, last);
        return;
    }
    json_start();
    json_number("day", day);
    json_string("date", date);
    json_open("volumes", '[');
    show_volumes(listing, first, last);
    json_close(']');
    notes_to_json();
    json_send();
}

int run_list(const struct request *request)
{
    const char *word = request->words[1];
    struct store store;
    struct asked asked = {.store = &store};
    struct listing listing = {.store = &store, .date = request->options[OPTION_DATE]};
    int status;

    if (word != NULL)
        asked.volume = read_number("VOLUME", word);
    open_to_read(&store, request);
    if (word != NULL && !view_volume(store.book, asked.volume).enrolled)
        refuse(ASPEN_BAD_VOLUME, &asked);
    if (listing.date != NULL)
        listing.day = day_of_option(&store, request, OPTION_DATE);
    show(&listing, asked.volume, word != NULL ? asked.volume : ASPEN_VOLUMES - 1);
    status = status_of(&store, STATUS_DONE);
    store_close(&store);
    return status;
}
