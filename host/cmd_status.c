/* The command status: how full the store is, how old its backups are, and whether it is sound. */
#include "commands.h"
#include "dates.h"
#include "json.h"
#include "messages.h"
#include "opening.h"
#include "refusals.h"
#include "view.h"

#include <aspen.h>
#include <stdlib.h>

enum { WARN_PERCENT = 90 };

/* Something that fills up. */
struct fill {
    const char *name, *is, *what;
    unsigned used, room;
};

struct summary {
    const struct store *store;
    struct figures figures;
    uint16_t held, waiting;
    struct fill fills[3];
    unsigned percent; /* what counts as nearly full */
    long older;       /* days after which a backup is old, -1 if none is */
    unsigned warnings;
};

struct newest {
    struct volume volume;
    struct backup backup; /* its newest, if it has one */
    long age;             /* in days by the clock */
};

static struct newest newest_of(const struct store *store, uint16_t volume)
{
    struct newest newest = {.volume = view_volume(store->book, volume)};
    struct bytes rows;

    if (!newest.volume.enrolled || newest.volume.backups == 0)
        return newest;
    rows = view_backups(store->book, volume);
    newest.backup = view_backup(rows, newest.volume.backups);
    newest.age = date_today() - store->lock.day_zero - newest.backup.day;
    bytes_free(&rows);
    return newest;
}

static unsigned percent_of(const struct fill *fill)
{
    return 100 * fill->used / fill->room;
}

static bool is_nearly_full(const struct summary *summary, const struct fill *fill)
{
    return 100 * fill->used >= summary->percent * fill->room;
}

/* No further backup of a retired volume is waited for. */
static bool is_old(const struct summary *summary, const struct newest *newest)
{
    return summary->older >= 0 && !newest->volume.retired &&
           (newest->volume.backups == 0 || newest->age > summary->older);
}

static void summarize(struct summary *summary, const struct request *request)
{
    const struct store *store = summary->store;
    uint16_t blocks = 0, number;
    uint32_t references = 0;

    summary->figures = view_figures(store->book);
    number = aspen_count(store->book.at, store->book.length, &blocks, &summary->held,
                         &summary->waiting, &references);
    if (number != ASPEN_OK)
        refuse_store(store, number);
    summary->fills[0] = (struct fill){"pool", "is", "blocks held", summary->held, blocks};
    summary->fills[1] = (struct fill){"slots", "are", "backups taken", summary->figures.slots_used,
                                      summary->figures.slots};
    summary->fills[2] = (struct fill){"journal", "is", "changes noted",
                                      summary->figures.records_used, summary->figures.records};
    summary->percent =
        request->options[OPTION_WARN] != NULL ? option_number(request, OPTION_WARN) : WARN_PERCENT;
    summary->older =
        request->options[OPTION_OLDER] != NULL ? option_number(request, OPTION_OLDER) : -1;
    if (summary->percent < 1 || summary->percent > 100)
        fail(STATUS_USAGE, "--warn wants a percentage from 1 to 100");
}

/* What to look after, as notes: so it stands beside every kind of answer. */
static void warn(struct summary *summary)
{
    for (size_t i = 0; i < 3; i++)
        if (is_nearly_full(summary, &summary->fills[i])) {
            note("the %s %s %u %% full", summary->fills[i].name, summary->fills[i].is,
                 percent_of(&summary->fills[i]));
            summary->warnings++;
        }
    for (uint16_t volume = 0; volume < ASPEN_VOLUMES; volume++) {
        struct newest newest = newest_of(summary->store, volume);

        if (!newest.volume.enrolled || !is_old(summary, &newest))
            continue;
        if (newest.volume.backups == 0)
            note("volume %u has no backup yet", volume);
        else
            note("the newest backup of volume %u is %ld day%s old", volume, newest.age,
                 newest.age == 1 ? "" : "s");
        summary->warnings++;
    }
}

/* ---- in words */

static void show_retired_text(const struct store *store, uint16_t volume,
                              const struct newest *newest)
{
    char retired[DATE_TEXT], date[DATE_TEXT], until[DATE_TEXT];

    store_date(store, newest->volume.retired_on, retired);
    if (newest->volume.backups == 0)
        say("volume %u: retired on %s, no backup", volume, retired);
    else
        say("volume %u: retired on %s, %u backup%s, the newest of %s %s kept until %s", volume,
            retired, newest->volume.backups, newest->volume.backups == 1 ? "" : "s",
            store_date(store, newest->backup.day, date), newest->backup.kept ? "is" : "was",
            store_date(store, newest->backup.until, until));
}

static void show_volume_text(const struct store *store, uint16_t volume,
                             const struct newest *newest)
{
    char date[DATE_TEXT];

    if (newest->volume.retired)
        show_retired_text(store, volume, newest);
    else if (newest->volume.backups == 0)
        say("volume %u: no backup yet", volume);
    else
        say("volume %u: %u backup%s, the newest of %s, %ld day%s %s", volume,
            newest->volume.backups, newest->volume.backups == 1 ? "" : "s",
            store_date(store, newest->backup.day, date), labs(newest->age),
            labs(newest->age) == 1 ? "" : "s", newest->age < 0 ? "ahead of the clock" : "ago");
}

static void show_text(const struct summary *summary)
{
    const struct store *store = summary->store;
    char date[DATE_TEXT], zero[DATE_TEXT];

    say("%s: %u blocks, volumes of %u blocks, %u backups, %u changes; day 0 is %s", store->folder,
        summary->figures.blocks, summary->figures.cells, summary->figures.slots,
        summary->figures.records, store_date(store, 0, zero));
    say("the box's day is %s; the book is %s", store_date(store, summary->figures.day, date),
        store->fault == NULL ? "sound" : "damaged");
    for (size_t i = 0; i < 3; i++)
        say("%-8s %5u of %5u %s, %3u %%", summary->fills[i].name, summary->fills[i].used,
            summary->fills[i].room, summary->fills[i].what, percent_of(&summary->fills[i]));
    say("%u of the held blocks wait for a collection", summary->waiting);
    for (uint16_t volume = 0; volume < ASPEN_VOLUMES; volume++) {
        struct newest newest = newest_of(store, volume);

        if (newest.volume.enrolled)
            show_volume_text(store, volume, &newest);
    }
}

/* ---- as JSON */

static void show_volume_json(const struct store *store, uint16_t volume,
                             const struct newest *newest)
{
    char date[DATE_TEXT];

    json_open(NULL, '{');
    json_number("volume", volume);
    json_number("keep", newest->volume.keep);
    if (newest->volume.retired)
        json_string("retired", store_date(store, newest->volume.retired_on, date));
    json_number("backups", newest->volume.backups);
    if (newest->volume.backups > 0) {
        json_string("newest", store_date(store, newest->backup.day, date));
        if (newest->volume.retired)
            json_string("kept_until", store_date(store, newest->backup.until, date));
        else
            json_number("age", newest->age);
    }
    json_close('}');
}

static void show_json(const struct summary *summary)
{
    const struct store *store = summary->store;
    char date[DATE_TEXT];

    json_start();
    json_string("store", store->folder);
    json_number("cells", summary->figures.cells);
    json_string("day_zero", store_date(store, 0, date));
    json_number("day", summary->figures.day);
    json_string("date", store_date(store, summary->figures.day, date));
    json_bool("sound", store->fault == NULL);
    for (size_t i = 0; i < 3; i++) {
        json_open(summary->fills[i].name, '{');
        json_number("used", summary->fills[i].used);
        json_number("room", summary->fills[i].room);
        json_number("percent", percent_of(&summary->fills[i]));
        json_close('}');
    }
    json_number("waiting", summary->waiting);
    json_open("volumes", '[');
    for (uint16_t volume = 0; volume < ASPEN_VOLUMES; volume++) {
        struct newest newest = newest_of(store, volume);

        if (newest.volume.enrolled)
            show_volume_json(store, volume, &newest);
    }
    json_close(']');
    json_number("warnings", summary->warnings);
    notes_to_json();
    json_send();
}

/* ---- for a node exporter */

static void metric(const char *name, const char *help)
{
    say("# HELP aspenbox_%s %s", name, help);
    say("# TYPE aspenbox_%s gauge", name);
}

static void show_volumes_metrics(const struct summary *summary)
{
    metric("volume_backups", "Backups of an enrolled volume.");
    for (uint16_t volume = 0; volume < ASPEN_VOLUMES; volume++) {
        struct newest newest = newest_of(summary->store, volume);

        if (newest.volume.enrolled)
            say("aspenbox_volume_backups{volume=\"%u\"} %u", volume, newest.volume.backups);
    }
    metric("volume_newest_age_days", "Days since the newest backup of a volume.");
    for (uint16_t volume = 0; volume < ASPEN_VOLUMES; volume++) {
        struct newest newest = newest_of(summary->store, volume);

        /* An alarm goes by this age, and no backup of a retired volume is waited for. */
        if (newest.volume.enrolled && !newest.volume.retired && newest.volume.backups > 0)
            say("aspenbox_volume_newest_age_days{volume=\"%u\"} %ld", volume, newest.age);
    }
}

static void show_metrics(const struct summary *summary)
{
    metric("sound", "1 if the book is sound, else 0.");
    say("aspenbox_sound %d", summary->store->fault == NULL ? 1 : 0);
    metric("used", "Places used of the pool, the slots and the journal.");
    for (size_t i = 0; i < 3; i++)
        say("aspenbox_used{part=\"%s\"} %u", summary->fills[i].name, summary->fills[i].used);
    metric("room", "Places that the pool, the slots and the journal have.");
    for (size_t i = 0; i < 3; i++)
        say("aspenbox_room{part=\"%s\"} %u", summary->fills[i].name, summary->fills[i].room);
    metric("waiting_blocks", "Held blocks that wait for a collection.");
    say("aspenbox_waiting_blocks %u", summary->waiting);
    metric("warnings", "What aspenbox status warns of.");
    say("aspenbox_warnings %u", summary->warnings);
    show_volumes_metrics(summary);
}

int run_status(const struct request *request)
{
    struct store store;
    struct summary summary = {.store = &store};
    int status;

    if (messages_json() && request->options[OPTION_PROMETHEUS] != NULL)
        fail(STATUS_USAGE, "give --json or --prometheus, not both");
    open_to_read(&store, request);
    summarize(&summary, request);
    warn(&summary);
    if (messages_json())
        show_json(&summary);
    else
        (request->options[OPTION_PROMETHEUS] != NULL ? show_metrics : show_text)(&summary);
    status = status_of(&store, summary.warnings == 0 ? STATUS_DONE : STATUS_UNSOUND);
    store_close(&store);
    return status;
}
