/* The command retire: an aid has left. What that ends is worked out on a copy of the book and told
 * before anything is written. The store isn't locked while somebody thinks it over. */
#include "commands.h"
#include "dates.h"
#include "days.h"
#include "json.h"
#include "messages.h"
#include "opening.h"
#include "refusals.h"
#include "view.h"

#include <aspen.h>
#include <stdio.h>
#include <string.h>
#include <strings.h>
#include <unistd.h>

struct retirement {
    struct asked asked;
    struct bytes book;          /* as it will be */
    struct bytes before, after; /* the rows of the volume's backups, now and then */
    uint16_t cells;             /* that the volume has now */
};

/* ---- what comes of it */

static uint16_t mapped_cells(const struct asked *asked)
{
    struct bytes cells = view_cells(asked->store->book, asked->volume);
    uint16_t mapped = 0;

    for (uint16_t lbn = 0; lbn < cells.length / ASPEN_CELL_ROW; lbn++)
        mapped += view_cell(cells, lbn) != ASPEN_UNMAPPED_PBN;
    bytes_free(&cells);
    return mapped;
}

/* Retires the volume in a copy of the book. */
static void work_out(struct retirement *retirement)
{
    struct asked *asked = &retirement->asked;
    struct bytes book = asked->store->book, spare = bytes_new(book.length);
    uint16_t number;

    retirement->book = bytes_copy(book);
    number = aspen_retire(retirement->book.at, book.length, spare.at, spare.length, asked->volume,
                          asked->day, &retirement->cells);
    if (number == ASPEN_NO_RECORD)
        asked->changes = mapped_cells(asked);
    if (number != ASPEN_OK)
        refuse(number, asked);
    retirement->before = view_backups(book, asked->volume);
    retirement->after = view_backups(retirement->book, asked->volume);
    bytes_free(&spare);
}

static void free_retirement(struct retirement *retirement)
{
    bytes_free(&retirement->book);
    bytes_free(&retirement->before);
    bytes_free(&retirement->after);
}

static uint16_t backups_of(const struct retirement *retirement)
{
    return (uint16_t)(retirement->after.length / ASPEN_BACKUP_ROW);
}

/* Whether this backup can be read now and not afterwards. */
static bool is_ended(const struct retirement *retirement, uint16_t number)
{
    return view_backup(retirement->before, number).kept &&
           !view_backup(retirement->after, number).kept;
}

/* The oldest backup that can be read afterwards, 0 if there is none. The later ones can be too:
 * each is kept for as many days. */
static uint16_t first_kept(const struct retirement *retirement)
{
    for (uint16_t number = 1; number <= backups_of(retirement); number++)
        if (view_backup(retirement->after, number).kept)
            return number;
    return 0;
}

/* ---- what is told of it */

static void note_ended(const struct retirement *retirement, uint16_t number)
{
    const struct asked *asked = &retirement->asked;
    struct backup backup = view_backup(retirement->after, number);
    char date[DATE_TEXT], until[DATE_TEXT];

    note("once volume %u is retired, backup %u, of %s, can't be read any more: its days end on %s",
         asked->volume, number, store_date(asked->store, backup.day, date),
         store_date(asked->store, backup.until, until));
}

static void note_kept(const struct retirement *retirement)
{
    const struct asked *asked = &retirement->asked;
    uint16_t first = first_kept(retirement), newest = backups_of(retirement);
    char date[DATE_TEXT], until[DATE_TEXT];

    if (newest == 0) {
        note("volume %u has no backup", asked->volume);
        return;
    }
    if (first == 0) {
        note("once volume %u is retired, no backup of it can be read", asked->volume);
        return;
    }
    store_date(asked->store, view_backup(retirement->after, newest).until, until);
    if (first == newest)
        note("once volume %u is retired, backup %u, the newest, can be read until %s",
             asked->volume, newest, until);
    else
        note("once volume %u is retired, backups %u to %u can be read until their days end: %u "
             "until %s, and %u, the newest, until %s",
             asked->volume, first, newest, first,
             store_date(asked->store, view_backup(retirement->after, first).until, date), newest,
             until);
}

static void tell(const struct retirement *retirement)
{
    for (uint16_t number = 1; number <= backups_of(retirement); number++)
        if (is_ended(retirement, number))
            note_ended(retirement, number);
    note_kept(retirement);
    note("once volume %u is retired, it takes no backup, and its number can't be used for another "
         "aid",
         retirement->asked.volume);
}

/* ---- asking */

/* Somebody is there who reads what is told, and answers. */
static bool can_ask(void)
{
    return !messages_json() && isatty(STDIN_FILENO) && isatty(STDERR_FILENO);
}

static bool answers_yes(void)
{
    char line[8];

    if (fgets(line, sizeof line, stdin) == NULL) {
        fprintf(stderr, "\n");
        return false;
    }
    line[strcspn(line, "\n")] = '\0';
    return strcasecmp(line, "y") == 0 || strcasecmp(line, "yes") == 0;
}

static void ask(const struct asked *asked, const char *folder, const char *date)
{
    if (!can_ask())
        fail(STATUS_USAGE,
             "retiring volume %u can't be undone; nothing was written; restore what is still "
             "wanted of it, and then give --yes",
             asked->volume);
    notes_now();
    fprintf(stderr, "Retire volume %u of %s on %s? This can't be undone. [y/N] ", asked->volume,
            folder, date);
    fflush(stderr);
    if (!answers_yes())
        fail(STATUS_USAGE, "volume %u stays as it is; nothing was written", asked->volume);
}

/* Tells what comes of it and ends the program unless the answer is yes. */
static void confirm(struct retirement *retirement, const struct request *request)
{
    struct asked *asked = &retirement->asked;
    struct store store;
    char date[DATE_TEXT];

    open_to_plan(&store, request);
    asked->store = &store;
    asked->day = day_asked(&store, request);
    store_date(&store, asked->day, date);
    work_out(retirement);
    tell(retirement);
    store_close(&store);
    ask(asked, request->words[0], date);
}

static bool same_rows(struct bytes one, struct bytes other)
{
    return one.length == other.length && memcmp(one.at, other.at, one.length) == 0;
}

/* Meanwhile another command may have used the store. What was agreed to is what was told. */
static void expect_told(const struct retirement *told, const struct retirement *retirement)
{
    if (!same_rows(told->before, retirement->before) || !same_rows(told->after, retirement->after))
        fail(STATUS_USAGE,
             "another command changed what there is of volume %u; nothing was written; give the "
             "command again",
             told->asked.volume);
}

/* ---- the work */

static void show_backups_json(const struct retirement *retirement)
{
    json_open("ended", '[');
    for (uint16_t number = 1; number <= backups_of(retirement); number++)
        if (is_ended(retirement, number))
            json_number(NULL, number);
    json_close(']');
    json_open("kept", '[');
    for (uint16_t number = 1; number <= backups_of(retirement); number++) {
        struct backup backup = view_backup(retirement->after, number);
        char until[DATE_TEXT];

        if (!backup.kept)
            continue;
        json_open(NULL, '{');
        json_number("number", number);
        json_string("kept_until", store_date(retirement->asked.store, backup.until, until));
        json_close('}');
    }
    json_close(']');
}

static void show(const struct retirement *retirement)
{
    const struct asked *asked = &retirement->asked;
    char date[DATE_TEXT];

    store_date(asked->store, asked->day, date);
    if (!messages_json()) {
        say("retired volume %u on %s; its last state had %u block%s", asked->volume, date,
            retirement->cells, retirement->cells == 1 ? "" : "s");
        return;
    }
    json_start();
    json_number("volume", asked->volume);
    json_number("day", asked->day);
    json_string("date", date);
    json_number("cells", retirement->cells);
    show_backups_json(retirement);
    notes_to_json();
    json_send();
}

int run_retire(const struct request *request)
{
    bool asks = request->options[OPTION_YES] == NULL;
    struct store store;
    struct retirement told = {
        .asked = {.volume = read_number("VOLUME", request->words[1]), .retiring = true}};
    struct retirement retirement;

    if (asks)
        confirm(&told, request);
    retirement = (struct retirement){.asked = told.asked};
    retirement.asked.store = &store;
    open_to_write(&store, request);
    if (!asks)
        retirement.asked.day = day_asked(&store, request);
    work_out(&retirement);
    if (asks)
        expect_told(&told, &retirement);
    else
        tell(&retirement);
    bytes_free(&store.book);
    store.book = bytes_copy(retirement.book);
    store_replace_book(&store);
    show(&retirement);
    if (asks)
        free_retirement(&told);
    free_retirement(&retirement);
    store_close(&store);
    return STATUS_DONE;
}
