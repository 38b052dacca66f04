/* The command restore: a volume, or some of its blocks, as of a backup. What is given is put
 * together while the store is locked and written when it is let go. */
#include "answer.h"
#include "choosing.h"
#include "commands.h"
#include "dates.h"
#include "days.h"
#include "files.h"
#include "json.h"
#include "messages.h"
#include "opening.h"
#include "prints.h"
#include "progress.h"
#include "refusals.h"
#include "runs.h"
#include "view.h"

#include <aspen.h>
#include <errno.h>
#include <stdio.h>
#include <stdlib.h>
#include <string.h>
#include <sys/stat.h>
#include <unistd.h>

/* What a backup has at an LBN. */
enum found { FOUND_NONE, FOUND_FITTING, FOUND_DAMAGED };

/* Progress looks for a terminal each time, by a call of the system. */
enum { PROGRESS_STEP = 64 };

struct restored {
    uint16_t first, last; /* the LBNs that are asked for */
    bool whole;           /* whether that is the whole volume */
    struct bytes image;   /* their blocks */
    struct bytes found;   /* for each of them what was found */
    unsigned mapped, damaged;
    size_t sent; /* the blocks up to the last that was ever sent */
};

/* ---- what is asked for */

/* A range of LBNs like 3-17, or one LBN. */
static void read_lbns(struct restored *restored, const char *text)
{
    char *first = copy_text(text), *hyphen = strchr(first, '-');

    if (hyphen != NULL)
        *hyphen = '\0';
    restored->first = read_number("--lbns", first);
    restored->last = hyphen != NULL ? read_number("--lbns", hyphen + 1) : restored->first;
    restored->whole = false;
    if (restored->first > restored->last)
        fail(STATUS_USAGE, "--lbns %s ends before it starts", text);
    free(first);
}

/* --latest of a retired volume all of whose backups are past their days. */
static _Noreturn void refuse_latest(const struct asked *asked, struct bytes rows)
{
    const struct store *store = asked->store;
    struct volume volume = view_volume(store->book, asked->volume);
    char retired[DATE_TEXT], until[DATE_TEXT];

    fail_refused(STATUS_REFUSED, ASPEN_NOT_KEPT,
                 "volume %u was retired on %s and no backup of it is kept any more; the newest was "
                 "until %s",
                 asked->volume, store_date(store, volume.retired_on, retired),
                 store_date(store, view_backup(rows, volume.backups).until, until));
}

/* The number of the backup that is meant: a word, or that which an option chooses. */
static void choose_backup(struct asked *asked, const struct request *request)
{
    const struct store *store = asked->store;
    const char *date = request->options[OPTION_DATE];
    struct bytes rows;

    if (date == NULL && request->options[OPTION_LATEST] == NULL) {
        asked->number = read_number("NUMBER", request->words[2]);
        return;
    }
    if (!view_volume(store->book, asked->volume).enrolled)
        refuse(ASPEN_BAD_VOLUME, asked);
    rows = view_backups(store->book, asked->volume);
    asked->number = date != NULL ? newest_by(rows, day_of_option(store, request, OPTION_DATE))
                                 : newest_kept(rows);
    if (asked->number == 0 && rows.length > 0 && date == NULL)
        refuse_latest(asked, rows);
    if (asked->number == 0 && rows.length > 0)
        fail_refused(STATUS_REFUSED, ASPEN_NO_BACKUP,
                     "volume %u has no backup on or before %s; its first is of %s", asked->volume,
                     date, store_date(store, view_backup(rows, 1).day, (char[DATE_TEXT]){0}));
    bytes_free(&rows);
}

/* The word that names the output: the last one. */
static const char *out_word(const struct request *request)
{
    bool chosen = request->options[OPTION_LATEST] != NULL || request->options[OPTION_DATE] != NULL;

    if (request->options[OPTION_LATEST] != NULL && request->options[OPTION_DATE] != NULL)
        fail(STATUS_USAGE, "give --latest or --date, not both");
    if (chosen && request->words[3] != NULL)
        fail(STATUS_USAGE,
             "with --latest or --date there is no NUMBER; see aspenbox restore --help");
    if (!chosen && request->words[3] == NULL)
        fail(STATUS_USAGE, "restore wants NUMBER, --latest or --date; see aspenbox restore --help");
    return request->words[chosen ? 2 : 3];
}

/* ---- where it goes */

static bool is_standard(const char *out)
{
    return strcmp(out, "-") == 0;
}

/* Looked at before the work: a file with something in it is kept without --force, and a file of a
 * store is never written over. */
static void check_out(const char *out, bool force)
{
    struct stat found;

    if (is_standard(out)) {
        if (messages_json())
            fail(STATUS_USAGE, "with --json OUT can't be standard output; name a file");
        return;
    }
    if (store_has_file(out))
        fail(STATUS_USAGE, "%s is a file of a store; name another file", out);
    if (stat(out, &found) != 0) {
        if (errno != ENOENT)
            fail(STATUS_USAGE, "can't look for %s: %s", out, strerror(errno));
        return;
    }
    if (S_ISDIR(found.st_mode))
        fail(STATUS_USAGE, "%s is a folder; name a file", out);
    if (!S_ISREG(found.st_mode))
        fail(STATUS_USAGE, "%s is no regular file; name one, or - for standard output", out);
    if (found.st_size > 0 && !force)
        fail(STATUS_USAGE, "%s is there already; name another file, or replace it with --force",
             out);
}

static void write_out(const char *out, bool force, struct bytes image)
{
    char *temporary = file_beside(out), *folder = folder_of(out);
    struct replacement how = {.temporary = temporary, .mode = 0600, .keep = force};
    bool good = is_standard(out)
                    ? file_write(STDOUT_FILENO, "standard output", image.at, image.length)
                    : file_replace(out, &how, image) && folder_sync(folder);

    if (!good)
        fail(file_misnamed() ? STATUS_USAGE : STATUS_FILES, "%s", file_failure());
    free(temporary);
    free(folder);
}

/* ---- the work */

/* How many LBNs are looked at. Of a whole volume whose length is noted these are no more than its
 * image had blocks: what follows isn't given. */
static size_t blocks_asked(const struct asked *asked, const struct restored *restored)
{
    size_t count = (size_t)restored->last - restored->first + 1, bytes, blocks;

    if (!restored->whole ||
        !lengths_find(&asked->store->lengths, asked->volume, asked->number, &bytes))
        return count;
    blocks = (bytes + ASPEN_BLOCK_SIZE - 1) / ASPEN_BLOCK_SIZE;
    return blocks < count ? blocks : count;
}

/* Restores so many blocks to their place in the image, which is `index` blocks from its start. */
static uint16_t restore_run(const struct asked *asked, struct restored *restored, size_t index,
                            size_t length)
{
    const struct store *store = asked->store;

    return aspen_restore(store->book.at, store->book.length, store->pool.at, store->pool.length,
                         asked->volume, asked->number, (uint16_t)(restored->first + index),
                         (uint16_t)length, restored->image.at + aspen_run_size(index),
                         restored->image.length - aspen_run_size(index));
}

/* An image of which the backup lacks blocks: its runs one by one, with zeros in between. Gives
 * where each block stands in the pool. */
static struct bytes restore_runs(const struct asked *asked, struct restored *restored)
{
    size_t count = restored->found.length, end;
    struct bytes labels = bytes_copy(asked->store->pool);
    struct bytes places = runs_places(asked, labels, (uint16_t)count, false);

    for (size_t i = 0; i < count; i = end + 1) {
        uint16_t number = ASPEN_OK;

        end = i;
        while (end < count && view_cell(places, (uint16_t)end) != ASPEN_UNMAPPED_PBN)
            end++;
        if (end > i)
            number = restore_run(asked, restored, i, end - i);
        if (number != ASPEN_OK)
            refuse(number, asked);
    }
    bytes_free(&labels);
    return places;
}

/* Each block that was restored is compared with the fingerprint of its place. */
static void check_prints(struct bytes book, struct restored *restored, struct bytes places)
{
    struct bytes blocks = view_blocks(book);

    for (size_t i = 0; i < restored->found.length; i++) {
        uint16_t place = view_cell(places, (uint16_t)i);

        if (i % PROGRESS_STEP == 0)
            progress("restoring", i, restored->found.length);
        if (place == ASPEN_UNMAPPED_PBN)
            continue;
        restored->found.at[i] =
            print_fits(restored->image.at + aspen_run_size(i), view_print(blocks, place))
                ? FOUND_FITTING
                : FOUND_DAMAGED;
        restored->sent = i + 1;
    }
    progress_end();
    bytes_free(&blocks);
}

/* An image that is whole: where its blocks stand. The pool has been read from, so its memory is
 * taken for the labels. */
static struct bytes whole_places(struct store *store, const struct asked *asked, uint16_t length)
{
    struct bytes labels = store_take_pool(store);
    struct bytes places = runs_places(asked, labels, length, true);

    bytes_free(&labels);
    return places;
}

/* All blocks at once if the backup has them: one check of the book for their bytes, and one for
 * their places. */
static void collect_blocks(struct store *store, struct asked *asked, struct restored *restored)
{
    size_t count = blocks_asked(asked, restored);
    uint16_t length = count < UINT16_MAX ? (uint16_t)count : UINT16_MAX, number;
    struct bytes places;

    restored->image = bytes_new(aspen_run_size(count));
    restored->found = bytes_new(count);
    asked->lbn = restored->first;
    number = restore_run(asked, restored, 0, length);
    if (number != ASPEN_OK && number != ASPEN_UNMAPPED)
        refuse(number, asked);
    places =
        number == ASPEN_OK ? whole_places(store, asked, length) : restore_runs(asked, restored);
    check_prints(store->book, restored, places);
    bytes_free(&places);
}

/* Cuts the volume to the image that was backed up: to the length that is noted, or where none is,
 * after the last block that was sent. */
static void cut_to_length(const struct asked *asked, struct restored *restored)
{
    size_t bytes = ASPEN_BLOCK_SIZE * restored->sent, count;

    if (restored->whole) {
        lengths_find(&asked->store->lengths, asked->volume, asked->number, &bytes);
        if (bytes < restored->image.length)
            restored->image.length = bytes;
        count = (restored->image.length + ASPEN_BLOCK_SIZE - 1) / ASPEN_BLOCK_SIZE;
        restored->found.length = count;
    }
    for (size_t i = 0; i < restored->found.length; i++) {
        restored->mapped += restored->found.at[i] != FOUND_NONE;
        restored->damaged += restored->found.at[i] == FOUND_DAMAGED;
    }
}

static void show_json(const struct asked *asked, const struct restored *restored, const char *out)
{
    json_start();
    json_number("volume", asked->volume);
    json_number("number", asked->number);
    json_string("out", out);
    json_number("bytes", (long)restored->image.length);
    json_number("blocks", (long)restored->found.length);
    json_number("mapped", restored->mapped);
    json_open("damaged", '[');
    for (size_t i = 0; i < restored->found.length; i++)
        if (restored->found.at[i] == FOUND_DAMAGED)
            json_number(NULL, (long)(restored->first + i));
    json_close(']');
    notes_to_json();
    json_send();
}

/* On standard error where the volume itself is on standard output. */
static void show_line(const char *out, char *line)
{
    if (is_standard(out))
        fprintf(stderr, "%s\n", line);
    else
        say("%s", line);
    free(line);
}

static void show(const struct asked *asked, const struct restored *restored, const char *out)
{
    if (messages_json()) {
        show_json(asked, restored, out);
        return;
    }
    show_line(out,
              text_of("restored backup %u of volume %u to %s: %zu bytes, %zu blocks", asked->number,
                      asked->volume, out, restored->image.length, restored->found.length));
    for (size_t i = 0; i < restored->found.length; i++)
        if (restored->found.at[i] == FOUND_DAMAGED)
            show_line(out, text_of("LBN %zu is damaged: its bytes don't fit their fingerprint",
                                   restored->first + i));
}

int run_restore(const struct request *request)
{
    const char *out = out_word(request);
    bool force = request->options[OPTION_FORCE] != NULL;
    struct store store;
    struct asked asked = {.store = &store, .volume = read_number("VOLUME", request->words[1])};
    struct restored restored = {.whole = true};
    int status;

    check_out(out, force);
    if (request->options[OPTION_LBNS] != NULL)
        read_lbns(&restored, request->options[OPTION_LBNS]);
    open_to_read(&store, request);
    store_load_pool(&store);
    choose_backup(&asked, request);
    if (restored.whole)
        restored.last = (uint16_t)(view_figures(store.book).cells - 1);
    collect_blocks(&store, &asked, &restored);
    cut_to_length(&asked, &restored);
    status = status_of(&store, restored.damaged == 0 ? STATUS_DONE : STATUS_UNSOUND);
    store_close(&store);
    write_out(out, force, restored.image);
    show(&asked, &restored, out);
    bytes_free(&restored.image);
    bytes_free(&restored.found);
    return status;
}
