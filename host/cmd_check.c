/* The commands that look the store over: audit, tally, scrub; and book, for other programs. */
#include "answer.h"
#include "commands.h"
#include "healing.h"
#include "json.h"
#include "messages.h"
#include "opening.h"
#include "prints.h"
#include "progress.h"
#include "refusals.h"
#include "view.h"

#include <aspen.h>
#include <stdlib.h>

int run_audit(const struct request *request)
{
    struct store store;
    int status;

    open_to_look(&store, request);
    status = status_of(&store, STATUS_DONE);
    if (messages_json()) {
        json_start();
        json_bool("sound", store.fault == NULL);
        if (store.fault != NULL)
            json_string("fault", store.fault);
        notes_to_json();
        json_send();
    } else if (store.fault == NULL) {
        say("sound: maps, counts and days agree with the journal");
    } else {
        say("unsound: %s; put back a copy of the store", store.fault);
    }
    store_close(&store);
    return status;
}

/* A number of the page, which is that of the program tally. */
static void show_count(const char *name, long count)
{
    if (messages_json())
        json_number(name, count);
    else
        say("%s %ld", name, count);
}

int run_tally(const struct request *request)
{
    struct store store;
    uint16_t number, blocks = 0, held = 0, waiting = 0;
    uint32_t references = 0;
    int status;

    open_to_read(&store, request);
    number = aspen_count(store.book.at, store.book.length, &blocks, &held, &waiting, &references);
    if (number != ASPEN_OK)
        refuse_store(&store, number);
    if (messages_json())
        json_start();
    show_count("blocks", blocks);
    show_count("held", held);
    show_count("free", blocks - held);
    show_count("waiting", waiting);
    show_count("references", references);
    if (messages_json()) {
        notes_to_json();
        json_send();
    }
    status = status_of(&store, STATUS_DONE);
    store_close(&store);
    return status;
}

int run_book(const struct request *request)
{
    struct store store;
    int status;

    open_to_read(&store, request);
    if (messages_json()) {
        json_start();
        json_hex("book", store.book.at, store.book.length);
        notes_to_json();
        json_send();
    } else {
        answer_add(store.book.at, store.book.length);
    }
    status = status_of(&store, STATUS_DONE);
    store_close(&store);
    return status;
}

/* ---- scrub */

struct scrubbed {
    struct bytes cells[ASPEN_VOLUMES]; /* the maps, of no cells where a volume isn't enrolled */
    unsigned held, damaged;
};

static void load_maps(const struct store *store, struct scrubbed *scrubbed)
{
    for (uint16_t volume = 0; volume < ASPEN_VOLUMES; volume++)
        scrubbed->cells[volume] = view_volume(store->book, volume).enrolled
                                      ? view_cells(store->book, volume)
                                      : bytes_new(0);
}

static void free_maps(struct scrubbed *scrubbed)
{
    for (uint16_t volume = 0; volume < ASPEN_VOLUMES; volume++)
        bytes_free(&scrubbed->cells[volume]);
}

/* Adds to a text where the volumes have this block now. */
static char *places_of(const struct scrubbed *scrubbed, uint16_t pbn)
{
    char *text = copy_text("");

    for (uint16_t volume = 0; volume < ASPEN_VOLUMES; volume++)
        for (uint16_t lbn = 0; lbn < scrubbed->cells[volume].length / ASPEN_CELL_ROW; lbn++) {
            char *longer;

            if (view_cell(scrubbed->cells[volume], lbn) != pbn)
                continue;
            longer =
                text_of("%s%svolume %u LBN %u", text, text[0] != '\0' ? ", " : "", volume, lbn);
            free(text);
            text = longer;
        }
    return text;
}

static void show_places_json(const struct scrubbed *scrubbed, uint16_t pbn)
{
    json_open(NULL, '{');
    json_number("block", pbn);
    json_open("now_at", '[');
    for (uint16_t volume = 0; volume < ASPEN_VOLUMES; volume++)
        for (uint16_t lbn = 0; lbn < scrubbed->cells[volume].length / ASPEN_CELL_ROW; lbn++)
            if (view_cell(scrubbed->cells[volume], lbn) == pbn) {
                json_open(NULL, '{');
                json_number("volume", volume);
                json_number("lbn", lbn);
                json_close('}');
            }
    json_close(']');
    json_close('}');
}

static void show_damaged(const struct scrubbed *scrubbed, uint16_t pbn)
{
    char *places;

    if (messages_json()) {
        show_places_json(scrubbed, pbn);
        return;
    }
    places = places_of(scrubbed, pbn);
    say("block %u is damaged: %s", pbn, places[0] != '\0' ? places : "in older backups only");
    free(places);
}

static void scrub_blocks(const struct store *store, struct scrubbed *scrubbed)
{
    struct bytes rows = view_blocks(store->book);
    uint16_t blocks = (uint16_t)(rows.length / ASPEN_BLOCK_ROW);

    load_maps(store, scrubbed);
    for (uint16_t p = 0; p < blocks; p++) {
        progress("hashing", p, blocks);
        if (!view_held(rows, p))
            continue;
        scrubbed->held++;
        if (print_fits(store->pool.at + aspen_pool_size(p), view_print(rows, p)))
            continue;
        scrubbed->damaged++;
        show_damaged(scrubbed, p);
    }
    progress_end();
    free_maps(scrubbed);
    bytes_free(&rows);
}

/* Brings back what the images have; answers how many blocks. */
static uint16_t heal_from(struct store *store, const struct request *request,
                          const struct image *images, size_t count)
{
    uint16_t healed = 0;

    for (size_t i = 0; i < count; i++) {
        struct bytes marks = bytes_new(view_figures(store->book).blocks);
        uint16_t found = heal_pool(store, &images[i], marks);

        /* Also if there is none: one that was cut off may have written them and not synced. */
        store_write_blocks(store, marks);
        note_healed(marks, request->words[i + 1]);
        healed = (uint16_t)(healed + found);
        bytes_free(&marks);
    }
    return healed;
}

static void show_scrub(const struct scrubbed *scrubbed, uint16_t healed)
{
    if (messages_json()) {
        json_close(']');
        json_number("held", scrubbed->held);
        json_number("healed", healed);
        notes_to_json();
        json_send();
    } else {
        say("%u held blocks hashed, %u damaged", scrubbed->held, scrubbed->damaged);
    }
}

/* The images that --heal names, read before the store is opened. */
static struct image *load_images(const struct request *request, size_t *count)
{
    struct image *images = NULL;

    *count = 0;
    while (request->words[*count + 1] != NULL) {
        images = resized(images, (*count + 1) * sizeof *images);
        image_load(&images[*count], request->words[*count + 1]);
        ++*count;
    }
    if ((*count > 0) != (request->options[OPTION_HEAL] != NULL))
        fail(STATUS_USAGE, "%s; see aspenbox scrub --help",
             *count > 0 ? "images are for --heal" : "--heal wants images to heal from");
    return images;
}

int run_scrub(const struct request *request)
{
    struct store store;
    struct scrubbed scrubbed = {0};
    uint16_t healed = 0;
    size_t count;
    struct image *images = load_images(request, &count);
    int status;

    (count > 0 ? open_to_write : open_to_read)(&store, request);
    store_load_pool(&store);
    if (store.pool.length != aspen_pool_size(view_figures(store.book).blocks))
        refuse_store(&store, ASPEN_BAD_POOL);
    if (count > 0)
        healed = heal_from(&store, request, images, count);
    if (messages_json()) {
        json_start();
        json_open("damaged", '[');
    }
    scrub_blocks(&store, &scrubbed);
    show_scrub(&scrubbed, healed);
    status = status_of(&store, scrubbed.damaged == 0 ? STATUS_DONE : STATUS_UNSOUND);
    for (size_t i = 0; i < count; i++)
        image_free(&images[i]);
    free(images);
    store_close(&store);
    return status;
}
