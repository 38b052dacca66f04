/* The command backup: the aid's part, then the box's. */
#include "commands.h"
#include "dates.h"
#include "days.h"
#include "healing.h"
#include "image.h"
#include "json.h"
#include "messages.h"
#include "opening.h"
#include "refusals.h"
#include "view.h"

#include <aspen.h>

struct answer {
    uint16_t number, taken, touched, healed;
};

/* Opens the store for an image, and works out what of it has to be sent. */
static void compare(struct store *store, const struct request *request, struct asked *asked,
                    struct image *image)
{
    struct volume volume;

    open_to_write(store, request);
    store_load_pool(store);
    if (store->pool.length != aspen_pool_size(view_figures(store->book).blocks))
        refuse_store(store, ASPEN_BAD_POOL);
    volume = view_volume(store->book, asked->volume);
    if (!volume.enrolled || volume.retired)
        refuse(ASPEN_BAD_VOLUME, asked);
    asked->day = day_asked(store, request);
    image_fit(image, store);
    image_mark(image, store, asked->volume);
    asked->changes = image->changed;
}

static void call_box(struct store *store, const struct asked *asked, struct bytes list,
                     struct answer *answer)
{
    struct bytes spare = bytes_new(store->book.length);
    uint16_t number =
        aspen_backup(store->book.at, store->book.length, store->pool.at, store->pool.length,
                     spare.at, spare.length, asked->volume, asked->day, list.at, list.length,
                     &answer->number, &answer->taken, &answer->touched);

    if (number != ASPEN_OK)
        refuse(number, asked);
    bytes_free(&spare);
}

/* Hands the image to the box and makes the outcome last: blocks whose bytes are brought back, then
 * those that were taken, then the book. */
static struct answer give(struct store *store, const struct asked *asked, const struct image *image)
{
    struct bytes old = bytes_copy(store->book), list = image_list(image), taken;
    struct bytes damaged = bytes_new(view_figures(store->book).blocks);
    struct answer answer = {.healed = heal_pool(store, image, damaged)};
    struct length length = {.volume = asked->volume, .bytes = (uint32_t)image->length};

    call_box(store, asked, list, &answer);
    if (answer.healed > 0)
        store_write_blocks(store, damaged);
    note_healed(damaged, image->path);
    taken = store_taken(store, old);
    store_write_blocks(store, taken);
    length.number = answer.number;
    lengths_cut(&store->lengths, length.volume, length.number);
    lengths_add(&store->lengths, length);
    store_replace_book(store);
    bytes_free(&old);
    bytes_free(&list);
    bytes_free(&taken);
    bytes_free(&damaged);
    return answer;
}

/* The backup before may have been kept as the newest alone: then it is past its days from now on. */
static void note_ended(const struct asked *asked, uint16_t number)
{
    struct bytes rows = view_backups(asked->store->book, asked->volume);
    struct backup before = {.kept = true};
    char date[DATE_TEXT], until[DATE_TEXT];

    if (number > 1)
        before = view_backup(rows, (uint16_t)(number - 1));
    if (!before.kept)
        note("backup %u, of %s, isn't the newest any more and can't be read: it was kept until %s",
             number - 1U, store_date(asked->store, before.day, date),
             store_date(asked->store, before.until, until));
    bytes_free(&rows);
}

static void show(const struct asked *asked, const struct answer *answer, const struct image *image)
{
    char date[DATE_TEXT];

    store_date(asked->store, asked->day, date);
    if (!messages_json()) {
        say("backup %u of volume %u on %s: %u of %u blocks sent, %u new in the pool",
            answer->number, asked->volume, date, image->changed, image->count, answer->taken);
        return;
    }
    json_start();
    json_number("volume", asked->volume);
    json_number("number", answer->number);
    json_number("day", asked->day);
    json_string("date", date);
    json_number("bytes", (long)image->length);
    json_number("blocks", image->count);
    json_number("sent", image->changed);
    json_number("taken", answer->taken);
    json_number("touched", answer->touched);
    json_number("healed", answer->healed);
    notes_to_json();
    json_send();
}

int run_backup(const struct request *request)
{
    struct store store;
    struct image image;
    struct asked asked = {.store = &store, .volume = read_number("VOLUME", request->words[1])};
    struct answer answer;

    image_load(&image, request->words[2]);
    compare(&store, request, &asked, &image);
    answer = give(&store, &asked, &image);
    note_ended(&asked, answer.number);
    show(&asked, &answer, &image);
    image_free(&image);
    store_close(&store);
    return STATUS_DONE;
}
