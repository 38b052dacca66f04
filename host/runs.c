#include "runs.h"

#include "view.h"

#include <aspen.h>

struct search {
    const struct asked *asked;
    struct bytes labels;  /* the pool whose blocks have their own numbers */
    struct bytes run;     /* what is restored from it */
    struct bytes current; /* the volume's current map */
    bool trusted;         /* whether that says where no backup has a block */
    struct bytes places;  /* what was found: a row for each LBN */
    size_t length;
};

static void put_number(uint8_t *at, uint16_t number)
{
    at[0] = (uint8_t)number;
    at[1] = (uint8_t)(number >> 8);
}

static void put_labels(struct bytes pool)
{
    for (size_t p = 0; aspen_pool_size(p) < pool.length; p++)
        put_number(pool.at + aspen_pool_size(p), (uint16_t)p);
}

/* Whether the backup has a block at each of so many LBNs from this one on; then they are noted. */
static bool has_run(struct search *search, size_t index, size_t length)
{
    const struct asked *asked = search->asked;
    struct bytes book = asked->store->book;
    uint16_t number =
        aspen_restore(book.at, book.length, search->labels.at, search->labels.length, asked->volume,
                      asked->number, (uint16_t)(asked->lbn + index), (uint16_t)length,
                      search->run.at, search->run.length);

    if (number == ASPEN_UNMAPPED)
        return false;
    if (number != ASPEN_OK)
        refuse(number, asked);
    for (size_t i = 0; i < length; i++)
        put_number(search->places.at + aspen_cells_size(index + i),
                   aspen_u16(search->run.at + aspen_run_size(i)));
    return true;
}

/* How many of `most` LBNs have a block, from this one on, which has, up to the first that hasn't.
 * All of them are tried first; then twice as many each time, and at last the numbers in between are
 * halved, so that short runs take few calls. */
static size_t mapped_from(struct search *search, size_t index, size_t most)
{
    size_t known = 1, over = most;

    if (most == 1 || has_run(search, index, most))
        return most;
    while (2 * known < over && has_run(search, index, 2 * known))
        known *= 2;
    if (2 * known < over)
        over = 2 * known;
    while (over - known > 1) {
        size_t middle = known + (over - known) / 2;

        if (has_run(search, index, middle))
            known = middle;
        else
            over = middle;
    }
    return known;
}

/* In a book that audit says yes to, a cell becomes unmapped again only when its volume is retired:
 * what the current map of any other lacks, no backup has. Of a book at fault nothing is taken on
 * trust. */
static bool is_trusted(const struct asked *asked)
{
    return asked->store->fault == NULL && !view_volume(asked->store->book, asked->volume).retired;
}

/* Whether the backup may have a block at this LBN. */
static bool may_have(const struct search *search, size_t index)
{
    return !search->trusted ||
           view_cell(search->current, (uint16_t)(search->asked->lbn + index)) != ASPEN_UNMAPPED_PBN;
}

/* How many LBNs from this one on may have a block. */
static size_t row_from(const struct search *search, size_t index)
{
    size_t end = index;

    while (end < search->length && may_have(search, end))
        end++;
    return end - index;
}

/* Each step goes past a run and the LBN after it, which has no block: else the run would be longer.
 * An LBN without a block takes one call, a run of n blocks some 2 log n: fewer than two an LBN. */
static void find_runs(struct search *search)
{
    for (size_t index = 0; index < search->length; index++) {
        size_t row = row_from(search, index);

        if (row > 0 && has_run(search, index, 1))
            index += mapped_from(search, index, row);
    }
}

struct bytes runs_places(const struct asked *asked, struct bytes labels, uint16_t length, bool all)
{
    struct bytes book = asked->store->book;
    struct search search = {.asked = asked, .labels = labels, .length = length};

    put_labels(labels);
    search.run = bytes_new(aspen_run_size(length));
    search.current = view_cells(book, asked->volume);
    search.trusted = is_trusted(asked);
    search.places = bytes_new(aspen_cells_size(length));
    for (size_t i = 0; i < length; i++)
        put_number(search.places.at + aspen_cells_size(i), ASPEN_UNMAPPED_PBN);
    if (!all || !has_run(&search, 0, length))
        find_runs(&search);
    bytes_free(&search.run);
    bytes_free(&search.current);
    return search.places;
}
