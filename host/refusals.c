#include "refusals.h"

#include "dates.h"
#include "messages.h"
#include "view.h"

#include <aspen.h>

/* Whether the book has a layout of later versions. Only a seal tells that from damage; books
 * without one have layout 1. */
static bool is_later(const struct store *store)
{
    return store->layout > ASPEN_LAYOUT && store->sealed && store->fault == NULL;
}

void refuse_layout(const struct store *store)
{
    if (store->fault != NULL)
        fail(STATUS_STORE,
             "%s is damaged: %s; nothing was written; put back a copy of the store; its layout is "
             "%u, and an aspenbox for that still restores what it can",
             store->book_path, store->fault, store->layout);
    fail_refused(STATUS_STORE, ASPEN_BAD_LAYOUT,
                 "%s has layout %u and this aspenbox takes layout %d; nothing was written; run "
                 "aspenbox upgrade %s first",
                 store->book_path, store->layout, ASPEN_LAYOUT, store->folder);
}

void refuse_store(const struct store *store, uint16_t number)
{
    const char *folder = store->folder;

    switch (number) {
    case ASPEN_BAD_LAYOUT:
        if (is_later(store))
            fail_refused(STATUS_STORE, number,
                         "%s/book has layout %u and this aspenbox takes none above %d; nothing was "
                         "written; use the newer aspenbox that made it",
                         folder, store->layout, ASPEN_LAYOUT);
        fail_refused(STATUS_STORE, number,
                     "%s/book is no book: its layout number, length or sizes are wrong; nothing "
                     "was written; put back a copy of the store",
                     folder);
    case ASPEN_BAD_POOL:
        fail_refused(STATUS_STORE, number,
                     "%s/pool has %zu bytes where the book says %zu; nothing was written; put back "
                     "a copy of the store",
                     folder, store->pool.length, aspen_pool_size(view_figures(store->book).blocks));
    case ASPEN_BAD_FORM:
        fail_refused(STATUS_STORE, number,
                     "%s/book is damaged; nothing was written; put back a copy of the store",
                     folder);
    default:
        fail_refused(STATUS_STORE, number, "%s", aspen_text(number));
    }
}

void refuse_sizes(void)
{
    fail_refused(STATUS_REFUSED, ASPEN_BAD_LAYOUT,
                 "there is no store of these sizes; give --blocks 1 to %d, --cells 1 to %d, "
                 "--slots 1 to %d, --journal 1 to %d",
                 ASPEN_MAX_BLOCKS, ASPEN_MAX_LBNS, ASPEN_MAX_SLOTS, ASPEN_MAX_RECORDS);
}

static _Noreturn void refuse_volume(const struct store *store, uint16_t volume)
{
    struct volume found = view_volume(store->book, volume);
    char date[DATE_TEXT];

    if (volume >= ASPEN_VOLUMES)
        fail_refused(STATUS_REFUSED, ASPEN_BAD_VOLUME, "there is no volume %u; volumes are 0 to %d",
                     volume, ASPEN_VOLUMES - 1);
    if (found.retired)
        fail_refused(STATUS_REFUSED, ASPEN_BAD_VOLUME,
                     "volume %u was retired on %s and takes no backup any more; another aid needs "
                     "another volume",
                     volume, store_date(store, found.retired_on, date));
    fail_refused(STATUS_REFUSED, ASPEN_BAD_VOLUME,
                 "volume %u isn't enrolled; run aspenbox enrol %s %u --keep DAYS first", volume,
                 store->folder, volume);
}

/* 5 of enrol for a volume that there is. */
static _Noreturn void refuse_enrolled(const struct store *store, uint16_t volume)
{
    struct volume found = view_volume(store->book, volume);
    char date[DATE_TEXT];

    if (found.retired)
        fail_refused(STATUS_REFUSED, ASPEN_BAD_VOLUME,
                     "volume %u was retired on %s and can't be enrolled again; take another",
                     volume, store_date(store, found.retired_on, date));
    fail_refused(STATUS_REFUSED, ASPEN_BAD_VOLUME,
                 "volume %u is enrolled already and keeps its backups %u days; take another",
                 volume, found.keep);
}

void refuse_enrol(const struct store *store, uint16_t number, uint16_t volume, uint16_t keep)
{
    if (number == ASPEN_BAD_RETENTION)
        fail_refused(STATUS_REFUSED, number, "backups can't be kept %u days; give --keep 1 to %d",
                     keep, ASPEN_MAX_RETENTION);
    if (number == ASPEN_BAD_VOLUME && volume < ASPEN_VOLUMES)
        refuse_enrolled(store, volume);
    if (number == ASPEN_BAD_VOLUME)
        refuse_volume(store, volume);
    refuse_store(store, number);
}

static _Noreturn void refuse_day(const struct asked *asked)
{
    const struct store *store = asked->store;
    uint16_t last = view_figures(store->book).day;
    char asked_date[DATE_TEXT], last_date[DATE_TEXT];

    store_date(store, asked->day, asked_date);
    if (asked->day > ASPEN_MAX_DAY)
        fail_refused(STATUS_REFUSED, ASPEN_BAD_DAY,
                     "day %u (%s) is past the last that a book can have, %d (%s)", asked->day,
                     asked_date, ASPEN_MAX_DAY, store_date(store, ASPEN_MAX_DAY, last_date));
    if (asked->day < last)
        fail_refused(STATUS_REFUSED, ASPEN_BAD_DAY,
                     "%s is before the box's day, %s; look at the clock, or give a later day",
                     asked_date, store_date(store, last, last_date));
    fail_refused(STATUS_REFUSED, ASPEN_BAD_DAY,
                 "volume %u has a backup of %s already; %s it %son a later day", asked->volume,
                 asked_date, asked->retiring ? "retire" : "back", asked->retiring ? "" : "up ");
}

/* Nothing frees any room, and a second store is no help to a volume of this one. */
static _Noreturn void refuse_room_to_retire(uint16_t number, const struct asked *asked)
{
    struct figures figures = view_figures(asked->store->book);

    if (number == ASPEN_NO_SLOT)
        fail_refused(STATUS_REFUSED, number,
                     "all %u backup slots are used, and retiring volume %u takes one; leave it as "
                     "it is: its newest backup stays",
                     figures.slots, asked->volume);
    fail_refused(STATUS_REFUSED, number,
                 "the journal has %d of its %u places left, and retiring volume %u takes %u, one "
                 "for each of its blocks; leave it as it is: its newest backup stays",
                 figures.records - figures.records_used, figures.records, asked->volume,
                 asked->changes);
}

static _Noreturn void refuse_room(uint16_t number, const struct asked *asked)
{
    struct figures figures = view_figures(asked->store->book);
    bool more = figures.slots < ASPEN_MAX_SLOTS, longer = figures.records < ASPEN_MAX_RECORDS;

    if (asked->retiring)
        refuse_room_to_retire(number, asked);
    if (number == ASPEN_NO_SLOT)
        fail_refused(STATUS_REFUSED, number, "all %u backup slots are used; format %s",
                     figures.slots, more ? "a store with more slots" : "a second store");
    fail_refused(STATUS_REFUSED, number,
                 "the journal has %d of its %u places left and this backup needs %u; format %s",
                 figures.records - figures.records_used, figures.records, asked->changes,
                 longer ? "a store with a larger journal" : "a second store");
}

static _Noreturn void refuse_block(const struct asked *asked)
{
    bool larger = view_figures(asked->store->book).blocks < ASPEN_MAX_BLOCKS;

    fail_refused(STATUS_REFUSED, ASPEN_NO_BLOCK, "no free block; collect, or %s",
                 larger ? "enlarge the pool: format a store with more blocks"
                        : "format a second store");
}

static _Noreturn void refuse_change(uint16_t number, const struct asked *asked)
{
    const char *folder = asked->store->folder;

    switch (number) {
    case ASPEN_OTHER_BYTES:
        fail_refused(STATUS_REFUSED, number,
                     "a held block has the fingerprint of a new one but other bytes; run aspenbox "
                     "scrub %s, and put back a copy of the pool if it finds damage",
                     folder);
    case ASPEN_NO_BLOCK:
        refuse_block(asked);
    case ASPEN_COUNT_ZERO:
        fail_refused(STATUS_STORE, number,
                     "the count of a replaced block is 0, so the book is damaged; run aspenbox "
                     "audit %s, and put back a copy of the store",
                     folder);
    case ASPEN_COUNT_FULL:
        fail_refused(STATUS_STORE, number,
                     "the count of a block is 65,535, so the book is damaged; run aspenbox audit "
                     "%s, and put back a copy of the store",
                     folder);
    case ASPEN_BAD_LIST:
        fail_refused(STATUS_REFUSED, number, "the box doesn't take this change list");
    default: /* numbers of calls that the host doesn't make */
        fail_refused(STATUS_REFUSED, number, "%s", aspen_text(number));
    }
}

static _Noreturn void refuse_kept(const struct asked *asked)
{
    struct bytes rows = view_backups(asked->store->book, asked->volume);
    uint16_t until = view_backup(rows, asked->number).until;
    char date[DATE_TEXT];

    bytes_free(&rows);
    fail_refused(
        STATUS_REFUSED, ASPEN_NOT_KEPT,
        "backup %u of volume %u was kept until %s; aspenbox list %s %u shows what still is",
        asked->number, asked->volume, store_date(asked->store, until, date), asked->store->folder,
        asked->volume);
}

/* Of a run from this LBN on the first that there isn't: it or the one after the last. */
static _Noreturn void refuse_lbn(uint16_t number, const struct asked *asked)
{
    unsigned cells = view_figures(asked->store->book).cells;

    fail_refused(STATUS_REFUSED, number, "there is no LBN %u; LBNs are 0 to %u",
                 asked->lbn < cells ? cells : asked->lbn, cells - 1);
}

static _Noreturn void refuse_read(uint16_t number, const struct asked *asked)
{
    struct bytes book = asked->store->book;
    struct volume found = view_volume(book, asked->volume);
    unsigned volume = asked->volume;

    if (number == ASPEN_NO_BACKUP && found.backups == 0)
        fail_refused(STATUS_REFUSED, number, "volume %u %s", volume,
                     found.retired ? "was retired without a backup" : "has no backup yet");
    if (number == ASPEN_NO_BACKUP)
        fail_refused(STATUS_REFUSED, number, "volume %u has backups 1 to %u and none of number %u",
                     volume, found.backups, asked->number);
    if (number == ASPEN_NOT_KEPT)
        refuse_kept(asked);
    if (number == ASPEN_BAD_LBN || number == ASPEN_BAD_RUN)
        refuse_lbn(number, asked);
    fail_refused(STATUS_REFUSED, number, "backup %u of volume %u has no block at LBN %u",
                 asked->number, volume, asked->lbn);
}

void refuse(uint16_t number, const struct asked *asked)
{
    if (number <= ASPEN_SHORT_SPARE)
        refuse_store(asked->store, number);
    if (number == ASPEN_BAD_VOLUME)
        refuse_volume(asked->store, asked->volume);
    if (number == ASPEN_BAD_DAY)
        refuse_day(asked);
    if (number == ASPEN_NO_SLOT || number == ASPEN_NO_RECORD)
        refuse_room(number, asked);
    if ((number >= ASPEN_NO_BACKUP && number <= ASPEN_UNMAPPED) || number == ASPEN_BAD_RUN)
        refuse_read(number, asked);
    refuse_change(number, asked);
}
