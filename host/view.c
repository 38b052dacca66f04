#include "view.h"

#include "messages.h"

/* The store was opened, so that its book is in form, and what is asked for is there. */
static void expect_done(uint16_t number)
{
    if (number != ASPEN_OK)
        fail_refused(STATUS_STORE, number, "the library doesn't show the book");
}

struct figures view_figures(struct bytes book)
{
    struct figures f = {0};

    expect_done(aspen_sizes(book.at, book.length, &f.blocks, &f.cells, &f.slots, &f.records));
    expect_done(aspen_used(book.at, book.length, &f.slots_used, &f.records_used, &f.day));
    return f;
}

struct volume view_volume(struct bytes book, uint16_t volume)
{
    struct volume v = {0};
    uint16_t number =
        aspen_volume(book.at, book.length, volume, &v.keep, &v.backups, &v.retired_on);

    if (number != ASPEN_BAD_VOLUME)
        expect_done(number);
    v.enrolled = number == ASPEN_OK;
    v.retired = v.enrolled && v.retired_on != ASPEN_NO_END;
    return v;
}

struct bytes view_backups(struct bytes book, uint16_t volume)
{
    size_t count = view_volume(book, volume).backups;
    struct bytes rows = bytes_new(aspen_backups_size(count));
    uint16_t told = 0;

    expect_done(aspen_backups(book.at, book.length, volume, rows.at, rows.length, &told));
    return rows;
}

struct backup view_backup(struct bytes rows, uint16_t number)
{
    const uint8_t *row = rows.at + (size_t)ASPEN_BACKUP_ROW * (number - 1U);
    struct backup backup = {
        .day = aspen_u16(row),
        .changes = aspen_u16(row + 2),
        .until = aspen_u16(row + 4),
        .kept = aspen_u16(row + 6) == 1,
    };

    return backup;
}

struct bytes view_cells(struct bytes book, uint16_t volume)
{
    struct bytes rows = bytes_new(aspen_cells_size(view_figures(book).cells));

    expect_done(aspen_cells(book.at, book.length, volume, rows.at, rows.length));
    return rows;
}

uint16_t view_cell(struct bytes rows, uint16_t lbn)
{
    return aspen_u16(rows.at + (size_t)ASPEN_CELL_ROW * lbn);
}

struct bytes view_blocks(struct bytes book)
{
    struct bytes rows = bytes_new(aspen_blocks_size(view_figures(book).blocks));

    expect_done(aspen_blocks(book.at, book.length, rows.at, rows.length));
    return rows;
}

bool view_held(struct bytes rows, uint16_t pbn)
{
    return aspen_u16(rows.at + (size_t)ASPEN_BLOCK_ROW * pbn) == 1;
}

const uint8_t *view_print(struct bytes rows, uint16_t pbn)
{
    return rows.at + (size_t)ASPEN_BLOCK_ROW * pbn + (ASPEN_BLOCK_ROW - ASPEN_PRINT_SIZE);
}
