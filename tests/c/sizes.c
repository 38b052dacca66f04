/* The header's sizes and limits, with the figures of documents 01 and 02. */
#include <aspen.h>

#include "check.h"
#include "tests.h"

/* Sizes are constant expressions. */
enum {
    SMALLEST_BOOK = aspen_book_size(1, 1, 1, 1),
    SMALLEST_NARROW = aspen_book_size_of(1, 1, 1, 1, 1),
    LARGEST_LIST = aspen_list_bound(ASPEN_MAX_LBNS),
    LARGEST_ROWS = aspen_blocks_size(ASPEN_MAX_BLOCKS),
    LARGEST_RUN = aspen_runs_bound(1, ASPEN_MAX_LBNS)
};

typedef uint8_t list_of_two_runs[aspen_list_bound(ASPEN_MAX_RUN + 1)];

/* Books in all layouts; no argument is used twice. */
static void test_books(void)
{
    uint16_t layout = 1, n = ASPEN_MAX_BLOCKS, l = ASPEN_MAX_LBNS;
    uint16_t s = ASPEN_MAX_SLOTS, j = ASPEN_MAX_RECORDS;

    check_about("sizes of books");
    CHECK_EQ(ASPEN_LAYOUT, 3);
    CHECK_EQ(SMALLEST_BOOK, 87);
    CHECK_EQ(aspen_book_size(4, 4, 6, 8), 280);
    CHECK_EQ(aspen_book_size(1 + 3, 2 + 2, 3 + 3, 4 + 4), 280);
    CHECK_EQ(aspen_book_size(n, l, s, j), 208932);
    CHECK_EQ(SMALLEST_NARROW, 86);
    CHECK_EQ(aspen_book_size_of(1, 4, 4, 6, 8), 276);
    CHECK_EQ(aspen_book_size_of(2, 4, 4, 6, 8), 280);
    CHECK_EQ(aspen_book_size_of(3, 4, 4, 6, 8), 280);
    CHECK_EQ(aspen_book_size_of(2 - 1, n, l, s, j), 204836);
    CHECK_EQ(aspen_book_size_of(layout++, n++, l++, s++, j++), 204836);
    CHECK_EQ(layout, 2);
    CHECK_EQ(n + l + s + j, 4097 + 1025 + 1025 + 16385);
    CHECK_EQ(aspen_book_size_of(layout, 4096, 1024, 1024, 16384), 208932);
    n = 4;
    CHECK_EQ(aspen_book_size(n++, 4, 6, 8), 280);
    CHECK_EQ(n, 5);
}

/* The longest list of so many blocks: all of them, in runs of 64 and a rest. */
static void test_bounds(void)
{
    const uint16_t blocks = ASPEN_MAX_LBNS;

    check_about("bounds of lists");
    CHECK_EQ(ASPEN_MAX_RUN, 64);
    CHECK_EQ(aspen_list_bound(1), 2 + 4 + 528);
    CHECK_EQ(aspen_list_bound(63), 2 + 4 + 63 * 528);
    CHECK_EQ(aspen_list_bound(64), 2 + 4 + 64 * 528);
    CHECK_EQ(aspen_list_bound(65), 2 + 2 * 4 + 65 * 528);
    CHECK_EQ(aspen_list_bound(128), 2 + 2 * 4 + 128 * 528);
    CHECK_EQ(aspen_list_bound(129), 2 + 3 * 4 + 129 * 528);
    CHECK_EQ(aspen_list_bound(blocks), 540738);
    CHECK_EQ(LARGEST_LIST, 2 + 16 * 4 + 1024 * 528);
    CHECK_EQ(sizeof(list_of_two_runs), aspen_list_size(2, 65));
    CHECK_EQ(aspen_list_bound(60 + 5), aspen_list_bound(65));
}

static void test_rows(void)
{
    const uint16_t cells = ASPEN_MAX_LBNS, blocks = 65535;

    check_about("rows");
    CHECK_EQ(ASPEN_BACKUP_ROW, 4 * 2);
    CHECK_EQ(ASPEN_CELL_ROW, 2);
    CHECK_EQ(ASPEN_BLOCK_ROW, 3 * 2 + ASPEN_PRINT_SIZE);
    CHECK_EQ(aspen_backups_size(0), 0);
    CHECK_EQ(aspen_backups_size(1 + 2), 24);
    CHECK_EQ(aspen_backups_size(ASPEN_MAX_SLOTS), 8192);
    CHECK_EQ(aspen_cells_size(cells), 2048);
    CHECK_EQ(aspen_blocks_size(4), 88);
    CHECK_EQ(aspen_answers_bound(0, 0, 0), 0);
    CHECK_EQ(aspen_answers_bound(2, 3, 5), 14 + 1539 + 15);
    CHECK_EQ(aspen_run_size(0), 0);
    CHECK_EQ(aspen_run_size(1 + 2), 1536);
    CHECK_EQ(aspen_run_size(blocks), 512 * 65535);
    CHECK_EQ(aspen_runs_bound(0, 0), 0);
    CHECK_EQ(aspen_runs_bound(2, 3 + 4), 6 + 7 * 512);
    CHECK_EQ(LARGEST_RUN, 524288 + 3);
    CHECK_EQ(LARGEST_ROWS, 90112);
    CHECK_EQ(ASPEN_UNMAPPED_PBN, 65535);
    CHECK_EQ(ASPEN_NO_END, 65535);
}

void test_sizes(void)
{
    const uint16_t blocks = ASPEN_MAX_BLOCKS;

    test_books();
    check_about("sizes");
    CHECK_EQ(aspen_pool_size(4), 2048);
    CHECK_EQ(aspen_pool_size(blocks), 2097152);
    CHECK_EQ(aspen_list_size(0, 0), 2);
    CHECK_EQ(aspen_list_size(2, 3), 2 + 8 + 3 * 528);
    CHECK_EQ(ASPEN_MAX_RETENTION, 5000);
    CHECK_EQ(ASPEN_MAX_DAY, 60000);
    CHECK_EQ(ASPEN_VOLUMES, 8);
    test_bounds();
    test_rows();
}
