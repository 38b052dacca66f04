/* The changes of a backup: the numbers 11 to 14, that a refused list leaves no half, and expiries. */
#include <aspen.h>

#include "books.h"
#include "box.h"
#include "check.h"
#include "tests.h"

#include <string.h>

static struct buffer letters(unsigned lbn, const char *text)
{
    return list_of(lbn, text, text);
}

static void set_count(struct box *box, unsigned pbn, unsigned count)
{
    put_u16(box->book.bytes, case_entry(pbn) + ENTRY_COUNT, count);
}

/* Flips a bit in a block of the pool. */
static void flip(struct box *box, unsigned pbn)
{
    box->pool.bytes[ASPEN_BLOCK_SIZE * pbn + ASPEN_BLOCK_SIZE - 1] ^= 1;
}

/* Backs up volume 0 on day 10, after case d with this count of a block; and what becomes of it. */
static void with_count(unsigned pbn, unsigned count, struct buffer list, uint16_t expected,
                       unsigned then)
{
    struct box box = box_after_d();

    set_count(&box, pbn, count);
    call_backup(&box, 0, 10, list, expected);
    CHECK_EQ(get_u16(box.book.bytes, case_entry(pbn) + ENTRY_COUNT), then);
    box_free(&box);
}

static void test_other_bytes(void)
{
    struct box box = box_after_d();

    check_about("the found block has other bytes");
    flip(&box, 2);
    call_backup(&box, 0, 10, letters(0, "C"), ASPEN_OTHER_BYTES);
    check_about("a block taken earlier in the list");
    call_backup(&box, 0, 10, list_of(0, "XX", "XY"), ASPEN_OTHER_BYTES);
    CHECK_EQ(call_backup(&box, 0, 10, letters(0, "XX"), ASPEN_OK).taken, 1);
    box_free(&box);
}

static void test_no_block(void)
{
    struct box box = box_after_d();

    check_about("one free block for two changes");
    call_backup(&box, 0, 10, letters(2, "XY"), ASPEN_NO_BLOCK);
    CHECK_EQ(call_backup(&box, 0, 10, letters(2, "X"), ASPEN_OK).number, 3);
    check_pool(&box, "ABCX");
    check_about("the cursor goes round");
    CHECK_EQ(get_u16(box.book.bytes, AT_CURSOR), 0);
    box_free(&box);
}

static void test_counts(void)
{
    check_about("the replaced block's count is 0");
    with_count(1, 0, letters(1, "C"), ASPEN_COUNT_ZERO, 0);
    check_about("the found block's count passes one byte");
    with_count(2, 254, letters(1, "C"), ASPEN_OK, 255);
    with_count(2, 255, letters(1, "C"), ASPEN_OK, 256);
    with_count(2, 255, letters(1, "CCC"), ASPEN_OK, 258);
    with_count(2, 511, letters(2, "C"), ASPEN_OK, 512);
    check_about("the replaced block's count falls to one byte");
    with_count(2, 256, letters(0, "B"), ASPEN_OK, 255);
    with_count(2, 512, letters(0, "B"), ASPEN_OK, 511);
    check_about("the found block's count is 65,535");
    with_count(2, 65535, letters(1, "C"), ASPEN_COUNT_FULL, 65535);
    with_count(2, 65535, letters(2, "C"), ASPEN_COUNT_FULL, 65535);
    with_count(2, 65534, letters(1, "C"), ASPEN_OK, 65535);
    with_count(2, 65534, letters(1, "CC"), ASPEN_COUNT_FULL, 65534);
    check_about("the same block again at 65,535: lowered, then raised");
    with_count(2, 65535, letters(0, "C"), ASPEN_OK, 65535);
    with_count(2, 65535, letters(0, "BC"), ASPEN_OK, 65535);
}

/* A page that stands in 300 cells, as blank ones do, and then in 256 and 255. */
static void test_equal_cells(void)
{
    enum { CELLS = 300, PAIRS = 5 };
    struct box box = box_of(2, CELLS, 3, CELLS + 45);
    struct buffer list = buffer_filled(aspen_list_size(PAIRS, CELLS), 'E');
    const uint8_t *entry = box.book.bytes + case_entry(0);
    unsigned i;

    check_about("300 equal cells");
    put_u16(list.bytes, 0, PAIRS);
    for (i = 0; i < PAIRS; i++) {
        put_u16(list.bytes, 2 + 4 * i, CELLS / PAIRS * i);
        put_u16(list.bytes, 4 + 4 * i, CELLS / PAIRS);
    }
    call_enrol(&box, 0, 1, ASPEN_OK);
    CHECK_EQ(call_backup(&box, 0, 1, list, ASPEN_OK).taken, 1);
    CHECK_EQ(get_u16(entry, ENTRY_COUNT), CELLS);
    CHECK_EQ(call_audit(&box, ASPEN_OK), 1);
    call_backup(&box, 0, 2, letters(0, "FFFFFFFFFFFFFFFFFFFFFFFFFFFFFFFFFFFFFFFFFFFF"), ASPEN_OK);
    CHECK_EQ(get_u16(entry, ENTRY_COUNT), 256);
    CHECK_EQ(call_audit(&box, ASPEN_OK), 1);
    call_backup(&box, 0, 3, letters(44, "F"), ASPEN_OK);
    CHECK_EQ(get_u16(entry, ENTRY_COUNT), 255);
    CHECK_EQ(call_audit(&box, ASPEN_OK), 1);
    box_free(&box);
}

static void test_order_at_a_change(void)
{
    struct box box = box_after_d();

    check_about("at one change: 13 before 14");
    set_count(&box, 1, 0);
    set_count(&box, 2, 65535);
    call_backup(&box, 0, 10, letters(1, "C"), ASPEN_COUNT_ZERO);
    check_about("at one change: 11 before 13");
    flip(&box, 2);
    call_backup(&box, 0, 10, letters(1, "C"), ASPEN_OTHER_BYTES);
    check_about("at one change: 12 before 13");
    call_backup(&box, 0, 10, letters(2, "X"), ASPEN_OK);
    call_backup(&box, 0, 11, letters(1, "Y"), ASPEN_NO_BLOCK);
    box_free(&box);
}

static void test_first_change_decides(void)
{
    struct box box = box_after_d();

    check_about("the first change that is stopped decides");
    set_count(&box, 2, 65535);
    flip(&box, 1);
    call_backup(&box, 0, 10, letters(2, "CB"), ASPEN_COUNT_FULL);
    call_backup(&box, 0, 10, letters(2, "BC"), ASPEN_OTHER_BYTES);
    box_free(&box);
}

static void test_lowest_is_found(void)
{
    struct box box = box_after_d();

    check_about("the lowest-numbered of equal fingerprints");
    memset(box.book.bytes + case_entry(0) + ENTRY_PRINT, 'C', ASPEN_PRINT_SIZE);
    call_backup(&box, 0, 10, letters(2, "C"), ASPEN_OTHER_BYTES);
    memset(box.pool.bytes, 'C', ASPEN_BLOCK_SIZE);
    CHECK_EQ(call_backup(&box, 0, 10, letters(2, "C"), ASPEN_OK).taken, 0);
    CHECK_EQ(get_u16(box.book.bytes, case_cell(0, 2)), 0);
    box_free(&box);
}

/* A free entry has a zero fingerprint too, and isn't found by it. */
static void test_zero_print(void)
{
    struct box box = box_after_d();
    struct buffer list = letters(2, "Z"), again;

    check_about("a zero fingerprint");
    memset(list.bytes + 6, 0, ASPEN_PRINT_SIZE);
    again = buffer_copy(&list);
    CHECK_EQ(call_backup(&box, 0, 10, list, ASPEN_OK).taken, 1);
    CHECK_EQ(call_backup(&box, 0, 11, again, ASPEN_OK).taken, 0);
    CHECK_EQ(get_u16(box.book.bytes, case_entry(3) + ENTRY_EXPIRY), 20);
    CHECK_EQ(call_audit(&box, ASPEN_OK), 1);
    box_free(&box);
}

static void check_expiry(const struct box *box, unsigned pbn, unsigned expected)
{
    CHECK_EQ(get_u16(box->book.bytes, case_entry(pbn) + ENTRY_EXPIRY), expected);
}

/* A replaced block is needed for volume 0's 10 days from the backup before, and not from the one
 * that brought it. */
static void test_expiries(void)
{
    struct box box = box_after_d();

    check_about("expiries by the backup before");
    call_backup(&box, 0, 10, buffer_filled(2, 0), ASPEN_OK);
    check_expiry(&box, 2, 0);
    call_backup(&box, 0, 12, letters(0, "B"), ASPEN_OK);
    check_expiry(&box, 2, 20);
    check_expiry(&box, 1, 0);
    check_expiry(&box, 0, 15);
    CHECK_EQ(call_audit(&box, ASPEN_OK), 1);
    box_free(&box);
}

/* A damaged book, in which a volume without backups has a block: that counts from day 0. */
static void test_no_backup_before(void)
{
    struct box box = box_after_d();

    check_about("an expiry without a backup before");
    call_enrol(&box, 2, 7, ASPEN_OK);
    put_u16(box.book.bytes, case_cell(2, 0), 1);
    set_count(&box, 1, 3);
    call_backup(&box, 2, 10, letters(0, "C"), ASPEN_OK);
    check_expiry(&box, 1, 7);
    call_backup(&box, 2, 11, letters(0, "A"), ASPEN_OK);
    check_expiry(&box, 2, 17);
    box_free(&box);
}

void test_changes(void)
{
    test_other_bytes();
    test_no_block();
    test_counts();
    test_equal_cells();
    test_order_at_a_change();
    test_first_change_decides();
    test_lowest_is_found();
    test_zero_print();
    test_expiries();
    test_no_backup_before();
}
