/* The change list as aspen_backup takes it, and number 8. */
#include <aspen.h>

#include "books.h"
#include "box.h"
#include "check.h"
#include "tests.h"

#include <string.h>

/* The list of these pairs, as many as said, with X for each change. */
static struct buffer list_of_pairs(const unsigned *pairs, unsigned number, size_t changes)
{
    struct buffer list = buffer_filled(aspen_list_size(number, changes), 'X');
    unsigned i;

    put_u16(list.bytes, 0, number);
    for (i = 0; i < 2 * number; i++)
        put_u16(list.bytes, 2 + 2 * i, pairs[i]);
    return list;
}

/* Backs a list up. If it is taken, its records have the LBNs of the pairs in order. */
static void check_list_in(struct box *box, const unsigned *pairs, unsigned number, size_t changes,
                          uint16_t expected)
{
    const uint8_t *book = box->book.bytes;
    unsigned record = get_u16(book, AT_RECORDS_USED), i, within;

    call_backup(box, 0, 10, list_of_pairs(pairs, number, changes), expected);
    if (expected != ASPEN_OK)
        return;
    for (i = 0; i < number; i++)
        for (within = 0; within < pairs[2 * i + 1]; within++, record++)
            CHECK_EQ(get_u16(book, record_in(book, record) + RECORD_LBN), pairs[2 * i] + within);
    CHECK_EQ(get_u16(book, AT_RECORDS_USED), record);
}

/* After case d. */
static void check_list(const unsigned *pairs, unsigned number, size_t changes, uint16_t expected)
{
    struct box box = box_after_d();

    check_list_in(&box, pairs, number, changes, expected);
    box_free(&box);
}

/* A fresh box whose volumes have more LBNs than two runs, with volume 0 enrolled. */
enum { WIDE = 130 };

static struct box wide_box(void)
{
    struct box box = box_of(WIDE, WIDE, 2, 2 * WIDE);

    call_enrol(&box, 0, 10, ASPEN_OK);
    return box;
}

/* In a wide box, with as many changes as the pairs say. */
static void check_runs(unsigned first, unsigned length, unsigned next, unsigned next_length,
                       uint16_t expected)
{
    struct box box = wide_box();
    unsigned pairs[4];

    pairs[0] = first;
    pairs[1] = length;
    pairs[2] = next;
    pairs[3] = next_length;
    check_list_in(&box, pairs, next_length == 0 ? 1 : 2, length + next_length, expected);
    box_free(&box);
}

static void check_pair(unsigned first, unsigned length, size_t changes, uint16_t expected)
{
    unsigned pairs[2];

    pairs[0] = first;
    pairs[1] = length;
    check_list(pairs, 1, changes, expected);
}

static void check_pairs(unsigned first, unsigned length, unsigned next, unsigned next_length,
                        size_t changes, uint16_t expected)
{
    unsigned pairs[4];

    pairs[0] = first;
    pairs[1] = length;
    pairs[2] = next;
    pairs[3] = next_length;
    check_list(pairs, 2, changes, expected);
}

static void check_length(struct buffer list, size_t length, uint16_t expected)
{
    struct box box = box_after_d();

    buffer_resize(&list, length);
    call_backup(&box, 0, 10, list, expected);
    box_free(&box);
}

static void test_pair(void)
{
    check_about("a pair, also up to the end");
    check_pair(2, 1, 1, ASPEN_OK);
    check_pair(3, 1, 1, ASPEN_OK);
    check_pair(1, 3, 3, ASPEN_OK);
    check_about("a pair that is empty or passes L");
    check_pair(2, 0, 0, ASPEN_BAD_LIST);
    check_pair(4, 0, 0, ASPEN_BAD_LIST);
    check_pair(4, 1, 1, ASPEN_BAD_LIST);
    check_pair(3, 2, 2, ASPEN_BAD_LIST);
    check_pair(0, 5, 5, ASPEN_BAD_LIST);
    check_pair(65535, 1, 1, ASPEN_BAD_LIST);
}

static void test_pairs(void)
{
    check_about("pairs apart, touching and up to the end");
    check_pairs(0, 1, 2, 1, 2, ASPEN_OK);
    check_pairs(0, 1, 2, 2, 3, ASPEN_OK);
    check_pairs(0, 2, 2, 1, 3, ASPEN_OK);
    check_pairs(0, 1, 1, 2, 3, ASPEN_OK);
    check_pairs(1, 1, 2, 2, 3, ASPEN_OK);
    check_about("pairs that overlap, fall, are empty or pass L");
    check_pairs(0, 2, 1, 1, 3, ASPEN_BAD_LIST);
    check_pairs(2, 1, 0, 1, 2, ASPEN_BAD_LIST);
    check_pairs(0, 0, 1, 1, 1, ASPEN_BAD_LIST);
    check_pairs(0, 1, 1, 0, 1, ASPEN_BAD_LIST);
    check_pairs(0, 1, 3, 2, 3, ASPEN_BAD_LIST);
    check_pairs(0, 1, 4, 1, 2, ASPEN_BAD_LIST);
    check_pairs(1, 65535, 2, 1, 2, ASPEN_BAD_LIST);
    check_pairs(65535, 2, 2, 1, 3, ASPEN_BAD_LIST);
    check_about("lengths that sum to 65,537");
    check_pairs(0, 65535, 0, 2, 1, ASPEN_BAD_LIST);
    check_about("pairs with another number of changes");
    check_pairs(0, 1, 2, 1, 1, ASPEN_BAD_LIST);
    check_pairs(0, 1, 2, 1, 3, ASPEN_BAD_LIST);
}

static void test_runs(void)
{
    check_about("runs of up to 64 blocks");
    check_runs(0, 63, 0, 0, ASPEN_OK);
    check_runs(0, 64, 0, 0, ASPEN_OK);
    check_runs(WIDE - 64, 64, 0, 0, ASPEN_OK);
    check_runs(0, 64, 64, 1, ASPEN_OK);
    check_runs(0, 1, 1, 64, ASPEN_OK);
    check_runs(0, 64, 64, 64, ASPEN_OK);
    check_runs(0, 32, 32, 33, ASPEN_OK);
    check_about("a run of more, as lists had them before: the rest of the list is right");
    check_runs(0, 65, 0, 0, ASPEN_BAD_LIST);
    check_runs(WIDE - 65, 65, 0, 0, ASPEN_BAD_LIST);
    check_runs(0, 66, 0, 0, ASPEN_BAD_LIST);
    check_runs(0, 128, 0, 0, ASPEN_BAD_LIST);
    check_runs(0, WIDE, 0, 0, ASPEN_BAD_LIST);
    check_runs(0, 65, 65, 1, ASPEN_BAD_LIST);
    check_runs(0, 1, 1, 65, ASPEN_BAD_LIST);
    check_runs(0, 64, 64, 65, ASPEN_BAD_LIST);
}

/* Two runs that touch, where one was enough before: each block is read back from its LBN. */
static void test_runs_read_back(void)
{
    static const unsigned pairs[4] = { 20, 64, 84, 1 };
    struct box box = wide_box();
    struct buffer list = list_of_pairs(pairs, 2, 65);
    uint8_t *prints = list.bytes + aspen_list_size(2, 0);
    uint8_t *blocks = prints + ASPEN_PRINT_SIZE * 65, block[ASPEN_BLOCK_SIZE];
    uint16_t lbn;
    int i;

    check_about("runs of 64 blocks and 1 that touch");
    for (i = 0; i < 65; i++) {
        memset(prints + ASPEN_PRINT_SIZE * i, 100 + i, ASPEN_PRINT_SIZE);
        memset(blocks + ASPEN_BLOCK_SIZE * i, i, ASPEN_BLOCK_SIZE);
    }
    CHECK_EQ(call_backup(&box, 0, 10, list, ASPEN_OK).taken, 65);
    for (lbn = 20; lbn < 85; lbn++) {
        memset(block, lbn - 20, sizeof block);
        CHECK_BYTES(box.pool.bytes + call_read(&box, 0, 1, lbn, ASPEN_OK), block, sizeof block);
    }
    call_read(&box, 0, 1, 19, ASPEN_UNMAPPED);
    call_read(&box, 0, 1, 85, ASPEN_UNMAPPED);
    CHECK_EQ(call_audit(&box, ASPEN_OK), 1);
    box_free(&box);
}

static void test_lengths(void)
{
    static const unsigned pairs[4] = { 0, 1, 1, 1 };
    const size_t length = aspen_list_size(1, 1);

    check_about("lists of other lengths");
    check_length(list_of(0, "X", "X"), length, ASPEN_OK);
    check_length(list_of(0, "X", "X"), length - 1, ASPEN_BAD_LIST);
    check_length(list_of(0, "X", "X"), length + 1, ASPEN_BAD_LIST);
    check_length(list_of(0, "X", "X"), 5, ASPEN_BAD_LIST);
    check_length(list_of(0, "X", "X"), 2, ASPEN_BAD_LIST);
    check_length(list_of(0, "X", "X"), 1, ASPEN_BAD_LIST);
    check_length(list_of(0, "X", "X"), 0, ASPEN_BAD_LIST);
    check_length(list_of_pairs(pairs, 2, 2), 6, ASPEN_BAD_LIST);
    check_length(buffer_filled(2, 0), 1, ASPEN_BAD_LIST);
    check_length(buffer_filled(2, 0), 2, ASPEN_OK);
    check_length(buffer_filled(2, 0), 3, ASPEN_BAD_LIST);
    check_length(buffer_filled(2, 255), 2, ASPEN_BAD_LIST);
}

/* A backup without changes takes a slot, and nothing else but the day moves. */
static void test_no_changes(void)
{
    struct box box = box_after_d(), before = box_after_d();
    struct backed_up answers = call_backup(&box, 0, 10, buffer_filled(2, 0), ASPEN_OK);

    check_about("a backup without changes");
    CHECK_EQ(answers.number, 3);
    CHECK_EQ(answers.taken, 0);
    CHECK_EQ(answers.touched, 0);
    put_u16(before.book.bytes, AT_SLOTS_USED, 5);
    put_u16(before.book.bytes, AT_DAY, 10);
    put_u16(before.book.bytes, case_slot(4) + SLOT_DAY, 10);
    put_u16(before.book.bytes, case_slot(4) + SLOT_FIRST, 5);
    CHECK_BYTES(box.book.bytes, before.book.bytes, CASE_BOOK);
    CHECK_BYTES(box.pool.bytes, before.pool.bytes, before.pool.length);
    box_free(&box);
    box_free(&before);
}

void test_lists(void)
{
    test_pair();
    test_pairs();
    test_runs();
    test_runs_read_back();
    test_lengths();
    test_no_changes();
}
