/* Cases a to j of document 01, with every number that it and document 02 give. */
#include <aspen.h>

#include "books.h"
#include "box.h"
#include "check.h"
#include "tests.h"

#include <string.h>

#define CHECK_BACKED_UP(answers, number_, taken_, touched_) \
    do { \
        struct backed_up backed_up_ = (answers); \
        CHECK_EQ(backed_up_.number, number_); \
        CHECK_EQ(backed_up_.taken, taken_); \
        CHECK_EQ(backed_up_.touched, touched_); \
    } while (0)

static struct buffer letters(unsigned lbn, const char *text)
{
    return list_of(lbn, text, text);
}

/* A letter 0 stands for a free entry. */
static void check_entry(const struct box *box, unsigned pbn, unsigned count, unsigned expiry,
                        char letter)
{
    const uint8_t *entry = box->book.bytes + case_entry(pbn);
    uint8_t print[ASPEN_PRINT_SIZE];

    memset(print, letter, sizeof print);
    CHECK_EQ(get_u16(entry, ENTRY_COUNT), count);
    CHECK_EQ(entry[ENTRY_STATE], letter != 0);
    CHECK_EQ(get_u16(entry, ENTRY_EXPIRY), expiry);
    CHECK_BYTES(entry + ENTRY_PRINT, print, sizeof print);
}

static void check_map(const struct box *box, unsigned volume, unsigned a, unsigned b, unsigned c,
                      unsigned d)
{
    const uint8_t *book = box->book.bytes;

    CHECK_EQ(get_u16(book, case_cell(volume, 0)), a);
    CHECK_EQ(get_u16(book, case_cell(volume, 1)), b);
    CHECK_EQ(get_u16(book, case_cell(volume, 2)), c);
    CHECK_EQ(get_u16(book, case_cell(volume, 3)), d);
}

static void check_head(const struct box *box, unsigned day, unsigned cursor)
{
    CHECK_EQ(get_u16(box->book.bytes, AT_DAY), day);
    CHECK_EQ(get_u16(box->book.bytes, AT_CURSOR), cursor);
    CHECK_EQ(call_audit(box, ASPEN_OK), 1);
}

static void a_to_b(struct box *box)
{
    const unsigned none = PBN_UNMAPPED;

    check_about("before case a");
    call_enrol(box, 0, 10, ASPEN_OK);
    call_enrol(box, 1, 3, ASPEN_OK);
    check_head(box, 0, 0);
    check_about("case a");
    CHECK_BACKED_UP(call_backup(box, 0, 5, letters(0, "AB"), ASPEN_OK), 1, 2, 2);
    check_map(box, 0, 0, 1, none, none);
    check_entry(box, 0, 1, 0, 'A');
    check_entry(box, 1, 1, 0, 'B');
    check_head(box, 5, 2);
    check_about("case b");
    CHECK_BACKED_UP(call_backup(box, 1, 6, letters(3, "A"), ASPEN_OK), 1, 0, 1);
    check_map(box, 1, none, none, none, 0);
    check_entry(box, 0, 2, 0, 'A');
    check_head(box, 6, 2);
}

static void c_to_d(struct box *box)
{
    struct box expected = box_after_d();

    check_about("case c");
    CHECK_BACKED_UP(call_backup(box, 0, 8, letters(0, "C"), ASPEN_OK), 2, 1, 2);
    check_map(box, 0, 2, 1, PBN_UNMAPPED, PBN_UNMAPPED);
    check_entry(box, 0, 1, 15, 'A');
    check_head(box, 8, 3);
    check_about("case d");
    CHECK_BACKED_UP(call_backup(box, 1, 9, letters(3, "B"), ASPEN_OK), 2, 0, 2);
    check_entry(box, 0, 0, 15, 'A');
    check_head(box, 9, 3);
    CHECK_BYTES(box->book.bytes, expected.book.bytes, CASE_BOOK);
    CHECK_BYTES(box->pool.bytes, expected.pool.bytes, expected.pool.length);
    box_free(&expected);
}

/* In place of e: the last day of volume 0's first backup, and the day after. */
static void before_e(void)
{
    struct box box = box_after_d();

    check_about("before case e");
    CHECK_EQ(call_collect(&box, 15, ASPEN_OK), 0);
    check_head(&box, 15, 3);
    CHECK_EQ(call_read(&box, 0, 1, 0, ASPEN_OK), 0);
    check_pool(&box, "ABC\x5A");
    CHECK_EQ(call_collect(&box, 16, ASPEN_OK), 1);
    check_head(&box, 16, 3);
    call_read(&box, 0, 1, 0, ASPEN_NOT_KEPT);
    box_free(&box);
}

static void e_to_g(struct box *box)
{
    check_about("case e");
    CHECK_EQ(call_collect(box, 18, ASPEN_OK), 1);
    call_read(box, 0, 1, 0, ASPEN_NOT_KEPT);
    check_entry(box, 0, 0, 15, 0);
    check_head(box, 18, 3);
    check_about("case f");
    call_read(box, 1, 1, 3, ASPEN_NOT_KEPT);
    check_about("case g");
    CHECK_EQ(call_collect(box, 19, ASPEN_OK), 0);
    call_read(box, 0, 1, 0, ASPEN_NOT_KEPT);
    check_entry(box, 0, 0, 15, 0);
    check_head(box, 19, 3);
}

static void h_to_j(struct box *box)
{
    check_about("case h");
    CHECK_BACKED_UP(call_backup(box, 0, 20, letters(2, "DE"), ASPEN_OK), 3, 2, 2);
    check_map(box, 0, 2, 1, 3, 0);
    check_entry(box, 3, 1, 0, 'D');
    check_entry(box, 0, 1, 15, 'E');
    check_head(box, 20, 1);
    check_pool(box, "EBCD");
    CHECK_EQ(call_read(box, 0, 3, 2, ASPEN_OK), 3 * ASPEN_BLOCK_SIZE);
    CHECK_EQ(call_read(box, 0, 3, 3, ASPEN_OK), 0);
    check_about("case i");
    call_backup(box, 1, 21, letters(0, "F"), ASPEN_NO_BLOCK);
    check_about("case j");
    call_backup(box, 1, 21, list_of(0, "B", "F"), ASPEN_OTHER_BYTES);
    check_head(box, 20, 1);
}

/* The newest is kept whatever its age, and is past its days as soon as the next one is taken. */
static void after_a_pause(void)
{
    struct box box = box_after_d();

    check_about("after a long pause");
    CHECK_EQ(call_collect(&box, 29, ASPEN_OK), 1);
    CHECK_EQ(call_read(&box, 0, 2, 0, ASPEN_OK), 2 * ASPEN_BLOCK_SIZE);
    CHECK_BACKED_UP(call_backup(&box, 0, 30, letters(0, "D"), ASPEN_OK), 3, 1, 2);
    check_entry(&box, 2, 0, 18, 'C');
    check_head(&box, 30, 0);
    call_read(&box, 0, 2, 0, ASPEN_NOT_KEPT);
    CHECK_EQ(call_collect(&box, 30, ASPEN_OK), 1);
    check_head(&box, 30, 0);
    box_free(&box);
}

void test_cases(void)
{
    struct box box = box_fresh();

    a_to_b(&box);
    c_to_d(&box);
    before_e();
    e_to_g(&box);
    h_to_j(&box);
    after_a_pause();
    box_free(&box);
}
