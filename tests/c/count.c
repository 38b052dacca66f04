/* aspen_count on fresh, used and refused books. */
#include <aspen.h>

#include "books.h"
#include "box.h"
#include "check.h"
#include "tests.h"

struct counts {
    uint16_t blocks, held, waiting;
    uint32_t references;
};

/* What is counted in the first bytes of the book, up to this length. */
static void check_counts(const char *about, const struct box *box, size_t length, uint16_t number,
                         struct counts expected)
{
    struct counts got = { 1, 2, 3, 4 };

    check_about(about);
    CHECK_EQ(aspen_count(box->book.bytes, length, &got.blocks, &got.held, &got.waiting,
                         &got.references), number);
    CHECK_EQ(got.blocks, expected.blocks);
    CHECK_EQ(got.held, expected.held);
    CHECK_EQ(got.waiting, expected.waiting);
    CHECK_EQ(got.references, expected.references);
    CHECK_GUARDS(&box->book);
}

/* More references than maps have cells: every block has the largest count. */
static void test_most_references(void)
{
    const struct counts all = { ASPEN_MAX_BLOCKS, ASPEN_MAX_BLOCKS, 0, 268431360 };
    struct box box = box_of(ASPEN_MAX_BLOCKS, 1, 1, 1);
    unsigned pbn;

    for (pbn = 0; pbn < ASPEN_MAX_BLOCKS; pbn++) {
        put_u16(box.book.bytes, case_entry(pbn) + ENTRY_COUNT, 65535);
        box.book.bytes[case_entry(pbn) + ENTRY_STATE] = 1;
    }
    check_counts("counts of 65,535", &box, box.book.length, ASPEN_OK, all);
    box_free(&box);
}

void test_count(void)
{
    const struct counts none = { CASE_N, 0, 0, 0 }, after_d = { CASE_N, 3, 1, 3 };
    const struct counts untouched = { 1, 2, 3, 4 };
    struct box fresh = box_fresh(), used = box_after_d();

    check_counts("counts of a fresh book", &fresh, CASE_BOOK, ASPEN_OK, none);
    check_counts("counts after case d", &used, CASE_BOOK, ASPEN_OK, after_d);
    used.book.bytes[case_entry(0) + ENTRY_STATE] = 2;
    check_counts("counts of a book out of form", &used, CASE_BOOK, ASPEN_BAD_FORM, untouched);
    check_counts("counts of a book cut short", &fresh, CASE_BOOK - 1, ASPEN_BAD_LAYOUT, untouched);
    box_free(&fresh);
    box_free(&used);
    test_most_references();
}
