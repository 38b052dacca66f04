/* aspen_format and aspen_audit beyond the cases. */
#include <aspen.h>

#include "books.h"
#include "box.h"
#include "check.h"
#include "tests.h"

#include <string.h>

/* Formats a buffer of this length, full of other bytes. */
static void check_format(size_t length, uint16_t n, uint16_t l, uint16_t s, uint16_t j,
                         uint16_t expected)
{
    struct buffer book = buffer_filled(length, 0xA7), fresh = buffer_filled(length, 0xA7);

    if (expected == ASPEN_OK)
        book_fresh(fresh.bytes, n, l, s, j);
    CHECK_EQ(aspen_format(book.bytes, book.length, n, l, s, j), expected);
    CHECK_BYTES(book.bytes, fresh.bytes, length);
    CHECK_GUARDS(&book);
    buffer_free(&book);
    buffer_free(&fresh);
}

static void check_format_fit(uint16_t n, uint16_t l, uint16_t s, uint16_t j, uint16_t expected)
{
    check_format(aspen_book_size(n, l, s, j), n, l, s, j, expected);
}

void test_format(void)
{
    check_about("format");
    check_format_fit(CASE_N, CASE_L, CASE_S, CASE_J, ASPEN_OK);
    check_format_fit(1, 1, 1, 1, ASPEN_OK);
    check_format_fit(ASPEN_MAX_BLOCKS, ASPEN_MAX_LBNS, ASPEN_MAX_SLOTS, ASPEN_MAX_RECORDS,
                     ASPEN_OK);
    check_about("format, another length");
    check_format(CASE_BOOK - 1, CASE_N, CASE_L, CASE_S, CASE_J, ASPEN_BAD_LAYOUT);
    check_format(CASE_BOOK + 1, CASE_N, CASE_L, CASE_S, CASE_J, ASPEN_BAD_LAYOUT);
    check_format(CASE_NARROW, CASE_N, CASE_L, CASE_S, CASE_J, ASPEN_BAD_LAYOUT);
    check_format(0, CASE_N, CASE_L, CASE_S, CASE_J, ASPEN_BAD_LAYOUT);
    check_about("format, sizes out of range");
    check_format_fit(0, 1, 1, 1, ASPEN_BAD_LAYOUT);
    check_format_fit(1, 0, 1, 1, ASPEN_BAD_LAYOUT);
    check_format_fit(1, 1, 0, 1, ASPEN_BAD_LAYOUT);
    check_format_fit(1, 1, 1, 0, ASPEN_BAD_LAYOUT);
    check_format_fit(ASPEN_MAX_BLOCKS + 1, 1, 1, 1, ASPEN_BAD_LAYOUT);
    check_format_fit(1, ASPEN_MAX_LBNS + 1, 1, 1, ASPEN_BAD_LAYOUT);
    check_format_fit(1, 1, ASPEN_MAX_SLOTS + 1, 1, ASPEN_BAD_LAYOUT);
    check_format_fit(1, 1, 1, ASPEN_MAX_RECORDS + 1, ASPEN_BAD_LAYOUT);
}

/* The box after case d with a byte changed, still in form. */
static void check_audit(const char *about, size_t at, uint8_t value, uint16_t sound)
{
    struct box box = box_after_d();

    check_about(about);
    box.book.bytes[at] = value;
    CHECK_EQ(call_audit(&box, ASPEN_OK), sound);
    box_free(&box);
}

static void test_fresh_audit(void)
{
    struct box box = box_fresh();

    check_about("audit of a fresh book");
    CHECK_EQ(call_audit(&box, ASPEN_OK), 1);
    box_free(&box);
}

/* Block 0 is free, though volume 0's first backup names it and is kept until day 15. */
static void test_freed_too_soon(void)
{
    struct box box = box_after_d();
    uint8_t *entry = box.book.bytes + case_entry(0);

    check_about("audit of a block freed too soon");
    memset(entry + ENTRY_PRINT, 0, ASPEN_PRINT_SIZE);
    entry[ENTRY_STATE] = 0;
    CHECK_EQ(call_audit(&box, ASPEN_OK), 0);
    put_u16(box.book.bytes, AT_DAY, 15);
    CHECK_EQ(call_audit(&box, ASPEN_OK), 0);
    put_u16(box.book.bytes, AT_DAY, 16);
    CHECK_EQ(call_audit(&box, ASPEN_OK), 1);
    box_free(&box);
}

static void test_equal_prints(void)
{
    struct box box = box_after_d();

    check_about("audit of equal fingerprints");
    memset(box.book.bytes + case_entry(2) + ENTRY_PRINT, 'B', ASPEN_PRINT_SIZE);
    CHECK_EQ(call_audit(&box, ASPEN_OK), 0);
    box_free(&box);
}

void test_audit(void)
{
    test_fresh_audit();
    check_audit("audit after case d", AT_DAY, 9, 1);
    check_audit("audit of another fingerprint", case_entry(0) + ENTRY_PRINT, 'Z', 1);
    check_audit("audit of another count", case_entry(1) + ENTRY_COUNT, 3, 0);
    check_audit("audit of a count 256 higher", case_entry(1) + ENTRY_COUNT + 1, 1, 0);
    check_audit("audit of another expiry", case_entry(0) + ENTRY_EXPIRY, 9, 0);
    check_audit("audit of an expiry of layout 2", case_entry(0) + ENTRY_EXPIRY, 18, 0);
    check_audit("audit of an expiry that no record has", case_entry(3) + ENTRY_EXPIRY, 1, 0);
    check_audit("audit of another map", case_cell(0, 1), 2, 0);
    check_audit("audit of another before", case_record(4) + RECORD_BEFORE, 2, 0);
    test_freed_too_soon();
    test_equal_prints();
}
