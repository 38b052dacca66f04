/* aspen_form: books in form, and books with one field out of it. */
#include <aspen.h>

#include "books.h"
#include "buffer.h"
#include "check.h"
#include "tests.h"

#include <string.h>

/* The number of these bytes; the book is only read. */
static void check_form(const struct buffer *book, uint16_t expected)
{
    struct buffer before = buffer_copy(book);

    CHECK_EQ(aspen_form(book->bytes, book->length), expected);
    CHECK_BYTES(book->bytes, before.bytes, book->length);
    CHECK_GUARDS(book);
    buffer_free(&before);
}

static void check_fresh(uint16_t n, uint16_t l, uint16_t s, uint16_t j, uint16_t expected)
{
    struct buffer book = buffer_new(aspen_book_size(n, l, s, j));

    book_fresh(book.bytes, n, l, s, j);
    check_form(&book, expected);
    buffer_free(&book);
}

static void test_fresh(void)
{
    check_about("fresh books");
    check_fresh(CASE_N, CASE_L, CASE_S, CASE_J, ASPEN_OK);
    check_fresh(1, 1, 1, 1, ASPEN_OK);
    check_fresh(ASPEN_MAX_BLOCKS, 1, 1, 1, ASPEN_OK);
    check_fresh(1, ASPEN_MAX_LBNS, 1, 1, ASPEN_OK);
    check_fresh(1, 1, ASPEN_MAX_SLOTS, 1, ASPEN_OK);
    check_fresh(1, 1, 1, ASPEN_MAX_RECORDS, ASPEN_OK);
    check_fresh(ASPEN_MAX_BLOCKS, ASPEN_MAX_LBNS, ASPEN_MAX_SLOTS, ASPEN_MAX_RECORDS, ASPEN_OK);
    check_about("sizes out of range");
    check_fresh(0, 1, 1, 1, ASPEN_BAD_LAYOUT);
    check_fresh(1, 0, 1, 1, ASPEN_BAD_LAYOUT);
    check_fresh(1, 1, 0, 1, ASPEN_BAD_LAYOUT);
    check_fresh(1, 1, 1, 0, ASPEN_BAD_LAYOUT);
    check_fresh(ASPEN_MAX_BLOCKS + 1, 1, 1, 1, ASPEN_BAD_LAYOUT);
    check_fresh(1, ASPEN_MAX_LBNS + 1, 1, 1, ASPEN_BAD_LAYOUT);
    check_fresh(1, 1, ASPEN_MAX_SLOTS + 1, 1, ASPEN_BAD_LAYOUT);
    check_fresh(1, 1, 1, ASPEN_MAX_RECORDS + 1, ASPEN_BAD_LAYOUT);
}

/* The cases' book cut off or gone on with zeros. */
static void test_lengths(void)
{
    static const size_t lengths[] = { 0, 1, 2, 19, 20, 35, 36, 87, 276, 279, 281, 560 };
    struct buffer whole = buffer_filled(560, 0);
    size_t i;

    book_after_d(whole.bytes);
    check_about("other lengths");
    for (i = 0; i < sizeof lengths / sizeof lengths[0]; i++) {
        struct buffer book = buffer_new(lengths[i]);
        memcpy(book.bytes, whole.bytes, lengths[i]);
        check_form(&book, ASPEN_BAD_LAYOUT);
        buffer_free(&book);
    }
    buffer_free(&whole);
}

/* The cases' book after d with one field changed. */
static void check_field(const char *about, size_t at, unsigned value, uint16_t expected)
{
    struct buffer book = buffer_new(CASE_BOOK);

    check_about(about);
    book_after_d(book.bytes);
    put_u16(book.bytes, at, value);
    check_form(&book, expected);
    buffer_free(&book);
}

static void test_header(void)
{
    const size_t retention = AT_RETENTIONS + 2 * 7;

    check_field("layout", AT_LAYOUT, 0, ASPEN_BAD_LAYOUT);
    check_field("layout", AT_LAYOUT, 1, ASPEN_BAD_LAYOUT);
    check_field("layout", AT_LAYOUT, 2, ASPEN_BAD_LAYOUT);
    check_field("layout", AT_LAYOUT, 4, ASPEN_BAD_LAYOUT);
    check_field("layout", AT_LAYOUT, 259, ASPEN_BAD_LAYOUT);
    check_field("layout", AT_LAYOUT, ASPEN_LAYOUT, ASPEN_OK);
    check_field("N", AT_N, 5, ASPEN_BAD_LAYOUT);
    check_field("L", AT_L, 5, ASPEN_BAD_LAYOUT);
    check_field("S", AT_S, 5, ASPEN_BAD_LAYOUT);
    check_field("J", AT_J, 7, ASPEN_BAD_LAYOUT);
    check_field("nothing", AT_DAY, 9, ASPEN_OK);
    check_field("slots used", AT_SLOTS_USED, CASE_S + 1, ASPEN_BAD_FORM);
    check_field("slots used", AT_SLOTS_USED, 3, ASPEN_BAD_FORM);
    check_field("records used", AT_RECORDS_USED, CASE_J + 1, ASPEN_BAD_FORM);
    check_field("records used", AT_RECORDS_USED, 4, ASPEN_BAD_FORM);
    check_field("day", AT_DAY, ASPEN_MAX_DAY, ASPEN_OK);
    check_field("day", AT_DAY, ASPEN_MAX_DAY + 1, ASPEN_BAD_FORM);
    check_field("day", AT_DAY, 8, ASPEN_BAD_FORM);
    check_field("cursor", AT_CURSOR, 0, ASPEN_OK);
    check_field("cursor", AT_CURSOR, CASE_N, ASPEN_BAD_FORM);
    check_field("spare field", AT_ZERO, 1, ASPEN_BAD_FORM);
    check_field("retention", retention, ASPEN_MAX_RETENTION, ASPEN_OK);
    check_field("retention", retention, ASPEN_MAX_RETENTION + 1, ASPEN_BAD_FORM);
    check_field("a backup's volume", AT_RETENTIONS, 0, ASPEN_BAD_FORM);
}

static void test_entries(void)
{
    const size_t waiting = case_entry(0), held = case_entry(2), free = case_entry(3);

    check_field("count", held + ENTRY_COUNT, 255, ASPEN_OK);
    check_field("count", held + ENTRY_COUNT, 256, ASPEN_OK);
    check_field("count", held + ENTRY_COUNT, 65535, ASPEN_OK);
    check_field("state", held + ENTRY_STATE, 2, ASPEN_BAD_FORM);
    check_field("state", held + ENTRY_STATE, 255, ASPEN_BAD_FORM);
    check_field("free with its fingerprint", waiting + ENTRY_STATE, 15 * 256, ASPEN_BAD_FORM);
    check_field("free with a count", free + ENTRY_COUNT, 1, ASPEN_BAD_FORM);
    check_field("free with a count", free + ENTRY_COUNT, 256, ASPEN_BAD_FORM);
    check_field("held with a zero fingerprint", free + ENTRY_STATE, 1, ASPEN_OK);
    check_field("free with a fingerprint", free + ENTRY_PRINT, 1, ASPEN_BAD_FORM);
    check_field("free with a fingerprint", free + ENTRY_PRINT + 14, 256, ASPEN_BAD_FORM);
    check_field("expiry", free + ENTRY_EXPIRY, 65000, ASPEN_OK);
    check_field("expiry", free + ENTRY_EXPIRY, 65001, ASPEN_BAD_FORM);
    check_field("map", case_cell(7, 3), CASE_N - 1, ASPEN_OK);
    check_field("map", case_cell(7, 3), CASE_N, ASPEN_BAD_FORM);
    check_field("map", case_cell(0, 0), PBN_UNMAPPED - 1, ASPEN_BAD_FORM);
}

static void test_journal(void)
{
    const size_t third = case_slot(2), last = case_record(4);

    check_field("slot's volume", third, 2, ASPEN_BAD_FORM);
    check_field("slot's volume", third, 8, ASPEN_BAD_FORM);
    check_field("slot's second byte", third, 256, ASPEN_BAD_FORM);
    check_field("slot's day not after its volume's last", third + SLOT_DAY, 5, ASPEN_BAD_FORM);
    check_field("slot's day before the last slot's", case_slot(3) + SLOT_DAY, 7, ASPEN_BAD_FORM);
    check_field("slot's day", third + SLOT_DAY, 6, ASPEN_OK);
    check_field("slot's day passes the next", third + SLOT_DAY, 10, ASPEN_BAD_FORM);
    check_field("slot of the other volume", case_slot(3), 0, ASPEN_OK);
    check_field("first record", third + SLOT_FIRST, 2, ASPEN_BAD_FORM);
    check_field("number of records", third + SLOT_NUMBER, 2, ASPEN_BAD_FORM);
    check_field("last slot's records", case_slot(3) + SLOT_NUMBER, 2, ASPEN_BAD_FORM);
    check_field("unused slot", case_slot(5) + SLOT_NUMBER, 1, ASPEN_BAD_FORM);
    check_field("LBN", last + RECORD_LBN, CASE_L - 1, ASPEN_OK);
    check_field("LBN", last + RECORD_LBN, CASE_L, ASPEN_BAD_FORM);
    check_field("before", last + RECORD_BEFORE, PBN_UNMAPPED, ASPEN_OK);
    check_field("before", last + RECORD_BEFORE, CASE_N, ASPEN_BAD_FORM);
    check_field("after", last + RECORD_AFTER, CASE_N - 1, ASPEN_OK);
    check_field("after", last + RECORD_AFTER, PBN_UNMAPPED, ASPEN_BAD_FORM);
    check_field("unused record", case_record(7) + RECORD_AFTER, 256, ASPEN_BAD_FORM);
}

/* Two backups on one day: of two volumes, and of one. */
static void test_same_day(void)
{
    struct buffer book = buffer_new(CASE_BOOK);

    check_about("two backups on one day");
    book_after_d(book.bytes);
    put_u16(book.bytes, case_slot(3) + SLOT_DAY, 8);
    check_form(&book, ASPEN_OK);
    book.bytes[case_slot(3) + SLOT_VOLUME] = 0;
    check_form(&book, ASPEN_BAD_FORM);
    buffer_free(&book);
}

void test_form(void)
{
    test_fresh();
    test_lengths();
    test_header();
    test_entries();
    test_journal();
    test_same_day();
}
