/* The converter from layout 2 to 3: every expiry worked out from the journal, whatever it was, and
 * every other field equal. */
#include <aspen.h>

#include "books.h"
#include "box.h"
#include "check.h"
#include "converting.h"
#include "tests.h"

#include <string.h>

static void refuses(const struct buffer *book, size_t room, uint16_t expected)
{
    converter_refuses(aspen_convert_2_3, book, room, expected);
}

static struct buffer after_d_in_2(void)
{
    struct buffer book = buffer_new(CASE_BOOK);

    book_after_d_in_2(book.bytes);
    return book;
}

static struct buffer after_d(void)
{
    struct buffer book = buffer_new(CASE_BOOK);

    book_after_d(book.bytes);
    return book;
}

/* Until when a block is needed that the backup in this slot replaces: by the day of the volume's
 * backup before, or day 0. */
static unsigned until_of(const uint8_t *book, unsigned slot)
{
    unsigned volume = book[slot_in(book, slot) + SLOT_VOLUME], day = 0, before;

    for (before = 0; before < slot; before++)
        if (book[slot_in(book, before) + SLOT_VOLUME] == volume)
            day = get_u16(book, slot_in(book, before) + SLOT_DAY);
    return day + get_u16(book, AT_RETENTIONS + 2 * volume);
}

static void raise_expiries(uint8_t *book, unsigned slot)
{
    const uint8_t *at = book + slot_in(book, slot);
    unsigned first = get_u16(at, SLOT_FIRST), number = get_u16(at, SLOT_NUMBER), r;
    unsigned until = until_of(book, slot);

    for (r = first; r < first + number; r++) {
        unsigned before = get_u16(book, record_in(book, r) + RECORD_BEFORE);

        if (before != PBN_UNMAPPED && get_u16(book, case_entry(before) + ENTRY_EXPIRY) < until)
            put_u16(book, case_entry(before) + ENTRY_EXPIRY, until);
    }
}

/* A book in layout 3, of any sizes. */
static struct buffer worked_out(const struct buffer *book)
{
    struct buffer out = buffer_copy(book);
    unsigned used = get_u16(book->bytes, AT_SLOTS_USED), i;

    put_u16(out.bytes, AT_LAYOUT, 3);
    for (i = 0; i < get_u16(book->bytes, AT_N); i++)
        put_u16(out.bytes, case_entry(i) + ENTRY_EXPIRY, 0);
    for (i = 0; i < used; i++)
        raise_expiries(out.bytes, i);
    return out;
}

static void check_worked_out(const struct buffer *book, size_t more)
{
    struct buffer wanted = worked_out(book);

    converts(aspen_convert_2_3, book, book->length + more, &wanted, ASPEN_OK);
    buffer_free(&wanted);
}

static void test_rooms(void)
{
    struct buffer book = after_d_in_2(), wanted = after_d();
    size_t room;

    check_about("2 to 3, room for the book to write");
    for (room = 0; room < CASE_BOOK; room++)
        refuses(&book, room, ASPEN_SHORT_SPARE);
    for (room = CASE_BOOK; room < CASE_BOOK + 10; room++)
        converts(aspen_convert_2_3, &book, room, &wanted, ASPEN_OK);
    converts(aspen_convert_2_3, &book, 5000, &wanted, ASPEN_OK);
    buffer_free(&book);
    buffer_free(&wanted);
}

/* What an expiry was doesn't matter, of held blocks and of free ones. */
static void test_expiries(void)
{
    static const unsigned expiries[] = { 0, 1, 9, 14, 15, 16, 18, 255, 256, 65000 };
    struct buffer book = after_d_in_2(), wanted = after_d();
    unsigned pbn;
    size_t i;

    check_about("2 to 3, expiries that were there");
    for (pbn = 0; pbn < CASE_N; pbn++)
        for (i = 0; i < sizeof expiries / sizeof expiries[0]; i++) {
            put_u16(book.bytes, case_entry(pbn) + ENTRY_EXPIRY, expiries[i]);
            converts(aspen_convert_2_3, &book, CASE_BOOK, &wanted, ASPEN_OK);
        }
    buffer_free(&book);
    buffer_free(&wanted);
}

/* The book after d with another before in a record, and the expiries that block 0 and another one
 * get. */
static void check_before(unsigned record, unsigned before, unsigned of_0, unsigned pbn,
                         unsigned expiry)
{
    struct buffer book = after_d_in_2(), wanted = after_d();

    put_u16(book.bytes, case_record(record) + RECORD_BEFORE, before);
    put_u16(wanted.bytes, case_record(record) + RECORD_BEFORE, before);
    put_u16(wanted.bytes, case_entry(0) + ENTRY_EXPIRY, of_0);
    put_u16(wanted.bytes, case_entry(pbn) + ENTRY_EXPIRY, expiry);
    converts(aspen_convert_2_3, &book, CASE_BOOK, &wanted, ASPEN_OK);
    buffer_free(&book);
    buffer_free(&wanted);
}

/* Damaged books: a first backup counts from day 0, and no record from anything but its before. */
static void test_records(void)
{
    check_about("2 to 3, records of first backups");
    check_before(0, 3, 15, 3, 10);
    check_before(1, 2, 15, 2, 10);
    check_before(2, 3, 15, 3, 3);
    check_before(2, 0, 15, 1, 0);
    check_about("2 to 3, records of later backups");
    check_before(3, 1, 9, 1, 15);
    check_before(4, 1, 15, 1, 9);
    check_before(3, PBN_UNMAPPED, 9, 1, 0);
    check_before(4, PBN_UNMAPPED, 15, 1, 0);
}

/* The book after d with a field changed. */
static void check_field(const char *about, size_t at, unsigned value, uint16_t expected)
{
    struct buffer book = after_d_in_2(), wanted;

    check_about(about);
    put_u16(book.bytes, at, value);
    wanted = worked_out(&book);
    converts(aspen_convert_2_3, &book, CASE_BOOK, &wanted, expected);
    buffer_free(&book);
    buffer_free(&wanted);
}

/* Books in form, sound or not, and books out of it. */
static void test_fields(void)
{
    check_field("2 to 3, a count above 255", case_entry(2), 65535, ASPEN_OK);
    check_field("2 to 3, another map", case_cell(7, 3), 0, ASPEN_OK);
    check_field("2 to 3, a later day", AT_DAY, 60000, ASPEN_OK);
    check_field("2 to 3, a slot of the other volume", case_slot(2), 1, ASPEN_OK);
    check_field("2 to 3, the longest retention", AT_RETENTIONS, 5000, ASPEN_OK);
    check_field("2 to 3, cursor", AT_CURSOR, CASE_N, ASPEN_BAD_FORM);
    check_field("2 to 3, retention", AT_RETENTIONS + 14, 5001, ASPEN_BAD_FORM);
    check_field("2 to 3, free with a count", case_entry(3), 1, ASPEN_BAD_FORM);
    check_field("2 to 3, expiry", case_entry(3) + ENTRY_EXPIRY, 65001, ASPEN_BAD_FORM);
    check_field("2 to 3, print", case_entry(3) + ENTRY_PRINT + 14, 256, ASPEN_BAD_FORM);
    check_field("2 to 3, map", case_cell(7, 3), CASE_N, ASPEN_BAD_FORM);
    check_field("2 to 3, slot", case_slot(3) + SLOT_DAY, 10, ASPEN_BAD_FORM);
    check_field("2 to 3, last byte", case_record(7) + RECORD_AFTER, 256, ASPEN_BAD_FORM);
}

/* Slots one after the other for all volumes, so many days apart, with so many records each. */
static struct buffer full_book(uint16_t n, uint16_t l, uint16_t s, uint16_t j, unsigned apart)
{
    struct buffer book = buffer_new(aspen_book_size(n, l, s, j));
    const unsigned none = PBN_UNMAPPED;
    unsigned each = j / s, i, slot, record;

    book_fresh(book.bytes, n, l, s, j);
    put_u16(book.bytes, AT_LAYOUT, 2);
    put_u16(book.bytes, AT_SLOTS_USED, s);
    put_u16(book.bytes, AT_RECORDS_USED, s * each);
    put_u16(book.bytes, AT_DAY, ASPEN_MAX_DAY);
    for (i = 0; i < ASPEN_VOLUMES; i++)
        put_u16(book.bytes, AT_RETENTIONS + 2 * i, ASPEN_MAX_RETENTION - 1000 * (i % 2) - i);
    for (slot = 0; slot < s; slot++) {
        uint8_t *at = book.bytes + slot_in(book.bytes, slot);

        at[SLOT_VOLUME] = (uint8_t)(s < ASPEN_VOLUMES ? 0 : slot * slot / 2 % ASPEN_VOLUMES);
        put_u16(at, SLOT_DAY, ASPEN_MAX_DAY - apart * (s - 1 - slot));
        put_u16(at, SLOT_FIRST, slot * each);
        put_u16(at, SLOT_NUMBER, each);
    }
    for (record = 0; record < s * each; record++) {
        uint8_t *at = book.bytes + record_in(book.bytes, record);

        put_u16(at, RECORD_LBN, record * 5 % l);
        put_u16(at, RECORD_BEFORE, record % 3 == 2 ? none : record * 7 % n);
        put_u16(at, RECORD_AFTER, record * 11 % n);
    }
    return book;
}

static void check_sizes(uint16_t n, uint16_t l, uint16_t s, uint16_t j, unsigned apart)
{
    struct buffer book = full_book(n, l, s, j, apart);

    check_worked_out(&book, 0);
    check_worked_out(&book, 1);
    refuses(&book, book.length - 1, ASPEN_SHORT_SPARE);
    buffer_free(&book);
}

static void test_sizes_of_books(void)
{
    struct buffer book = full_book(1, 1, 2, 2, 1), wanted;

    check_about("2 to 3, smallest and largest books");
    check_sizes(1, 1, 1, 1, 0);
    check_sizes(ASPEN_MAX_BLOCKS, ASPEN_MAX_LBNS, ASPEN_MAX_SLOTS, ASPEN_MAX_RECORDS, 58);
    check_sizes(100, ASPEN_MAX_LBNS, ASPEN_MAX_SLOTS, ASPEN_MAX_RECORDS, 58);
    check_sizes(ASPEN_MAX_BLOCKS, 1, 8, ASPEN_MAX_RECORDS, 1);
    check_about("2 to 3, the latest expiry");
    wanted = worked_out(&book);
    CHECK_EQ(get_u16(wanted.bytes, case_entry(0) + ENTRY_EXPIRY),
             ASPEN_MAX_DAY - 1 + ASPEN_MAX_RETENTION);
    converts(aspen_convert_2_3, &book, book.length, &wanted, ASPEN_OK);
    buffer_free(&book);
    buffer_free(&wanted);
}

/* Each number with every later fault. */
static void test_order(void)
{
    struct buffer book = after_d_in_2();

    check_about("2 to 3, checks in order");
    refuses(&book, CASE_BOOK - 1, ASPEN_SHORT_SPARE);
    put_u16(book.bytes, AT_ZERO, 1);
    refuses(&book, 0, ASPEN_BAD_FORM);
    buffer_resize(&book, CASE_BOOK + 1);
    refuses(&book, 0, ASPEN_BAD_LAYOUT);
    buffer_free(&book);
}

/* It takes layout 2 alone, by its number and by its length. */
static void test_layouts(void)
{
    static const unsigned numbers[] = { 0, 1, 3, 4, 257, 258, 514, 65535 };
    static const size_t lengths[] = { 0, 1, 2, 10, 19, 20, 36, 276, 279, 281 };
    struct buffer book = after_d_in_2(), narrow = buffer_new(CASE_NARROW), today = after_d();
    size_t i;

    check_about("2 to 3, other layouts");
    book_narrow(narrow.bytes, book.bytes, CASE_BOOK);
    refuses(&narrow, 1000, ASPEN_BAD_LAYOUT);
    refuses(&today, 1000, ASPEN_BAD_LAYOUT);
    put_u16(narrow.bytes, AT_LAYOUT, 2);
    refuses(&narrow, 1000, ASPEN_BAD_LAYOUT);
    for (i = 0; i < sizeof numbers / sizeof numbers[0]; i++) {
        put_u16(book.bytes, AT_LAYOUT, numbers[i]);
        refuses(&book, 1000, ASPEN_BAD_LAYOUT);
    }
    check_about("2 to 3, other lengths");
    for (i = 0; i < sizeof lengths / sizeof lengths[0]; i++) {
        buffer_free(&book);
        book = after_d_in_2();
        buffer_resize(&book, lengths[i]);
        refuses(&book, 1000, ASPEN_BAD_LAYOUT);
    }
    buffer_free(&book);
    buffer_free(&narrow);
    buffer_free(&today);
}

/* The box after d, converted with a field of its old book changed. */
static struct box converted_box(size_t at, unsigned value)
{
    struct box box = box_after_d();
    struct buffer book = after_d_in_2();

    put_u16(book.bytes, at, value);
    CHECK_EQ(aspen_convert_2_3(book.bytes, CASE_BOOK, box.book.bytes, CASE_BOOK), ASPEN_OK);
    buffer_free(&book);
    return box;
}

static void check_sound(size_t at, unsigned value, uint16_t sound)
{
    struct box box = converted_box(at, value);

    CHECK_EQ(call_audit(&box, ASPEN_OK), sound);
    box_free(&box);
}

/* A wrong expiry is right afterwards, and nothing else is. */
static void test_sound(void)
{
    check_about("2 to 3, sound afterwards");
    check_sound(AT_LAYOUT, 2, 1);
    check_sound(case_entry(0) + ENTRY_EXPIRY, 12, 1);
    check_sound(case_entry(3) + ENTRY_EXPIRY, 65000, 1);
    check_sound(case_entry(1) + ENTRY_COUNT, 3, 0);
    check_sound(case_cell(0, 1), 2, 0);
    check_sound(case_record(4) + RECORD_BEFORE, 2, 0);
}

/* On day 15 volume 0's first backup is read in both layouts; on day 16 it could be in layout 2. */
static void test_kept(void)
{
    struct box box = converted_box(AT_DAY, 15);

    check_about("2 to 3, what is kept afterwards");
    CHECK_EQ(call_read(&box, 0, 1, 0, ASPEN_OK), 0);
    CHECK_EQ(call_collect(&box, 15, ASPEN_OK), 0);
    box_free(&box);
    box = converted_box(AT_DAY, 16);
    call_read(&box, 0, 1, 0, ASPEN_NOT_KEPT);
    CHECK_EQ(call_audit(&box, ASPEN_OK), 1);
    CHECK_EQ(call_collect(&box, 16, ASPEN_OK), 1);
    CHECK_EQ(call_audit(&box, ASPEN_OK), 1);
    box_free(&box);
}

void test_convert_2_3(void)
{
    test_rooms();
    test_expiries();
    test_records();
    test_fields();
    test_sizes_of_books();
    test_order();
    test_layouts();
    test_sound();
    test_kept();
}
