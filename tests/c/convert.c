/* The converters between layouts 1 and 2: every field equal, there and back, and the numbers in
 * checking order. */
#include <aspen.h>

#include "books.h"
#include "box.h"
#include "check.h"
#include "converting.h"
#include "tests.h"

#include <string.h>

static void refuses(converter *convert, const struct buffer *book, size_t room, uint16_t expected)
{
    converter_refuses(convert, book, room, expected);
}

/* A book in both layouts, of two bytes for a count and of one. */
struct both {
    struct buffer wide, narrow;
};

static struct both both_of(struct buffer wide)
{
    struct both both;

    both.wide = wide;
    both.narrow = buffer_new(aspen_converted_size(1, wide.bytes, wide.length));
    book_narrow(both.narrow.bytes, wide.bytes, wide.length);
    return both;
}

static struct both both_after_d(void)
{
    struct buffer book = buffer_new(CASE_BOOK);

    book_after_d_in_2(book.bytes);
    return both_of(book);
}

static void both_free(struct both *both)
{
    buffer_free(&both->wide);
    buffer_free(&both->narrow);
}

/* Both ways, with this much more room than the book to write has. */
static void check_both(const struct both *both, size_t more)
{
    converts(aspen_convert_2_1, &both->wide, both->narrow.length + more, &both->narrow, ASPEN_OK);
    converts(aspen_convert_1_2, &both->narrow, both->wide.length + more, &both->wide, ASPEN_OK);
}

/* The count of a block, in two bytes and in one. */
static void set_count(struct both *both, unsigned pbn, unsigned count)
{
    put_u16(both->wide.bytes, case_entry(pbn) + ENTRY_COUNT, count);
    both->narrow.bytes[case_entry(pbn) - pbn] = (uint8_t)count;
}

static void test_rooms(void)
{
    struct both both = both_after_d();
    size_t room;

    check_about("converters, room for the book to write");
    CHECK_EQ(both.narrow.length, CASE_NARROW);
    for (room = 0; room < CASE_NARROW; room++)
        refuses(aspen_convert_2_1, &both.wide, room, ASPEN_SHORT_SPARE);
    for (room = 0; room < CASE_BOOK; room++)
        refuses(aspen_convert_1_2, &both.narrow, room, ASPEN_SHORT_SPARE);
    for (room = 0; room < 10; room++)
        check_both(&both, room);
    check_both(&both, 5000);
    both_free(&both);
}

static void test_counts(void)
{
    static const unsigned counts[] = { 1, 127, 128, 254, 255 };
    static const unsigned wide[] = { 256, 257, 511, 512, 32768, 65280, 65535 };
    struct both both = both_after_d();
    unsigned pbn;
    size_t i;

    for (pbn = 0; pbn < CASE_N; pbn++) {
        unsigned before = get_u16(both.wide.bytes, case_entry(pbn) + ENTRY_COUNT);

        both.wide.bytes[case_entry(pbn) + ENTRY_STATE] = 1;
        both.narrow.bytes[case_entry(pbn) - pbn + 1] = 1;
        check_about("converters, counts with room in one byte");
        for (i = 0; i < sizeof counts / sizeof counts[0]; i++) {
            set_count(&both, pbn, counts[i]);
            check_both(&both, 0);
        }
        check_about("converters, counts above 255");
        for (i = 0; i < sizeof wide / sizeof wide[0]; i++) {
            set_count(&both, pbn, wide[i]);
            refuses(aspen_convert_2_1, &both.wide, CASE_NARROW, ASPEN_COUNT_WIDE);
            refuses(aspen_convert_2_1, &both.wide, CASE_BOOK, ASPEN_COUNT_WIDE);
        }
        set_count(&both, pbn, before);
    }
    both_free(&both);
}

/* The smallest and the largest book, with numbers at the ends of their ranges. */
static void check_sizes(uint16_t n, uint16_t l, uint16_t s, uint16_t j)
{
    struct buffer book = buffer_new(aspen_book_size(n, l, s, j));
    struct both both;
    unsigned pbn;

    book_fresh(book.bytes, n, l, s, j);
    put_u16(book.bytes, AT_LAYOUT, 2);
    put_u16(book.bytes, AT_DAY, ASPEN_MAX_DAY);
    put_u16(book.bytes, AT_CURSOR, n - 1u);
    put_u16(book.bytes, AT_RETENTIONS + 2 * 7, ASPEN_MAX_RETENTION);
    for (pbn = 0; pbn < n; pbn++) {
        uint8_t *entry = book.bytes + case_entry(pbn);

        put_u16(entry, ENTRY_COUNT, pbn % 256);
        entry[ENTRY_STATE] = 1;
        put_u16(entry, ENTRY_EXPIRY, 65000 - pbn);
        memset(entry + ENTRY_PRINT, (int)(pbn % 251), ASPEN_PRINT_SIZE);
    }
    both = both_of(book);
    check_both(&both, 0);
    check_both(&both, 1);
    refuses(aspen_convert_2_1, &both.wide, both.narrow.length - 1, ASPEN_SHORT_SPARE);
    refuses(aspen_convert_1_2, &both.narrow, both.wide.length - 1, ASPEN_SHORT_SPARE);
    both_free(&both);
}

static void test_book_sizes(void)
{
    check_about("converters, smallest and largest books");
    check_sizes(1, 1, 1, 1);
    check_sizes(ASPEN_MAX_BLOCKS, ASPEN_MAX_LBNS, ASPEN_MAX_SLOTS, ASPEN_MAX_RECORDS);
}

/* Each number with every later fault. */
static void test_order(void)
{
    struct both both = both_after_d();

    check_about("converters, checks in order");
    put_u16(both.wide.bytes, case_entry(2) + ENTRY_COUNT, 256);
    refuses(aspen_convert_2_1, &both.wide, CASE_NARROW, ASPEN_COUNT_WIDE);
    refuses(aspen_convert_2_1, &both.wide, CASE_NARROW - 1, ASPEN_SHORT_SPARE);
    refuses(aspen_convert_1_2, &both.narrow, CASE_BOOK - 1, ASPEN_SHORT_SPARE);
    put_u16(both.wide.bytes, AT_ZERO, 1);
    put_u16(both.narrow.bytes, AT_ZERO, 1);
    refuses(aspen_convert_2_1, &both.wide, 0, ASPEN_BAD_FORM);
    refuses(aspen_convert_1_2, &both.narrow, 0, ASPEN_BAD_FORM);
    buffer_resize(&both.wide, CASE_BOOK + 1);
    buffer_resize(&both.narrow, CASE_NARROW + 1);
    refuses(aspen_convert_2_1, &both.wide, 0, ASPEN_BAD_LAYOUT);
    refuses(aspen_convert_1_2, &both.narrow, 0, ASPEN_BAD_LAYOUT);
    both_free(&both);
}

/* Each converter takes one layout, by its number and by its length. */
static void test_layouts(void)
{
    static const unsigned numbers[] = { 0, 3, 4, 257, 258, 65535 };
    static const size_t lengths[] = { 0, 1, 2, 10, 19, 20, 36, 275, 279 };
    struct both both = both_after_d();
    size_t i;

    check_about("converters, other layouts");
    refuses(aspen_convert_1_2, &both.wide, 1000, ASPEN_BAD_LAYOUT);
    refuses(aspen_convert_2_1, &both.narrow, 1000, ASPEN_BAD_LAYOUT);
    for (i = 0; i < sizeof numbers / sizeof numbers[0]; i++) {
        put_u16(both.wide.bytes, AT_LAYOUT, numbers[i]);
        put_u16(both.narrow.bytes, AT_LAYOUT, numbers[i]);
        refuses(aspen_convert_2_1, &both.wide, 1000, ASPEN_BAD_LAYOUT);
        refuses(aspen_convert_1_2, &both.narrow, 1000, ASPEN_BAD_LAYOUT);
    }
    check_about("converters, the number of the other layout");
    put_u16(both.wide.bytes, AT_LAYOUT, 1);
    put_u16(both.narrow.bytes, AT_LAYOUT, 2);
    refuses(aspen_convert_1_2, &both.wide, 1000, ASPEN_BAD_LAYOUT);
    refuses(aspen_convert_2_1, &both.wide, 1000, ASPEN_BAD_LAYOUT);
    refuses(aspen_convert_1_2, &both.narrow, 1000, ASPEN_BAD_LAYOUT);
    refuses(aspen_convert_2_1, &both.narrow, 1000, ASPEN_BAD_LAYOUT);
    both_free(&both);
    check_about("converters, other lengths");
    for (i = 0; i < sizeof lengths / sizeof lengths[0]; i++) {
        both = both_after_d();
        buffer_resize(&both.wide, lengths[i]);
        buffer_resize(&both.narrow, lengths[i]);
        refuses(aspen_convert_2_1, &both.wide, 1000, ASPEN_BAD_LAYOUT);
        refuses(aspen_convert_1_2, &both.narrow, 1000, ASPEN_BAD_LAYOUT);
        both_free(&both);
    }
}

/* A field out of form is so in layout 1 too: `at` is its place in layout 2. */
static void check_form_1(const char *about, size_t at, unsigned value, uint16_t expected)
{
    struct both both = both_after_d();
    struct both changed;

    check_about(about);
    put_u16(both.wide.bytes, at, value);
    changed = both_of(both.wide);
    buffer_free(&both.narrow);
    converts(aspen_convert_1_2, &changed.narrow, CASE_BOOK, &changed.wide, expected);
    converts(aspen_convert_2_1, &changed.wide, CASE_NARROW, &changed.narrow, expected);
    both_free(&changed);
}

static void test_form_1(void)
{
    check_form_1("converters, cursor", AT_CURSOR, CASE_N - 1, ASPEN_OK);
    check_form_1("converters, cursor", AT_CURSOR, CASE_N, ASPEN_BAD_FORM);
    check_form_1("converters, retention", AT_RETENTIONS + 14, 5001, ASPEN_BAD_FORM);
    check_form_1("converters, free with a count", case_entry(3), 1, ASPEN_BAD_FORM);
    check_form_1("converters, state", case_entry(3) + ENTRY_STATE, 2, ASPEN_BAD_FORM);
    check_form_1("converters, expiry", case_entry(3) + ENTRY_EXPIRY, 65000, ASPEN_OK);
    check_form_1("converters, expiry", case_entry(3) + ENTRY_EXPIRY, 65001, ASPEN_BAD_FORM);
    check_form_1("converters, print", case_entry(3) + ENTRY_PRINT + 14, 256, ASPEN_BAD_FORM);
    check_form_1("converters, map", case_cell(7, 3), CASE_N, ASPEN_BAD_FORM);
    check_form_1("converters, slot", case_slot(3) + SLOT_DAY, 10, ASPEN_BAD_FORM);
    check_form_1("converters, record", case_record(4) + RECORD_AFTER, 65535, ASPEN_BAD_FORM);
    check_form_1("converters, last byte", case_record(7) + RECORD_AFTER, 256, ASPEN_BAD_FORM);
    check_form_1("converters, an unsound book", case_cell(7, 3), 0, ASPEN_OK);
}

/* The calls that show a book refuse one of an older layout, and so does an audit in a list. */
static void check_shown(struct box *box)
{
    static const uint8_t audit[ASPEN_CALL_HEAD] = { ASPEN_CALL_AUDIT };
    const uint8_t *book = box->book.bytes;
    uint8_t *out = box->spare.bytes, answer[3];
    size_t length = box->book.length, room = box->spare.length;
    uint16_t a, b, c, d;
    uint32_t wide;

    CHECK_EQ(aspen_form(book, length), ASPEN_BAD_LAYOUT);
    CHECK_EQ(aspen_count(book, length, &a, &b, &c, &wide), ASPEN_BAD_LAYOUT);
    CHECK_EQ(aspen_sizes(book, length, &a, &b, &c, &d), ASPEN_BAD_LAYOUT);
    CHECK_EQ(aspen_used(book, length, &a, &b, &c), ASPEN_BAD_LAYOUT);
    CHECK_EQ(aspen_volume(book, length, 0, &a, &b, &c), ASPEN_BAD_LAYOUT);
    CHECK_EQ(aspen_backups(book, length, 0, out, room, &a), ASPEN_BAD_LAYOUT);
    CHECK_EQ(aspen_cells(book, length, 0, out, room), ASPEN_BAD_LAYOUT);
    CHECK_EQ(aspen_blocks(book, length, out, room), ASPEN_BAD_LAYOUT);
    CHECK_EQ(aspen_play(box->book.bytes, length, box->pool.bytes, box->pool.length, out, room,
                        audit, sizeof audit, answer, sizeof answer, &wide), ASPEN_OK);
    CHECK_EQ(answer[0], ASPEN_ANSWER_NUMBER);
    CHECK_EQ(aspen_u16(answer + 1), ASPEN_BAD_LAYOUT);
}

/* Every call but a converter refuses a book of an older layout. */
static void check_calls(const char *about, struct buffer book)
{
    struct box box = box_after_d();

    check_about(about);
    buffer_free(&box.book);
    box.book = book;
    call_enrol(&box, 7, 1, ASPEN_BAD_LAYOUT);
    call_backup(&box, 0, 10, list_of(0, "A", "A"), ASPEN_BAD_LAYOUT);
    call_collect(&box, 19, ASPEN_BAD_LAYOUT);
    call_read(&box, 0, 1, 0, ASPEN_BAD_LAYOUT);
    call_restore(&box, 0, 1, 0, 1, ASPEN_BLOCK_SIZE, "", ASPEN_BAD_LAYOUT);
    call_audit(&box, ASPEN_BAD_LAYOUT);
    check_shown(&box);
    box_free(&box);
}

static void test_calls(void)
{
    struct both both = both_after_d();

    check_calls("calls on a book of layout 1", both.narrow);
    check_calls("calls on a book of layout 2", both.wide);
}

/* A clinic that met 14: its book goes on in today's layout, by way of layout 2, from which it can go
 * back as long as no count has passed 255. */
static void test_going_on(void)
{
    struct box box = box_after_d();
    struct both both = both_after_d();

    check_about("a count of 255 goes on");
    set_count(&both, 2, 255);
    CHECK_EQ(aspen_convert_1_2(both.narrow.bytes, CASE_NARROW, box.spare.bytes, CASE_BOOK),
             ASPEN_OK);
    CHECK_BYTES(box.spare.bytes, both.wide.bytes, CASE_BOOK);
    CHECK_EQ(aspen_convert_2_3(both.wide.bytes, CASE_BOOK, box.book.bytes, CASE_BOOK), ASPEN_OK);
    call_backup(&box, 0, 10, list_of(2, "C", "C"), ASPEN_OK);
    CHECK_EQ(get_u16(box.book.bytes, case_entry(2) + ENTRY_COUNT), 256);
    set_count(&both, 2, 256);
    refuses(aspen_convert_2_1, &both.wide, CASE_NARROW, ASPEN_COUNT_WIDE);
    refuses(aspen_convert_2_1, &box.book, CASE_NARROW, ASPEN_BAD_LAYOUT);
    both_free(&both);
    box_free(&box);
}

void test_convert(void)
{
    test_rooms();
    test_counts();
    test_book_sizes();
    test_order();
    test_layouts();
    test_form_1();
    test_calls();
    test_going_on();
}
