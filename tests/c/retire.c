/* An aid leaves the clinic: the slot and the records of a retirement, what is read and kept after it,
 * the numbers in checking order, and the form of books with one. */
#include <aspen.h>

#include "books.h"
#include "box.h"
#include "check.h"
#include "tests.h"

/* Volume 0 has C and B after case d, and its newest backup is of day 8: kept to day 18. */
static void test_bytes(void)
{
    struct box box = box_after_d(), expected = box_after_d();
    uint8_t *book = expected.book.bytes;

    check_about("a retirement in the book");
    CHECK_EQ(call_retire(&box, 0, 10, ASPEN_OK), 2);
    put_u16(book, AT_SLOTS_USED, 5);
    put_u16(book, AT_RECORDS_USED, 7);
    put_u16(book, AT_DAY, 10);
    put_u16(book, case_entry(1) + ENTRY_COUNT, 1);
    put_u16(book, case_entry(1) + ENTRY_EXPIRY, 18);
    put_u16(book, case_entry(2) + ENTRY_COUNT, 0);
    put_u16(book, case_entry(2) + ENTRY_EXPIRY, 18);
    put_u16(book, case_cell(0, 0), PBN_UNMAPPED);
    put_u16(book, case_cell(0, 1), PBN_UNMAPPED);
    book[case_slot(4) + SLOT_KIND] = 1;
    put_u16(book, case_slot(4) + SLOT_DAY, 10);
    put_u16(book, case_slot(4) + SLOT_FIRST, 5);
    put_u16(book, case_slot(4) + SLOT_NUMBER, 2);
    put_u16(book, case_record(5) + RECORD_BEFORE, 2);
    put_u16(book, case_record(5) + RECORD_AFTER, PBN_UNMAPPED);
    put_u16(book, case_record(6) + RECORD_LBN, 1);
    put_u16(book, case_record(6) + RECORD_BEFORE, 1);
    put_u16(book, case_record(6) + RECORD_AFTER, PBN_UNMAPPED);
    CHECK_BYTES(box.book.bytes, book, CASE_BOOK);
    CHECK_EQ(call_audit(&box, ASPEN_OK), 1);
    box_free(&box);
    box_free(&expected);
}

/* The old backups are read to their last days; the retirement has no number. */
static void test_read(void)
{
    struct box box = box_after_d();

    check_about("reads of a retired volume");
    call_retire(&box, 0, 10, ASPEN_OK);
    call_restore(&box, 0, 1, 0, 2, aspen_run_size(2), "AB", ASPEN_OK);
    call_restore(&box, 0, 2, 0, 2, aspen_run_size(2), "CB", ASPEN_OK);
    CHECK_EQ(call_read(&box, 0, 2, 0, ASPEN_OK), aspen_pool_size(2));
    call_read(&box, 0, 2, 2, ASPEN_UNMAPPED);
    call_read(&box, 0, 3, 0, ASPEN_NO_BACKUP);
    CHECK_EQ(call_collect(&box, 15, ASPEN_OK), 0);
    call_read(&box, 0, 1, 0, ASPEN_OK);
    CHECK_EQ(call_collect(&box, 18, ASPEN_OK), 1);
    call_read(&box, 0, 1, 0, ASPEN_NOT_KEPT);
    call_read(&box, 0, 2, 0, ASPEN_OK);
    CHECK_EQ(call_collect(&box, 19, ASPEN_OK), 1);
    call_read(&box, 0, 2, 0, ASPEN_NOT_KEPT);
    call_restore(&box, 0, 2, 0, 1, ASPEN_BLOCK_SIZE, "", ASPEN_NOT_KEPT);
    CHECK_EQ(call_audit(&box, ASPEN_OK), 1);
    box_free(&box);
}

/* An aid that sent nothing for long: its newest goes with the retirement, and its block with the next
 * collection, though nothing else moved. */
static void test_idle(void)
{
    struct box box = box_fresh();

    check_about("an idle aid retired");
    call_enrol(&box, 0, 3, ASPEN_OK);
    call_backup(&box, 0, 1, list_of(0, "A", "A"), ASPEN_OK);
    CHECK_EQ(call_collect(&box, 9, ASPEN_OK), 0);
    call_read(&box, 0, 1, 0, ASPEN_OK);
    CHECK_EQ(call_retire(&box, 0, 9, ASPEN_OK), 1);
    call_read(&box, 0, 1, 0, ASPEN_NOT_KEPT);
    CHECK_EQ(call_collect(&box, 9, ASPEN_OK), 1);
    box_free(&box);
    check_about("retired on the newest's last day");
    box = box_fresh();
    call_enrol(&box, 0, 3, ASPEN_OK);
    call_backup(&box, 0, 1, list_of(0, "A", "A"), ASPEN_OK);
    CHECK_EQ(call_retire(&box, 0, 4, ASPEN_OK), 1);
    call_read(&box, 0, 1, 0, ASPEN_OK);
    CHECK_EQ(call_collect(&box, 4, ASPEN_OK), 0);
    CHECK_EQ(call_collect(&box, 5, ASPEN_OK), 1);
    box_free(&box);
}

static void test_without_backups(void)
{
    struct box box = box_fresh();

    check_about("a volume without backups retired");
    call_enrol(&box, 7, ASPEN_MAX_RETENTION, ASPEN_OK);
    CHECK_EQ(call_retire(&box, 7, 0, ASPEN_OK), 0);
    CHECK_EQ(get_u16(box.book.bytes, AT_SLOTS_USED), 1);
    CHECK_EQ(get_u16(box.book.bytes, AT_RECORDS_USED), 0);
    CHECK_EQ(get_u16(box.book.bytes, case_slot(0)), 256 + 7);
    call_read(&box, 7, 1, 0, ASPEN_NO_BACKUP);
    CHECK_EQ(call_audit(&box, ASPEN_OK), 1);
    box_free(&box);
}

/* Enrol, backup and retire refuse a retired volume; the other volume goes on. */
static void test_volumes(void)
{
    static const uint16_t others[] = { 2, 7, 8, 255, 256, 65535 };
    struct box box = box_after_d();
    size_t i;

    check_about("volumes to retire");
    for (i = 0; i < sizeof others / sizeof others[0]; i++)
        call_retire(&box, others[i], 10, ASPEN_BAD_VOLUME);
    call_retire(&box, 0, 10, ASPEN_OK);
    check_about("a retired volume");
    call_retire(&box, 0, 11, ASPEN_BAD_VOLUME);
    call_enrol(&box, 0, 4, ASPEN_BAD_VOLUME);
    call_backup(&box, 0, 11, list_of(0, "A", "A"), ASPEN_BAD_VOLUME);
    call_backup(&box, 0, 11, buffer_filled(2, 0), ASPEN_BAD_VOLUME);
    CHECK_EQ(call_backup(&box, 1, 10, list_of(3, "A", "A"), ASPEN_OK).number, 3);
    box_free(&box);
}

static void check_day(uint16_t volume, uint16_t day, uint16_t expected)
{
    struct box box = box_after_d();

    call_retire(&box, volume, day, expected);
    box_free(&box);
}

/* The book's day is 9, that of volume 1's last backup; volume 0's is 8. */
static void test_days(void)
{
    check_about("days of a retirement");
    check_day(0, 8, ASPEN_BAD_DAY);
    check_day(0, 9, ASPEN_OK);
    check_day(0, ASPEN_MAX_DAY, ASPEN_OK);
    check_day(0, ASPEN_MAX_DAY + 1, ASPEN_BAD_DAY);
    check_day(0, 65535, ASPEN_BAD_DAY);
    check_day(1, 9, ASPEN_BAD_DAY);
    check_day(1, 10, ASPEN_OK);
}

/* With every fault from `from` on, in the order of the checks: volume 1 on day 11. For 10 its map has
 * block 1 four times, and three records are left. */
static void check_order(uint16_t from)
{
    struct box box = box_after_d();
    uint16_t volume = from <= ASPEN_BAD_VOLUME ? 8 : 1;
    uint16_t day = from <= ASPEN_BAD_DAY ? ASPEN_MAX_DAY + 1 : 11;
    unsigned lbn;

    if (from <= ASPEN_NO_SLOT) {
        call_backup(&box, 0, 10, buffer_filled(2, 0), ASPEN_OK);
        call_backup(&box, 1, 10, buffer_filled(2, 0), ASPEN_OK);
    }
    for (lbn = 0; from <= ASPEN_NO_RECORD && lbn < CASE_L; lbn++)
        put_u16(box.book.bytes, case_cell(1, lbn), 1);
    if (from <= ASPEN_COUNT_ZERO)
        put_u16(box.book.bytes, case_entry(1) + ENTRY_COUNT, 0);
    if (from <= ASPEN_SHORT_SPARE)
        buffer_resize(&box.spare, CASE_BOOK - 1);
    if (from <= ASPEN_BAD_FORM)
        put_u16(box.book.bytes, AT_ZERO, 1);
    if (from <= ASPEN_BAD_LAYOUT)
        buffer_resize(&box.book, CASE_BOOK + 1);
    call_retire(&box, volume, day, from);
    box_free(&box);
}

static void test_order(void)
{
    static const uint16_t numbers[] = { ASPEN_BAD_LAYOUT, ASPEN_BAD_FORM, ASPEN_SHORT_SPARE,
                                        ASPEN_BAD_VOLUME, ASPEN_BAD_DAY, ASPEN_NO_SLOT,
                                        ASPEN_NO_RECORD, ASPEN_COUNT_ZERO };
    size_t i;

    check_about("retire, checks in order");
    for (i = 0; i < sizeof numbers / sizeof numbers[0]; i++)
        check_order(numbers[i]);
}

/* Spares of any length but a shorter one, and no pool at all. */
static void test_spares(void)
{
    static const size_t spares[] = { CASE_BOOK, CASE_BOOK + 1, 2 * CASE_BOOK };
    struct box box;
    size_t i;

    check_about("spares of a retirement");
    for (i = 0; i < sizeof spares / sizeof spares[0]; i++) {
        box = box_after_d();
        buffer_resize(&box.spare, spares[i]);
        buffer_resize(&box.pool, 0);
        CHECK_EQ(call_retire(&box, 0, 10, ASPEN_OK), 2);
        box_free(&box);
    }
    box = box_after_d();
    buffer_resize(&box.spare, 0);
    call_retire(&box, 0, 10, ASPEN_SHORT_SPARE);
    box_free(&box);
}

/* Slots and records that are just enough, and one less: two cells of volume 0. */
static void check_room(unsigned s, unsigned j, uint16_t expected)
{
    struct box box = box_of(CASE_N, CASE_L, s, j);

    call_enrol(&box, 0, 3, ASPEN_OK);
    call_enrol(&box, 1, 3, ASPEN_OK);
    call_backup(&box, 0, 1, list_of(0, "AB", "AB"), ASPEN_OK);
    call_retire(&box, 0, 2, expected);
    if (expected == ASPEN_OK) {
        call_retire(&box, 1, 2, s == 2 ? ASPEN_NO_SLOT : ASPEN_OK);
        call_backup(&box, 1, 2, list_of(0, "A", "A"), s == 2 ? ASPEN_NO_SLOT : ASPEN_BAD_VOLUME);
    }
    box_free(&box);
}

static void test_room(void)
{
    check_about("room for a retirement");
    check_room(2, 4, ASPEN_OK);
    check_room(3, 4, ASPEN_OK);
    check_room(1, 4, ASPEN_NO_SLOT);
    check_room(1, 3, ASPEN_NO_SLOT);
    check_room(2, 3, ASPEN_NO_RECORD);
    check_room(3, 2, ASPEN_NO_RECORD);
}

/* Damaged books: block 3 with this count in LBNs 1 and 2 of volume 0. */
static void check_count(unsigned count, uint16_t expected)
{
    struct box box = box_after_d();

    box.book.bytes[case_entry(3) + ENTRY_STATE] = 1;
    put_u16(box.book.bytes, case_entry(3) + ENTRY_COUNT, count);
    put_u16(box.book.bytes, case_cell(0, 1), 3);
    put_u16(box.book.bytes, case_cell(0, 2), 3);
    call_retire(&box, 0, 10, expected);
    box_free(&box);
}

static void test_damaged(void)
{
    struct box box = box_after_d();

    check_about("counts of a retirement");
    check_count(0, ASPEN_COUNT_ZERO);
    check_count(1, ASPEN_COUNT_ZERO);
    check_count(2, ASPEN_OK);
    check_count(65535, ASPEN_OK);
    check_about("a map without a backup, retired");
    call_enrol(&box, 2, 7, ASPEN_OK);
    put_u16(box.book.bytes, case_cell(2, 3), 1);
    CHECK_EQ(call_retire(&box, 2, 10, ASPEN_OK), 1);
    CHECK_EQ(get_u16(box.book.bytes, case_entry(1) + ENTRY_EXPIRY), 7);
    box_free(&box);
}

/* A book with a retirement of volume 0 in slot 4, records 5 and 6, and one field changed. */
static void check_form(const char *about, size_t at, unsigned value, uint16_t expected)
{
    struct box box = box_after_d();
    uint8_t *book = box.book.bytes;

    check_about(about);
    call_retire(&box, 0, 10, ASPEN_OK);
    put_u16(book, at, value);
    CHECK_EQ(aspen_form(book, CASE_BOOK), expected);
    put_u16(book, AT_LAYOUT, 2);
    CHECK_EQ(aspen_convert_2_3(book, CASE_BOOK, box.spare.bytes, CASE_BOOK), ASPEN_BAD_FORM);
    box_free(&box);
}

static void test_form_of_slots(void)
{
    const size_t last = case_slot(4), next = case_slot(5);

    check_form("retired", AT_DAY, 10, ASPEN_OK);
    check_form("retired, second byte", last, 2 * 256, ASPEN_BAD_FORM);
    check_form("retired, second byte", last, 255 * 256, ASPEN_BAD_FORM);
    check_form("unmapped afters in a backup", last, 0, ASPEN_BAD_FORM);
    check_form("an unused slot", next, 256, ASPEN_BAD_FORM);
    check_form("retired, volume", last, 256 + 1, ASPEN_OK);
    check_form("retired, volume", last, 256 + 2, ASPEN_BAD_FORM);
    check_form("retired, day", last + SLOT_DAY, 9, ASPEN_OK);
    check_form("retired, day", last + SLOT_DAY, 8, ASPEN_BAD_FORM);
    check_form("retired, day", last + SLOT_DAY, 11, ASPEN_BAD_FORM);
    check_form("a backup's afters", case_slot(0), 256, ASPEN_BAD_FORM);
    check_form("a retirement's after", case_record(5) + RECORD_AFTER, 0, ASPEN_BAD_FORM);
    check_form("a retirement's after", case_record(6) + RECORD_AFTER, 3, ASPEN_BAD_FORM);
    check_form("a retirement's after", case_record(6) + RECORD_AFTER, 4, ASPEN_BAD_FORM);
    check_form("a retirement's before", case_record(6) + RECORD_BEFORE, 3, ASPEN_OK);
    check_form("a backup's after", case_record(4) + RECORD_AFTER, PBN_UNMAPPED, ASPEN_BAD_FORM);
}

/* A slot without records of this kind and volume after the retirement of volume 0. */
static void check_next(uint8_t volume, uint8_t kind, uint16_t expected)
{
    struct box box = box_after_d();
    uint8_t *slot = box.book.bytes + case_slot(5);

    call_retire(&box, 0, 10, ASPEN_OK);
    slot[SLOT_VOLUME] = volume;
    slot[SLOT_KIND] = kind;
    put_u16(slot, SLOT_DAY, 11);
    put_u16(slot, SLOT_FIRST, 7);
    put_u16(box.book.bytes, AT_SLOTS_USED, 6);
    put_u16(box.book.bytes, AT_DAY, 11);
    CHECK_EQ(aspen_form(box.book.bytes, CASE_BOOK), expected);
    box_free(&box);
}

static void test_form_of_volumes(void)
{
    check_about("slots after a retirement");
    check_next(1, 0, ASPEN_OK);
    check_next(1, 1, ASPEN_OK);
    check_next(0, 0, ASPEN_BAD_FORM);
    check_next(0, 1, ASPEN_BAD_FORM);
    check_next(1, 2, ASPEN_BAD_FORM);
}

/* The audit replays the records of a retirement too, and its befores wait for the newest backup. */
static void check_audit(const char *about, size_t at, unsigned value, uint16_t sound)
{
    struct box box = box_after_d();

    check_about(about);
    call_retire(&box, 0, 10, ASPEN_OK);
    put_u16(box.book.bytes, at, value);
    CHECK_EQ(call_audit(&box, ASPEN_OK), sound);
    box_free(&box);
}

static void test_audit_of_one(void)
{
    const size_t expiry = case_entry(2) + ENTRY_EXPIRY;

    check_audit("audit, a retirement", expiry, 18, 1);
    check_audit("audit, an expiry from the retirement's day", expiry, 20, 0);
    check_audit("audit, an expiry from the first backup", expiry, 15, 0);
    check_audit("audit, no expiry", expiry, 0, 0);
    check_audit("audit, a count left", case_entry(2) + ENTRY_COUNT, 1, 0);
    check_audit("audit, a cell left", case_cell(0, 0), 2, 0);
    check_audit("audit, another before", case_record(5) + RECORD_BEFORE, 1, 0);
}

/* All cells of a map of the most LBNs. */
static void test_most_cells(void)
{
    struct box box = box_of(1, ASPEN_MAX_LBNS, 2, 2 * ASPEN_MAX_LBNS);
    struct buffer list = buffer_filled(aspen_list_size(16, ASPEN_MAX_LBNS), 'E');
    unsigned i;

    check_about("1,024 cells retired");
    put_u16(list.bytes, 0, 16);
    for (i = 0; i < 16; i++) {
        put_u16(list.bytes, 2 + 4 * i, ASPEN_MAX_RUN * i);
        put_u16(list.bytes, 4 + 4 * i, ASPEN_MAX_RUN);
    }
    call_enrol(&box, 7, ASPEN_MAX_RETENTION, ASPEN_OK);
    call_backup(&box, 7, ASPEN_MAX_DAY - 1, list, ASPEN_OK);
    CHECK_EQ(call_retire(&box, 7, ASPEN_MAX_DAY, ASPEN_OK), ASPEN_MAX_LBNS);
    CHECK_EQ(get_u16(box.book.bytes, case_entry(0) + ENTRY_COUNT), 0);
    CHECK_EQ(get_u16(box.book.bytes, case_entry(0) + ENTRY_EXPIRY), 64999);
    CHECK_EQ(call_read(&box, 7, 1, ASPEN_MAX_LBNS - 1, ASPEN_OK), 0);
    CHECK_EQ(call_audit(&box, ASPEN_OK), 1);
    box_free(&box);
}

void test_retire(void)
{
    test_bytes();
    test_read();
    test_idle();
    test_without_backups();
    test_volumes();
    test_days();
    test_order();
    test_spares();
    test_room();
    test_damaged();
    test_form_of_slots();
    test_form_of_volumes();
    test_audit_of_one();
    test_most_cells();
}
