/* The numbers 1 to 10 and 15 to 18 of every call that gives them, in checking order. */
#include <aspen.h>

#include "books.h"
#include "box.h"
#include "check.h"
#include "tests.h"

static struct buffer letter_x(void)
{
    return list_of(0, "X", "X");
}

/* Spoils the buffers for the numbers 1 to 4, from the given one on. */
static void spoil(struct box *box, uint16_t from)
{
    if (from <= ASPEN_SHORT_SPARE)
        buffer_resize(&box->spare, CASE_BOOK - 1);
    if (from <= ASPEN_BAD_POOL)
        buffer_resize(&box->pool, aspen_pool_size(CASE_N) - 1);
    if (from <= ASPEN_BAD_FORM)
        put_u16(box->book.bytes, AT_ZERO, 1);
    if (from <= ASPEN_BAD_LAYOUT)
        buffer_resize(&box->book, CASE_BOOK + 1);
}

/* A call with every fault from `from` on is refused by that number. */
static void check_backup_order(uint16_t from)
{
    struct box box = box_after_d();
    uint16_t volume = from <= ASPEN_BAD_VOLUME ? 8 : 0;
    uint16_t day = from <= ASPEN_BAD_DAY ? ASPEN_MAX_DAY + 1 : 11;
    const char *text = from <= ASPEN_NO_RECORD ? "XXXX" : "X";
    struct buffer list = list_of(0, text, text);

    if (from <= ASPEN_NO_SLOT) {
        call_backup(&box, 0, 10, buffer_filled(2, 0), ASPEN_OK);
        call_backup(&box, 1, 10, buffer_filled(2, 0), ASPEN_OK);
    }
    if (from <= ASPEN_BAD_LIST)
        buffer_resize(&list, list.length + 1);
    spoil(&box, from);
    call_backup(&box, volume, day, list, from);
    box_free(&box);
}

static void test_backup(void)
{
    uint16_t from;

    check_about("backup, checks in order");
    for (from = ASPEN_BAD_LAYOUT; from <= ASPEN_NO_RECORD; from++)
        if (from != ASPEN_BAD_RETENTION)
            check_backup_order(from);
}

/* Lengths of pool and spare, with their numbers. */
static void check_lengths(size_t pool, size_t spare, uint16_t expected)
{
    struct box box = box_after_d();

    buffer_resize(&box.pool, pool);
    buffer_resize(&box.spare, spare);
    call_backup(&box, 0, 10, letter_x(), expected);
    box_free(&box);
}

static void test_lengths(void)
{
    const size_t pool = aspen_pool_size(CASE_N);

    check_about("backup, lengths of pool and spare");
    check_lengths(0, CASE_BOOK, ASPEN_BAD_POOL);
    check_lengths(pool + 1, CASE_BOOK, ASPEN_BAD_POOL);
    check_lengths(pool + ASPEN_BLOCK_SIZE, CASE_BOOK, ASPEN_BAD_POOL);
    check_lengths(pool, 0, ASPEN_SHORT_SPARE);
    check_lengths(pool, CASE_BOOK, ASPEN_OK);
    check_lengths(pool, CASE_BOOK + 100, ASPEN_OK);
}

static void check_day(uint16_t volume, uint16_t day, uint16_t expected)
{
    struct box box = box_after_d();

    call_backup(&box, volume, day, letter_x(), expected);
    box_free(&box);
}

static void test_days(void)
{
    struct box box = box_after_d();

    check_about("backup, volumes and days");
    check_day(2, 10, ASPEN_BAD_VOLUME);
    check_day(65535, 10, ASPEN_BAD_VOLUME);
    check_day(0, 8, ASPEN_BAD_DAY);
    check_day(0, 9, ASPEN_OK);
    check_day(1, 9, ASPEN_BAD_DAY);
    check_day(1, 10, ASPEN_OK);
    check_day(0, ASPEN_MAX_DAY, ASPEN_OK);
    check_about("collect, days");
    call_collect(&box, 8, ASPEN_BAD_DAY);
    call_collect(&box, ASPEN_MAX_DAY + 1, ASPEN_BAD_DAY);
    call_collect(&box, 9, ASPEN_OK);
    box_free(&box);
}

/* The calls that take the book alone. */
static void test_book_alone(void)
{
    uint16_t from;

    check_about("enrol, collect and audit, checks in order");
    for (from = ASPEN_BAD_LAYOUT; from <= ASPEN_BAD_FORM; from++) {
        struct box box = box_after_d();
        spoil(&box, from);
        call_enrol(&box, 8, 0, from);
        call_collect(&box, 0, from);
        call_audit(&box, from);
        box_free(&box);
    }
}

static void test_enrol(void)
{
    struct box box = box_after_d();

    check_about("enrol, volumes and retentions");
    call_enrol(&box, 8, 0, ASPEN_BAD_VOLUME);
    call_enrol(&box, 0, 0, ASPEN_BAD_VOLUME);
    call_enrol(&box, 1, 5, ASPEN_BAD_VOLUME);
    call_enrol(&box, 7, 0, ASPEN_BAD_RETENTION);
    call_enrol(&box, 7, ASPEN_MAX_RETENTION + 1, ASPEN_BAD_RETENTION);
    call_enrol(&box, 7, ASPEN_MAX_RETENTION, ASPEN_OK);
    call_enrol(&box, 7, ASPEN_MAX_RETENTION, ASPEN_BAD_VOLUME);
    CHECK_EQ(get_u16(box.book.bytes, AT_RETENTIONS + 2 * 7), ASPEN_MAX_RETENTION);
    box_free(&box);
}

/* On day 13, when volume 1's first backup isn't kept any more. */
static void check_read_order(uint16_t from)
{
    struct box box = box_after_d();
    uint16_t volume = from <= ASPEN_BAD_VOLUME ? 2 : 1;
    uint16_t number = from <= ASPEN_NO_BACKUP ? 0 : from <= ASPEN_NOT_KEPT ? 1 : 2;
    uint16_t lbn = from <= ASPEN_BAD_LBN ? CASE_L : from <= ASPEN_UNMAPPED ? 0 : 3;

    call_collect(&box, 13, ASPEN_OK);
    spoil(&box, from);
    call_read(&box, volume, number, lbn, from);
    box_free(&box);
}

static void test_read(void)
{
    static const uint16_t numbers[] = { ASPEN_BAD_LAYOUT, ASPEN_BAD_FORM, ASPEN_BAD_POOL,
                                        ASPEN_BAD_VOLUME, ASPEN_NO_BACKUP, ASPEN_NOT_KEPT,
                                        ASPEN_BAD_LBN, ASPEN_UNMAPPED };
    struct box box = box_after_d();
    size_t i;

    check_about("read, checks in order");
    for (i = 0; i < sizeof numbers / sizeof numbers[0]; i++)
        check_read_order(numbers[i]);
    check_about("read, numbers and LBNs");
    call_read(&box, 1, 3, 3, ASPEN_NO_BACKUP);
    call_read(&box, 8, 1, 3, ASPEN_BAD_VOLUME);
    call_read(&box, 0, 1, 65535, ASPEN_BAD_LBN);
    CHECK_EQ(call_read(&box, 1, 1, 3, ASPEN_OK), 0);
    CHECK_EQ(call_read(&box, 1, 2, 3, ASPEN_OK), ASPEN_BLOCK_SIZE);
    CHECK_EQ(call_read(&box, 0, 2, 0, ASPEN_OK), 2 * ASPEN_BLOCK_SIZE);
    box_free(&box);
}

void test_refusals(void)
{
    test_backup();
    test_lengths();
    test_days();
    test_book_alone();
    test_enrol();
    test_read();
}
