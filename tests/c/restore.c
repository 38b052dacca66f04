/* Runs of blocks in one call: what the reads one by one give, the numbers in checking order, and an
 * output that is written as a whole or not at all. */
#include <aspen.h>

#include "books.h"
#include "box.h"
#include "check.h"
#include "tests.h"

#include <string.h>

enum { LONG = 200 };

/* In an output of just the run. */
static void restores(const struct box *box, uint16_t volume, uint16_t number, uint16_t first,
                     const char *letters)
{
    uint16_t length = (uint16_t)strlen(letters);

    call_restore(box, volume, number, first, length, aspen_run_size(length), letters, ASPEN_OK);
}

static void refuses(const struct box *box, uint16_t number, uint16_t first, uint16_t length,
                    uint16_t expected)
{
    call_restore(box, 0, number, first, length, aspen_pool_size(CASE_N), "", expected);
}

/* Cases c to g: what volumes 0 and 1 had in each of their backups, as long as they are kept. */
static void test_cases_restored(void)
{
    struct box box = box_after_d();

    check_about("cases c to g, restored");
    restores(&box, 0, 1, 0, "AB");
    restores(&box, 0, 2, 0, "CB");
    restores(&box, 0, 2, 1, "B");
    restores(&box, 1, 1, 3, "A");
    restores(&box, 1, 2, 3, "B");
    CHECK_EQ(call_collect(&box, 15, ASPEN_OK), 0);
    restores(&box, 0, 1, 0, "AB");
    call_restore(&box, 1, 1, 3, 1, ASPEN_BLOCK_SIZE, "", ASPEN_NOT_KEPT);
    CHECK_EQ(call_collect(&box, 16, ASPEN_OK), 1);
    refuses(&box, 1, 0, 2, ASPEN_NOT_KEPT);
    restores(&box, 0, 2, 0, "CB");
    box_free(&box);
}

/* Length 0: every check but 18, in an output of any length. */
static void test_no_block(void)
{
    struct box box = box_after_d();
    uint16_t first;

    check_about("restores of no block");
    for (first = 0; first <= CASE_L; first++) {
        call_restore(&box, 0, 1, first, 0, 0, "", ASPEN_OK);
        call_restore(&box, 1, 2, first, 0, 1000, "", ASPEN_OK);
    }
    refuses(&box, 1, CASE_L + 1, 0, ASPEN_BAD_RUN);
    refuses(&box, 1, 65535, 0, ASPEN_BAD_RUN);
    refuses(&box, 0, 0, 0, ASPEN_NO_BACKUP);
    refuses(&box, 3, 0, 0, ASPEN_NO_BACKUP);
    call_restore(&box, 2, 1, 0, 0, 0, "", ASPEN_BAD_VOLUME);
    call_restore(&box, 8, 1, 0, 0, 0, "", ASPEN_BAD_VOLUME);
    call_collect(&box, 13, ASPEN_OK);
    call_restore(&box, 1, 1, 0, 0, 0, "", ASPEN_NOT_KEPT);
    box_free(&box);
}

/* The box after case d, with C, B, nothing and A in volume 0's third backup. */
static struct box with_a_hole(void)
{
    struct box box = box_after_d();

    call_backup(&box, 0, 9, list_of(3, "A", "A"), ASPEN_OK);
    return box;
}

static void test_ends(void)
{
    struct box box = with_a_hole();

    check_about("restores past the end");
    restores(&box, 0, 3, 3, "A");
    refuses(&box, 3, 3, 2, ASPEN_BAD_RUN);
    refuses(&box, 3, 4, 1, ASPEN_BAD_RUN);
    refuses(&box, 3, 65535, 1, ASPEN_BAD_RUN);
    refuses(&box, 3, 65533, 7, ASPEN_BAD_RUN);
    refuses(&box, 3, 65535, 65535, ASPEN_BAD_RUN);
    call_restore(&box, 0, 3, 1, 65535, aspen_run_size(65535), "", ASPEN_BAD_RUN);
    check_about("restores with an unmapped LBN");
    refuses(&box, 3, 0, 4, ASPEN_UNMAPPED);
    refuses(&box, 3, 0, 3, ASPEN_UNMAPPED);
    refuses(&box, 3, 2, 2, ASPEN_UNMAPPED);
    refuses(&box, 3, 2, 1, ASPEN_UNMAPPED);
    refuses(&box, 2, 3, 1, ASPEN_UNMAPPED);
    restores(&box, 0, 3, 0, "CB");
    box_free(&box);
}

static void test_rooms(void)
{
    struct box box = box_after_d();
    size_t exact = aspen_run_size(2), room;

    check_about("room for a run");
    for (room = 0; room < exact; room += room < 4 || room > exact - 4 ? 1 : 255)
        call_restore(&box, 0, 1, 0, 2, room, "", ASPEN_BAD_RUN);
    for (room = exact; room < exact + 3; room++)
        call_restore(&box, 0, 1, 0, 2, room, "AB", ASPEN_OK);
    call_restore(&box, 0, 1, 0, 2, 5000, "AB", ASPEN_OK);
    call_restore(&box, 0, 1, 0, 1, exact, "A", ASPEN_OK);
    box_free(&box);
}

/* Bytes of a run above 65,535: 128 and 129 blocks have 0 and 512 of them in 16 bits. */
static void test_long_runs(void)
{
    struct box box = box_of(2, LONG, 1, LONG);
    struct buffer list = buffer_filled(aspen_list_size(4, LONG), 'E');
    static const uint16_t lengths[] = { 128, 129, LONG };
    char letters[LONG + 1];
    size_t i;

    memset(letters, 'E', LONG);
    letters[LONG] = '\0';
    put_u16(list.bytes, 0, 4);
    for (i = 0; i < 4; i++) {
        put_u16(list.bytes, 2 + 4 * i, LONG / 4 * (unsigned)i);
        put_u16(list.bytes, 4 + 4 * i, LONG / 4);
    }
    check_about("long runs");
    call_enrol(&box, 0, 1, ASPEN_OK);
    call_backup(&box, 0, 1, list, ASPEN_OK);
    restores(&box, 0, 1, 0, letters);
    restores(&box, 0, 1, 1, letters + 1);
    for (i = 0; i < sizeof lengths / sizeof lengths[0]; i++) {
        uint16_t length = lengths[i];

        call_restore(&box, 0, 1, 0, length, 0, "", ASPEN_BAD_RUN);
        call_restore(&box, 0, 1, 0, length, length, "", ASPEN_BAD_RUN);
        call_restore(&box, 0, 1, 0, length, 40000, "", ASPEN_BAD_RUN);
        call_restore(&box, 0, 1, 0, length, aspen_run_size(length) - 1, "", ASPEN_BAD_RUN);
    }
    box_free(&box);
}

/* An LBN that three later backups changed: the first of their records decides. */
static void test_records(void)
{
    struct box box = box_after_d();

    check_about("restores of an LBN with several records");
    call_backup(&box, 0, 10, list_of(0, "B", "B"), ASPEN_OK);
    call_backup(&box, 0, 11, list_of(0, "A", "A"), ASPEN_OK);
    restores(&box, 0, 1, 0, "AB");
    restores(&box, 0, 2, 0, "CB");
    restores(&box, 0, 3, 0, "BB");
    restores(&box, 0, 4, 0, "AB");
    box_free(&box);
}

/* On day 13, when volume 1's first backup isn't kept any more, with every fault from `from` on in
 * the order of the checks; 21 by the end and by the room. */
static void check_order(unsigned from, uint16_t expected)
{
    struct box box = box_after_d();
    uint16_t volume = from <= 3 ? 8 : 1, number = from <= 4 ? 3 : from == 5 ? 1 : 2;
    uint16_t first = from <= 6 ? 4 : 2, length = 2;
    size_t room = aspen_run_size(length);

    call_collect(&box, 13, ASPEN_OK);
    if (from <= 2)
        buffer_resize(&box.pool, box.pool.length + 1);
    if (from <= 1)
        put_u16(box.book.bytes, AT_ZERO, 1);
    if (from == 0)
        buffer_resize(&box.book, CASE_BOOK - 1);
    call_restore(&box, volume, number, first, length, room, "", expected);
    if (from <= 6) {
        call_restore(&box, volume, number, 2, length, room - 1, "", expected);
        call_restore(&box, volume, number, 65535, 65535, 0, "", expected);
    }
    box_free(&box);
}

static void test_order(void)
{
    static const uint16_t numbers[] = { ASPEN_BAD_LAYOUT, ASPEN_BAD_FORM, ASPEN_BAD_POOL,
                                        ASPEN_BAD_VOLUME, ASPEN_NO_BACKUP, ASPEN_NOT_KEPT,
                                        ASPEN_BAD_RUN, ASPEN_UNMAPPED };
    unsigned from;

    check_about("restore, checks in order");
    for (from = 0; from < sizeof numbers / sizeof numbers[0]; from++)
        check_order(from, numbers[from]);
}

/* Every run of every backup is what the reads one by one find. */
static void check_reads(const struct box *box, uint16_t volume, uint16_t number)
{
    uint16_t first, length;

    for (first = 0; first <= CASE_L; first++) {
        char letters[CASE_L + 1] = "";
        uint16_t expected = ASPEN_OK;

        for (length = 0; first + length <= CASE_L; length++) {
            uint32_t at = 0;

            call_restore(box, volume, number, first, length, aspen_pool_size(CASE_N), letters,
                         expected);
            if (first + length == CASE_L)
                break;
            if (aspen_read(box->book.bytes, box->book.length, box->pool.bytes, box->pool.length,
                           volume, number, first + length, &at) == ASPEN_UNMAPPED)
                expected = ASPEN_UNMAPPED;
            letters[length] = (char)box->pool.bytes[at];
        }
    }
}

static void test_reads(void)
{
    struct box box = with_a_hole();
    uint16_t number;

    check_about("runs and reads");
    for (number = 1; number <= 3; number++)
        check_reads(&box, 0, number);
    for (number = 1; number <= 2; number++)
        check_reads(&box, 1, number);
    box_free(&box);
}

void test_restore(void)
{
    test_cases_restored();
    test_no_block();
    test_ends();
    test_rooms();
    test_long_runs();
    test_records();
    test_order();
    test_reads();
}
