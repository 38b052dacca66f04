/* The calls that show a book: after the cases, on refused books, and with outputs of any length. */
#include <aspen.h>

#include "books.h"
#include "box.h"
#include "check.h"
#include "tests.h"

#include <string.h>

enum view { SIZES, USED, VOLUME, BACKUPS, CELLS, BLOCKS, VIEWS };

/* Answers before a call, a value that none has; and the bytes of the output. */
enum { UNTOUCHED = 0xFEED, OUT_BYTE = 0xA5 };

static uint16_t call(enum view view, const struct box *box, uint16_t volume, struct buffer *out,
                     uint16_t *a)
{
    const uint8_t *book = box->book.bytes;
    size_t length = box->book.length;

    switch (view) {
    case SIZES:
        return aspen_sizes(book, length, &a[1], &a[3], &a[5], &a[7]);
    case USED:
        return aspen_used(book, length, &a[1], &a[3], &a[5]);
    case VOLUME:
        return aspen_volume(book, length, volume, &a[1], &a[3], &a[5]);
    case BACKUPS:
        return aspen_backups(book, length, volume, out->bytes, out->length, &a[1]);
    case CELLS:
        return aspen_cells(book, length, volume, out->bytes, out->length);
    default:
        return aspen_blocks(book, length, out->bytes, out->length);
    }
}

/* How many answers a call has. */
static size_t answers_of(enum view view)
{
    static const size_t answers[VIEWS] = { 4, 3, 3, 1, 0, 0 };

    return answers[view];
}

/* Calls with the checks that every call owes: its number, that the book is as it was, and with a
 * refusal the output and the answers too. The answers stand between cells that nobody may write. */
static void show(enum view view, const struct box *box, uint16_t volume, struct buffer *out,
                 uint16_t expected, uint16_t answers[4])
{
    struct buffer book = buffer_copy(&box->book), before = buffer_copy(out);
    uint16_t cells[9], number;
    size_t i;

    for (i = 0; i < 9; i++)
        cells[i] = UNTOUCHED;
    number = call(view, box, volume, out, cells);
    CHECK_EQ(number, expected);
    for (i = 0; i < 9; i++)
        if (i % 2 == 0 || i / 2 >= answers_of(view) || number != ASPEN_OK)
            CHECK_EQ(cells[i], UNTOUCHED);
    for (i = 0; i < 4; i++)
        answers[i] = cells[2 * i + 1];
    CHECK_BYTES(box->book.bytes, book.bytes, book.length);
    if (number != ASPEN_OK)
        CHECK_BYTES(out->bytes, before.bytes, before.length);
    CHECK_GUARDS(&box->book);
    CHECK_GUARDS(out);
    buffer_free(&book);
    buffer_free(&before);
}

/* A call without rows. */
static void check_answers(enum view view, const struct box *box, uint16_t volume,
                          const uint16_t *expected)
{
    struct buffer none = buffer_new(0);
    uint16_t answers[4];
    size_t i;

    show(view, box, volume, &none, ASPEN_OK, answers);
    for (i = 0; i < answers_of(view); i++)
        CHECK_EQ(answers[i], expected[i]);
    buffer_free(&none);
}

/* A call that writes these rows: with room for just them and for more it does, with less it
 * refuses. */
static void check_rows(enum view view, const struct box *box, uint16_t volume, const uint8_t *rows,
                       size_t length, uint16_t count)
{
    size_t room;
    uint16_t answers[4];

    for (room = 0; room <= length + 3; room++) {
        struct buffer out = buffer_filled(room, OUT_BYTE), past = buffer_filled(room, OUT_BYTE);
        int fits = room >= length;

        show(view, box, volume, &out, fits ? ASPEN_OK : ASPEN_SHORT_OUTPUT, answers);
        if (fits) {
            CHECK_BYTES(out.bytes, rows, length);
            CHECK_BYTES(out.bytes + length, past.bytes, room - length);
        }
        if (fits && view == BACKUPS)
            CHECK_EQ(answers[0], count);
        buffer_free(&out);
        buffer_free(&past);
    }
}

/* Numbers of two bytes as bytes. */
static void put_row(uint8_t *row, const uint16_t *numbers, size_t count)
{
    size_t i;

    for (i = 0; i < count; i++)
        put_u16(row, 2 * i, numbers[i]);
}

static void check_backups(const struct box *box, uint16_t volume, const uint16_t (*backups)[4],
                          uint16_t count)
{
    uint8_t rows[CASE_S * ASPEN_BACKUP_ROW];
    size_t i;

    for (i = 0; i < count; i++)
        put_row(rows + ASPEN_BACKUP_ROW * i, backups[i], 4);
    check_rows(BACKUPS, box, volume, rows, aspen_backups_size(count), count);
}

static void check_cells(const struct box *box, uint16_t volume, const uint16_t *cells)
{
    uint8_t rows[CASE_L * ASPEN_CELL_ROW];

    put_row(rows, cells, CASE_L);
    check_rows(CELLS, box, volume, rows, aspen_cells_size(CASE_L), 0);
}

/* A letter 0 stands for a free block. */
static void check_blocks(const struct box *box, const uint16_t (*blocks)[3], const char *letters)
{
    uint8_t rows[CASE_N * ASPEN_BLOCK_ROW];
    size_t i;

    for (i = 0; i < CASE_N; i++) {
        put_row(rows + ASPEN_BLOCK_ROW * i, blocks[i], 3);
        memset(rows + ASPEN_BLOCK_ROW * i + 6, letters[i], ASPEN_PRINT_SIZE);
    }
    check_rows(BLOCKS, box, 0, rows, aspen_blocks_size(CASE_N), 0);
}

static void test_after_d(void)
{
    static const uint16_t sizes[] = { CASE_N, CASE_L, CASE_S, CASE_J }, used[] = { 4, 5, 9 };
    static const uint16_t volumes[][3] = { { 10, 2, ASPEN_NO_END }, { 3, 2, ASPEN_NO_END } };
    static const uint16_t of_0[][4] = { { 5, 2, 15, 1 }, { 8, 1, ASPEN_NO_END, 1 } };
    static const uint16_t of_1[][4] = { { 6, 1, 9, 1 }, { 9, 1, ASPEN_NO_END, 1 } };
    static const uint16_t none = ASPEN_UNMAPPED_PBN;
    const uint16_t map_0[] = { 2, 1, none, none }, map_1[] = { none, none, none, 1 };
    static const uint16_t blocks[][3] = { { 1, 0, 15 }, { 1, 2, 0 }, { 1, 1, 0 }, { 0, 0, 0 } };
    struct box box = box_after_d();

    check_about("a book shown after case d");
    check_answers(SIZES, &box, 0, sizes);
    check_answers(USED, &box, 0, used);
    check_answers(VOLUME, &box, 0, volumes[0]);
    check_answers(VOLUME, &box, 1, volumes[1]);
    check_backups(&box, 0, of_0, 2);
    check_backups(&box, 1, of_1, 2);
    check_cells(&box, 0, map_0);
    check_cells(&box, 1, map_1);
    check_blocks(&box, blocks, "ABC");
    box_free(&box);
}

/* On the last day that a backup is kept, on the day after, and with the next backup: a backup that
 * was the newest until then is kept on the last of its own days, and not after it. */
static void test_kept(void)
{
    static const uint16_t on_15[][4] = { { 5, 2, 15, 1 }, { 8, 1, ASPEN_NO_END, 1 } };
    static const uint16_t on_16[][4] = { { 5, 2, 15, 0 }, { 8, 1, ASPEN_NO_END, 1 } };
    static const uint16_t on_18[][4] = { { 5, 2, 15, 0 },
                                         { 8, 1, 18, 1 },
                                         { 18, 2, ASPEN_NO_END, 1 } };
    static const uint16_t of_1[][4] = { { 6, 1, 9, 0 }, { 9, 1, ASPEN_NO_END, 1 } };
    static const uint16_t late[][4] = { { 6, 1, 9, 0 },
                                        { 9, 1, 12, 0 },
                                        { 19, 0, ASPEN_NO_END, 1 } };
    static const uint16_t blocks[][3] = { { 0, 0, 15 }, { 1, 2, 0 }, { 1, 1, 0 }, { 0, 0, 0 } };
    static const uint16_t used[] = { 6, 7, 19 };
    struct box box = box_after_d();

    check_about("backups shown as kept and as not kept");
    call_collect(&box, 15, ASPEN_OK);
    check_backups(&box, 0, on_15, 2);
    check_backups(&box, 1, of_1, 2);
    call_collect(&box, 16, ASPEN_OK);
    check_backups(&box, 0, on_16, 2);
    check_blocks(&box, blocks, "\0BC");
    call_backup(&box, 0, 18, list_of(2, "DE", "DE"), ASPEN_OK);
    check_backups(&box, 0, on_18, 3);
    call_backup(&box, 1, 19, buffer_filled(2, 0), ASPEN_OK);
    check_backups(&box, 1, late, 3);
    check_answers(USED, &box, 0, used);
    box_free(&box);
}

static void test_without_backups(void)
{
    static const uint16_t none = ASPEN_UNMAPPED_PBN, facts[] = { ASPEN_MAX_RETENTION, 0, 65535 };
    static const uint16_t used[] = { 0, 0, 0 }, no_blocks[CASE_N][3] = { { 0, 0, 0 } };
    const uint16_t map[] = { none, none, none, none };
    struct box box = box_fresh();

    check_about("a volume without backups");
    call_enrol(&box, 7, ASPEN_MAX_RETENTION, ASPEN_OK);
    check_answers(USED, &box, 0, used);
    check_answers(VOLUME, &box, 7, facts);
    check_backups(&box, 7, NULL, 0);
    check_cells(&box, 7, map);
    check_blocks(&box, no_blocks, "\0\0\0");
    box_free(&box);
}

/* A retired volume: the day, no row for the retirement, and an end for the newest backup. */
static void test_retired(void)
{
    static const uint16_t on_10[][4] = { { 5, 2, 15, 1 }, { 8, 1, 18, 1 } };
    static const uint16_t on_18[][4] = { { 5, 2, 15, 0 }, { 8, 1, 18, 1 } };
    static const uint16_t on_19[][4] = { { 5, 2, 15, 0 }, { 8, 1, 18, 0 } };
    static const uint16_t used[] = { 5, 7, 10 }, facts[] = { 10, 2, 10 };
    static const uint16_t of_1[] = { 3, 2, ASPEN_NO_END }, none = ASPEN_UNMAPPED_PBN;
    static const uint16_t blocks[][3] = { { 1, 0, 15 }, { 1, 1, 18 }, { 1, 0, 18 }, { 0, 0, 0 } };
    const uint16_t map[] = { none, none, none, none };
    struct box box = box_after_d();

    check_about("a retired volume shown");
    call_retire(&box, 0, 10, ASPEN_OK);
    check_answers(USED, &box, 0, used);
    check_answers(VOLUME, &box, 0, facts);
    check_answers(VOLUME, &box, 1, of_1);
    check_backups(&box, 0, on_10, 2);
    check_cells(&box, 0, map);
    check_blocks(&box, blocks, "ABC");
    call_collect(&box, 18, ASPEN_OK);
    check_backups(&box, 0, on_18, 2);
    call_collect(&box, 19, ASPEN_OK);
    check_backups(&box, 0, on_19, 2);
    check_answers(VOLUME, &box, 0, facts);
    box_free(&box);
}

/* Retired on both ends of the days, without backups. */
static void test_retired_days(void)
{
    static const uint16_t first[] = { 1, 0, 0 }, last[] = { 2, 0, ASPEN_MAX_DAY };
    struct box box = box_fresh();

    check_about("days of retired volumes");
    call_enrol(&box, 0, 1, ASPEN_OK);
    call_enrol(&box, 7, 2, ASPEN_OK);
    call_retire(&box, 0, 0, ASPEN_OK);
    call_retire(&box, 7, ASPEN_MAX_DAY, ASPEN_OK);
    check_answers(VOLUME, &box, 0, first);
    check_answers(VOLUME, &box, 7, last);
    check_backups(&box, 0, NULL, 0);
    box_free(&box);
}

static int takes_volume(enum view view)
{
    return view == VOLUME || view == BACKUPS || view == CELLS;
}

/* Every fault from `from` on: the lowest that the call can give decides. */
static void check_order(enum view view, uint16_t from)
{
    struct box box = box_after_d();
    struct buffer out = buffer_filled(3, OUT_BYTE);
    uint16_t answers[4], expected = from;

    if (from <= ASPEN_BAD_FORM)
        put_u16(box.book.bytes, AT_ZERO, 1);
    if (from <= ASPEN_BAD_LAYOUT)
        buffer_resize(&box.book, CASE_BOOK - 1);
    if (from == ASPEN_BAD_VOLUME && !takes_volume(view))
        expected = ASPEN_SHORT_OUTPUT;
    if (expected == ASPEN_SHORT_OUTPUT && view <= VOLUME)
        expected = ASPEN_OK;
    show(view, &box, from <= ASPEN_BAD_VOLUME ? 2 : 0, &out, expected, answers);
    buffer_free(&out);
    box_free(&box);
}

static void test_order(void)
{
    static const uint16_t numbers[] = { ASPEN_BAD_LAYOUT, ASPEN_BAD_FORM, ASPEN_BAD_VOLUME,
                                        ASPEN_SHORT_OUTPUT };
    static const uint16_t volumes[] = { 2, 7, 8, 256, 65535 };
    struct box box = box_after_d();
    struct buffer out = buffer_filled(aspen_blocks_size(CASE_N), OUT_BYTE);
    uint16_t answers[4];
    size_t view, i;

    check_about("calls that show a book, checks in order");
    for (view = SIZES; view < VIEWS; view++)
        for (i = 0; i < sizeof numbers / sizeof numbers[0]; i++)
            check_order((enum view)view, numbers[i]);
    check_about("calls that show a volume, other volumes");
    for (view = VOLUME; view <= CELLS; view++)
        for (i = 0; i < sizeof volumes / sizeof volumes[0]; i++)
            show((enum view)view, &box, volumes[i], &out, ASPEN_BAD_VOLUME, answers);
    buffer_free(&out);
    box_free(&box);
}

void test_views(void)
{
    test_after_d();
    test_kept();
    test_without_backups();
    test_retired();
    test_retired_days();
    test_order();
}
