/* Lists of calls in bytes: cases a to j, bytes that are no list, and room for the answers. */
#include <aspen.h>

#include "books.h"
#include "box.h"
#include "check.h"
#include "tests.h"

#include <string.h>

enum { OUT_BYTE = 0xA5, UNTOUCHED = 0xFEED };

/* Adds a call to a list. The data may be null. */
static void add_four(struct buffer *calls, enum aspen_call kind, unsigned a, unsigned b,
                     unsigned c, unsigned d, const struct buffer *data)
{
    size_t place = calls->length, length = data == NULL ? 0 : data->length;
    uint8_t *head;

    buffer_resize(calls, place + ASPEN_CALL_HEAD + length);
    head = calls->bytes + place;
    head[0] = (uint8_t)kind;
    put_u16(head, 2, a);
    put_u16(head, 4, b);
    put_u16(head, 6, c);
    put_u16(head, 8, d);
    put_u16(head, 10, (unsigned)length);
    if (length != 0)
        memcpy(head + ASPEN_CALL_HEAD, data->bytes, length);
}

static void add(struct buffer *calls, enum aspen_call kind, unsigned a, unsigned b, unsigned c,
                const struct buffer *data)
{
    add_four(calls, kind, a, b, c, 0, data);
}

static void add_backup(struct buffer *calls, unsigned volume, unsigned day, unsigned lbn,
                       const char *prints, const char *blocks)
{
    struct buffer list = list_of(lbn, prints, blocks);

    add(calls, ASPEN_CALL_BACKUP, volume, day, 0, &list);
    buffer_free(&list);
}

/* Plays a list with the checks that every call owes, and gives the answers' length. */
static uint32_t play(struct box *box, const struct buffer *calls, struct buffer *answers,
                     uint16_t expected)
{
    struct buffer book = buffer_copy(&box->book), pool = buffer_copy(&box->pool);
    struct buffer before = buffer_copy(answers);
    uint32_t written[3] = { UNTOUCHED, UNTOUCHED, UNTOUCHED };
    uint16_t number = aspen_play(box->book.bytes, box->book.length, box->pool.bytes,
                                 box->pool.length, box->spare.bytes, box->spare.length,
                                 calls->bytes, calls->length, answers->bytes, answers->length,
                                 &written[1]);

    CHECK_EQ(number, expected);
    CHECK_EQ(written[0] == UNTOUCHED && written[2] == UNTOUCHED, 1);
    if (number != ASPEN_OK) {
        CHECK_EQ(written[1], UNTOUCHED);
        CHECK_BYTES(box->book.bytes, book.bytes, book.length);
        CHECK_BYTES(box->pool.bytes, pool.bytes, pool.length);
        CHECK_BYTES(answers->bytes, before.bytes, before.length);
    }
    CHECK_GUARDS(&box->book);
    CHECK_GUARDS(&box->pool);
    CHECK_GUARDS(&box->spare);
    CHECK_GUARDS(calls);
    CHECK_GUARDS(answers);
    buffer_free(&book);
    buffer_free(&pool);
    buffer_free(&before);
    return written[1];
}

/* Plays a list on the box after case d, with so much room. */
static void check_play(const struct buffer *calls, size_t room, uint16_t expected)
{
    struct box box = box_after_d();
    struct buffer answers = buffer_filled(room, OUT_BYTE);

    play(&box, calls, &answers, expected);
    buffer_free(&answers);
    box_free(&box);
}

/* With the last day on which e's read gives a block, before e. */
static struct buffer cases_a_to_j(void)
{
    struct buffer calls = buffer_new(0);

    add(&calls, ASPEN_CALL_ENROL, 0, 10, 0, NULL);
    add(&calls, ASPEN_CALL_ENROL, 1, 3, 0, NULL);
    add_backup(&calls, 0, 5, 0, "AB", "AB");
    add_backup(&calls, 1, 6, 3, "A", "A");
    add_backup(&calls, 0, 8, 0, "C", "C");
    add_backup(&calls, 1, 9, 3, "B", "B");
    add(&calls, ASPEN_CALL_COLLECT, 15, 0, 0, NULL);
    add(&calls, ASPEN_CALL_READ, 0, 1, 0, NULL);
    add(&calls, ASPEN_CALL_COLLECT, 18, 0, 0, NULL);
    add(&calls, ASPEN_CALL_READ, 0, 1, 0, NULL);
    add(&calls, ASPEN_CALL_READ, 1, 1, 3, NULL);
    add(&calls, ASPEN_CALL_COLLECT, 19, 0, 0, NULL);
    add(&calls, ASPEN_CALL_READ, 0, 1, 0, NULL);
    add_backup(&calls, 0, 20, 2, "DE", "DE");
    add_backup(&calls, 1, 21, 0, "F", "F");
    add_backup(&calls, 1, 21, 0, "B", "F");
    add(&calls, ASPEN_CALL_AUDIT, 0, 0, 0, NULL);
    return calls;
}

static void test_cases_as_a_list(void)
{
    static const uint8_t first[] = { 0, 0, 0, 0, 0, 0, 1, 1, 0, 2, 0, 2, 0, 1, 1, 0, 0, 0, 1, 0,
                                     1, 2, 0, 1, 0, 2, 0, 1, 2, 0, 0, 0, 2, 0, 2, 0, 0, 3 };
    static const uint8_t last[] = { 2, 1, 0, 0, 16, 0, 0, 16, 0, 2, 0, 0, 0, 16, 0, 1, 3,
                                    0, 2, 0, 2, 0, 0, 12, 0, 0, 11, 0, 4, 1, 0, OUT_BYTE };
    struct box box = box_fresh();
    struct buffer calls = cases_a_to_j();
    struct buffer answers = buffer_filled(aspen_answers_bound(7, 4, 6), OUT_BYTE);
    uint8_t block[ASPEN_BLOCK_SIZE];

    check_about("cases a to j as a list");
    memset(block, 'A', sizeof block);
    CHECK_EQ(play(&box, &calls, &answers, ASPEN_OK), sizeof first + sizeof block + sizeof last - 1);
    CHECK_BYTES(answers.bytes, first, sizeof first);
    CHECK_BYTES(answers.bytes + sizeof first, block, sizeof block);
    CHECK_BYTES(answers.bytes + sizeof first + sizeof block, last, sizeof last);
    check_pool(&box, "EBCD");
    buffer_free(&answers);
    buffer_free(&calls);
    box_free(&box);
}

/* One call of each kind, as the box after case d takes them. */
static struct buffer one_of_each(void)
{
    struct buffer calls = buffer_new(0);

    add(&calls, ASPEN_CALL_ENROL, 2, 5, 0, NULL);
    add(&calls, ASPEN_CALL_COLLECT, 9, 0, 0, NULL);
    add(&calls, ASPEN_CALL_READ, 0, 1, 0, NULL);
    add(&calls, ASPEN_CALL_AUDIT, 0, 0, 0, NULL);
    add_four(&calls, ASPEN_CALL_RESTORE, 0, 1, 0, 2, NULL);
    add(&calls, ASPEN_CALL_RETIRE, 1, 10, 0, NULL);
    add_backup(&calls, 0, 10, 2, "D", "D");
    return calls;
}

/* Room for their longest answers. */
static size_t room_of_each(void)
{
    return aspen_answers_bound(1, 1, 4) + aspen_runs_bound(1, 2);
}

static void test_cut(void)
{
    struct buffer calls = one_of_each();
    size_t room = room_of_each(), last = 6 * ASPEN_CALL_HEAD;

    check_about("lists cut off");
    check_play(&calls, room, ASPEN_OK);
    while (calls.length > 0) {
        size_t length = calls.length - 1;

        buffer_resize(&calls, length);
        check_play(&calls, room,
                   length <= last && length % ASPEN_CALL_HEAD == 0 ? ASPEN_OK : ASPEN_BAD_INPUT);
    }
    buffer_free(&calls);
}

/* A head of the list has another byte. */
static void check_head(size_t at, uint8_t byte, uint16_t expected)
{
    struct buffer calls = one_of_each();

    calls.bytes[at] = byte;
    /* A length may have another high byte. */
    check_play(&calls, aspen_answers_bound(1, 2, 2) + aspen_runs_bound(1, 512), expected);
    buffer_free(&calls);
}

static void test_heads(void)
{
    static const size_t used[] = { 6, 4, 8, 2, 10, 6, 6 };
    size_t call, at;

    check_about("heads of calls");
    for (call = 0; call < 7; call++) {
        size_t place = call * ASPEN_CALL_HEAD;

        check_head(place, 7, ASPEN_BAD_INPUT);
        check_head(place, 255, ASPEN_BAD_INPUT);
        check_head(place + 1, 1, ASPEN_BAD_INPUT);
        for (at = 2; at < used[call]; at++)
            check_head(place + at, 1, ASPEN_OK);
        for (; at < ASPEN_CALL_HEAD; at++)
            check_head(place + at, at == 10 ? 1 : 255, ASPEN_BAD_INPUT);
    }
}

/* The data of the last call has another length in its head. */
static void check_data(uint32_t length)
{
    struct buffer calls = one_of_each();
    uint8_t *head = calls.bytes + 6 * ASPEN_CALL_HEAD;

    put_u16(head, 10, (unsigned)(length & 0xFFFF));
    put_u16(head, 12, (unsigned)(length >> 16));
    check_play(&calls, room_of_each(), ASPEN_BAD_INPUT);
    buffer_free(&calls);
}

static void test_data(void)
{
    uint32_t right = (uint32_t)aspen_list_size(1, 1), less;

    check_about("lengths of data");
    check_data(0);
    check_data(right - 1);
    check_data(right + 1);
    check_data(65536 + right);
    for (less = 0; less < 6 * ASPEN_CALL_HEAD; less++)
        check_data(0xFFFFFFFFu - less);
}

static void test_room(void)
{
    struct buffer calls = one_of_each(), none = buffer_new(0);
    size_t exact = room_of_each(), room;

    check_about("room for the answers");
    for (room = 0; room < exact; room++)
        check_play(&calls, room, ASPEN_SHORT_OUTPUT);
    check_play(&calls, exact, ASPEN_OK);
    check_play(&calls, exact + 1, ASPEN_OK);
    check_play(&none, 0, ASPEN_OK);
    buffer_free(&calls);
    buffer_free(&none);
}

/* A list goes on after a refused call, and knows the lengths of pool and spare. */
static void test_refused_calls(void)
{
    static const uint8_t expected[] = { 0, 5, 0, 2, 0, 0, 0, 3, 0, 4, 1,
                                        0, 0, 3, 0, 2, 1, 0, 0, 3, 0 };
    static const uint8_t short_spare[] = { 0, 4, 0, 0, 4, 0 };
    struct buffer calls = one_of_each(), answers = buffer_filled(room_of_each(), OUT_BYTE);
    struct box box = box_after_d();

    check_about("refused calls in a list");
    put_u16(calls.bytes, 2, 1);
    buffer_resize(&box.pool, box.pool.length - 1);
    CHECK_EQ(play(&box, &calls, &answers, ASPEN_OK), sizeof expected);
    CHECK_BYTES(answers.bytes, expected, sizeof expected);
    box_free(&box);
    box = box_after_d();
    buffer_resize(&box.spare, box.spare.length - 1);
    CHECK_EQ(play(&box, &calls, &answers, ASPEN_OK), 3 + 3 + 513 + 3 + 1027 + 3 + 3);
    CHECK_BYTES(answers.bytes + 1549, short_spare, sizeof short_spare);
    box_free(&box);
    buffer_free(&calls);
    buffer_free(&answers);
}

/* Restores in a list: with blocks, with none, refused. Nothing in book or pool moves. */
static void test_restores(void)
{
    static const uint8_t last[] = { 5, 0, 0, 0, 21, 0, 0, 21, 0, 0, 18, 0, 0, 15, 0, OUT_BYTE };
    size_t room = aspen_runs_bound(6, 2 + 0 + 0 + 4 + 2 + 3), blocks = aspen_run_size(2);
    struct buffer calls = buffer_new(0), answers = buffer_filled(room, OUT_BYTE);
    struct box box = box_after_d(), before = box_after_d();

    check_about("restores in a list");
    add_four(&calls, ASPEN_CALL_RESTORE, 0, 1, 0, 2, NULL);
    add_four(&calls, ASPEN_CALL_RESTORE, 0, 1, 4, 0, NULL);
    add_four(&calls, ASPEN_CALL_RESTORE, 0, 1, 5, 0, NULL);
    add_four(&calls, ASPEN_CALL_RESTORE, 0, 1, 1, 4, NULL);
    add_four(&calls, ASPEN_CALL_RESTORE, 0, 1, 1, 2, NULL);
    add_four(&calls, ASPEN_CALL_RESTORE, 0, 3, 65535, 3, NULL);
    CHECK_EQ(play(&box, &calls, &answers, ASPEN_OK), 3 + blocks + sizeof last - 1);
    CHECK_EQ(answers.bytes[0], ASPEN_ANSWER_RUN);
    CHECK_EQ(aspen_u16(answers.bytes + 1), 2);
    CHECK_BYTES(answers.bytes + 3, box.pool.bytes, blocks);
    CHECK_BYTES(answers.bytes + 3 + blocks, last, sizeof last);
    CHECK_BYTES(box.book.bytes, before.book.bytes, CASE_BOOK);
    CHECK_BYTES(box.pool.bytes, before.pool.bytes, before.pool.length);
    check_play(&calls, room - 1, ASPEN_SHORT_OUTPUT);
    box_free(&box);
    box_free(&before);
    buffer_free(&calls);
    buffer_free(&answers);
}

/* Retirements in a list: of two cells, refused, of one, and what is left. */
static void test_retirements(void)
{
    static const uint8_t expected[] = { 0, 7, 0, 2, 2, 0, 0, 5, 0, 0, 5, 0, 0, 5, 0,
                                        2, 1, 0, 0, 16, 0, 2, 3, 0, 4, 1, 0, OUT_BYTE };
    size_t room = aspen_answers_bound(0, 1, 8), length = sizeof expected - 1;
    struct buffer calls = buffer_new(0), answers = buffer_filled(room, OUT_BYTE);
    struct box box = box_after_d();

    check_about("retirements in a list");
    add(&calls, ASPEN_CALL_RETIRE, 0, 8, 0, NULL);
    add(&calls, ASPEN_CALL_RETIRE, 0, 10, 0, NULL);
    add(&calls, ASPEN_CALL_RETIRE, 0, 11, 0, NULL);
    add(&calls, ASPEN_CALL_RETIRE, 8, 11, 0, NULL);
    add(&calls, ASPEN_CALL_ENROL, 0, 5, 0, NULL);
    add(&calls, ASPEN_CALL_RETIRE, 1, 20, 0, NULL);
    add(&calls, ASPEN_CALL_READ, 0, 2, 0, NULL);
    add(&calls, ASPEN_CALL_COLLECT, 20, 0, 0, NULL);
    add(&calls, ASPEN_CALL_AUDIT, 0, 0, 0, NULL);
    CHECK_EQ(play(&box, &calls, &answers, ASPEN_OK), length);
    CHECK_BYTES(answers.bytes, expected, sizeof expected);
    check_play(&calls, room - 1, ASPEN_SHORT_OUTPUT);
    box_free(&box);
    buffer_free(&calls);
    buffer_free(&answers);
}

/* Restores that ask in all for 390 bytes more than four bytes can tell. */
static void test_wrapping_room(void)
{
    struct buffer calls = buffer_new(0);
    size_t i;

    check_about("restores whose room wraps in four bytes");
    for (i = 0; i < 128; i++)
        add_four(&calls, ASPEN_CALL_RESTORE, 0, 1, 0, 65535, NULL);
    add_four(&calls, ASPEN_CALL_RESTORE, 0, 1, 0, 127, NULL);
    add_four(&calls, ASPEN_CALL_RESTORE, 0, 1, 0, 1, NULL);
    check_play(&calls, 390, ASPEN_SHORT_OUTPUT);
    check_play(&calls, 5000, ASPEN_SHORT_OUTPUT);
    buffer_free(&calls);
}

void test_play(void)
{
    test_cases_as_a_list();
    test_cut();
    test_heads();
    test_data();
    test_room();
    test_refused_calls();
    test_restores();
    test_retirements();
    test_wrapping_room();
}
