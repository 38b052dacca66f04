/* The engine's calls with the checks that every call owes. */
#include <aspen.h>

#include "box.h"
#include "check.h"

#include <string.h>

static const uint16_t untouched = 0xBEEF;
static const uint32_t untouched_offset = 0xDEADBEEF;
static const uint8_t untouched_byte = 0xA5;

static struct box copied(const struct box *box)
{
    struct box copy;

    copy.book = buffer_copy(&box->book);
    copy.pool = buffer_copy(&box->pool);
    copy.spare = buffer_new(0);
    return copy;
}

static void check_unchanged(const struct buffer *buffer, const struct buffer *before)
{
    CHECK_BYTES(buffer->bytes, before->bytes, buffer->length);
}

/* Frees the copy made before the call. */
static void check_after(const struct box *box, struct box *before, int may_write)
{
    if (!may_write) {
        check_unchanged(&box->book, &before->book);
        check_unchanged(&box->pool, &before->pool);
    }
    CHECK_GUARDS(&box->book);
    CHECK_GUARDS(&box->pool);
    CHECK_GUARDS(&box->spare);
    box_free(before);
}

void call_enrol(struct box *box, uint16_t volume, uint16_t retention, uint16_t expected)
{
    struct box before = copied(box);
    uint16_t number = aspen_enrol(box->book.bytes, box->book.length, volume, retention);

    CHECK_EQ(number, expected);
    check_unchanged(&box->pool, &before.pool);
    check_after(box, &before, number == ASPEN_OK);
}

/* The answers stand between cells that nobody may write. */
static void check_cells(const uint16_t *cells, uint16_t number)
{
    size_t i;

    for (i = 0; i < 7; i++)
        if (i % 2 == 0 || number != ASPEN_OK)
            CHECK_EQ(cells[i], untouched);
}

struct backed_up call_backup(struct box *box, uint16_t volume, uint16_t day, struct buffer list,
                             uint16_t expected)
{
    struct box before = copied(box);
    struct buffer sent = buffer_copy(&list);
    struct backed_up answers;
    uint16_t cells[7], number;
    size_t i;

    for (i = 0; i < 7; i++)
        cells[i] = untouched;
    number = aspen_backup(box->book.bytes, box->book.length, box->pool.bytes, box->pool.length,
                          box->spare.bytes, box->spare.length, volume, day, list.bytes,
                          list.length, &cells[1], &cells[3], &cells[5]);
    CHECK_EQ(number, expected);
    check_cells(cells, number);
    check_unchanged(&list, &sent);
    CHECK_GUARDS(&list);
    check_after(box, &before, number == ASPEN_OK);
    buffer_free(&sent);
    buffer_free(&list);
    answers.number = cells[1];
    answers.taken = cells[3];
    answers.touched = cells[5];
    return answers;
}

uint16_t call_retire(struct box *box, uint16_t volume, uint16_t day, uint16_t expected)
{
    struct box before = copied(box);
    uint16_t cells[3] = { untouched, untouched, untouched };
    uint16_t number = aspen_retire(box->book.bytes, box->book.length, box->spare.bytes,
                                   box->spare.length, volume, day, &cells[1]);

    CHECK_EQ(number, expected);
    CHECK_EQ(cells[0], untouched);
    CHECK_EQ(cells[2], untouched);
    if (number != ASPEN_OK)
        CHECK_EQ(cells[1], untouched);
    check_unchanged(&box->pool, &before.pool);
    check_after(box, &before, number == ASPEN_OK);
    return cells[1];
}

uint16_t call_collect(struct box *box, uint16_t day, uint16_t expected)
{
    struct box before = copied(box);
    uint16_t freed[3] = { untouched, untouched, untouched };
    uint16_t number = aspen_collect(box->book.bytes, box->book.length, day, &freed[1]);

    CHECK_EQ(number, expected);
    CHECK_EQ(freed[0], untouched);
    CHECK_EQ(freed[2], untouched);
    if (number != ASPEN_OK)
        CHECK_EQ(freed[1], untouched);
    check_unchanged(&box->pool, &before.pool);
    check_after(box, &before, number == ASPEN_OK);
    return freed[1];
}

uint32_t call_read(const struct box *box, uint16_t volume, uint16_t number, uint16_t lbn,
                   uint16_t expected)
{
    struct box before = copied(box);
    uint32_t at[3] = { untouched_offset, untouched_offset, untouched_offset };
    uint16_t refusal = aspen_read(box->book.bytes, box->book.length, box->pool.bytes,
                                  box->pool.length, volume, number, lbn, &at[1]);

    CHECK_EQ(refusal, expected);
    CHECK_EQ(at[0], untouched_offset);
    CHECK_EQ(at[2], untouched_offset);
    if (refusal != ASPEN_OK)
        CHECK_EQ(at[1], untouched_offset);
    check_after(box, &before, 0);
    return at[1];
}

void call_restore(const struct box *box, uint16_t volume, uint16_t number, uint16_t first,
                  uint16_t length, size_t room, const char *letters, uint16_t expected)
{
    struct box before = copied(box);
    struct buffer out = buffer_filled(room, untouched_byte), wanted = buffer_copy(&out);
    uint16_t refusal = aspen_restore(box->book.bytes, box->book.length, box->pool.bytes,
                                     box->pool.length, volume, number, first, length, out.bytes,
                                     out.length);
    size_t i;

    CHECK_EQ(refusal, expected);
    for (i = 0; expected == ASPEN_OK && i < length; i++)
        memset(wanted.bytes + aspen_run_size(i), letters[i], ASPEN_BLOCK_SIZE);
    CHECK_BYTES(out.bytes, wanted.bytes, out.length);
    CHECK_GUARDS(&out);
    check_after(box, &before, 0);
    buffer_free(&wanted);
    buffer_free(&out);
}

uint16_t call_audit(const struct box *box, uint16_t expected)
{
    struct box before = copied(box);
    uint16_t sound[3] = { untouched, untouched, untouched };
    uint16_t number = aspen_audit(box->book.bytes, box->book.length, &sound[1]);

    CHECK_EQ(number, expected);
    CHECK_EQ(sound[0], untouched);
    CHECK_EQ(sound[2], untouched);
    if (number != ASPEN_OK)
        CHECK_EQ(sound[1], untouched);
    check_after(box, &before, 0);
    return sound[1];
}
