#include "writing.h"

#include <aspen.h>

#include "books.h"
#include "check.h"

#include <string.h>

static const uint32_t untouched = 0xDEADBEEF;
static const uint8_t filler = 0x5A;

struct writing writing_new(uint16_t l, const char *marks, size_t list_len)
{
    struct writing call;
    size_t i;

    call.l = l;
    call.marks = buffer_new(l);
    call.prints = buffer_new((size_t)ASPEN_PRINT_SIZE * l);
    call.image = buffer_new((size_t)ASPEN_BLOCK_SIZE * l);
    call.list = buffer_filled(list_len, filler);
    for (i = 0; i < l; i++) {
        call.marks.bytes[i] = (uint8_t)(marks[i] - '0');
        memset(call.prints.bytes + ASPEN_PRINT_SIZE * i, (int)(i % 100 + 1), ASPEN_PRINT_SIZE);
        memset(call.image.bytes + ASPEN_BLOCK_SIZE * i, (int)(i % 100 + 101), ASPEN_BLOCK_SIZE);
    }
    return call;
}

void writing_free(struct writing *call)
{
    buffer_free(&call->marks);
    buffer_free(&call->prints);
    buffer_free(&call->image);
    buffer_free(&call->list);
}

/* The input is as it was and no guard was written. */
static void check_input(const struct writing *call, const struct writing *before)
{
    CHECK_BYTES(call->marks.bytes, before->marks.bytes, call->marks.length);
    CHECK_BYTES(call->prints.bytes, before->prints.bytes, call->prints.length);
    CHECK_BYTES(call->image.bytes, before->image.bytes, call->image.length);
    CHECK_GUARDS(&call->marks);
    CHECK_GUARDS(&call->prints);
    CHECK_GUARDS(&call->image);
    CHECK_GUARDS(&call->list);
}

uint32_t write_list(struct writing *call, uint16_t expected)
{
    uint32_t written[3] = { untouched, untouched, untouched };
    struct writing before = *call;
    uint16_t number;

    before.marks = buffer_copy(&call->marks);
    before.prints = buffer_copy(&call->prints);
    before.image = buffer_copy(&call->image);
    before.list = buffer_copy(&call->list);
    number = aspen_write_list(call->l, call->marks.bytes, call->marks.length, call->prints.bytes,
                              call->prints.length, call->image.bytes, call->image.length,
                              call->list.bytes, call->list.length, &written[1]);
    CHECK_EQ(number, expected);
    if (number != ASPEN_OK) {
        CHECK_EQ(written[1], untouched);
        CHECK_BYTES(call->list.bytes, before.list.bytes, call->list.length);
    }
    CHECK_EQ(written[0], untouched);
    CHECK_EQ(written[2], untouched);
    check_input(call, &before);
    writing_free(&before);
    return written[1];
}

/* The list of these marks as document 01 has it, with runs as document 02 cuts them; gives its
 * length. */
static size_t expected_list(const struct writing *call, uint8_t *list)
{
    size_t run = 0, runs = 0, at = 2, i;

    for (i = 0; i < call->l; i++) {
        run = call->marks.bytes[i] != 1 ? 0 : run == ASPEN_MAX_RUN ? 1 : run + 1;
        if (run == 1)
            put_u16(list, 2 + 4 * runs++, (unsigned)i);
        if (run != 0)
            put_u16(list, 4 * runs, (unsigned)run);
    }
    put_u16(list, 0, (unsigned)runs);
    at += 4 * runs;
    for (i = 0; i < call->l; i++)
        if (call->marks.bytes[i] == 1) {
            memcpy(list + at, call->prints.bytes + ASPEN_PRINT_SIZE * i, ASPEN_PRINT_SIZE);
            at += ASPEN_PRINT_SIZE;
        }
    for (i = 0; i < call->l; i++)
        if (call->marks.bytes[i] == 1) {
            memcpy(list + at, call->image.bytes + ASPEN_BLOCK_SIZE * i, ASPEN_BLOCK_SIZE);
            at += ASPEN_BLOCK_SIZE;
        }
    return at;
}

void check_marks(const char *marks, size_t runs, size_t changes)
{
    uint16_t l = (uint16_t)strlen(marks);
    size_t length = aspen_list_size(runs, changes), more;
    struct buffer expected = buffer_filled(aspen_list_bound(ASPEN_MAX_LBNS) + 9, filler);

    check_about(l <= 16 ? marks : "many marks");
    for (more = 0; more <= 9; more += 3) {
        struct writing call = writing_new(l, marks, length + more);
        CHECK_EQ(expected_list(&call, expected.bytes), length);
        CHECK_EQ(write_list(&call, ASPEN_OK), length);
        CHECK_BYTES(call.list.bytes, expected.bytes, length + more);
        writing_free(&call);
    }
    if (length > 2) {
        struct writing call = writing_new(l, marks, length - 1);
        write_list(&call, ASPEN_SHORT_OUTPUT);
        writing_free(&call);
    }
    buffer_free(&expected);
}

struct box box_for(unsigned n, unsigned l)
{
    struct box box = box_of(n, l, 1, l);

    call_enrol(&box, 0, 10, ASPEN_OK);
    return box;
}

void check_block(const struct box *box, const struct writing *call, uint16_t lbn, unsigned pbn)
{
    const size_t at = (size_t)ASPEN_BLOCK_SIZE * pbn;

    CHECK_EQ(call_read(box, 0, 1, lbn, ASPEN_OK), at);
    CHECK_BYTES(box->pool.bytes + at, call->image.bytes + ASPEN_BLOCK_SIZE * lbn,
                ASPEN_BLOCK_SIZE);
    CHECK_BYTES(box->book.bytes + case_entry(pbn) + ENTRY_PRINT,
                call->prints.bytes + ASPEN_PRINT_SIZE * lbn, ASPEN_PRINT_SIZE);
}
