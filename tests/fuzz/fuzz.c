#include "fuzz.h"

#include <stdio.h>
#include <stdlib.h>
#include <string.h>

enum { CONTROL = 22, HEADER = 20, PATCH = 4 };

static uint16_t u16_at(const uint8_t *bytes, size_t at)
{
    return (uint16_t)(bytes[at] | bytes[at + 1] << 8);
}

struct control control_of(const uint8_t *input, size_t length)
{
    uint8_t bytes[CONTROL] = {0};
    size_t start = length < CONTROL ? length : CONTROL;
    struct control control;
    size_t i;

    if (start != 0)
        memcpy(bytes, input, start);
    control.calls = bytes[0];
    control.shape = bytes[1];
    control.seed = u16_at(bytes, 2);
    control.disturbed = bytes[4];
    for (i = 0; i < NUMBERS; i++)
        control.number[i] = u16_at(bytes, 6 + 2 * i);
    for (i = 0; i < PARTS; i++)
        control.longer[i] = bytes[5] >> i & 1 ? (int16_t)u16_at(bytes, 14 + 2 * i) : 0;
    control.rest = input + start;
    control.rest_len = length - start;
    return control;
}

struct buffer buffer_of(const uint8_t *bytes, size_t length)
{
    struct buffer buffer = buffer_new(length);

    if (length != 0)
        memcpy(buffer.bytes, bytes, length);
    return buffer;
}

/* The length that a book's header asks for, or all of the bytes if they reach no further. */
static size_t book_length(const uint8_t *bytes, size_t length)
{
    size_t asked;

    if (length < HEADER)
        return length;
    asked = aspen_converted_size(aspen_layout(bytes, length), bytes, length);
    return asked < length ? asked : length;
}

/* Book and list as the input has them, with a pool of the length that the book asks for. A book of
 * too many blocks gets none: it is refused before the pool is looked at. */
static void take_given(struct sent *sent, const uint8_t *rest, size_t length)
{
    size_t book = book_length(rest, length);
    size_t asked = book < HEADER ? 0 : u16_at(rest, 2);
    size_t blocks = asked <= ASPEN_MAX_BLOCKS ? asked : 0;

    sent->part[BOOK] = buffer_of(rest, book);
    sent->part[LIST] = buffer_of(rest + book, length - book);
    sent->part[POOL] = buffer_filled(aspen_pool_size(blocks), 'A');
    memset(sent->number, 0, sizeof sent->number);
}

static void take_made(struct sent *sent, const struct control *control, char call)
{
    struct reference_made made = reference_make(control->shape, control->seed, control->calls,
                                                control->disturbed, (uint8_t)call);

    sent->part[BOOK] = buffer_of(made.book, made.book_len);
    sent->part[POOL] = buffer_of(made.pool, made.pool_len);
    sent->part[LIST] = buffer_of(made.list, made.list_len);
    memcpy(sent->number, made.number, sizeof sent->number);
}

static void apply_patches(struct sent *sent, const uint8_t *rest, size_t length)
{
    for (; length >= PATCH; rest += PATCH, length -= PATCH) {
        struct buffer *part = &sent->part[rest[0] % PARTS];

        if (part->length != 0)
            part->bytes[u16_at(rest, 1) % part->length] ^= rest[3];
    }
}

void make_longer(struct buffer *buffer, int longer)
{
    if (longer < 0 && (size_t)-longer > buffer->length)
        buffer_resize(buffer, 0);
    else if (longer < 0)
        buffer_resize(buffer, buffer->length - (size_t)-longer);
    else if (longer > 0)
        buffer_resize(buffer, buffer->length + (size_t)longer);
}

struct sent sent_of(const uint8_t *input, size_t length, char call)
{
    struct control control = control_of(input, length);
    struct sent sent;
    size_t i;

    if (control.calls == 0)
        take_given(&sent, control.rest, control.rest_len);
    else
        take_made(&sent, &control, call);
    sent.part[SPARE] = buffer_filled(sent.part[BOOK].length, 0x5A);
    sent.free = SPARE;
    if (control.calls != 0)
        apply_patches(&sent, control.rest, control.rest_len);
    for (i = 0; i < PARTS; i++)
        make_longer(&sent.part[i], control.longer[i]);
    for (i = 0; i < NUMBERS; i++)
        sent.number[i] ^= control.number[i];
    return sent;
}

struct side lent(const struct sent *sent)
{
    struct side side;
    size_t i;

    for (i = 0; i < PARTS; i++)
        side.part[i] = buffer_copy(&sent->part[i]);
    return side;
}

/* How often each number came, printed at the end. */
static unsigned long times[ASPEN_COUNT_WIDE + 1];

static void print_times(void)
{
    size_t i;

    fprintf(stderr, "numbers:");
    for (i = 0; i <= ASPEN_COUNT_WIDE; i++)
        if (times[i] != 0)
            fprintf(stderr, " %lu=%lu", (unsigned long)i, times[i]);
    fprintf(stderr, "\n");
}

static void note_number(uint16_t number)
{
    static int noted;

    if (!noted)
        noted = atexit(print_times) == 0;
    times[number]++;
}

void check_left(uint16_t number, struct sent *sent, struct side *ours, struct side *theirs)
{
    size_t i;

    note_number(number);
    for (i = 0; i < PARTS; i++) {
        struct buffer *part = &ours->part[i];

        CHECK_GUARDS(part);
        if (i != sent->free)
            CHECK_BYTES(part->bytes, theirs->part[i].bytes, part->length);
        if (i != sent->free && number != ASPEN_OK)
            CHECK_BYTES(part->bytes, sent->part[i].bytes, part->length);
        buffer_free(part);
        buffer_free(&theirs->part[i]);
        buffer_free(&sent->part[i]);
    }
}

void check_answer(uint16_t number, unsigned long ours, unsigned long theirs,
                  unsigned long untouched)
{
    CHECK_EQ(ours, theirs);
    if (number != ASPEN_OK)
        CHECK_EQ(ours, untouched);
}
