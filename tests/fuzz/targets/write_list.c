/* aspen_write_list. The rest of the input is the marks, one for each byte: 1 if it is odd, or all of
 * its bits if the control's shape is odd. They are repeated as often as the control's calls say. */
#include "../fuzz.h"

#include <stdio.h>
#include <stdlib.h>

int LLVMFuzzerTestOneInput(const uint8_t *input, size_t length);

typedef __typeof__(aspen_write_list) write_call;

enum { MARKS, PRINTS, IMAGE, OUTPUT, MARKS_MAX = 1040 };

static struct buffer marks_of(const struct control *control)
{
    size_t i, given = control->rest_len, all = given * (1 + control->calls % 8);
    struct buffer buffer = buffer_new(all < MARKS_MAX ? all : MARKS_MAX);

    for (i = 0; i < buffer.length; i++)
        buffer.bytes[i] = control->rest[i % given] & (control->shape % 2 ? 255 : 1);
    return buffer;
}

/* Bytes that differ from part to part. */
static struct buffer numbered(size_t parts, size_t part)
{
    struct buffer buffer = buffer_new(parts * part);
    size_t i;

    for (i = 0; i < buffer.length; i++)
        buffer.bytes[i] = (uint8_t)(i / part + 3 * (i % part) + i / part / 256);
    return buffer;
}

/* As long as the list of the marks: a pair for each piece of a longest run. */
static size_t list_length(const struct buffer *marks)
{
    size_t i, run = 0, pieces = 0, marked = 0;

    for (i = 0; i < marks->length; i++) {
        run = marks->bytes[i] == 1 ? run + 1 : 0;
        marked += run != 0;
        pieces += run % ASPEN_MAX_RUN == 1;
    }
    return aspen_list_size(pieces, marked);
}

/* How many lists had a longest run in pieces, printed at the end. */
static unsigned long in_pieces;

static void print_in_pieces(void)
{
    fprintf(stderr, "in pieces: %lu\n", in_pieces);
}

static void note_pieces(const struct buffer *list)
{
    static int noted;
    size_t pair, end = 2 + 4 * (size_t)aspen_u16(list->bytes);

    if (!noted)
        noted = atexit(print_in_pieces) == 0;
    for (pair = 2; pair + 4 < end; pair += 4) {
        const uint8_t *at = list->bytes + pair;

        if (aspen_u16(at) + aspen_u16(at + 2) == aspen_u16(at + 4)) {
            in_pieces++;
            return;
        }
    }
}

static uint16_t call(write_call *write, struct side *side, uint16_t l, uint32_t *written)
{
    struct buffer *part = side->part;

    *written = UNTOUCHED_WIDE;
    return write(l, part[MARKS].bytes, part[MARKS].length, part[PRINTS].bytes,
                 part[PRINTS].length, part[IMAGE].bytes, part[IMAGE].length, part[OUTPUT].bytes,
                 part[OUTPUT].length, written);
}

static struct sent sent_to_writer(const struct control *control)
{
    struct buffer marks = marks_of(control);
    struct sent sent;
    size_t i;

    sent.number[0] = (uint16_t)marks.length ^ control->number[0];
    sent.part[MARKS] = marks;
    sent.part[PRINTS] = numbered(marks.length, ASPEN_PRINT_SIZE);
    sent.part[IMAGE] = numbered(marks.length, ASPEN_BLOCK_SIZE);
    sent.part[OUTPUT] = buffer_filled(list_length(&marks), 0xA5);
    sent.free = PARTS;
    for (i = 0; i < PARTS; i++)
        make_longer(&sent.part[i], control->longer[i]);
    return sent;
}

int LLVMFuzzerTestOneInput(const uint8_t *input, size_t length)
{
    struct control control = control_of(input, length);
    struct sent sent = sent_to_writer(&control);
    struct side ours = lent(&sent), theirs = lent(&sent);
    uint32_t written, expected;
    uint16_t number = call(aspen_write_list, &ours, sent.number[0], &written);

    CHECK_EQ(number, call(reference_write_list, &theirs, sent.number[0], &expected));
    check_answer(number, written, expected, UNTOUCHED_WIDE);
    if (number == ASPEN_OK)
        note_pieces(&ours.part[OUTPUT]);
    check_left(number, &sent, &ours, &theirs);
    return 0;
}
