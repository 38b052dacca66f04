/* aspen_convert_1_2, aspen_convert_2_1 and aspen_convert_2_3, all of them on any book; what the first
 * two write goes back again. The first number asks for a layout: a multiple of 4 for layout 2, one
 * more for layout 1, others leave the book as it is. The spare stands for the output: it is as long
 * as the book to write, and as much longer as the control says. */
#include "../fuzz.h"

#include <stdio.h>
#include <stdlib.h>
#include <string.h>

int LLVMFuzzerTestOneInput(const uint8_t *input, size_t length);

typedef __typeof__(aspen_convert_1_2) convert_call;

/* A converter on both sides, and the layout that it writes. */
struct way {
    convert_call *archive, *reference;
    uint16_t to;
};

static const struct way to_2 = { aspen_convert_1_2, reference_convert_1_2, 2 };
static const struct way to_1 = { aspen_convert_2_1, reference_convert_2_1, 1 };
static const struct way to_3 = { aspen_convert_2_3, reference_convert_2_3, 3 };

enum { ENTRIES = 36, ENTRY = 21, EXPIRY = 3 };

/* How many books were written in each layout, with how many expiries that weren't as given, and how
 * many not, by 4 and by 22; printed at the end. */
static unsigned long written[4], moved, no_room, wide;

static void print_books(void)
{
    fprintf(stderr, "books: 1_2=%lu 2_1=%lu 2_3=%lu moved=%lu 4=%lu 22=%lu\n", written[2],
            written[1], written[3], moved, no_room, wide);
}

static void note_book(uint16_t number, uint16_t to)
{
    static int noted;

    if (!noted)
        noted = atexit(print_books) == 0;
    written[to] += number == ASPEN_OK;
    no_room += number == ASPEN_SHORT_SPARE;
    wide += number == ASPEN_COUNT_WIDE;
}

static uint16_t call(convert_call *convert, struct side *side)
{
    const struct buffer *book = &side->part[BOOK];
    struct buffer *out = &side->part[SPARE];

    return convert(book->bytes, book->length, out->bytes, out->length);
}

/* Today's layout number becomes that of layout 2, whose books are as long. */
static void make_older(struct buffer *book)
{
    if (aspen_layout(book->bytes, book->length) == ASPEN_LAYOUT)
        book->bytes[0] = 2;
}

/* Drops the high bytes of the counts, if the book is as long as its sizes ask in layout 2. */
static void make_narrow(struct buffer *book)
{
    size_t blocks = book->length < ENTRIES ? 0 : aspen_u16(book->bytes + 2), i;
    size_t length = aspen_converted_size(2, book->bytes, book->length);
    uint8_t *to = book->bytes + ENTRIES;
    const uint8_t *from = to;

    if (blocks == 0 || length != book->length)
        return;
    for (i = 0; i < blocks; i++, from += ENTRY, to += ENTRY - 1) {
        to[0] = from[0];
        memmove(to + 1, from + 2, ENTRY - 2);
    }
    memmove(to, from, length - ENTRIES - ENTRY * blocks);
    book->bytes[0] = 1;
    buffer_resize(book, length - blocks);
}

/* The length of the book to write. One that no book has isn't asked for: the call is refused by 1
 * whatever its output is. */
static size_t room_for(const struct way *way, const struct buffer *book)
{
    size_t room = aspen_converted_size(way->to, book->bytes, book->length);

    return room <= 2 * book->length ? room : 2 * book->length;
}

/* Sends the book to both sides, with an output that is so much longer. Frees all parts but that of
 * what was written, which is empty where nothing was. */
static struct buffer converted(const struct way *way, struct sent *sent, int longer)
{
    size_t room = room_for(way, &sent->part[BOOK]);
    struct side ours, theirs;
    struct buffer other = buffer_new(0);
    uint16_t number;

    buffer_free(&sent->part[SPARE]);
    sent->part[SPARE] = buffer_filled(room, 0xA5);
    make_longer(&sent->part[SPARE], longer);
    sent->free = PARTS;
    ours = lent(sent);
    theirs = lent(sent);
    number = call(way->archive, &ours);
    CHECK_EQ(number, call(way->reference, &theirs));
    note_book(number, way->to);
    if (number == ASPEN_OK) {
        buffer_free(&other);
        other = buffer_of(ours.part[SPARE].bytes, room);
    }
    check_left(number, sent, &ours, &theirs);
    return other;
}

/* Back again, in an output of just the length: the book that it was. */
static void check_back(const struct way *back, const struct buffer *other,
                       const struct buffer *book)
{
    struct buffer out = buffer_filled(book->length, 0x5A);

    CHECK_EQ(back->archive(other->bytes, other->length, out.bytes, out.length), ASPEN_OK);
    CHECK_BYTES(out.bytes, book->bytes, book->length);
    CHECK_GUARDS(&out);
    buffer_free(&out);
}

/* In layout 3 the book is in form, and every byte is as given but the number and the expiries. */
static void check_afresh(const struct buffer *other, const struct buffer *book)
{
    struct buffer rest = buffer_copy(other);
    size_t blocks = aspen_u16(book->bytes + 2), i;

    CHECK_EQ(aspen_form(other->bytes, other->length), ASPEN_OK);
    CHECK_EQ(aspen_layout(other->bytes, other->length), 3);
    rest.bytes[0] = book->bytes[0];
    for (i = 0; i < blocks; i++) {
        size_t at = ENTRIES + ENTRY * i + EXPIRY;

        moved += aspen_u16(rest.bytes + at) != aspen_u16(book->bytes + at);
        memcpy(rest.bytes + at, book->bytes + at, 2);
    }
    CHECK_BYTES(rest.bytes, book->bytes, book->length);
    buffer_free(&rest);
}

/* The book in the layout that the first number asks for. */
static void choose_layout(struct buffer *book, unsigned asked)
{
    if (asked % 4 <= 1)
        make_older(book);
    if (asked % 4 == 1)
        make_narrow(book);
}

/* `back` is none from layout 3. */
static void try_way(const struct way *way, const struct way *back, const uint8_t *input,
                    size_t length)
{
    struct control control = control_of(input, length);
    struct sent sent = sent_of(input, length, 'v');
    struct buffer book, other;

    choose_layout(&sent.part[BOOK], control.number[0]);
    book = buffer_copy(&sent.part[BOOK]);
    other = converted(way, &sent, control.longer[SPARE]);
    if (other.length != 0 && back != NULL)
        check_back(back, &other, &book);
    else if (other.length != 0)
        check_afresh(&other, &book);
    buffer_free(&book);
    buffer_free(&other);
}

int LLVMFuzzerTestOneInput(const uint8_t *input, size_t length)
{
    try_way(&to_2, &to_1, input, length);
    try_way(&to_1, &to_2, input, length);
    try_way(&to_3, NULL, input, length);
    return 0;
}
