/* What the fuzz targets share: from an input to the buffers and numbers of a call, and the
 * comparison of what both sides left.
 *
 * An input starts with a control of 22 bytes; what is missing is 0:
 *     0  u8      calls of the run that makes the box, 0 if the rest of the input is the book
 *     1  u8      the run's shape
 *     2  u16     its seed
 *     4  u8      how often its book is disturbed
 *     5  u8      which lengths of the buffers change, a bit for each
 *     6  4 u16   XORed with the call's numbers
 *    14  4 i16   added to these lengths
 * The rest is the book and, past its length, the list; or else patches of 4 bytes: which buffer,
 * where (u16), and what is XORed with the byte there. For the writer the rest is the marks, for play
 * the list of calls. For the converters the first number asks for the book in layout 2 or 1.
 */
#ifndef ASPEN_FUZZ_H
#define ASPEN_FUZZ_H

#include <aspen.h>
#include <reference.h>

#include "../c/buffer.h"
#include "../c/check.h"

/* Answers before a call; no answer has these values. */
#define UNTOUCHED 0xFEEDu
#define UNTOUCHED_WIDE 0xDEADBEEFu

/* The most numbers that a call has. */
enum { NUMBERS = 4 };

struct control {
    uint8_t calls, shape, disturbed;
    uint16_t seed, number[NUMBERS];
    int16_t longer[4]; /* 0 where a length stays */
    const uint8_t *rest;
    size_t rest_len;
};

struct control control_of(const uint8_t *input, size_t length);

/* The buffers of a call on a box. */
enum { BOOK, POOL, SPARE, LIST, PARTS };

/* A call's buffers and numbers. */
struct sent {
    struct buffer part[PARTS];
    size_t free; /* the buffer that the call may leave as it likes, PARTS if none */
    uint16_t number[NUMBERS];
};

/* Copies of the buffers, for one side. */
struct side {
    struct buffer part[PARTS];
};

/* What an input stands for; `call` as reference_make has it. */
struct sent sent_of(const uint8_t *input, size_t length, char call);

/* A buffer with a copy of these bytes. */
struct buffer buffer_of(const uint8_t *bytes, size_t length);

/* A buffer with other lengths, cut off or gone on with zeros. */
void make_longer(struct buffer *buffer, int longer);

struct side lent(const struct sent *sent);

/* Both sides left the buffers alike, and a refused call left them as sent. Frees all of them. */
void check_left(uint16_t number, struct sent *sent, struct side *ours, struct side *theirs);

/* An answer is the same on both sides, and untouched after a refusal. */
void check_answer(uint16_t number, unsigned long ours, unsigned long theirs,
                  unsigned long untouched);

#endif
