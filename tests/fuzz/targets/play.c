/* aspen_play: any bytes as a list of calls. The rest of the input is the list, and if the first of
 * the control's numbers is odd, it is mended to be one. It is played on a small fresh book, or on the
 * box of a run if the control's calls aren't 0; the last of the lengths is that of the room for the
 * answers. */
#include "../fuzz.h"

#include <stdio.h>
#include <stdlib.h>
#include <string.h>

int LLVMFuzzerTestOneInput(const uint8_t *input, size_t length);

typedef __typeof__(aspen_play) play_call;

/* The sizes of the fresh book, those of the cases. */
enum { N = 4, L = 4, S = 6, J = 8 };

enum { MOST_ROOM = 1000000 };

/* How often each tag came, printed at the end. */
static unsigned long times[ASPEN_ANSWER_RUN + 1];

static void print_times(void)
{
    size_t i;

    fprintf(stderr, "answers:");
    for (i = 0; i <= ASPEN_ANSWER_RUN; i++)
        if (times[i] != 0)
            fprintf(stderr, " %lu=%lu", (unsigned long)i, times[i]);
    fprintf(stderr, "\n");
}

static void note_answers(const uint8_t *answers, size_t written)
{
    static int noted;
    size_t at = 0;

    if (!noted)
        noted = atexit(print_times) == 0;
    while (at < written) {
        uint8_t tag = answers[at];

        times[tag]++;
        at += tag == ASPEN_ANSWER_BACKED  ? aspen_answers_bound(1, 0, 0)
              : tag == ASPEN_ANSWER_BLOCK ? aspen_answers_bound(0, 1, 0)
              : tag == ASPEN_ANSWER_RUN   ? aspen_runs_bound(1, aspen_u16(answers + at + 1))
                                          : aspen_answers_bound(0, 0, 1);
    }
}

static size_t data_length(const uint8_t *head)
{
    return aspen_u16(head + 10) + (size_t)65536 * aspen_u16(head + 12);
}

/* Makes a call of the head here, with no more data than so many bytes; gives how many. A restore
 * has fewer than 256 blocks. */
static size_t mend_head(uint8_t *head, size_t most)
{
    static const size_t used[] = { 4, 4, 2, 6, 0, 7, 4 };
    uint8_t kind = head[0] % (ASPEN_CALL_RETIRE + 1);
    size_t data = kind == ASPEN_CALL_BACKUP ? data_length(head) % (most + 1) : 0;
    size_t unused = 2 + used[kind];

    head[0] = kind;
    head[1] = 0;
    memset(head + unused, 0, ASPEN_CALL_HEAD - unused);
    head[10] = (uint8_t)data;
    head[11] = (uint8_t)(data >> 8);
    return data;
}

/* Makes a list of calls of the bytes, and leaves a list as it is. */
static void mend(struct buffer *calls)
{
    size_t at = 0;

    while (calls->length - at >= ASPEN_CALL_HEAD)
        at += ASPEN_CALL_HEAD + mend_head(calls->bytes + at, calls->length - at - ASPEN_CALL_HEAD);
    buffer_resize(calls, at);
}

/* The longest answers of the calls, as far as the bytes are a list. */
static size_t longest_answers(const uint8_t *calls, size_t length)
{
    size_t at = 0, longest = 0;

    while (length - at >= ASPEN_CALL_HEAD) {
        const uint8_t *head = calls + at;
        size_t data = data_length(head);

        longest += head[0] == ASPEN_CALL_BACKUP ? aspen_answers_bound(1, 0, 0)
                   : head[0] == ASPEN_CALL_READ ? aspen_answers_bound(0, 1, 0)
                   : head[0] == ASPEN_CALL_RESTORE
                       ? aspen_runs_bound(1, aspen_u16(head + 8))
                       : aspen_answers_bound(0, 0, 1);
        if (data > length - at - ASPEN_CALL_HEAD)
            break;
        at += ASPEN_CALL_HEAD + data;
    }
    /* A list of many long restores gets less room, and is refused for it. */
    return longest < MOST_ROOM ? longest : MOST_ROOM;
}

static struct sent sent_to_play(const struct control *control)
{
    struct reference_made made;
    struct sent sent;
    size_t i;

    if (control->calls == 0) {
        sent.part[BOOK] = buffer_new(aspen_book_size(N, L, S, J));
        sent.part[POOL] = buffer_filled(aspen_pool_size(N), 'A');
        reference_format(sent.part[BOOK].bytes, sent.part[BOOK].length, N, L, S, J);
    } else {
        made = reference_make(control->shape, control->seed, control->calls, control->disturbed,
                              'a');
        sent.part[BOOK] = buffer_of(made.book, made.book_len);
        sent.part[POOL] = buffer_of(made.pool, made.pool_len);
    }
    sent.part[SPARE] = buffer_filled(sent.part[BOOK].length, 0x5A);
    sent.part[LIST] = buffer_of(control->rest, control->rest_len);
    sent.free = SPARE;
    if (control->number[0] % 2 == 1)
        mend(&sent.part[LIST]);
    for (i = 0; i < LIST; i++)
        make_longer(&sent.part[i], control->longer[i]);
    return sent;
}

static uint16_t call(play_call *play, struct side *side, struct buffer *answers, uint32_t *written)
{
    struct buffer *part = side->part;

    *written = UNTOUCHED_WIDE;
    return play(part[BOOK].bytes, part[BOOK].length, part[POOL].bytes, part[POOL].length,
                part[SPARE].bytes, part[SPARE].length, part[LIST].bytes, part[LIST].length,
                answers->bytes, answers->length, written);
}

int LLVMFuzzerTestOneInput(const uint8_t *input, size_t length)
{
    struct control control = control_of(input, length);
    struct sent sent = sent_to_play(&control);
    struct side ours = lent(&sent), theirs = lent(&sent);
    size_t longest = longest_answers(sent.part[LIST].bytes, sent.part[LIST].length);
    struct buffer before = buffer_filled(longest, 0xA5), answers, expected;
    uint32_t written, told;
    uint16_t number;

    make_longer(&before, control.longer[LIST]);
    answers = buffer_copy(&before);
    expected = buffer_copy(&before);
    number = call(aspen_play, &ours, &answers, &written);
    CHECK_EQ(number, call(reference_play, &theirs, &expected, &told));
    check_answer(number, written, told, UNTOUCHED_WIDE);
    CHECK_GUARDS(&answers);
    CHECK_BYTES(answers.bytes, number == ASPEN_OK ? expected.bytes : before.bytes, answers.length);
    if (number == ASPEN_OK)
        note_answers(answers.bytes, written);
    check_left(number, &sent, &ours, &theirs);
    buffer_free(&before);
    buffer_free(&answers);
    buffer_free(&expected);
    return 0;
}
