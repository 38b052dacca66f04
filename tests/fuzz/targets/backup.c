/* aspen_backup on any book, pool, spare and list. */
#include "../fuzz.h"

#include <stdio.h>
#include <stdlib.h>
#include <string.h>

int LLVMFuzzerTestOneInput(const uint8_t *input, size_t length);

typedef __typeof__(aspen_backup) backup_call;

static uint16_t call(backup_call *backup, struct side *side, const struct sent *sent,
                     uint16_t answer[3])
{
    struct buffer *part = side->part;
    size_t i;

    for (i = 0; i < 3; i++)
        answer[i] = UNTOUCHED;
    return backup(part[BOOK].bytes, part[BOOK].length, part[POOL].bytes, part[POOL].length,
                  part[SPARE].bytes, part[SPARE].length, sent->number[0], sent->number[1],
                  part[LIST].bytes, part[LIST].length, &answer[0], &answer[1], &answer[2]);
}

/* The longest run of a list that has as many bytes as its pairs say, else 0. */
static unsigned longest_run(const struct buffer *list)
{
    size_t pairs = list->length < 2 ? 0 : aspen_u16(list->bytes), changes = 0, i;
    unsigned longest = 0;

    if (list->length < aspen_list_size(pairs, 0))
        return 0;
    for (i = 0; i < pairs; i++) {
        unsigned run = aspen_u16(list->bytes + aspen_list_size(i, 0) + 2);

        changes += run;
        longest = run > longest ? run : longest;
    }
    return list->length == aspen_list_size(pairs, changes) ? longest : 0;
}

/* How many lists were taken with a run of the most blocks, and how many refused with a longer one,
 * printed at the end. */
static unsigned long taken, refused;

static void note_runs(uint16_t number, unsigned longest)
{
    taken += number == ASPEN_OK && longest == ASPEN_MAX_RUN;
    refused += number == ASPEN_BAD_LIST && longest > ASPEN_MAX_RUN;
}

/* How many lists were taken with a fingerprint that isn't a held one but agrees with it in the far
 * half, in the near half, and in two bytes at each end. */
enum { FAR, NEAR, ENDS, WAYS };
static unsigned long alike[WAYS];

static void compare_prints(const uint8_t *sent, const uint8_t *held, unsigned is[WAYS])
{
    enum { HALF = ASPEN_PRINT_SIZE / 2, END = ASPEN_PRINT_SIZE - 2 };

    if (memcmp(sent, held, ASPEN_PRINT_SIZE) == 0)
        return;
    is[FAR] |= memcmp(sent + HALF, held + HALF, HALF) == 0;
    is[NEAR] |= memcmp(sent, held, HALF) == 0;
    is[ENDS] |= memcmp(sent, held, 2) == 0 && memcmp(sent + END, held + END, 2) == 0;
}

/* Of a list that was taken. */
static void note_alike(const struct buffer *book, const struct buffer *list)
{
    static uint8_t rows[aspen_blocks_size(ASPEN_MAX_BLOCKS)];
    const size_t start = aspen_list_size(aspen_u16(list->bytes), 0);
    const size_t changes = (list->length - start) / (ASPEN_PRINT_SIZE + ASPEN_BLOCK_SIZE);
    const size_t blocks = aspen_u16(book->bytes + 2);
    unsigned is[WAYS] = {0};
    size_t i;

    CHECK_EQ(aspen_blocks(book->bytes, book->length, rows, sizeof rows), ASPEN_OK);
    for (i = 0; i < changes * blocks; i++) {
        const uint8_t *row = rows + aspen_blocks_size(i % blocks);

        if (aspen_u16(row) == 1)
            compare_prints(list->bytes + start + i / blocks * ASPEN_PRINT_SIZE, row + 6, is);
    }
    for (i = 0; i < WAYS; i++)
        alike[i] += is[i];
}

static void print_noted(void)
{
    fprintf(stderr, "runs: %d=%lu longer=%lu\n", ASPEN_MAX_RUN, taken, refused);
    fprintf(stderr, "alike: far=%lu near=%lu ends=%lu\n", alike[FAR], alike[NEAR], alike[ENDS]);
}

static void note(uint16_t number, const struct sent *sent)
{
    static int noted;

    if (!noted)
        noted = atexit(print_noted) == 0;
    note_runs(number, longest_run(&sent->part[LIST]));
    if (number == ASPEN_OK)
        note_alike(&sent->part[BOOK], &sent->part[LIST]);
}

int LLVMFuzzerTestOneInput(const uint8_t *input, size_t length)
{
    struct sent sent = sent_of(input, length, 'b');
    struct side ours = lent(&sent), theirs = lent(&sent);
    uint16_t answer[3], expected[3];
    uint16_t number = call(aspen_backup, &ours, &sent, answer);
    size_t i;

    CHECK_EQ(number, call(reference_backup, &theirs, &sent, expected));
    for (i = 0; i < 3; i++)
        check_answer(number, answer[i], expected[i], UNTOUCHED);
    note(number, &sent);
    check_left(number, &sent, &ours, &theirs);
    return 0;
}
