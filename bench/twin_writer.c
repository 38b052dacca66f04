/* The aid's writer: one pass over the marks for the list's length, and one that writes each run, its fingerprints and blocks by one memcpy each. */
#include "twin.h"
#include "twin_list.h"

#include <string.h>

/* How many pairs and changes the list of these marks has. Gives 0 if a mark is neither 0 nor 1. */
static int count(const uint8_t *marks, size_t l, size_t *pairs, size_t *n)
{
    size_t run = 0;
    *pairs = *n = 0;
    for (size_t i = 0; i < l; i++) {
        if (marks[i] > 1)
            return 0;
        run = marks[i] == 0 || run == MAX_RUN ? marks[i] : run + 1;
        *pairs += run == 1;
        *n += marks[i];
    }
    return 1;
}

/* The end of the run that starts at this LBN: the first unmarked block, the end of the volume, or MAX_RUN blocks on. */
static size_t run_end(const uint8_t *marks, size_t first, size_t l)
{
    size_t most = l - first < MAX_RUN ? l : first + MAX_RUN, end = first;
    while (end < most && marks[end] == 1)
        end++;
    return end;
}

/* Where the list goes on: its next pair, fingerprint and block. */
struct to {
    uint8_t *pair, *print, *block;
};

static void put_run(struct to *to, size_t first, size_t length, const uint8_t *prints, const uint8_t *image)
{
    put_u16(to->pair, (unsigned)first);
    put_u16(to->pair + 2, (unsigned)length);
    memcpy(to->print, prints + PRINT * first, PRINT * length);
    memcpy(to->block, image + BLOCK * first, BLOCK * length);
    to->pair += PAIR;
    to->print += PRINT * length;
    to->block += BLOCK * length;
}

uint16_t twin_write_list(uint16_t l, const uint8_t *marks, size_t marks_len, const uint8_t *prints, size_t prints_len, const uint8_t *image,
                         size_t image_len, uint8_t *list, size_t list_len, uint32_t *written)
{
    size_t pairs, n;
    if (l == 0 || l > MAX_LBNS || marks_len != l || prints_len != (size_t)PRINT * l || image_len != (size_t)BLOCK * l || !count(marks, l, &pairs, &n))
        return 19;
    size_t length = 2 + PAIR * pairs + (PRINT + BLOCK) * n;
    if (list_len < length)
        return 20;
    struct to to = { list + 2, list + 2 + PAIR * pairs, list + 2 + PAIR * pairs + PRINT * n };
    put_u16(list, (unsigned)pairs);
    for (size_t i = 0, end; i < l; i = end) {
        end = marks[i] == 1 ? run_end(marks, i, l) : i + 1;
        if (marks[i] == 1)
            put_run(&to, i, end - i, prints, image);
    }
    *written = (uint32_t)length;
    return 0;
}
