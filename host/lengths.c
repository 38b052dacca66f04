#include "lengths.h"

#include "memory.h"

#include <stdlib.h>

void lengths_add(struct lengths *lengths, struct length length)
{
    lengths->at = resized(lengths->at, (lengths->count + 1) * sizeof *lengths->at);
    lengths->at[lengths->count++] = length;
}

bool lengths_find(const struct lengths *lengths, uint16_t volume, uint16_t number, size_t *bytes)
{
    for (size_t i = 0; i < lengths->count; i++)
        if (lengths->at[i].volume == volume && lengths->at[i].number == number) {
            *bytes = lengths->at[i].bytes;
            return true;
        }
    return false;
}

void lengths_cut(struct lengths *lengths, uint16_t volume, uint16_t number)
{
    size_t kept = 0;

    for (size_t i = 0; i < lengths->count; i++)
        if (lengths->at[i].volume != volume || lengths->at[i].number < number)
            lengths->at[kept++] = lengths->at[i];
    lengths->count = kept;
}

void lengths_free(struct lengths *lengths)
{
    free(lengths->at);
    lengths->at = NULL;
    lengths->count = 0;
}
