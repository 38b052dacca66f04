#include "healing.h"

#include "messages.h"
#include "prints.h"
#include "view.h"

#include <aspen.h>
#include <stdlib.h>
#include <string.h>

struct held {
    const uint8_t *print;
    uint16_t pbn;
};

static int by_print(const void *one, const void *other)
{
    return memcmp(((const struct held *)one)->print, ((const struct held *)other)->print,
                  ASPEN_PRINT_SIZE);
}

/* The held blocks in the order of their fingerprints; answers how many. */
static size_t sort_held(struct bytes blocks, struct held *held)
{
    size_t count = 0;

    for (size_t p = 0; p < blocks.length / ASPEN_BLOCK_ROW; p++)
        if (view_held(blocks, (uint16_t)p)) {
            held[count].print = view_print(blocks, (uint16_t)p);
            held[count++].pbn = (uint16_t)p;
        }
    qsort(held, count, sizeof *held, by_print);
    return count;
}

uint16_t heal_pool(struct store *store, const struct image *image, struct bytes marks)
{
    struct bytes blocks = view_blocks(store->book);
    struct held *held = resized(NULL, (marks.length + 1) * sizeof *held);
    size_t count = sort_held(blocks, held);
    uint16_t healed = 0;

    for (uint16_t lbn = 0; lbn < image->count; lbn++) {
        const uint8_t *bytes = image->blocks.at + (size_t)ASPEN_BLOCK_SIZE * lbn;
        struct held wanted = {image->prints.at + (size_t)ASPEN_PRINT_SIZE * lbn, 0};
        const struct held *found = bsearch(&wanted, held, count, sizeof *held, by_print);
        uint8_t *stored;

        if (found == NULL)
            continue;
        stored = store->pool.at + aspen_pool_size(found->pbn);
        /* Other bytes that fit as well are for the library to refuse (11). */
        if (memcmp(stored, bytes, ASPEN_BLOCK_SIZE) == 0 || print_fits(stored, wanted.print))
            continue;
        memcpy(stored, bytes, ASPEN_BLOCK_SIZE);
        marks.at[found->pbn] = 1;
        healed++;
    }
    free(held);
    bytes_free(&blocks);
    return healed;
}

void note_healed(struct bytes marks, const char *from)
{
    for (size_t p = 0; p < marks.length; p++)
        if (marks.at[p] == 1)
            note("block %zu of the pool was damaged and has its bytes back from %s", p, from);
}
