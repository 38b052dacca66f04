#include "image.h"

#include "files.h"
#include "messages.h"
#include "prints.h"
#include "progress.h"
#include "view.h"

#include <aspen.h>
#include <string.h>

static void resize(struct bytes *bytes, size_t length)
{
    bytes->at = resized(bytes->at, length > 0 ? length : 1);
    if (length > bytes->length)
        memset(bytes->at + bytes->length, 0, length - bytes->length);
    bytes->length = length;
}

static void make_prints(struct image *image)
{
    image->prints = bytes_new((size_t)ASPEN_PRINT_SIZE * image->count);
    for (uint16_t lbn = 0; lbn < image->count; lbn++) {
        progress("hashing", lbn, image->count);
        print_of(image->blocks.at + (size_t)ASPEN_BLOCK_SIZE * lbn,
                 image->prints.at + (size_t)ASPEN_PRINT_SIZE * lbn);
    }
    progress_end();
}

void image_load(struct image *image, const char *path)
{
    size_t most = (size_t)ASPEN_BLOCK_SIZE * ASPEN_MAX_LBNS;

    image->path = path;
    if (!file_load_foreign(path, most + 1, &image->blocks))
        fail(file_misnamed() ? STATUS_USAGE : STATUS_FILES, "%s", file_failure());
    image->length = image->blocks.length;
    if (image->length > most)
        fail(STATUS_USAGE, "%s is longer than a volume can be, %zu bytes", path, most);
    image->count = (uint16_t)((image->length + ASPEN_BLOCK_SIZE - 1) / ASPEN_BLOCK_SIZE);
    resize(&image->blocks, (size_t)ASPEN_BLOCK_SIZE * image->count);
    make_prints(image);
    image->marks = bytes_new(0);
    image->changed = 0;
}

void image_fit(struct image *image, const struct store *store)
{
    uint16_t cells = view_figures(store->book).cells;

    if (image->count > cells)
        fail(STATUS_USAGE,
             "%s is longer than the %u blocks of %d bytes that a volume of this store has; back up "
             "to a store with more cells",
             image->path, cells, ASPEN_BLOCK_SIZE);
    resize(&image->blocks, (size_t)ASPEN_BLOCK_SIZE * cells);
    resize(&image->prints, (size_t)ASPEN_PRINT_SIZE * cells);
    resize(&image->marks, cells);
}

void image_mark(struct image *image, const struct store *store, uint16_t volume)
{
    struct bytes cells = view_cells(store->book, volume), blocks = view_blocks(store->book);

    for (uint16_t lbn = 0; lbn < image->count; lbn++) {
        const uint8_t *print = image->prints.at + (size_t)ASPEN_PRINT_SIZE * lbn;
        uint16_t pbn = view_cell(cells, lbn);

        if (pbn != ASPEN_UNMAPPED_PBN &&
            memcmp(view_print(blocks, pbn), print, ASPEN_PRINT_SIZE) == 0)
            continue;
        image->marks.at[lbn] = 1;
        image->changed++;
    }
    bytes_free(&cells);
    bytes_free(&blocks);
}

struct bytes image_list(const struct image *image)
{
    uint16_t cells = (uint16_t)image->marks.length;
    struct bytes list = bytes_new(aspen_list_bound(cells));
    uint32_t written = 0;
    uint16_t number = aspen_write_list(cells, image->marks.at, image->marks.length,
                                       image->prints.at, image->prints.length, image->blocks.at,
                                       image->blocks.length, list.at, list.length, &written);

    if (number != ASPEN_OK)
        fail_refused(STATUS_REFUSED, number, "the writer doesn't take the image");
    resize(&list, written);
    return list;
}

void image_free(struct image *image)
{
    bytes_free(&image->blocks);
    bytes_free(&image->prints);
    bytes_free(&image->marks);
}
