#include "box.h"

#include <aspen.h>

#include "books.h"
#include "check.h"

#include <string.h>

struct box box_of(unsigned n, unsigned l, unsigned s, unsigned j)
{
    struct box box;

    box.book = buffer_new(aspen_book_size(n, l, s, j));
    box.pool = buffer_filled(aspen_pool_size(n), POOL_BYTE);
    box.spare = buffer_new(box.book.length);
    book_fresh(box.book.bytes, n, l, s, j);
    return box;
}

struct box box_fresh(void)
{
    return box_of(CASE_N, CASE_L, CASE_S, CASE_J);
}

struct box box_after_d(void)
{
    struct box box = box_fresh();

    book_after_d(box.book.bytes);
    memset(box.pool.bytes, 'A', ASPEN_BLOCK_SIZE);
    memset(box.pool.bytes + ASPEN_BLOCK_SIZE, 'B', ASPEN_BLOCK_SIZE);
    memset(box.pool.bytes + 2 * ASPEN_BLOCK_SIZE, 'C', ASPEN_BLOCK_SIZE);
    return box;
}

void box_free(struct box *box)
{
    buffer_free(&box->book);
    buffer_free(&box->pool);
    buffer_free(&box->spare);
}

struct buffer list_of(unsigned lbn, const char *prints, const char *blocks)
{
    size_t n = strlen(prints), i;
    struct buffer list = buffer_new(aspen_list_size(1, n));
    uint8_t *print = list.bytes + 6;
    uint8_t *block = print + ASPEN_PRINT_SIZE * n;

    put_u16(list.bytes, 0, 1);
    put_u16(list.bytes, 2, lbn);
    put_u16(list.bytes, 4, (unsigned)n);
    for (i = 0; i < n; i++) {
        memset(print + ASPEN_PRINT_SIZE * i, prints[i], ASPEN_PRINT_SIZE);
        memset(block + ASPEN_BLOCK_SIZE * i, blocks[i], ASPEN_BLOCK_SIZE);
    }
    return list;
}

void check_pool(const struct box *box, const char *letters)
{
    uint8_t block[ASPEN_BLOCK_SIZE];
    size_t i;

    for (i = 0; i < CASE_N; i++) {
        memset(block, letters[i], sizeof block);
        CHECK_BYTES(box->pool.bytes + ASPEN_BLOCK_SIZE * i, block, sizeof block);
    }
}
