#include "seal.h"

#include "prints.h"

#include <aspen.h>
#include <string.h>

static const char MAGIC[] = "aspnseal";

enum {
    MAGIC_SIZE = sizeof MAGIC - 1,
    LENGTH_SIZE = 8,
    /* where the parts of the seal stand, from its start */
    BOOK_AT = STORE_ID_SIZE,
    COUNT_AT = BOOK_AT + 4,
    MAGIC_AT = COUNT_AT + 4,
    DIGEST_AT = MAGIC_AT + MAGIC_SIZE,
    SEAL_SIZE = DIGEST_AT + DIGEST_SIZE
};

static void add_number(struct bytes *file, uint32_t value, int size)
{
    for (int i = 0; i < size; i++) {
        uint8_t byte = (uint8_t)(value >> 8 * i & 0xFF);

        bytes_add(file, &byte, 1);
    }
}

static uint32_t u32_at(const uint8_t *at)
{
    return (uint32_t)at[0] | (uint32_t)at[1] << 8 | (uint32_t)at[2] << 16 | (uint32_t)at[3] << 24;
}

size_t seal_limit(void)
{
    return (size_t)LENGTH_SIZE * ASPEN_MAX_SLOTS + SEAL_SIZE;
}

/* Where the seal starts, 0 if there is none that fits. */
static size_t seal_at(struct bytes file)
{
    const uint8_t *seal;

    if (file.length < SEAL_SIZE)
        return 0;
    seal = file.at + file.length - SEAL_SIZE;
    if (memcmp(seal + MAGIC_AT, MAGIC, MAGIC_SIZE) != 0 ||
        u32_at(seal + BOOK_AT) + (uint64_t)LENGTH_SIZE * u32_at(seal + COUNT_AT) + SEAL_SIZE !=
            file.length)
        return 0;
    return file.length - SEAL_SIZE;
}

static void read_lengths(const uint8_t *at, size_t count, struct lengths *lengths)
{
    for (size_t i = 0; i < count; i++, at += LENGTH_SIZE) {
        struct length length = {aspen_u16(at), aspen_u16(at + 2), u32_at(at + 4)};

        lengths_add(lengths, length);
    }
}

const char *seal_open(struct bytes file, const struct lock *lock, struct bytes *book,
                      struct lengths *lengths)
{
    size_t at = seal_at(file);
    const uint8_t *seal = file.at + at;
    uint8_t digest[DIGEST_SIZE];

    *book = bytes_copy(file);
    if (at == 0)
        return lock->digested ? "its digest is missing" : NULL;
    book->length = u32_at(seal + BOOK_AT);
    /* Exactly as long as the book, so that a memory checker sees a step past its end. */
    book->at = resized(book->at, book->length > 0 ? book->length : 1);
    read_lengths(file.at + book->length, u32_at(seal + COUNT_AT), lengths);
    sha256(file.at, file.length - DIGEST_SIZE, digest);
    if (memcmp(seal + DIGEST_AT, digest, DIGEST_SIZE) != 0)
        return "its bytes don't fit their digest";
    if (memcmp(seal, lock->id, STORE_ID_SIZE) != 0)
        return "it is the book of another store";
    return NULL;
}

struct bytes seal_make(struct bytes book, const struct lengths *lengths, const uint8_t *store_id)
{
    struct bytes file = bytes_copy(book);
    uint8_t digest[DIGEST_SIZE];

    for (size_t i = 0; i < lengths->count; i++) {
        add_number(&file, lengths->at[i].volume, 2);
        add_number(&file, lengths->at[i].number, 2);
        add_number(&file, lengths->at[i].bytes, 4);
    }
    bytes_add(&file, store_id, STORE_ID_SIZE);
    add_number(&file, (uint32_t)book.length, 4);
    add_number(&file, (uint32_t)lengths->count, 4);
    bytes_add(&file, MAGIC, MAGIC_SIZE);
    sha256(file.at, file.length, digest);
    bytes_add(&file, digest, DIGEST_SIZE);
    return file;
}
