/* Those that are measured side by side, each with the calls of aspen.h. */
#ifndef ASPEN_BENCH_SIDES_H
#define ASPEN_BENCH_SIDES_H

#include <stddef.h>
#include <stdint.h>

struct side {
    const char *name;
    uint16_t (*form)(const uint8_t *book, size_t len);
    uint16_t (*format)(uint8_t *book, size_t len, uint16_t n, uint16_t l, uint16_t s, uint16_t j);
    uint16_t (*enrol)(uint8_t *book, size_t len, uint16_t volume, uint16_t retention);
    uint16_t (*backup)(uint8_t *book, size_t book_len, uint8_t *pool, size_t pool_len, uint8_t *spare, size_t spare_len, uint16_t volume,
                       uint16_t day, const uint8_t *list, size_t list_len, uint16_t *number, uint16_t *taken, uint16_t *touched);
    uint16_t (*retire)(uint8_t *book, size_t book_len, uint8_t *spare, size_t spare_len, uint16_t volume, uint16_t day, uint16_t *cells);
    uint16_t (*collect)(uint8_t *book, size_t len, uint16_t day, uint16_t *freed);
    uint16_t (*read)(const uint8_t *book, size_t book_len, const uint8_t *pool, size_t pool_len, uint16_t volume, uint16_t number, uint16_t lbn,
                     uint32_t *at);
    uint16_t (*restore)(const uint8_t *book, size_t book_len, const uint8_t *pool, size_t pool_len, uint16_t volume, uint16_t number, uint16_t first,
                        uint16_t length, uint8_t *out, size_t out_len);
    uint16_t (*audit)(const uint8_t *book, size_t len, uint16_t *sound);
    uint16_t (*convert_1_2)(const uint8_t *book, size_t book_len, uint8_t *out, size_t out_len);
    uint16_t (*convert_2_1)(const uint8_t *book, size_t book_len, uint8_t *out, size_t out_len);
    uint16_t (*convert_2_3)(const uint8_t *book, size_t book_len, uint8_t *out, size_t out_len);
    uint16_t (*write_list)(uint16_t l, const uint8_t *marks, size_t marks_len, const uint8_t *prints, size_t prints_len, const uint8_t *image,
                           size_t image_len, uint8_t *list, size_t list_len, uint32_t *written);
};

/* The proved archive, the C twin with either search, the second implementation in Rust. The C twins differ in backup only. */
enum { PROVED, C_SCAN, C_HASH, SECOND, SIDES };

extern const struct side sides[SIDES];

#endif
