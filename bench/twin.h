/* Hand-written C for what the proved code does, as the baseline that it is measured against. Each call is that of aspen.h, with its checks and
 * answers. */
#ifndef ASPEN_BENCH_TWIN_H
#define ASPEN_BENCH_TWIN_H

#include <stddef.h>
#include <stdint.h>

uint16_t twin_form(const uint8_t *book, size_t len);

/* The same of a book in layout 1 and in layout 2, for their converters. */
uint16_t twin_form_narrow(const uint8_t *book, size_t len);
uint16_t twin_form_before(const uint8_t *book, size_t len);

uint16_t twin_format(uint8_t *book, size_t len, uint16_t n, uint16_t l, uint16_t s, uint16_t j);

uint16_t twin_enrol(uint8_t *book, size_t len, uint16_t volume, uint16_t retention);

/* Backup twice: each fingerprint looked for from block 0 up, or in a hash table that is made first. */
uint16_t twin_backup_scan(uint8_t *book, size_t book_len, uint8_t *pool, size_t pool_len, uint8_t *spare, size_t spare_len, uint16_t volume,
                          uint16_t day, const uint8_t *list, size_t list_len, uint16_t *number, uint16_t *taken, uint16_t *touched);
uint16_t twin_backup_hash(uint8_t *book, size_t book_len, uint8_t *pool, size_t pool_len, uint8_t *spare, size_t spare_len, uint16_t volume,
                          uint16_t day, const uint8_t *list, size_t list_len, uint16_t *number, uint16_t *taken, uint16_t *touched);

uint16_t twin_retire(uint8_t *book, size_t book_len, uint8_t *spare, size_t spare_len, uint16_t volume, uint16_t day, uint16_t *cells);

uint16_t twin_collect(uint8_t *book, size_t len, uint16_t day, uint16_t *freed);

uint16_t twin_read(const uint8_t *book, size_t book_len, const uint8_t *pool, size_t pool_len, uint16_t volume, uint16_t number, uint16_t lbn,
                   uint32_t *at);

uint16_t twin_restore(const uint8_t *book, size_t book_len, const uint8_t *pool, size_t pool_len, uint16_t volume, uint16_t number, uint16_t first,
                      uint16_t length, uint8_t *out, size_t out_len);

uint16_t twin_audit(const uint8_t *book, size_t len, uint16_t *sound);

uint16_t twin_convert_1_2(const uint8_t *book, size_t book_len, uint8_t *out, size_t out_len);
uint16_t twin_convert_2_1(const uint8_t *book, size_t book_len, uint8_t *out, size_t out_len);
uint16_t twin_convert_2_3(const uint8_t *book, size_t book_len, uint8_t *out, size_t out_len);

uint16_t twin_write_list(uint16_t l, const uint8_t *marks, size_t marks_len, const uint8_t *prints, size_t prints_len, const uint8_t *image,
                         size_t image_len, uint8_t *list, size_t list_len, uint32_t *written);

#endif
