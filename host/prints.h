/* Fingerprints: the first 16 bytes of the SHA-256 of a block. */
#ifndef ASPENBOX_PRINTS_H
#define ASPENBOX_PRINTS_H

#include <stdbool.h>
#include <stddef.h>
#include <stdint.h>

enum { DIGEST_SIZE = 32 };

void sha256(const uint8_t *bytes, size_t length, uint8_t *digest);
void print_of(const uint8_t *block, uint8_t *print);
bool print_fits(const uint8_t *block, const uint8_t *print);

#endif
