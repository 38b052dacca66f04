#include "prints.h"

#include "messages.h"

#include <aspen.h>
#include <openssl/evp.h>
#include <string.h>

void sha256(const uint8_t *bytes, size_t length, uint8_t *digest)
{
    if (EVP_Digest(bytes, length, digest, NULL, EVP_sha256(), NULL) != 1)
        fail(STATUS_FILES, "libcrypto gives no SHA-256");
}

void print_of(const uint8_t *block, uint8_t *print)
{
    uint8_t digest[DIGEST_SIZE];

    sha256(block, ASPEN_BLOCK_SIZE, digest);
    memcpy(print, digest, ASPEN_PRINT_SIZE);
}

bool print_fits(const uint8_t *block, const uint8_t *print)
{
    uint8_t now[ASPEN_PRINT_SIZE];

    print_of(block, now);
    return memcmp(now, print, ASPEN_PRINT_SIZE) == 0;
}
