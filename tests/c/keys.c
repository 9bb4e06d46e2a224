/* Slice keys, by vectors of SHA-256 (FIPS 180-4). */
#include "checks.h"

#include <stdlib.h>
#include <string.h>

void check_keys(void) {
    HOLDS(hs_slice_key((const uint8_t *)"", 0) == 0xe3b0c44298fc1c14u >> 1);
    HOLDS(hs_slice_key(ABC) == 0xba7816bf8f01cfeau >> 1);
    HOLDS(hs_slice_key(HELLO) == 0x2cf24dba5fb0a30eu >> 1);
    const char *two_blocks = "abcdbcdecdefdefgefghfghighijhijkijkljklmklmnlmnomnopnopq";
    uint8_t *copy = block_of(two_blocks, strlen(two_blocks));
    HOLDS(hs_slice_key(copy, strlen(two_blocks)) == 0x248d6a61d20638b8u >> 1);
    drop_block(copy);
    size_t length = 1000000;
    uint8_t *key = malloc(length);
    if (!key)
        exit(2);
    memset(key, 'a', length);
    HOLDS(hs_slice_key(key, length) == 0xcdc76e5c9914fb92u >> 1);
    free(key);
}
