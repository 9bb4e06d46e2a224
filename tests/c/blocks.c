/* Blocks that are followed by a page that cannot be accessed. The library is not compiled under the
 * sanitizers, so only such a page finds an access of the library past the end of a block. */
#define _GNU_SOURCE
#include "checks.h"

#include <stdlib.h>
#include <string.h>
#include <sys/mman.h>
#include <unistd.h>

#define MOST_BLOCKS 16

static struct {
    void *block;
    uint8_t *pages;
    size_t length;
} blocks[MOST_BLOCKS];

static uint8_t *new_block(size_t length) {
    size_t page = (size_t)sysconf(_SC_PAGESIZE), used = (length + page - 1) / page * page;
    for (size_t at = 0; at < MOST_BLOCKS; at++) {
        if (blocks[at].block)
            continue;
        uint8_t *pages = mmap(NULL, used + page, PROT_READ | PROT_WRITE, MAP_PRIVATE | MAP_ANONYMOUS, -1, 0);
        if (pages == MAP_FAILED || mprotect(pages + used, page, PROT_NONE))
            exit(2);
        blocks[at].block = pages + used - length;
        blocks[at].pages = pages;
        blocks[at].length = used + page;
        return blocks[at].block;
    }
    exit(2);
}

void *block_of(const void *bytes, size_t length) {
    uint8_t *block = new_block(length);
    if (length)
        memcpy(block, bytes, length);
    return block;
}

uint8_t *dashes(size_t length) {
    uint8_t *block = new_block(length);
    if (length)
        memset(block, '-', length);
    return block;
}

void drop_block(void *block) {
    for (size_t at = 0; at < MOST_BLOCKS; at++) {
        if (blocks[at].block == block) {
            munmap(blocks[at].pages, blocks[at].length);
            blocks[at].block = NULL;
            return;
        }
    }
    exit(2);
}

int are_dashes(const uint8_t *block, size_t length) {
    for (size_t at = 0; at < length; at++)
        if (block[at] != '-')
            return 0;
    return 1;
}
