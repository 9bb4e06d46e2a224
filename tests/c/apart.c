/* Memory that is set apart: from set_memory_apart to protect_memory, every allocation is made there. */
#define _GNU_SOURCE
#include "checks.h"

#include <stdlib.h>
#include <string.h>
#include <sys/mman.h>

/* Before each block stands its length. */
#define HEAD 16

static uint8_t *apart;
static size_t room, used;
static int is_open;

static uint8_t *take(size_t size) {
    size_t length = HEAD + (size + 15) / 16 * 16;
    if (used + length > room)
        exit(2);
    uint8_t *head = apart + used;
    used += length;
    memcpy(head, &size, sizeof size);
    return head + HEAD;
}

void *set_memory_apart(size_t size, size_t first) {
    apart = mmap(NULL, size, PROT_READ | PROT_WRITE, MAP_PRIVATE | MAP_ANONYMOUS, -1, 0);
    if (apart == MAP_FAILED)
        exit(2);
    room = size;
    used = 0;
    is_open = 1;
    return take(first);
}

void protect_memory(int protection) {
    is_open = 0;
    if (mprotect(apart, room, protection))
        exit(2);
}

void drop_memory(void) {
    munmap(apart, room);
    apart = NULL;
    room = used = 0;
}

int is_apart(const void *block) {
    return apart && (const uint8_t *)block >= apart && (const uint8_t *)block < apart + room;
}

void *allocate_apart(size_t size) {
    return is_open ? take(size) : NULL;
}

void *reallocate_apart(void *block, size_t size) {
    size_t length = 0;
    memcpy(&length, (uint8_t *)block - HEAD, sizeof length);
    uint8_t *longer = is_open ? take(size) : malloc(size);
    if (longer)
        memcpy(longer, block, length < size ? length : size);
    return longer;
}
