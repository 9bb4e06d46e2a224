/* Calls hs_slicelet_serve for keys of 20 bytes: CALLS [RANGES]. The slicelet holds a guard of so many ranges, each of
 * half of the keys of its share. bench/serve builds it, and counts the instructions of a call. */
#include "hourstable.h"

#include <inttypes.h>
#include <stdio.h>
#include <stdlib.h>
#include <string.h>

#define JOB (const uint8_t *)"", 0
#define KEYS ((uint64_t)1 << 63)

/* The message of a guard until reading 1000, for task 1. */
static char *grant_of(uint64_t ranges, size_t *length) {
    size_t room = 256 + (size_t)ranges * 48, used = 0;
    char *text = malloc(room);
    if (!text)
        exit(1);
    used += (size_t)snprintf(text, room,
                             "{\"type\":\"grant\",\"value\":{\"ends\":1000,\"generation\":1,\"kind\":"
                             "\"guard\",\"life\":1,\"number\":1,\"ranges\":[");
    for (uint64_t range = 0; range < ranges; range++) {
        uint64_t start = KEYS / ranges * range, end = start + KEYS / ranges / 2;
        used += (size_t)snprintf(text + used, room - used, "%s[%" PRIu64 ",%" PRIu64 "]", range ? "," : "", start, end);
    }
    used += (size_t)snprintf(text + used, room - used, "],\"task\":1,\"until\":1010},\"version\":1}");
    *length = used;
    return text;
}

static void begin(struct hs_place *place, uint64_t ranges) {
    struct hs_told told = {0};
    size_t length = 0;
    char *grant = grant_of(ranges, &length);
    if (hs_place_new(place) || hs_slicelet_open(place, JOB, 1) || hs_slicelet_start(place, 1, 0) ||
        hs_slicelet_hear(place, (const uint8_t *)grant, length, 1, &told))
        exit(1);
    free(grant);
}

int main(int count, char **words) {
    uint64_t calls = count > 1 ? strtoull(words[1], NULL, 10) : 1000000, served = 0;
    struct hs_place place = {0};
    struct hs_told told = {0};
    uint8_t key[20];
    memcpy(key, "a key of 20 bytes, 0", sizeof key);
    begin(&place, count > 2 ? strtoull(words[2], NULL, 10) : 1);
    for (uint64_t call = 0; call < calls; call++) {
        key[18] = (uint8_t)(call >> 8);
        key[19] = (uint8_t)call;
        served += hs_slicelet_serve(&place, key, sizeof key, 2, &told) == HS_DONE;
    }
    hs_place_free(&place);
    printf("%" PRIu64 " of %" PRIu64 " served\n", served, calls);
    return 0;
}
