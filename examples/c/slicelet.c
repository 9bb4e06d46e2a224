/* A server task that asks its slicelet before each answer, and stops when its lease ends.
 *
 * The clock is a counter that advances by one tick at each question. The grant is written out here;
 * in a service the table sends it. It is for a guard lease on all keys, which ends at tick 8 of the
 * task's clock. */
#include "hourstable.h"

#include <inttypes.h>
#include <stdio.h>
#include <string.h>

static const char grant[] =
    "{\"job\":\"shop\",\"type\":\"grant\",\"value\":{\"ends\":\"8\",\"generation\":\"3\",\"kind\":\"guard\",\"life\":1,"
    "\"number\":\"7\",\"ranges\":[[\"0\",\"9223372036854775808\"]],\"task\":2,\"until\":\"10\"},\"version\":2}";

static const uint8_t *bytes_of(const char *text) {
    return (const uint8_t *)text;
}

/* Answers questions until one is denied, and returns the code of the denial. */
static int32_t answer_questions(struct hs_place *task, uint64_t now) {
    struct hs_told told = {0};
    for (;; now++) {
        const char *key = now % 2 ? "apples" : "pears";
        int32_t code = hs_slicelet_serve(task, bytes_of(key), strlen(key), now, &told);
        if (code != HS_DONE)
            return code;
        printf("%" PRIu64 " %s: served under generation %" PRIu64 "\n", now, key, told.generation);
    }
}

/* Releases the guard lease and prints its note, which a service would send to the table. A note has
 * at most 122 bytes beside the name of its job. If the code is not HS_DONE, the lease is still held. */
static int32_t give_back(struct hs_place *task, uint64_t now) {
    uint8_t note[256];
    size_t needed = 0;
    int32_t code = hs_slicelet_release(task, HS_GUARD, now, note, sizeof note, &needed);
    if (code == HS_DONE)
        printf("%.*s\n", (int)needed, (const char *)note);
    return code;
}

static int32_t run_task(struct hs_place *task) {
    struct hs_told told = {0};
    int32_t code = hs_slicelet_open(task, bytes_of("shop"), 4, 2);
    if (code == HS_DONE)
        code = hs_slicelet_start(task, 1, 3);
    if (code == HS_DONE)
        code = hs_slicelet_hear(task, bytes_of(grant), strlen(grant), 5, &told);
    if (code != HS_DONE)
        return code;
    code = answer_questions(task, 5);
    printf("stopped: %s\n", code == HS_ENDED ? "the lease has ended" : "the key is not served");
    return give_back(task, 8);
}

int main(void) {
    struct hs_place task = {0};
    if (hs_place_new(&task) != HS_DONE)
        return 1;
    int32_t code = run_task(&task);
    hs_place_free(&task);
    return code == HS_DONE ? 0 : 1;
}
