/* What calls for a held key of 20 bytes cost from C: hs_slicelet_serve, and hs_slicelet_enter and _leave together, with no
 * line and with their lines. Prints nanoseconds of the processor that this thread had, the least of 100 rounds of CALLS.
 * The other files of this folder are the same in other languages. */
#include "hourstable.h"

#include <inttypes.h>
#include <stdio.h>
#include <stdlib.h>
#include <string.h>
#include <time.h>

static const char grant[] =
    "{\"job\":\"shop\",\"type\":\"grant\",\"value\":{\"ends\":\"1000\",\"generation\":\"1\",\"kind\":\"guard\","
    "\"life\":1,"
    "\"number\":\"1\",\"ranges\":[[\"0\",\"9223372036854775808\"]],\"task\":1,\"until\":\"1010\"},\"version\":2}";

/* What is asked, and where a line is written: nowhere if `room` is 0. */
struct task {
    struct hs_place place;
    struct hs_task_clock clock;
    uint8_t line[512];
    size_t room;
};

static uint64_t now(void) {
    struct timespec it;
    clock_gettime(CLOCK_THREAD_CPUTIME_ID, &it);
    return (uint64_t)it.tv_sec * 1000000000 + (uint64_t)it.tv_nsec;
}

static void serve(struct task *task, const uint8_t *key, uint64_t call) {
    struct hs_told told = {0};
    (void)call;
    if (hs_slicelet_serve(&task->place, key, 20, 2, &told) != HS_DONE)
        exit(1);
}

static void block(struct task *task, const uint8_t *key, uint64_t call) {
    struct hs_block it = {.ticket = 2 * call};
    size_t needed = 0;
    if (hs_slicelet_enter(&task->place, &task->clock, 2, key, 20, &it, task->line, task->room, &needed) != HS_DONE)
        exit(1);
    it.ticket++;
    if (hs_slicelet_leave(&task->place, &task->clock, 2, &it, task->line, task->room, &needed) != HS_DONE)
        exit(1);
}

static void tell(struct task *task, uint64_t calls, void (*make)(struct task *, const uint8_t *, uint64_t)) {
    uint8_t key[20];
    uint64_t least = UINT64_MAX;
    memcpy(key, "a key of 20 bytes, 0", sizeof key);
    for (int round = 0; round < 100; round++) {
        uint64_t begun = now();
        for (uint64_t call = 0; call < calls; call++) {
            key[19] = (uint8_t)call;
            make(task, key, call);
        }
        uint64_t took = now() - begun;
        least = took < least ? took : least;
    }
    printf("%" PRIu64 "\n", least / calls);
}

int main(int count, char **words) {
    uint64_t calls = count > 1 ? strtoull(words[1], NULL, 10) : 10000;
    struct task task = {0};
    struct hs_told told = {0};
    if (hs_place_new(&task.place) || hs_slicelet_open(&task.place, (const uint8_t *)"shop", 4, 1) ||
        hs_slicelet_start(&task.place, 1, 0) ||
        hs_slicelet_hear(&task.place, (const uint8_t *)grant, strlen(grant), 1, &told) ||
        hs_task_clock_new(&task.clock, 0, 1, 0, 100) || hs_task_clock_sample(&task.clock, 0, 1, 0))
        return 1;
    tell(&task, calls, serve);
    tell(&task, calls, block);
    task.room = sizeof task.line;
    tell(&task, calls, block);
    hs_place_free(&task.place);
    return 0;
}
