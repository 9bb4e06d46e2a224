/* Calls hs_task_clock_read at rising local readings: CALLS. bench/clock builds it, and counts the instructions of a
 * call. The drift and the ticks are those of docs/OPERATIONS.md: 201 in 1000000, ticks of a millisecond. */
#include "hourstable.h"

#include <inttypes.h>
#include <stdio.h>
#include <stdlib.h>

int main(int count, char **words) {
    uint64_t calls = count > 1 ? strtoull(words[1], NULL, 10) : 1000000, done = 0, value = 0;
    struct hs_task_clock clock;
    if (hs_task_clock_new(&clock, 201, 1000000, 2, UINT64_MAX) || hs_task_clock_sample(&clock, 5000, 90000, 5050))
        exit(1);
    for (uint64_t call = 0; call < calls; call++)
        done += hs_task_clock_read(&clock, 5050 + call, &value) == HS_DONE;
    printf("%" PRIu64 " of %" PRIu64 " done, the last value is %" PRIu64 "\n", done, calls, value);
    return done == calls ? 0 : 1;
}
