/* The local clock of a task, for the C of this package (local.go). */
#ifndef HOURSTABLE_LOCAL_CLOCKS_H
#define HOURSTABLE_LOCAL_CLOCKS_H

#include <stdint.h>
#include <time.h>

/* Readings in nanoseconds, taken in this order; ok is 0 if the system lacks one of the clocks. */
struct local_clocks {
    int64_t raw, boot, monotonic;
    int ok;
};

/* A local reading in ticks of a millisecond, and for how many nanoseconds the machine was suspended, as far as
 * readings prove it. */
struct local_reading {
    uint64_t ticks;
    int64_t suspension;
};

static inline int read_clock(clockid_t clock, int64_t *nanoseconds) {
    struct timespec now;
    if (clock_gettime(clock, &now) != 0)
        return 0;
    *nanoseconds = (int64_t)now.tv_sec * 1000000000 + now.tv_nsec;
    return 1;
}

static inline struct local_clocks read_clocks(void) {
    struct local_clocks it = {0};
#if defined(CLOCK_MONOTONIC_RAW) && defined(CLOCK_BOOTTIME)
    it.ok = read_clock(CLOCK_MONOTONIC_RAW, &it.raw) && read_clock(CLOCK_BOOTTIME, &it.boot) &&
            read_clock(CLOCK_MONOTONIC, &it.monotonic);
#endif
    return it;
}

/* CLOCK_MONOTONIC is read last, so a process that is stopped between two readings proves too short a suspension, and
 * never one that is too long. What was known of it does not fall. */
static inline struct local_reading reading_of(struct local_clocks read, int64_t known) {
    struct local_reading it = {.suspension = known};
    if (read.boot - read.monotonic > known)
        it.suspension = read.boot - read.monotonic;
    it.ticks = (uint64_t)(read.raw + it.suspension) / 1000000;
    return it;
}

#endif
