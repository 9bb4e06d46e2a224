/* Calls hs_slicelet_serve or hs_slicelet_serve_at of one slicelet from several threads: THREADS CALLS WAY [MUTEX].
 * WAY is `key`, for keys of 20 bytes, or `slice`, for slice keys. With MUTEX each call holds a mutex. Prints how many
 * calls a second all threads made together. bench/readers builds it. */
#define _POSIX_C_SOURCE 200809L
#include "hourstable.h"

#include <inttypes.h>
#include <pthread.h>
#include <stdio.h>
#include <stdlib.h>
#include <string.h>
#include <time.h>

#define MOST 64
#define JOB (const uint8_t *)"", 0

static const char grant[] =
    "{\"type\":\"grant\",\"value\":{\"ends\":1000,\"generation\":1,\"kind\":\"guard\",\"life\":1,"
    "\"number\":1,\"ranges\":[[0,9223372036854775808]],\"task\":1,\"until\":1010},\"version\":1}";

static struct hs_place place;
static pthread_mutex_t mutex = PTHREAD_MUTEX_INITIALIZER;
static pthread_barrier_t begin;
static uint64_t calls;
static int by_slice, has_mutex;

static void open_slicelet(void) {
    struct hs_told told = {0};
    if (hs_place_new(&place) || hs_slicelet_open(&place, JOB, 1) || hs_slicelet_start(&place, 1, 0) ||
        hs_slicelet_hear(&place, (const uint8_t *)grant, sizeof grant - 1, 1, &told))
        exit(1);
}

static int32_t serve(uint8_t key[20], uint64_t call, struct hs_told *told) {
    if (by_slice)
        return hs_slicelet_serve_at(&place, call << 20, 2, told);
    memcpy(key, &call, sizeof call);
    return hs_slicelet_serve(&place, key, 20, 2, told);
}

static void *serves(void *unused) {
    struct hs_told told = {0};
    uint8_t key[20] = {0};
    (void)unused;
    pthread_barrier_wait(&begin);
    for (uint64_t call = 0; call < calls; call++) {
        if (has_mutex)
            pthread_mutex_lock(&mutex);
        int32_t code = serve(key, call, &told);
        if (has_mutex)
            pthread_mutex_unlock(&mutex);
        if (code != HS_DONE)
            exit(1);
    }
    return NULL;
}

static double seconds(void) {
    struct timespec now;
    clock_gettime(CLOCK_MONOTONIC, &now);
    return (double)now.tv_sec + (double)now.tv_nsec / 1e9;
}

int main(int count, char **words) {
    pthread_t threads[MOST];
    long many = count > 1 ? strtol(words[1], NULL, 10) : 1;
    if (count < 4 || many < 1 || many > MOST)
        return 2;
    calls = strtoull(words[2], NULL, 10);
    by_slice = strcmp(words[3], "slice") == 0;
    has_mutex = count > 4;
    open_slicelet();
    pthread_barrier_init(&begin, NULL, (unsigned)many + 1);
    for (long at = 0; at < many; at++)
        if (pthread_create(&threads[at], NULL, serves, NULL))
            return 1;
    pthread_barrier_wait(&begin);
    double begun = seconds();
    for (long at = 0; at < many; at++)
        pthread_join(threads[at], NULL);
    double taken = seconds() - begun;
    hs_place_free(&place);
    printf("%.0f\n", (double)calls * (double)many / taken);
    return 0;
}
