/* Plays inputs to the library: INPUTS [SEED]. A call that is refused must change nothing, a code must set
 * only its own fields of hs_told, and no allocation of a call may be longer than TIMES_INPUT times its input
 * and BESIDE_INPUT. */
#include "fuzz.h"

#include <stdio.h>
#include <stdlib.h>
#include <string.h>

#define LOWEST HS_TOO_MANY_SLICES
#define HIGHEST HS_FENCED
/* A byte of JSON may be a value of its own, and a list grows by doubling. What a place holds is copied too. */
#define TIMES_INPUT 128
#define BESIDE_INPUT 65536
/* After this many inputs, or this many accepted ones, a place is set up anew. */
#define MOST_INPUTS 64
#define MOST_TAKEN 4

void *__real_malloc(size_t size);
void *__real_calloc(size_t count, size_t size);
void *__real_realloc(void *block, size_t size);
void *__wrap_malloc(size_t size);
void *__wrap_calloc(size_t count, size_t size);
void *__wrap_realloc(void *block, size_t size);

static size_t largest, whole;
static uint64_t played;
static struct input now;

static void note_allocation(size_t size) {
    whole += size;
    if (size > largest)
        largest = size;
}

void *__wrap_malloc(size_t size) {
    note_allocation(size);
    return __real_malloc(size);
}

void *__wrap_calloc(size_t count, size_t size) {
    note_allocation(count * size);
    return __real_calloc(count, size);
}

void *__wrap_realloc(void *block, size_t size) {
    note_allocation(size);
    return __real_realloc(block, size);
}

void count_allocations(void) {
    largest = whole = 0;
}

size_t largest_allocation(void) {
    return largest;
}

size_t whole_allocation(void) {
    return whole;
}

void fail(const char *what) {
    printf("input %llu: not so: %s\n", (unsigned long long)played, what);
    for (size_t at = 0; at < now.length; at++)
        printf(now.bytes[at] >= ' ' && now.bytes[at] < 127 && now.bytes[at] != '\\' ? "%c" : "\\x%02x", now.bytes[at]);
    printf("\n");
    exit(1);
}

/* The place of a target, its last state, and what was counted. */
struct field {
    struct hs_place place;
    uint64_t state;
    unsigned inputs, taken;
    uint64_t codes[HIGHEST - LOWEST + 1];
    size_t largest, whole;
};

static void begin(const struct target *target, struct field *field) {
    target->begin(&field->place);
    field->state = target->state(&field->place);
    field->inputs = field->taken = 0;
}

/* Whether the fields of hs_told that the code does not set are unchanged. A grant that is heard tells its lease. */
static int carries_no_more(const struct target *target, int32_t code, struct hs_told told) {
    if (code == HS_DONE && strcmp(target->name, "hear") == 0) {
        if (told.kind != HS_GUARD && told.kind != HS_BRIDGE)
            return 0;
        told.number = told.generation = told.kind = told.until = 5;
    }
    if (code == HS_OLD || code == HS_VERSION || code == HS_NOT_HOLDER)
        told.number = 5;
    if (code == HS_OLD_GENERATION || code == HS_STALE_BASE)
        told.generation = 5;
    return told.number == 5 && told.generation == 5 && told.kind == 5 && told.task == 5 && told.until == 5;
}

static void play(const struct target *target, struct field *field) {
    struct hs_told told = {5, 5, 5, 5, 5, 5};
    now = next_input(target->texts, target->texts_count);
    count_allocations();
    int32_t code = target->call(&field->place, now, &told);
    size_t most = largest_allocation(), sum = whole_allocation();
    MUST(code >= LOWEST && code <= HIGHEST && code != HS_NO_MEMORY);
    MUST(most <= TIMES_INPUT * now.length + BESIDE_INPUT);
    MUST(carries_no_more(target, code, told));
    field->codes[code - LOWEST]++;
    field->largest = most > field->largest ? most : field->largest;
    field->whole = sum > field->whole ? sum : field->whole;
    uint64_t state = target->state(&field->place);
    MUST(code == HS_DONE || state == field->state);
    field->state = state;
    field->taken += code == HS_DONE;
    if (++field->inputs == MOST_INPUTS || field->taken == MOST_TAKEN)
        begin(target, field);
}

static void report(const struct target *target, const struct field *field) {
    printf("%s:", target->name);
    for (int32_t code = LOWEST; code <= HIGHEST; code++)
        if (field->codes[code - LOWEST])
            printf(" [%d] %llu", (int)code, (unsigned long long)field->codes[code - LOWEST]);
    printf("; the longest allocation %zu, the most in a call %zu\n", field->largest, field->whole);
}

int main(int count, char **words) {
    uint64_t inputs = count > 1 ? strtoull(words[1], NULL, 10) : 1000000;
    struct field *fields = calloc(targets_count, sizeof *fields);
    seed(count > 2 ? strtoull(words[2], NULL, 10) : 20161102);
    if (!fields)
        return 2;
    for (size_t at = 0; at < targets_count; at++) {
        MUST(hs_place_new(&fields[at].place) == HS_DONE);
        begin(&targets[at], &fields[at]);
    }
    for (played = 0; played < inputs; played++) {
        size_t at = played % targets_count;
        play(&targets[at], &fields[at]);
    }
    for (size_t at = 0; at < targets_count; at++) {
        report(&targets[at], &fields[at]);
        hs_place_free(&fields[at].place);
    }
    free(fields);
    printf("%llu inputs, none at fault\n", (unsigned long long)inputs);
    return 0;
}
