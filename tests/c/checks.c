/* Checks the library against hourstable.h: it returns each code, and a call that is not done changes nothing. */
#include "checks.h"

#include <stdio.h>
#include <stdlib.h>
#include <string.h>

#define LOWEST HS_OTHER_JOB
#define HIGHEST HS_FENCED

const struct hs_policy policy = {
    .low = 1, .high = 1, .skew = 10, .guard = 100, .bridge = 200, .job = 1000, .numbers = 1000};

struct hs_told told;
static int was_seen[HIGHEST - LOWEST + 1];

void check_code(int32_t code, int32_t wanted, const char *file, int line) {
    if (code != wanted) {
        printf("%s:%d: code %d, and %d is wanted\n", file, line, (int)code, (int)wanted);
        exit(1);
    }
    was_seen[code - LOWEST] = 1;
}

void check_fact(int is_true, const char *fact, const char *file, int line) {
    if (!is_true) {
        printf("%s:%d: not so: %s\n", file, line, fact);
        exit(1);
    }
}

struct hs_told *fresh_told(void) {
    told = (struct hs_told){UNTOLD, UNTOLD, UNTOLD, UNTOLD, UNTOLD, UNTOLD};
    return &told;
}

int tells_covering(uint64_t generation) {
    return told.covering == generation;
}

int tells(uint64_t number, uint64_t generation, uint64_t kind, uint64_t task, uint64_t until) {
    return told.number == number && told.generation == generation && told.kind == kind && told.task == task &&
           told.until == until;
}

struct hs_place new_place(void) {
    struct hs_place place = {NULL};
    IS(hs_place_new(&place), HS_DONE);
    HOLDS(place.at);
    return place;
}

uint64_t sum_bytes(uint64_t sum, const void *bytes, size_t length) {
    const uint8_t *byte = bytes;
    for (size_t at = 0; at < length; at++)
        sum = (sum ^ byte[at]) * 1099511628211u;
    return sum;
}

uint64_t sum_number(uint64_t sum, int64_t number) {
    return sum_bytes(sum, &number, sizeof number);
}

static void check(const char *what, void (*checks)(void)) {
    checks();
    printf("%s: as the header says\n", what);
    fflush(stdout);
}

int main(void) {
    check("version", check_version);
    check("keys", check_keys);
    check("places", check_places);
    check("slicelets", check_slicelets);
    check("clerks", check_clerks);
    check("tables", check_tables);
    check("assigners", check_assigners);
    check("assignments", check_assignments);
    check("load books", check_loads);
    check("plans", check_plans);
    check("clocks", check_clocks);
    check("memory", check_memory);
    check("readers", check_readers);
    check("jobs", check_jobs);
    check("kept values", check_keeping);
    check("logs", check_logs);
    for (int32_t code = LOWEST; code <= HIGHEST; code++) {
        if (!was_seen[code - LOWEST] && strcmp(hs_code_name(code), "unknown") != 0)
            printf("code %d was never returned\n", (int)code);
    }
    printf("each code was looked for\n");
    return 0;
}
