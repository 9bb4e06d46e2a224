/* Calls and comparisons that several checks share. */
#include "checks.h"

#include <string.h>

/* Checks that the fields of hs_told that the code does not set are unchanged, and returns the code. */
static int32_t carried(int32_t code) {
    HOLDS(told.number == UNTOLD || code == HS_OLD || code == HS_VERSION || code == HS_NOT_HOLDER);
    HOLDS(told.generation == UNTOLD || code == HS_OLD_GENERATION || code == HS_STALE_BASE);
    HOLDS(told.kind == UNTOLD && told.task == UNTOLD && told.until == UNTOLD);
    return code;
}

/* The same of a grant that is heard, which tells its lease: that of a GRANT ends at 95, and no other field is set. */
static int32_t heard(int32_t code) {
    if (code != HS_DONE)
        return carried(code);
    HOLDS(told.number != UNTOLD && told.generation != UNTOLD && told.until != UNTOLD && told.task == UNTOLD);
    HOLDS(told.kind == HS_GUARD || told.kind == HS_BRIDGE);
    return code;
}

int32_t hear_bytes(struct hs_place *place, const char *grant, size_t length, uint64_t at) {
    uint8_t *copy = block_of(grant, length);
    int32_t code = hs_slicelet_hear(place, copy, length, at, fresh_told());
    drop_block(copy);
    return heard(code);
}

int32_t hear(struct hs_place *place, const char *grant, uint64_t at) {
    return hear_bytes(place, grant, strlen(grant), at);
}

int32_t learn_bytes(struct hs_place *place, const char *assignment, size_t length) {
    uint8_t *copy = block_of(assignment, length);
    int32_t code = hs_clerk_learn(place, copy, length, fresh_told());
    drop_block(copy);
    return carried(code);
}

int32_t learn(struct hs_place *place, const char *assignment) {
    return learn_bytes(place, assignment, strlen(assignment));
}

int32_t propose_bytes(struct hs_place *place, const char *assignment, size_t length, uint64_t at) {
    uint8_t *copy = block_of(assignment, length);
    int32_t code = hs_table_propose(place, 1, copy, length, at, fresh_told());
    drop_block(copy);
    return carried(code);
}

int32_t propose(struct hs_place *place, uint64_t term, const char *assignment, uint64_t at) {
    uint8_t *copy = block_of(assignment, strlen(assignment));
    int32_t code = hs_table_propose(place, term, copy, strlen(assignment), at, fresh_told());
    drop_block(copy);
    return carried(code);
}

int32_t free_rows(struct hs_place *place, const char *note, uint64_t at, uint64_t *freed) {
    uint8_t *copy = block_of(note, strlen(note));
    int32_t code = hs_table_free(place, copy, strlen(note), at, freed, fresh_told());
    drop_block(copy);
    return carried(code);
}

static uint64_t sum_told(uint64_t sum, int32_t code) {
    return sum_bytes(sum_number(sum, code), &told, sizeof told);
}

/* The verdicts for two keys at each reading, the handles that would be taken, and the lengths of the
 * notes, asked for with a buffer of length 0. */
uint64_t slicelet_state(struct hs_place *place) {
    uint64_t sum = 0;
    uint8_t none = '-';
    for (uint64_t at = 0; at < 120; at++) {
        struct hs_key_handle handle = {0, 0, 0, 0};
        sum = sum_told(sum, hs_slicelet_serve(place, HELLO, at, fresh_told()));
        sum = sum_told(sum, hs_slicelet_hold(place, ABC, at, &handle, fresh_told()));
        sum = sum_number(sum_number(sum, (int64_t)handle.position), handle.life);
    }
    for (uint32_t kind = HS_GUARD; kind <= HS_BRIDGE; kind++) {
        size_t needed = 0;
        sum = sum_number(sum, hs_slicelet_release(place, kind, 200, &none, 0, &needed));
        sum = sum_number(sum, (int64_t)needed);
    }
    return sum;
}

uint64_t clerk_state(struct hs_place *place) {
    struct hs_owners owners;
    memset(&owners, 0, sizeof owners);
    uint64_t sum = sum_number(0, hs_clerk_look(place, HELLO, &owners));
    sum = sum_bytes(sum, &owners, sizeof owners);
    sum = sum_number(sum, hs_clerk_look(place, ABC, &owners));
    return sum_bytes(sum, &owners, sizeof owners);
}

/* Shows the last reading and the number of grants by grants with a buffer of length 0, and the term by
 * stale proposals. */
static uint64_t sum_refusals(uint64_t sum, struct hs_place *place) {
    uint8_t none = '-';
    for (uint64_t at = 0; at < 120; at++) {
        size_t needed = 0;
        sum = sum_number(sum, hs_table_grant(place, 1, 1, at, &none, 0, &needed));
        sum = sum_number(sum, (int64_t)needed);
        sum = sum_told(sum, propose(place, 1, ASSIGNMENT("99", "[[0,[1]]]"), at * 17));
    }
    return sum;
}

uint64_t table_state(struct hs_place *place) {
    struct hs_phase phase = {0, 0};
    struct hs_row rows[16];
    uint8_t text[512];
    size_t needed = 0;
    memset(rows, 0, sizeof rows);
    memset(text, 0, sizeof text);
    uint64_t sum = sum_number(0, hs_table_phase(place, &phase));
    sum = sum_bytes(sum, &phase, sizeof phase);
    sum = sum_number(sum, hs_table_rows(place, rows, 16, &needed));
    sum = sum_number(sum, (int64_t)needed);
    sum = sum_bytes(sum, rows, sizeof rows);
    sum = sum_number(sum, hs_table_committed(place, text, sizeof text, &needed));
    sum = sum_bytes(sum, text, sizeof text);
    return sum_refusals(sum, place);
}

struct hs_place serving_task(void) {
    struct hs_place task = new_place();
    IS(hs_slicelet_open(&task, JOB, 2), HS_DONE);
    IS(hs_slicelet_start(&task, 1, 3), HS_DONE);
    IS(hear(&task, GRANT("guard", "1", "7", ALL_KEYS, "2"), 5), HS_DONE);
    return task;
}

struct hs_place knowing_clerk(void) {
    struct hs_place clerk = new_place();
    IS(hs_clerk_open(&clerk, JOB), HS_DONE);
    IS(learn(&clerk, ASSIGNMENT("1", HALVES)), HS_DONE);
    return clerk;
}

struct hs_place steady_table(void) {
    struct hs_place table = new_place();
    struct hs_job_term term = {0, 0, 0};
    IS(hs_table_open(&table, JOB, &policy), HS_DONE);
    IS(hs_table_take(&table, 1, 0, &term, fresh_told()), HS_DONE);
    IS(propose(&table, 1, ASSIGNMENT("1", HALVES), 1), HS_DONE);
    IS(hs_table_commit(&table, 1, 2, fresh_told()), HS_DONE);
    return table;
}

void gives_text(text_call call, const struct hs_place *place, const char *wanted) {
    size_t needed = 0, length = strlen(wanted);
    uint8_t *shorter = dashes(length - 1), *out = dashes(length);
    IS(call(place, shorter, length - 1, &needed), HS_NO_ROOM);
    HOLDS(needed == length && are_dashes(shorter, length - 1));
    needed = 0;
    IS(call(place, out, length, &needed), HS_DONE);
    HOLDS(needed == length && memcmp(out, wanted, length) == 0);
    drop_block(shorter);
    drop_block(out);
}

int32_t give_text(text_call call, const struct hs_place *place) {
    static uint8_t out[512];
    size_t needed = 0;
    memset(out, '-', sizeof out);
    int32_t code = call(place, out, sizeof out, &needed);
    HOLDS(code == HS_DONE || are_dashes(out, sizeof out));
    return code;
}
