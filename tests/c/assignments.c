/* Assignments by numbers: each refusal of slices, and what is read of a message. The forms of messages are those of
 * docs/FORMATS.md. */
#include "checks.h"

#include <string.h>

#define KEYS ((uint64_t)1 << 63)
#define MOST_SLICES 1024
/* clang-format off */
#define SLICE(start, ...) {(start), sizeof((uint64_t[]){__VA_ARGS__}) / sizeof(uint64_t), {__VA_ARGS__}}
/* clang-format on */

static const char halves[] = WRITTEN_ASSIGNMENT("7", "[[\"0\",[1,3]],[\"4611686018427387904\",[2]]]");

static int32_t make(const struct hs_slice *slices, size_t count, uint8_t *out, size_t out_len, size_t *needed) {
    return hs_assignment_new(JOB, 7, slices, count, out, out_len, needed);
}

static void refuses(const struct hs_slice *slices, size_t count, int32_t wanted) {
    uint8_t *out = dashes(300);
    size_t needed = UNTOLD;
    IS(make(slices, count, out, 300, &needed), wanted);
    HOLDS(are_dashes(out, 300) && needed == UNTOLD);
    drop_block(out);
}

static void makes_one(void) {
    const struct hs_slice slices[] = {SLICE(0, 3, 1), SLICE(KEYS / 2, 2)};
    size_t needed = 0, length = strlen(halves);
    uint8_t *shorter = dashes(length - 1), *out = dashes(length);
    IS(make(slices, 2, shorter, length - 1, &needed), HS_NO_ROOM);
    HOLDS(needed == length && are_dashes(shorter, length - 1));
    needed = 0;
    IS(make(slices, 2, out, length, &needed), HS_DONE);
    HOLDS(needed == length && memcmp(out, halves, length) == 0);
    IS(hs_assignment_new((const uint8_t *)"\xff", 1, 7, slices, 2, out, length, &needed), HS_WRONG_FORM);
    drop_block(shorter);
    drop_block(out);
}

/* A table takes the message of its next generation. */
static void proposes_it(void) {
    const struct hs_slice slices[] = {SLICE(0, 2)};
    struct hs_place table = steady_table();
    uint8_t out[300];
    size_t needed = 0;
    IS(hs_assignment_new(JOB, 2, slices, 1, out, sizeof out, &needed), HS_DONE);
    IS(propose_bytes(&table, (const char *)out, needed, 3), HS_DONE);
    hs_place_free(&table);
}

/* Each list has the refusal that is wanted, and those that come after it in the header. */
static void refused_starts(void) {
    const struct hs_slice late[] = {SLICE(1, 1), SLICE(1, 1), SLICE(KEYS, 1)};
    const struct hs_slice equal[] = {SLICE(0, 1), SLICE(0, 1), SLICE(KEYS, 1)};
    const struct hs_slice past[] = {SLICE(0, 1), {KEYS, 0, {0}}};
    refuses(late, 0, HS_NO_SLICES);
    refuses(late, 3, HS_FIRST_NOT_ZERO);
    refuses(equal, 3, HS_NOT_RISING);
    refuses(past, 2, HS_PAST_END);
}

static void refused_owners(void) {
    const struct hs_slice none[] = {{0, 6, {1, 1, 1, 1, 1}}, {5, 0, {1}}};
    const struct hs_slice many[] = {SLICE(0, 1, 1, 0), {5, 6, {1, 2, 3, 4, 5}}};
    const struct hs_slice most[] = {{0, UINT64_MAX, {1, 2, 3, 4, 5}}};
    const struct hs_slice twice[] = {SLICE(0, 0), SLICE(5, 1, 2, 1)};
    const struct hs_slice low[] = {SLICE(0, 0)}, high[] = {SLICE(0, 64), SLICE(9, 65)};
    const struct hs_slice left_out[] = {{0, 2, {1, 2, 2, 99, 0}}};
    size_t needed = UNTOLD;
    uint8_t none_given = '-';
    refuses(none, 2, HS_NO_OWNER);
    refuses(many, 2, HS_TOO_MANY_OWNERS);
    refuses(most, 1, HS_TOO_MANY_OWNERS);
    refuses(twice, 2, HS_OWNER_TWICE);
    refuses(low, 1, HS_BAD_TASK);
    refuses(high, 2, HS_BAD_TASK);
    IS(make(left_out, 1, &none_given, 0, &needed), HS_NO_ROOM);
}

static void refused_counts(void) {
    static struct hs_slice slices[MOST_SLICES + 1];
    size_t needed = UNTOLD;
    uint8_t none_given = '-';
    for (size_t at = 0; at <= MOST_SLICES; at++)
        slices[at] = (struct hs_slice)SLICE(at, 1);
    refuses(slices, MOST_SLICES + 1, HS_TOO_MANY_SLICES);
    IS(make(slices, MOST_SLICES, &none_given, 0, &needed), HS_NO_ROOM);
    slices[3].tasks[0] = 65;
    refuses(slices, MOST_SLICES + 1, HS_BAD_TASK);
}

static int32_t read(const char *job, const char *text, uint64_t *generation, struct hs_slice *out, size_t room,
                    size_t *needed) {
    return hs_assignment_read((const uint8_t *)job, strlen(job), (const uint8_t *)text, strlen(text), generation, out,
                              room, needed);
}

static void reads_one(void) {
    const struct hs_slice wanted[] = {SLICE(0, 1, 3), SLICE(KEYS / 2, 2)};
    struct hs_slice slices[3];
    uint64_t generation = UNTOLD;
    size_t needed = UNTOLD;
    memset(slices, '-', sizeof slices);
    IS(read("", "{", &generation, slices, 3, &needed), HS_NOT_JSON);
    IS(read("", NOTE("guard", "1", "7", "2"), &generation, slices, 3, &needed), HS_OTHER_TYPE);
    IS(read("shop", halves, &generation, slices, 3, &needed), HS_OTHER_JOB);
    IS(read("\xff", halves, &generation, slices, 3, &needed), HS_WRONG_FORM);
    IS(read("", ASSIGNMENT("7", "[]"), &generation, slices, 3, &needed), HS_NO_SLICES);
    HOLDS(generation == UNTOLD && needed == UNTOLD && are_dashes((uint8_t *)slices, sizeof slices));
    IS(read("", halves, &generation, slices, 1, &needed), HS_NO_ROOM);
    HOLDS(generation == 7 && needed == 2 && are_dashes((uint8_t *)slices, sizeof slices));
    IS(read("", halves, &generation, slices, 3, &needed), HS_DONE);
    HOLDS(generation == 7 && needed == 2 && memcmp(slices, wanted, sizeof wanted) == 0);
    HOLDS(are_dashes((uint8_t *)&slices[2], sizeof *slices));
    IS(read("", ASSIGNMENT("7", "[[0,[5,4,3,2,1]]]"), &generation, slices, 3, &needed), HS_DONE);
    HOLDS(needed == 1 && slices[0].count == 5 && slices[0].tasks[0] == 1 && slices[0].tasks[4] == 5);
}

static int32_t look(const char *job, const char *text, uint64_t slice_key, struct hs_slice *out) {
    memset(out, '-', sizeof *out);
    int32_t code =
        hs_assignment_slice((const uint8_t *)job, strlen(job), (const uint8_t *)text, strlen(text), slice_key, out);
    HOLDS(code == HS_DONE || are_dashes((uint8_t *)out, sizeof *out));
    return code;
}

static void finds_slices(void) {
    const struct hs_slice lower = SLICE(0, 1, 3), upper = SLICE(KEYS / 2, 2);
    struct hs_slice found;
    IS(look("\xff", halves, KEYS, &found), HS_WRONG_FORM);
    IS(look("", "{", KEYS, &found), HS_WRONG_FORM);
    IS(look("", "{", 0, &found), HS_NOT_JSON);
    IS(look("shop", halves, 0, &found), HS_OTHER_JOB);
    IS(look("", halves, 0, &found), HS_DONE);
    HOLDS(memcmp(&found, &lower, sizeof found) == 0);
    IS(look("", halves, KEYS / 2 - 1, &found), HS_DONE);
    HOLDS(memcmp(&found, &lower, sizeof found) == 0);
    IS(look("", halves, KEYS / 2, &found), HS_DONE);
    HOLDS(memcmp(&found, &upper, sizeof found) == 0);
    IS(look("", halves, KEYS - 1, &found), HS_DONE);
    HOLDS(memcmp(&found, &upper, sizeof found) == 0);
}

void check_assignments(void) {
    makes_one();
    proposes_it();
    refused_starts();
    refused_owners();
    refused_counts();
    reads_one();
    finds_slices();
}
