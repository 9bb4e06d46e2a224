/* Clerks. docs/FORMATS.md has the refusals of slices, in their order. */
#include "checks.h"

#include <stdio.h>
#include <stdlib.h>
#include <string.h>

static const char halves[] = ASSIGNMENT("1", HALVES);

static void unread(struct hs_place *place) {
    for (size_t length = 0; length < strlen(halves); length++)
        IS(learn_bytes(place, halves, length), HS_NOT_JSON);
    IS(learn(place, "7"), HS_WRONG_FORM);
    IS(learn(place, "{\"version\":3,\"more\":[]}"), HS_VERSION);
    HOLDS(tells(3, UNTOLD, UNTOLD, UNTOLD, UNTOLD));
    IS(learn(place, NOTE("guard", "1", "7", "2")), HS_OTHER_TYPE);
    IS(learn(place, MESSAGE("assignment", "\"generation\":1")), HS_WRONG_FORM);
    IS(learn(place, ASSIGNMENT("1", "[[0]]")), HS_WRONG_FORM);
    IS(learn(place, ASSIGNMENT("1", "[[0,[1.5]]]")), HS_WRONG_FORM);
    IS(learn(place, ASSIGNMENT("18446744073709551616", HALVES)), HS_WRONG_FORM);
}

/* 1,025 slices, one more than is allowed. */
static void too_many_slices(struct hs_place *place) {
    size_t length = 1025 * 16 + 100;
    char *text = malloc(length);
    if (!text)
        exit(2);
    int used = snprintf(text, length, "{\"type\":\"assignment\",\"value\":{\"generation\":9,\"slices\":[[0,[1]]");
    for (int slice = 1; slice < 1025; slice++)
        used += snprintf(text + used, length - (size_t)used, ",[%d,[1]]", slice);
    snprintf(text + used, length - (size_t)used, "]},\"version\":1}");
    IS(learn(place, text), HS_TOO_MANY_SLICES);
    free(text);
}

/* Each text has one fault, or a second one later in the list; the code is that of the first. */
static void refused_slices(struct hs_place *place) {
    IS(learn(place, ASSIGNMENT("9", "[]")), HS_NO_SLICES);
    IS(learn(place, ASSIGNMENT("9", "[[1,[1]]]")), HS_FIRST_NOT_ZERO);
    IS(learn(place, ASSIGNMENT("9", "[[1,[]],[1,[0]]]")), HS_FIRST_NOT_ZERO);
    IS(learn(place, ASSIGNMENT("9", "[[0,[1]],[0,[2]]]")), HS_NOT_RISING);
    IS(learn(place, ASSIGNMENT("9", "[[0,[1]],[9,[2]],[8,[]]]")), HS_NOT_RISING);
    IS(learn(place, ASSIGNMENT("9", "[[0,[1]],[9223372036854775808,[2]]]")), HS_PAST_END);
    IS(learn(place, ASSIGNMENT("9", "[[0,[]]]")), HS_NO_OWNER);
    IS(learn(place, ASSIGNMENT("9", "[[0,[1,2,3,4,5,6]]]")), HS_TOO_MANY_OWNERS);
    IS(learn(place, ASSIGNMENT("9", "[[0,[1,2,1]]]")), HS_OWNER_TWICE);
    IS(learn(place, ASSIGNMENT("9", "[[0,[0]]]")), HS_BAD_TASK);
    IS(learn(place, ASSIGNMENT("9", "[[0,[65]]]")), HS_BAD_TASK);
    IS(learn(place, ASSIGNMENT("9", "[[0,[18446744073709551615]]]")), HS_BAD_TASK);
    too_many_slices(place);
}

static void looks(struct hs_place *place) {
    struct hs_owners owners;
    memset(&owners, '-', sizeof owners);
    IS(hs_clerk_look(place, HELLO, &owners), HS_UNKNOWN);
    IS(hs_clerk_look_at(place, 5, &owners), HS_UNKNOWN);
    HOLDS(are_dashes((const uint8_t *)&owners, sizeof owners));
    IS(learn(place, ASSIGNMENT("4", "[[0,[64,3,5,1,2]],[4611686018427387904,[7]]]")), HS_DONE);
    IS(hs_clerk_look(place, HELLO, &owners), HS_DONE);
    HOLDS(owners.generation == 4 && owners.count == 5 && owners.tasks[0] == 1 && owners.tasks[1] == 2);
    HOLDS(owners.tasks[2] == 3 && owners.tasks[3] == 5 && owners.tasks[4] == 64);
    IS(hs_clerk_look(place, ABC, &owners), HS_DONE);
    HOLDS(owners.generation == 4 && owners.count == 1 && owners.tasks[0] == 7 && owners.tasks[1] == 0);
    HOLDS(owners.tasks[2] == 0 && owners.tasks[3] == 0 && owners.tasks[4] == 0);
    IS(hs_clerk_look_at(place, 4611686018427387903, &owners), HS_DONE);
    HOLDS(owners.generation == 4 && owners.count == 5 && owners.tasks[4] == 64);
    IS(hs_clerk_look_at(place, 4611686018427387904, &owners), HS_DONE);
    HOLDS(owners.generation == 4 && owners.count == 1 && owners.tasks[0] == 7 && owners.tasks[1] == 0);
    memset(&owners, '-', sizeof owners);
    IS(hs_clerk_look_at(place, (uint64_t)1 << 63, &owners), HS_WRONG_FORM);
    IS(hs_clerk_look_at(place, UINT64_MAX, &owners), HS_WRONG_FORM);
    HOLDS(are_dashes((const uint8_t *)&owners, sizeof owners));
}

static void keeps(struct hs_place *place) {
    STAYS(clerk_state(place), learn(place, ASSIGNMENT("4", HALVES)), HS_OLD_GENERATION);
    HOLDS(tells(UNTOLD, 4, UNTOLD, UNTOLD, UNTOLD));
    STAYS(clerk_state(place), learn(place, ASSIGNMENT("3", HALVES)), HS_OLD_GENERATION);
    STAYS(clerk_state(place), learn(place, ASSIGNMENT("9", "[[0,[]]]")), HS_NO_OWNER);
    IS(hs_clerk_forget(place), HS_DONE);
    IS(hs_clerk_forget(place), HS_DONE);
    IS(learn(place, ASSIGNMENT("0", HALVES)), HS_DONE);
    IS(learn(place, ASSIGNMENT("18446744073709551615", HALVES)), HS_DONE);
    IS(learn(place, ASSIGNMENT("18446744073709551615", HALVES)), HS_OLD_GENERATION);
    HOLDS(tells(UNTOLD, UINT64_MAX, UNTOLD, UNTOLD, UNTOLD));
}

void check_clerks(void) {
    struct hs_place place = new_place();
    IS(hs_clerk_open(&place, JOB), HS_DONE);
    unread(&place);
    refused_slices(&place);
    looks(&place);
    keeps(&place);
    hs_place_free(&place);
}
