/* A table and a task in one program: the task hears a grant and sends back a note, and a change of
 * owners is committed.
 *
 * In a service the table and the task are in two processes, and the grant and the note go over the
 * network. */
#include "hourstable.h"

#include <stdio.h>
#include <stdlib.h>
#include <string.h>

#define JOB (const uint8_t *)"shop", 4

static const char first[] = "{\"job\":\"shop\",\"type\":\"assignment\",\"value\":{\"generation\":\"1\","
                            "\"slices\":[[\"0\",[1]]]},\"version\":2}";
static const char second[] = "{\"job\":\"shop\",\"type\":\"assignment\",\"value\":{\"generation\":\"2\","
                             "\"slices\":[[\"0\",[2]]]},\"version\":2}";
/* `numbers` is for good: a job that renews its leases needs more than 1,000 grants, up to 2^32. */
static const struct hs_policy policy = {
    .low = 1, .high = 1, .skew = 10, .guard = 100, .bridge = 100, .job = 1000, .numbers = 1000};

/* Prints the code of a call, and ends the program if it is not the expected one. */
static void wants(const char *what, int32_t code, int32_t wanted) {
    printf("%s: %d\n", what, (int)code);
    if (code != wanted)
        exit(1);
}

static struct hs_place new_place(void) {
    struct hs_place place = {0};
    if (hs_place_new(&place) != HS_DONE)
        exit(1);
    return place;
}

static int32_t propose(struct hs_place *table, const char *text, uint64_t at) {
    struct hs_told told = {0};
    return hs_table_propose(table, 1, (const uint8_t *)text, strlen(text), at, &told);
}

static int32_t commit(struct hs_place *table, uint64_t at) {
    struct hs_told told = {0};
    return hs_table_commit(table, 1, at, &told);
}

/* Returns the message of a grant for the task. The first call gives the length of the buffer. */
static uint8_t *grant(struct hs_place *table, uint64_t at, size_t *length) {
    uint8_t none = 0;
    wants("grant, no room", hs_table_grant(table, 1, 1, at, &none, 0, length), HS_NO_ROOM);
    uint8_t *text = malloc(*length);
    if (!text)
        exit(1);
    wants("grant", hs_table_grant(table, 1, 1, at, text, *length, length), HS_DONE);
    return text;
}

/* The task serves under its lease, and releases it once another owner is proposed for the key. */
static void hand_over(struct hs_place *table, struct hs_place *task) {
    struct hs_told told = {0};
    size_t length = 0;
    uint8_t *text = grant(table, 5, &length);
    wants("hear", hs_slicelet_hear(task, text, length, 6, &told), HS_DONE);
    free(text);
    wants("serve", hs_slicelet_serve(task, (const uint8_t *)"hello", 5, 7, &told), HS_DONE);
    wants("propose", propose(table, second, 20), HS_DONE);
    wants("commit, held", commit(table, 21), HS_HELD);
    uint8_t note[256];
    uint64_t freed = 0;
    wants("release", hs_slicelet_release(task, HS_GUARD, 22, note, sizeof note, &length), HS_DONE);
    wants("serve, no lease", hs_slicelet_serve(task, (const uint8_t *)"hello", 5, 22, &told), HS_NO_LEASE);
    wants("free", hs_table_free(table, note, length, 23, &freed, &told), HS_DONE);
    wants("commit", commit(table, 24), HS_DONE);
}

int main(void) {
    struct hs_place table = new_place(), task = new_place();
    struct hs_job_term term;
    struct hs_told told = {0};
    wants("open", hs_table_open(&table, JOB, &policy), HS_DONE);
    wants("open", hs_slicelet_open(&task, JOB, 1), HS_DONE);
    wants("start", hs_slicelet_start(&task, 1, 0), HS_DONE);
    wants("take", hs_table_take(&table, 1, 0, &term, &told), HS_DONE);
    wants("propose", propose(&table, first, 1), HS_DONE);
    wants("commit", commit(&table, 2), HS_DONE);
    hand_over(&table, &task);
    hs_place_free(&task);
    hs_place_free(&table);
    return 0;
}
