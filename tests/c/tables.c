/* Tables. Deadlines and refusals follow docs/verification/MODEL.md, with the numbers of the examples in docs/FORMATS.md. */
#include "checks.h"

#include <string.h>

#define READINGS ((uint64_t)1 << 62)
#define LONGEST ((uint64_t)1 << 32)

static const char first_grant[] =
    WRITTEN_MESSAGE("grant", "\"ends\":\"95\",\"generation\":\"1\",\"kind\":\"guard\",\"life\":1,\"number\":\"1\","
                             "\"ranges\":[[\"0\",\"4611686018427387904\"]],\"task\":1,\"until\":\"105\"");
static const char bridge_grant[] =
    WRITTEN_MESSAGE("grant", "\"ends\":\"214\",\"generation\":\"2\",\"kind\":\"bridge\",\"life\":1,\"number\":\"2\","
                             "\"ranges\":[],\"task\":1,\"until\":\"224\"");

static int32_t open_with(uint64_t *member, uint64_t value, struct hs_policy *changed) {
    struct hs_place place = new_place();
    uint64_t kept = *member;
    *member = value;
    int32_t code = hs_table_open(&place, JOB, changed);
    *member = kept;
    hs_place_free(&place);
    return code;
}

static void opens(void) {
    struct hs_policy p = policy;
    IS(open_with(&p.low, 0, &p), HS_WRONG_FORM);
    IS(open_with(&p.low, 2, &p), HS_WRONG_FORM);
    IS(open_with(&p.high, 6, &p), HS_WRONG_FORM);
    IS(open_with(&p.high, 5, &p), HS_DONE);
    IS(open_with(&p.skew, 100, &p), HS_WRONG_FORM);
    IS(open_with(&p.skew, 99, &p), HS_DONE);
    IS(open_with(&p.guard, 0, &p), HS_WRONG_FORM);
    IS(open_with(&p.guard, 10, &p), HS_WRONG_FORM);
    IS(open_with(&p.guard, LONGEST + 1, &p), HS_WRONG_FORM);
    IS(open_with(&p.guard, LONGEST, &p), HS_DONE);
    IS(open_with(&p.bridge, 10, &p), HS_WRONG_FORM);
    IS(open_with(&p.bridge, LONGEST + 1, &p), HS_WRONG_FORM);
    IS(open_with(&p.job, 0, &p), HS_WRONG_FORM);
    IS(open_with(&p.job, LONGEST + 1, &p), HS_WRONG_FORM);
    IS(open_with(&p.numbers, 0, &p), HS_WRONG_FORM);
    IS(open_with(&p.numbers, LONGEST + 1, &p), HS_WRONG_FORM);
    IS(open_with(&p.numbers, LONGEST, &p), HS_DONE);
}

/* The job lease. */
static void terms(struct hs_place *table) {
    struct hs_job_term term = {5, 5, 5};
    STAYS(table_state(table), hs_table_renew(table, 0, 0, &term, fresh_told()), HS_NOT_HOLDER);
    HOLDS(tells(0, UNTOLD, UNTOLD, UNTOLD, UNTOLD));
    IS(hs_table_take(table, 0, READINGS, &term, fresh_told()), HS_WRONG_FORM);
    IS(hs_table_take(table, 1, READINGS, &term, fresh_told()), HS_READING_RANGE);
    HOLDS(term.number == 5 && term.assigner == 5 && term.until == 5);
    IS(hs_table_take(table, 3, 1, &term, fresh_told()), HS_DONE);
    HOLDS(term.number == 1 && term.assigner == 3 && term.until == 1001);
    STAYS(table_state(table), hs_table_take(table, 2, 1000, &term, fresh_told()), HS_JOB_HELD);
    HOLDS(tells(UNTOLD, UNTOLD, UNTOLD, UNTOLD, 1001) && term.assigner == 3);
    STAYS(table_state(table), hs_table_take(table, 2, 0, &term, fresh_told()), HS_CLOCK_BACK);
    STAYS(table_state(table), hs_table_renew(table, 1, 0, &term, fresh_told()), HS_CLOCK_BACK);
    IS(hs_table_renew(table, 1, READINGS, &term, fresh_told()), HS_READING_RANGE);
    STAYS(table_state(table), hs_table_renew(table, 2, 5, &term, fresh_told()), HS_NOT_HOLDER);
    HOLDS(tells(1, UNTOLD, UNTOLD, UNTOLD, UNTOLD));
    IS(hs_table_renew(table, 1, 5, &term, fresh_told()), HS_DONE);
    HOLDS(term.number == 1 && term.assigner == 3 && term.until == 1005);
    HOLDS(tells(UNTOLD, UNTOLD, UNTOLD, UNTOLD, UNTOLD));
    IS(hs_table_renew(table, 1, 1005, &term, fresh_told()), HS_NOT_HOLDER);
    IS(hs_table_take(table, UINT64_MAX, 1005, &term, fresh_told()), HS_DONE);
    HOLDS(term.number == 2 && term.assigner == UINT64_MAX && term.until == 2005);
}

/* Before the first proposal there is nothing to commit, to grant or to write. */
static void empties(struct hs_place *table) {
    uint8_t out[256];
    size_t needed = 0;
    struct hs_phase phase = {5, 5};
    struct hs_row row;
    IS(hs_table_phase(table, &phase), HS_DONE);
    HOLDS(phase.committed == 0 && phase.proposed == 0);
    IS(hs_table_rows(table, &row, 0, &needed), HS_DONE);
    HOLDS(needed == 0);
    memset(out, '-', sizeof out);
    IS(hs_table_committed(table, out, sizeof out, &needed), HS_NO_ASSIGNMENT);
    IS(hs_table_grant(table, 1, 1, 3, out, sizeof out, &needed), HS_NO_ASSIGNMENT);
    IS(hs_table_grant(table, 0, 1, 3, out, sizeof out, &needed), HS_WRONG_FORM);
    IS(hs_table_grant(table, 65, 1, 3, out, sizeof out, &needed), HS_WRONG_FORM);
    IS(hs_table_grant(table, 1, 0, 3, out, sizeof out, &needed), HS_WRONG_FORM);
    HOLDS(are_dashes(out, sizeof out));
    IS(hs_table_commit(table, 1, 3, fresh_told()), HS_NOTHING_PENDING);
}

static void proposes(struct hs_place *table) {
    const char *halves = ASSIGNMENT("1", HALVES);
    for (size_t length = 0; length < strlen(halves); length++)
        IS(propose_bytes(table, halves, length, 3), HS_NOT_JSON);
    IS(propose(table, 1, first_grant, 3), HS_OTHER_TYPE);
    IS(propose(table, 1, "{\"version\":0}", 3), HS_VERSION);
    HOLDS(tells(0, UNTOLD, UNTOLD, UNTOLD, UNTOLD));
    IS(propose(table, 1, ASSIGNMENT("1", "[[1,[1]]]"), 3), HS_FIRST_NOT_ZERO);
    STAYS(table_state(table), propose(table, 1, halves, READINGS), HS_READING_RANGE);
    STAYS(table_state(table), propose(table, 2, halves, 3), HS_NOT_HOLDER);
    HOLDS(tells(1, UNTOLD, UNTOLD, UNTOLD, UNTOLD));
    STAYS(table_state(table), propose(table, 1, ASSIGNMENT("2", HALVES), 3), HS_STALE_BASE);
    HOLDS(tells(UNTOLD, 0, UNTOLD, UNTOLD, UNTOLD));
    STAYS(table_state(table), propose(table, 1, ASSIGNMENT("1", "[[0,[1,2]]]"), 3), HS_TOO_MANY_OWNERS_FOR_JOB);
    IS(propose(table, 1, halves, 3), HS_DONE);
    HOLDS(tells(UNTOLD, UNTOLD, UNTOLD, UNTOLD, UNTOLD));
    STAYS(table_state(table), propose(table, 1, halves, 2), HS_CLOCK_BACK);
    STAYS(table_state(table), propose(table, 1, halves, 3), HS_PENDING);
    struct hs_phase phase = {5, 5};
    IS(hs_table_phase(table, &phase), HS_DONE);
    HOLDS(phase.committed == 0 && phase.proposed == 1);
    STAYS(table_state(table), hs_table_commit(table, 1, READINGS, fresh_told()), HS_READING_RANGE);
    STAYS(table_state(table), hs_table_commit(table, 1, 2, fresh_told()), HS_CLOCK_BACK);
    STAYS(table_state(table), hs_table_commit(table, 2, 3, fresh_told()), HS_NOT_HOLDER);
    IS(hs_table_commit(table, 1, 3, fresh_told()), HS_DONE);
    HOLDS(tells(UNTOLD, 1, UNTOLD, UNTOLD, UNTOLD));
    IS(hs_table_commit(table, 1, 3, fresh_told()), HS_NOTHING_PENDING);
}

/* A grant is made only if its message fits. */
static void grants(struct hs_place *table) {
    size_t needed = 0, length = strlen(first_grant);
    uint8_t *shorter = dashes(length - 1), *out = dashes(length);
    STAYS(table_state(table), hs_table_grant(table, 1, 1, READINGS, out, length, &needed), HS_READING_RANGE);
    STAYS(table_state(table), hs_table_grant(table, 1, 1, 2, out, length, &needed), HS_CLOCK_BACK);
    STAYS(table_state(table), hs_table_grant(table, 1, 1, 5, shorter, length - 1, &needed), HS_NO_ROOM);
    HOLDS(needed == length && are_dashes(shorter, length - 1) && are_dashes(out, length));
    needed = 0;
    IS(hs_table_grant(table, 1, 1, 5, out, length, &needed), HS_DONE);
    HOLDS(needed == length && memcmp(out, first_grant, length) == 0);
    drop_block(shorter);
    drop_block(out);
}

static void lists_one_row(struct hs_place *table) {
    const struct hs_row wanted = {1, 1, 1, HS_GUARD, 1, 105};
    struct hs_row rows[2];
    size_t needed = 0;
    memset(rows, '-', sizeof rows);
    IS(hs_table_rows(table, rows, 0, &needed), HS_NO_ROOM);
    HOLDS(needed == 1 && are_dashes((const uint8_t *)rows, sizeof rows));
    needed = 0;
    IS(hs_table_rows(table, rows, 2, &needed), HS_DONE);
    HOLDS(needed == 1 && memcmp(rows, &wanted, sizeof wanted) == 0);
    HOLDS(are_dashes((const uint8_t *)(rows + 1), sizeof wanted));
}

static void grant_row(struct hs_place *table, uint64_t task, uint32_t life, uint64_t at) {
    uint8_t out[256];
    size_t needed = 0;
    IS(hs_table_grant(table, task, life, at, out, sizeof out, &needed), HS_DONE);
}

/* Rows in grant order, by the names of their fields. The fields of the third row all differ, and so do those
 * of the fourth, so that no two are mixed up. */
static void lists_rows(void) {
    const struct hs_row wanted[] = {
        {.number = 1, .task = 1, .life = 1, .kind = HS_GUARD, .generation = 2, .table_ends = 106},
        {.number = 2, .task = 2, .life = 1, .kind = HS_GUARD, .generation = 2, .table_ends = 107},
        {.number = 3, .task = 64, .life = 7, .kind = HS_GUARD, .generation = 2, .table_ends = 108},
        {.number = 4, .task = 63, .life = 9, .kind = HS_BRIDGE, .generation = 3, .table_ends = 210}};
    struct hs_place table = steady_table();
    struct hs_row rows[4];
    size_t needed = 0;
    IS(propose(&table, 1, ASSIGNMENT("2", HALVES), 4), HS_DONE);
    IS(hs_table_commit(&table, 1, 5, fresh_told()), HS_DONE);
    grant_row(&table, 1, 1, 6);
    grant_row(&table, 2, 1, 7);
    grant_row(&table, 64, 7, 8);
    IS(propose(&table, 1, ASSIGNMENT("3", HALVES), 9), HS_DONE);
    grant_row(&table, 63, 9, 10);
    memset(rows, '-', sizeof rows);
    IS(hs_table_rows(&table, rows, 3, &needed), HS_NO_ROOM);
    HOLDS(needed == 4 && are_dashes((const uint8_t *)rows, sizeof rows));
    needed = 0;
    IS(hs_table_rows(&table, rows, 4, &needed), HS_DONE);
    HOLDS(needed == 4 && memcmp(rows, wanted, sizeof wanted) == 0);
    hs_place_free(&table);
}

/* Half of the keys go from task 1 to task 2. The guard lease of task 1 holds the commit until its note comes. */
static void hands_over(struct hs_place *table) {
    uint8_t out[256];
    size_t needed = 0;
    uint64_t freed = UNTOLD;
    IS(propose(table, 1, ASSIGNMENT("2", "[[0,[2]]]"), 20), HS_DONE);
    STAYS(table_state(table), hs_table_commit(table, 1, 21, fresh_told()), HS_HELD);
    HOLDS(tells(1, UNTOLD, HS_GUARD, 1, UNTOLD));
    IS(hs_table_grant(table, 1, 1, 24, out, sizeof out, &needed), HS_DONE);
    HOLDS(needed == strlen(bridge_grant) && memcmp(out, bridge_grant, needed) == 0);
    STAYS(table_state(table), free_rows(table, NOTE("guard", "1", "1", "2"), 25, &freed), HS_NO_ROW);
    STAYS(table_state(table), free_rows(table, NOTE("guard", "2", "1", "1"), 25, &freed), HS_NO_ROW);
    STAYS(table_state(table), free_rows(table, NOTE("bridge", "1", "1", "1"), 25, &freed), HS_NO_ROW);
    STAYS(table_state(table), free_rows(table, NOTE("guard", "1", "1", "1"), 23, &freed), HS_CLOCK_BACK);
    STAYS(table_state(table), free_rows(table, NOTE("guard", "1", "1", "1"), READINGS, &freed), HS_READING_RANGE);
    STAYS(table_state(table), free_rows(table, NOTE("guard", "1", "1", "65"), 25, &freed), HS_WRONG_FORM);
    STAYS(table_state(table), free_rows(table, "{\"version\":7}", 25, &freed), HS_VERSION);
    HOLDS(tells(7, UNTOLD, UNTOLD, UNTOLD, UNTOLD) && freed == UNTOLD);
    IS(free_rows(table, NOTE("guard", "1", "1", "1"), 25, &freed), HS_DONE);
    HOLDS(freed == 1);
    IS(free_rows(table, NOTE("guard", "1", "1", "1"), 25, &freed), HS_NO_ROW);
    IS(hs_table_commit(table, 1, 26, fresh_told()), HS_DONE);
    HOLDS(tells(UNTOLD, 2, UNTOLD, UNTOLD, UNTOLD));
    /* The bridge lease is of generation 2, which is now committed: it holds the next commit. */
    IS(propose(table, 1, ASSIGNMENT("3", "[[0,[1]]]"), 27), HS_DONE);
    IS(hs_table_commit(table, 1, 223, fresh_told()), HS_HELD);
    HOLDS(tells(2, UNTOLD, HS_BRIDGE, 1, UNTOLD));
    IS(hs_table_commit(table, 1, 224, fresh_told()), HS_DONE);
}

static void reads_notes(struct hs_place *table) {
    const char *note = NOTE("guard", "1", "1", "1");
    uint64_t freed = UNTOLD;
    for (size_t length = 0; length < strlen(note); length++) {
        uint8_t *copy = block_of(note, length);
        IS(hs_table_free(table, copy, length, 5, &freed, fresh_told()), HS_NOT_JSON);
        drop_block(copy);
    }
    IS(free_rows(table, ASSIGNMENT("1", HALVES), 5, &freed), HS_OTHER_TYPE);
    IS(free_rows(table, MESSAGE("note", "\"kind\":\"guard\""), 5, &freed), HS_WRONG_FORM);
    HOLDS(freed == UNTOLD);
}

/* After a restart no commit is accepted until the last lost row has ended, at 105. */
static void loses_rows(void) {
    struct hs_place table = steady_table();
    uint8_t out[256];
    size_t needed = 0;
    uint64_t lost = UNTOLD, freed = UNTOLD;
    IS(hs_table_restart(&table, &lost), HS_DONE);
    HOLDS(lost == 0);
    IS(hs_table_grant(&table, 1, 1, 5, out, sizeof out, &needed), HS_DONE);
    IS(hs_table_restart(&table, &lost), HS_DONE);
    HOLDS(lost == 1);
    IS(propose(&table, 1, ASSIGNMENT("2", "[[0,[2]]]"), 20), HS_DONE);
    IS(free_rows(&table, NOTE("guard", "1", "1", "1"), 22, &freed), HS_NO_ROW);
    STAYS(table_state(&table), hs_table_commit(&table, 1, 104, fresh_told()), HS_GRACE);
    HOLDS(tells(UNTOLD, UNTOLD, UNTOLD, UNTOLD, 105));
    IS(hs_table_commit(&table, 1, 105, fresh_told()), HS_DONE);
    hs_place_free(&table);
}

/* A table whose policy allows one grant makes one. */
static void spends_numbers(void) {
    struct hs_place table = new_place();
    struct hs_policy one = policy;
    struct hs_job_term term = {0, 0, 0};
    uint8_t out[256];
    size_t needed = 0;
    one.numbers = 1;
    IS(hs_table_open(&table, JOB, &one), HS_DONE);
    IS(hs_table_take(&table, 1, 0, &term, fresh_told()), HS_DONE);
    IS(propose(&table, 1, ASSIGNMENT("1", HALVES), 1), HS_DONE);
    IS(hs_table_commit(&table, 1, 2, fresh_told()), HS_DONE);
    IS(hs_table_grant(&table, 1, 1, 5, out, sizeof out, &needed), HS_DONE);
    STAYS(table_state(&table), hs_table_grant(&table, 1, 1, 6, out, sizeof out, &needed), HS_NUMBERS_SPENT);
    hs_place_free(&table);
}

void check_tables(void) {
    struct hs_place table = new_place();
    struct hs_job_term term = {0, 0, 0};
    opens();
    IS(hs_table_open(&table, JOB, &policy), HS_DONE);
    terms(&table);
    IS(hs_table_open(&table, JOB, &policy), HS_DONE);
    IS(hs_table_take(&table, 1, 1, &term, fresh_told()), HS_DONE);
    empties(&table);
    proposes(&table);
    gives_text(hs_table_committed, &table, WRITTEN_ASSIGNMENT("1", WRITTEN_HALVES));
    grants(&table);
    lists_one_row(&table);
    reads_notes(&table);
    hands_over(&table);
    hs_place_free(&table);
    lists_rows();
    loses_rows();
    spends_numbers();
}
