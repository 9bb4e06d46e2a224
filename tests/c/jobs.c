/* Names of jobs: what a name is, and that a message is read as one of its job alone. */
#include "checks.h"

#include <string.h>

#define LONGEST 64
#define SHOP (const uint8_t *)"shop", 4
#define GRANT_OF(job)                                                                                                  \
    WRITTEN_OF(job, "grant",                                                                                           \
               "\"ends\":\"95\",\"generation\":\"3\",\"kind\":\"guard\",\"life\":1,\"number\":\"7\","                  \
               "\"ranges\":[[\"0\",\"9223372036854775808\"]],\"task\":2,\"until\":\"105\"")

static int32_t open_with(const char *name, size_t length) {
    struct hs_place place = new_place();
    uint8_t *copy = block_of(name, length);
    int32_t code = hs_slicelet_open(&place, copy, length, 2);
    IS(hs_clerk_open(&place, copy, length), code);
    IS(hs_slicelet_resume(&place, copy, length, 2, 1), code);
    IS(hs_table_open(&place, copy, length, &policy), code);
    IS(hs_load_book_open(&place, copy, length), code);
    drop_block(copy);
    hs_place_free(&place);
    return code;
}

/* At most 64 bytes of UTF-8. */
static void names(void) {
    char longest[LONGEST + 1];
    memset(longest, 'j', sizeof longest);
    IS(open_with("", 0), HS_DONE);
    IS(open_with("shop", 4), HS_DONE);
    IS(open_with("a\"b\\c\n", 6), HS_DONE);
    IS(open_with("\xc3\xa9", 2), HS_DONE);
    IS(open_with("\xc3", 1), HS_WRONG_FORM);
    IS(open_with("\xff", 1), HS_WRONG_FORM);
    IS(open_with("\xed\xa0\x80", 3), HS_WRONG_FORM);
    IS(open_with(longest, LONGEST), HS_DONE);
    IS(open_with(longest, LONGEST + 1), HS_WRONG_FORM);
}

/* The calls that need no place refuse such a name too, before their message is read. */
static void names_without_a_place(void) {
    const struct hs_plan_policy bounds = {1, 1, 1, 0, 100, 1024};
    const uint64_t none[1] = {0};
    uint8_t out[256];
    size_t needed = UNTOLD;
    uint32_t shown = UNTOLD;
    IS(hs_ended_note((const uint8_t *)"\xff", 1, 2, 1, HS_GUARD, out, sizeof out, &needed), HS_WRONG_FORM);
    IS(hs_plan((const uint8_t *)"\xff", 1, (const uint8_t *)"{", 1, none, 0, none, 0, &bounds, out, sizeof out,
               &needed),
       HS_WRONG_FORM);
    IS(hs_clock_evidence((const uint8_t *)"\xff", 1, (const uint8_t *)"{", 1, 5, &policy, &shown), HS_WRONG_FORM);
    HOLDS(needed == UNTOLD && shown == UNTOLD);
}

static struct hs_place task_of(const uint8_t *job, size_t job_len) {
    struct hs_place task = new_place();
    IS(hs_slicelet_open(&task, job, job_len, 2), HS_DONE);
    IS(hs_slicelet_start(&task, 1, 3), HS_DONE);
    return task;
}

/* A grant is heard by a task of its job, and a note is written for it. */
static void hears_its_job(void) {
    const char *note = WRITTEN_OF("shop", "note", "\"kind\":\"guard\",\"life\":1,\"number\":\"7\",\"task\":2");
    struct hs_place shop = task_of(SHOP), none = task_of(JOB);
    uint8_t out[256];
    size_t needed = 0;
    STAYS(slicelet_state(&shop), hear(&shop, GRANT_OF("store"), 5), HS_OTHER_JOB);
    STAYS(slicelet_state(&shop), hear(&shop, GRANT_OF(""), 5), HS_OTHER_JOB);
    STAYS(slicelet_state(&shop), hear(&shop, GRANT("guard", "1", "7", ALL_KEYS, "2"), 5), HS_OTHER_JOB);
    STAYS(slicelet_state(&none), hear(&none, GRANT_OF("shop"), 5), HS_OTHER_JOB);
    IS(hear(&shop, GRANT_OF("shop"), 5), HS_DONE);
    IS(hear(&none, GRANT_OF(""), 5), HS_DONE);
    IS(hs_slicelet_release(&shop, HS_GUARD, 6, out, sizeof out, &needed), HS_DONE);
    HOLDS(needed == strlen(note) && memcmp(out, note, needed) == 0);
    IS(hs_ended_note(SHOP, 2, 1, HS_BRIDGE, out, sizeof out, &needed), HS_DONE);
    hs_place_free(&shop);
    hs_place_free(&none);
}

/* The order of refusals: the type, then the job, then the value. A number in the form of the other version is refused. */
static void in_order(void) {
    struct hs_place shop = task_of(SHOP);
    IS(hear(&shop, WRITTEN_OF("store", "note", ""), 5), HS_OTHER_TYPE);
    IS(hear(&shop, WRITTEN_OF("store", "grant", ""), 5), HS_OTHER_JOB);
    IS(hear(&shop, WRITTEN_OF("shop", "grant", ""), 5), HS_WRONG_FORM);
    IS(hear(&shop, "{\"type\":\"grant\",\"value\":{},\"version\":2}", 5), HS_WRONG_FORM);
    IS(hear(&shop, "{\"job\":\"shop\",\"type\":\"grant\",\"value\":{},\"version\":1}", 5), HS_WRONG_FORM);
    IS(hear(&shop,
            WRITTEN_OF("shop", "grant",
                       "\"ends\":95,\"generation\":3,\"kind\":\"guard\",\"life\":1,\"number\":7,"
                       "\"ranges\":" ALL_KEYS ",\"task\":2,\"until\":105"),
            5),
       HS_WRONG_FORM);
    hs_place_free(&shop);
}

/* A table and a clerk of a job. */
static void other_objects(void) {
    const char *assignment = WRITTEN_OF("shop", "assignment", "\"generation\":\"1\",\"slices\":" WRITTEN_HALVES);
    const char *note = WRITTEN_OF("shop", "note", "\"kind\":\"guard\",\"life\":1,\"number\":\"7\",\"task\":2");
    struct hs_place table = new_place(), clerk = new_place();
    struct hs_job_term term = {0, 0, 0};
    uint64_t freed = UNTOLD;
    IS(hs_table_open(&table, SHOP, &policy), HS_DONE);
    IS(hs_clerk_open(&clerk, SHOP), HS_DONE);
    IS(learn(&clerk, ASSIGNMENT("1", HALVES)), HS_OTHER_JOB);
    IS(learn(&clerk, assignment), HS_DONE);
    IS(hs_table_take(&table, 1, 0, &term, fresh_told()), HS_DONE);
    IS(propose(&table, 1, ASSIGNMENT("1", HALVES), 1), HS_OTHER_JOB);
    IS(propose(&table, 1, assignment, 1), HS_DONE);
    IS(free_rows(&table, NOTE("guard", "1", "7", "2"), 2, &freed), HS_OTHER_JOB);
    IS(free_rows(&table, note, 2, &freed), HS_NO_ROW);
    hs_place_free(&table);
    hs_place_free(&clerk);
}

void check_jobs(void) {
    names();
    names_without_a_place();
    hears_its_job();
    in_order();
    other_objects();
}
