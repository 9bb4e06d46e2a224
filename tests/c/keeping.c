/* Kept values: a table that is restored from them is the one that kept them, as a restart leaves it; and values that are
 * saved ahead of a table. The members are those of docs/FORMATS.md, and the numbers were worked out by hand. */
#include "checks.h"

#include <string.h>

#define POLICY                                                                                                         \
    "\"policy\":{\"bridge\":200,\"guard\":100,\"job\":1000,\"numbers\":1000,\"redundancy\":[1,1],\"skew\":10}"
#define TERM "{\"assigner\":\"1\",\"number\":\"1\",\"until\":\"1000\"}"
#define COMMITTED "{\"generation\":\"1\",\"slices\":" WRITTEN_HALVES "}"
#define KEPT(committed, deadline, granted, last, pending, term)                                                        \
    WRITTEN_MESSAGE("kept", "\"committed\":" committed ",\"deadline\":\"" deadline "\",\"granted\":\"" granted         \
                            "\",\"last\":\"" last "\",\"pending\":" pending "," POLICY ",\"term\":" term)

/* The grant of granted_table, at 6, is the first: its row ends at 106. */
static const char kept[] = KEPT(COMMITTED, "106", "1", "6", "null", TERM);

static struct hs_place granted_table(void) {
    struct hs_place table = steady_table();
    uint8_t out[256];
    size_t needed = 0;
    IS(hs_table_grant(&table, 1, 1, 6, out, sizeof out, &needed), HS_DONE);
    return table;
}

static int32_t restore(struct hs_place *place, const char *text) {
    uint8_t *copy = block_of(text, strlen(text));
    int32_t code = hs_table_restore(place, JOB, &policy, copy, strlen(text), fresh_told());
    drop_block(copy);
    return code;
}

/* After the restore no commit is accepted until the lost row has ended, at 106. */
static void restores(void) {
    struct hs_place table = granted_table(), other = knowing_clerk();
    uint64_t lost = UNTOLD;
    gives_text(hs_table_kept, &table, kept);
    IS(restore(&other, kept), HS_DONE);
    HOLDS(tells(UNTOLD, UNTOLD, UNTOLD, UNTOLD, UNTOLD));
    IS(hs_table_restart(&table, &lost), HS_DONE);
    HOLDS(table_state(&other) == table_state(&table));
    gives_text(hs_table_kept, &other, kept);
    IS(propose(&other, 1, ASSIGNMENT("2", "[[0,[2]]]"), 7), HS_DONE);
    STAYS(table_state(&other), hs_table_commit(&other, 1, 105, fresh_told()), HS_GRACE);
    HOLDS(tells(UNTOLD, UNTOLD, UNTOLD, UNTOLD, 106));
    IS(hs_table_commit(&other, 1, 106, fresh_told()), HS_DONE);
    hs_place_free(&table);
    hs_place_free(&other);
}

/* A new table keeps nothing but its policy. */
static void restores_nothing(void) {
    struct hs_place table = new_place();
    IS(hs_table_open(&table, JOB, &policy), HS_DONE);
    gives_text(hs_table_kept, &table, KEPT("null", "0", "0", "0", "null", "null"));
    IS(restore(&table, KEPT("null", "0", "0", "0", "null", "null")), HS_DONE);
    hs_place_free(&table);
}

/* What was saved last, for save_ahead, which saves ahead by 10 grants and 50 ticks. */
static const char *saved_last;

static int32_t save(const struct hs_place *table, uint64_t grants, uint64_t ticks, uint8_t *out, size_t out_len,
                    size_t *needed) {
    uint8_t *copy = block_of(saved_last, strlen(saved_last));
    int32_t code = hs_table_save(table, copy, strlen(saved_last), grants, ticks, out, out_len, needed);
    drop_block(copy);
    return code;
}

static int32_t save_ahead(const struct hs_place *table, uint8_t *out, size_t out_len, size_t *needed) {
    return save(table, 10, 50, out, out_len, needed);
}

static int32_t save_all(const struct hs_place *table, uint8_t *out, size_t out_len, size_t *needed) {
    return save(table, UINT64_MAX, UINT64_MAX, out, out_len, needed);
}

static int32_t save_no_grants(const struct hs_place *table, uint8_t *out, size_t out_len, size_t *needed) {
    return save(table, 0, 50, out, out_len, needed);
}

/* Checks that nothing has to be saved, whatever the buffer. */
static void is_covered(const struct hs_place *table, const char *saved) {
    uint8_t out[4] = "----";
    size_t needed = UNTOLD;
    saved_last = saved;
    IS(save_ahead(table, out, 0, &needed), HS_DONE);
    HOLDS(needed == 0 && are_dashes(out, sizeof out));
    needed = UNTOLD;
    IS(save_ahead(table, out, sizeof out, &needed), HS_DONE);
    HOLDS(needed == 0 && are_dashes(out, sizeof out));
}

/* Checks what is saved in place of other values. */
static void saves(text_call call, const struct hs_place *table, const char *saved, const char *wanted) {
    saved_last = saved;
    gives_text(call, table, wanted);
}

static void grant_at(struct hs_place *table, uint64_t at) {
    uint8_t out[256];
    size_t needed = 0;
    IS(hs_table_grant(table, 1, 1, at, out, sizeof out, &needed), HS_DONE);
}

/* 10 grants more than 1, at up to 50 ticks after 6, the last of which ends at 156. */
static const char ahead[] = KEPT(COMMITTED, "156", "11", "56", "null", TERM);

static void saves_ahead(void) {
    struct hs_place table = granted_table();
    saves(save_ahead, &table, "", ahead);
    saves(save_no_grants, &table, "", kept);
    saves(save_all, &table, "", KEPT(COMMITTED, "4611686018427388003", "1000", "4611686018427387903", "null", TERM));
    is_covered(&table, kept);
    is_covered(&table, ahead);
    grant_at(&table, 7);
    is_covered(&table, ahead);
    saves(save_ahead, &table, kept, KEPT(COMMITTED, "157", "12", "57", "null", TERM));
    for (int number = 3; number <= 10; number++)
        grant_at(&table, 55);
    is_covered(&table, ahead);
    hs_place_free(&table);
}

/* Values do not cover a table that made as many grants as they say, or that was called after their last reading. */
static void saves_again(void) {
    struct hs_place table = granted_table(), later = granted_table();
    uint64_t freed = UNTOLD;
    for (int number = 2; number <= 11; number++)
        grant_at(&table, 55);
    saves(save_ahead, &table, ahead, KEPT(COMMITTED, "205", "21", "105", "null", TERM));
    IS(free_rows(&later, NOTE("guard", "1", "1", "1"), 56, &freed), HS_DONE);
    is_covered(&later, ahead);
    grant_at(&later, 57);
    saves(save_ahead, &later, ahead, KEPT(COMMITTED, "207", "12", "107", "null", TERM));
    hs_place_free(&table);
    hs_place_free(&later);
}

/* Nor do they cover a table that proposed, committed or gave the job lease since. */
static void saves_changes(void) {
    struct hs_place table = granted_table(), renewed = granted_table();
    struct hs_job_term term = {0, 0, 0};
    IS(propose(&table, 1, ASSIGNMENT("2", "[[0,[2]]]"), 7), HS_DONE);
    saves(save_no_grants, &table, ahead,
          KEPT(COMMITTED, "106", "1", "7", "{\"generation\":\"2\",\"slices\":[[\"0\",[2]]]}", TERM));
    saves(save_ahead, &table, ahead,
          KEPT(COMMITTED, "257", "11", "57", "{\"generation\":\"2\",\"slices\":[[\"0\",[2]]]}", TERM));
    IS(hs_table_renew(&renewed, 1, 6, &term, fresh_told()), HS_DONE);
    saves(save_no_grants, &renewed, ahead,
          KEPT(COMMITTED, "106", "1", "6", "null", "{\"assigner\":\"1\",\"number\":\"1\",\"until\":\"1006\"}"));
    hs_place_free(&table);
    hs_place_free(&renewed);
}

/* A table that was restored from values saved ahead has made their grants, and is covered by them. */
static void restores_ahead(void) {
    struct hs_place table = new_place();
    uint8_t out[256];
    size_t needed = 0;
    IS(restore(&table, ahead), HS_DONE);
    is_covered(&table, ahead);
    STAYS(table_state(&table), hs_table_grant(&table, 1, 1, 55, out, sizeof out, &needed), HS_CLOCK_BACK);
    grant_at(&table, 56);
    saves(save_no_grants, &table, ahead, KEPT(COMMITTED, "156", "12", "56", "null", TERM));
    hs_place_free(&table);
}

#define UNSAVED(text, code)                                                                                            \
    do {                                                                                                               \
        uint8_t out[8] = "--------";                                                                                   \
        size_t needed = UNTOLD;                                                                                        \
        saved_last = (text);                                                                                           \
        STAYS(table_state(&table), save_ahead(&table, out, sizeof out, &needed), code);                                \
        HOLDS(needed == UNTOLD && are_dashes(out, sizeof out));                                                        \
    } while (0)

/* Why nothing is saved in place of bytes: they restore no table with this policy. */
static void saves_nothing(void) {
    struct hs_place table = granted_table();
    UNSAVED("{", HS_NOT_JSON);
    UNSAVED("{\"version\":9}", HS_VERSION);
    UNSAVED(NOTE("guard", "1", "7", "2"), HS_OTHER_TYPE);
    UNSAVED(WRITTEN_OF("shop", "kept", ""), HS_OTHER_JOB);
    UNSAVED(WRITTEN_OF("", "kept", ""), HS_WRONG_FORM);
    UNSAVED(KEPT(COMMITTED, "106", "1", "6", "null", "null"), HS_NO_TERM);
    UNSAVED(KEPT(COMMITTED, "207", "1", "6", "null", TERM), HS_DEADLINE_RANGE);
    hs_place_free(&table);
    struct hs_policy other = policy;
    other.guard = 101;
    table = new_place();
    IS(hs_table_open(&table, JOB, &other), HS_DONE);
    UNSAVED(kept, HS_OTHER_POLICY);
    hs_place_free(&table);
}

#define FAULTY(text, code) STAYS(table_state(&table), restore(&table, text), code)

/* Each fault of kept values, in order. */
static void faults(void) {
    struct hs_place table = granted_table();
    struct hs_policy other = policy;
    other.guard = 101;
    IS(hs_table_restore(&table, JOB, &other, (const uint8_t *)kept, strlen(kept), fresh_told()), HS_OTHER_POLICY);
    other.guard = 0;
    IS(hs_table_restore(&table, JOB, &other, (const uint8_t *)"{", 1, fresh_told()), HS_WRONG_FORM);
    FAULTY(KEPT(COMMITTED, "106", "1", "4611686018427387904", "null", TERM), HS_READING_RANGE);
    FAULTY(KEPT(COMMITTED, "106", "1", "6", "null", "null"), HS_NO_TERM);
    FAULTY(KEPT(COMMITTED, "106", "1", "6", "null", "{\"assigner\":\"1\",\"number\":\"0\",\"until\":\"9\"}"),
           HS_TERM_RANGE);
    FAULTY(KEPT(COMMITTED, "106", "1", "6", "null", "{\"assigner\":\"1\",\"number\":\"1\",\"until\":\"1007\"}"),
           HS_TERM_RANGE);
    FAULTY(KEPT("{\"generation\":\"0\",\"slices\":" WRITTEN_HALVES "}", "106", "1", "6", "null", TERM),
           HS_KEPT_GENERATION);
    FAULTY(KEPT(COMMITTED, "106", "1", "6", "{\"generation\":\"3\",\"slices\":" WRITTEN_HALVES "}", TERM),
           HS_KEPT_GENERATION);
    FAULTY(KEPT("{\"generation\":\"1\",\"slices\":[[\"0\",[1,2]]]}", "106", "1", "6", "null", TERM),
           HS_TOO_MANY_OWNERS_FOR_JOB);
    FAULTY(KEPT("null", "106", "1", "6", "null", TERM), HS_NO_ASSIGNMENT);
    FAULTY(KEPT(COMMITTED, "106", "1001", "6", "null", TERM), HS_TOO_MANY_GRANTS);
    FAULTY(KEPT(COMMITTED, "0", "1", "6", "null", TERM), HS_DEADLINE_RANGE);
    FAULTY(KEPT(COMMITTED, "106", "0", "6", "null", TERM), HS_DEADLINE_RANGE);
    FAULTY(KEPT(COMMITTED, "207", "1", "6", "null", TERM), HS_DEADLINE_RANGE);
    IS(restore(&table, KEPT(COMMITTED, "206", "1", "6", "null", TERM)), HS_DONE);
    hs_place_free(&table);
}

/* Bytes that are not the message of kept values of the job. */
static void unread(void) {
    struct hs_place table = granted_table();
    FAULTY("{", HS_NOT_JSON);
    FAULTY("{\"version\":9}", HS_VERSION);
    HOLDS(tells(9, UNTOLD, UNTOLD, UNTOLD, UNTOLD));
    FAULTY(NOTE("guard", "1", "7", "2"), HS_OTHER_TYPE);
    FAULTY(WRITTEN_OF("shop", "kept", ""), HS_OTHER_JOB);
    FAULTY(WRITTEN_OF("", "kept", ""), HS_WRONG_FORM);
    FAULTY(KEPT("{\"generation\":\"1\",\"slices\":[]}", "106", "1", "6", "null", TERM), HS_NO_SLICES);
    hs_place_free(&table);
}

static void elsewhere(void) {
    struct hs_place clerk = knowing_clerk(), nowhere = {0};
    uint8_t out[8];
    size_t needed = UNTOLD;
    IS(hs_table_kept(&clerk, out, sizeof out, &needed), HS_OTHER_PLACE);
    saved_last = kept;
    IS(save_ahead(&clerk, out, sizeof out, &needed), HS_OTHER_PLACE);
    IS(save_ahead(&nowhere, out, sizeof out, &needed), HS_OTHER_PLACE);
    HOLDS(needed == UNTOLD);
    IS(restore(&nowhere, kept), HS_OTHER_PLACE);
    STAYS(clerk_state(&clerk), restore(&clerk, "{"), HS_NOT_JSON);
    hs_place_free(&clerk);
}

void check_keeping(void) {
    restores();
    restores_nothing();
    saves_ahead();
    saves_again();
    saves_changes();
    restores_ahead();
    saves_nothing();
    faults();
    unread();
    elsewhere();
}
