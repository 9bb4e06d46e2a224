/* Plans: the plan of examples/scripts/load-moves-a-slice.json, and each reason why there is no plan. */
#include "checks.h"

#include <string.h>

#define KEYS ((uint64_t)1 << 63)
#define MOST_LOAD ((uint64_t)1 << 40)

static const char before[] = ASSIGNMENT("1", "[[0,[1]],[2305843009213693952,[1]],[4611686018427387904,[2]]]");
static const char after[] =
    WRITTEN_ASSIGNMENT("2", "[[\"0\",[1]],[\"2305843009213693952\",[2]],[\"4611686018427387904\",[2]]]");
static const struct hs_plan_policy bounds = {.low = 1, .high = 1, .churn = KEYS, .cold = 0, .hot = 100, .most = 1024};

/* The arguments of a plan. */
struct question {
    const char *assignment;
    uint64_t loads[3];
    size_t loads_len;
    uint64_t tasks[2];
    size_t tasks_len;
    struct hs_plan_policy policy;
};

static struct question good_question(void) {
    struct question question = {before, {6, 4, 1}, 3, {1, 2}, 2, bounds};
    return question;
}

static int32_t plan(const struct question *question, uint8_t *out, size_t out_len, size_t *needed) {
    uint8_t *copy = block_of(question->assignment, strlen(question->assignment));
    int32_t code = hs_plan(JOB, copy, strlen(question->assignment), question->loads, question->loads_len,
                           question->tasks, question->tasks_len, &question->policy, out, out_len, needed);
    drop_block(copy);
    return code;
}

static void refuses(const struct question *question, int32_t wanted) {
    uint8_t *out = dashes(300);
    size_t needed = 0;
    IS(plan(question, out, 300, &needed), wanted);
    HOLDS(are_dashes(out, 300));
    drop_block(out);
}

static void moves_a_slice(void) {
    struct question question = good_question();
    size_t needed = 0, length = strlen(after);
    uint8_t *shorter = dashes(length - 1), *out = dashes(length);
    IS(plan(&question, shorter, length - 1, &needed), HS_NO_ROOM);
    HOLDS(needed == length && are_dashes(shorter, length - 1));
    needed = 0;
    IS(plan(&question, out, length, &needed), HS_DONE);
    HOLDS(needed == length && memcmp(out, after, length) == 0);
    drop_block(shorter);
    drop_block(out);
}

static void refused_lists(void) {
    struct question question = good_question();
    question.tasks_len = 0;
    refuses(&question, HS_NO_TASKS);
    question = good_question();
    question.loads_len = 2;
    refuses(&question, HS_LOADS_LENGTH);
    question.tasks_len = 0;
    refuses(&question, HS_NO_TASKS);
    question = good_question();
    question.loads[2] = MOST_LOAD + 1;
    refuses(&question, HS_LOAD_RANGE);
    question = good_question();
    question.tasks[1] = 1;
    refuses(&question, HS_WRONG_FORM);
    question.tasks[1] = 65;
    refuses(&question, HS_WRONG_FORM);
    question.tasks[0] = 0;
    refuses(&question, HS_WRONG_FORM);
}

static void refused_policies(void) {
    struct question question = good_question();
    question.policy.low = 0;
    refuses(&question, HS_WRONG_FORM);
    question.policy.low = 2;
    refuses(&question, HS_WRONG_FORM);
    question = good_question();
    question.policy.high = 6;
    refuses(&question, HS_WRONG_FORM);
    question = good_question();
    question.policy.churn = KEYS + 1;
    refuses(&question, HS_WRONG_FORM);
    question = good_question();
    question.policy.most = 0;
    refuses(&question, HS_WRONG_FORM);
    question.policy.most = 1025;
    refuses(&question, HS_WRONG_FORM);
}

static void refused_assignments(void) {
    struct question question = good_question();
    question.assignment = "";
    refuses(&question, HS_NOT_JSON);
    question.assignment = NOTE("guard", "1", "7", "2");
    refuses(&question, HS_OTHER_TYPE);
    question.assignment = "{\"version\":3}";
    refuses(&question, HS_VERSION);
    question.assignment = ASSIGNMENT("18446744073709551615", "[[0,[1]],[1,[1]],[2,[1]]]");
    refuses(&question, HS_WRONG_FORM);
    question.assignment = ASSIGNMENT("1", "[]");
    refuses(&question, HS_NO_SLICES);
}

void check_plans(void) {
    moves_a_slice();
    refused_lists();
    refused_policies();
    refused_assignments();
}
