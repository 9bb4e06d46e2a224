/* Lines of logs: the line of each call, as docs/AUDIT.md gives its members and its words, each refusal, which calls have
 * no line, and short buffers. tests/c/logs.py has such lines judged by an audit. */
#include "checks.h"

#include <string.h>

#define KEYS ((uint64_t)1 << 63)
#define COUNT(list) (sizeof(list) / sizeof *(list))
#define LINE_HALVES "[[0,[1]],[4611686018427387904,[2]]]"
#define LINE_GRANT                                                                                                     \
    "{\"ends\":95,\"generation\":3,\"kind\":\"guard\",\"life\":1,\"number\":7,\"ranges\":" ALL_KEYS                    \
    ",\"task\":2,\"until\":105}"
#define LINE_HANDLE "{\"life\":8,\"position\":19,\"slice_key\":9,\"task\":2}"

static const char assignment[] = ASSIGNMENT("3", HALVES), grant[] = GRANT("guard", "1", "7", ALL_KEYS, "2"),
                  note[] = NOTE("guard", "1", "7", "2"),
                  kept[] = WRITTEN_MESSAGE(
                      "kept",
                      "\"committed\":{\"generation\":\"1\",\"slices\":" WRITTEN_HALVES
                      "},\"deadline\":\"106\",\"granted\":\"1\",\"last\":\"6\",\"pending\":null,\"policy\":"
                      "{\"bridge\":200,\"guard\":100,\"job\":1000,\"numbers\":1000,\"redundancy\":[1,1],\"skew\":10},"
                      "\"term\":{\"assigner\":\"1\",\"number\":\"1\",\"until\":\"1000\"}");

/* A call in which each member is another number. */
static struct hs_logged_call call_of(uint32_t call, int32_t code) {
    return (struct hs_logged_call){.ticket = 7,
                                   .call = call,
                                   .code = code,
                                   .task = 2,
                                   .clerk = 3,
                                   .assigner = 4,
                                   .term = 5,
                                   .at = 6,
                                   .slice_key = 9,
                                   .life = 8,
                                   .kind = HS_BRIDGE,
                                   .count = 10,
                                   .told = {11, 12, HS_GUARD, 13, 14},
                                   .job_term = {15, 4, 16},
                                   .phase = {17, 18},
                                   .handle = {2, 9, 19, 8},
                                   .owners = {20, 2, {1, 3}},
                                   .sent = 21,
                                   .reading = 22};
}

/* Writes a line to a buffer of this room. One that is not done writes nothing. */
static int32_t write_line(const struct hs_logged_call *call, const char *message, uint8_t *out, size_t room,
                          size_t *needed) {
    memset(out, '-', room);
    *needed = UNTOLD;
    int32_t code = hs_log_line(JOB, call, (const uint8_t *)message, strlen(message), out, room, needed);
    HOLDS(code == HS_DONE || are_dashes(out, room));
    HOLDS(code == HS_DONE || code == HS_NO_ROOM || *needed == UNTOLD);
    return code;
}

static int32_t try_line(struct hs_logged_call call, const char *message) {
    static uint8_t out[1024];
    size_t needed;
    return write_line(&call, message, out, sizeof out, &needed);
}

/* The line is this text and a line feed. A buffer that is one byte too short is told the length. */
static void is_line(struct hs_logged_call call, const char *message, const char *wanted) {
    static uint8_t out[1024];
    size_t length = strlen(wanted), needed;
    IS(write_line(&call, message, out, sizeof out, &needed), HS_DONE);
    HOLDS(needed == length + 1 && memcmp(out, wanted, length) == 0 && out[length] == '\n');
    HOLDS(are_dashes(out + needed, sizeof out - needed));
    IS(write_line(&call, message, out, length, &needed), HS_NO_ROOM);
    HOLDS(needed == length + 1);
    IS(write_line(&call, message, out, 0, &needed), HS_NO_ROOM);
    HOLDS(needed == length + 1);
    IS(write_line(&call, message, out, length + 1, &needed), HS_DONE);
}

static void done(uint32_t call, const char *message, const char *wanted) {
    is_line(call_of(call, HS_DONE), message, wanted);
}

static void table_lines(void) {
    struct hs_logged_call steady = call_of(HS_CALL_PHASE, HS_DONE);
    steady.phase.proposed = 0;
    done(HS_CALL_TAKE, "", "{\"assigner\":4,\"at\":6,\"do\":\"take\",\"reply\":\"term 15 until 16\",\"ticket\":7}");
    done(HS_CALL_RENEW, "", "{\"at\":6,\"do\":\"renew\",\"reply\":\"renewed 15 until 16\",\"term\":5,\"ticket\":7}");
    done(HS_CALL_PROPOSE, assignment,
         "{\"at\":6,\"do\":\"propose\",\"generation\":3,\"reply\":\"proposed 3\",\"slices\":" LINE_HALVES
         ",\"term\":5,\"ticket\":7}");
    done(HS_CALL_COMMIT, "", "{\"at\":6,\"do\":\"commit\",\"reply\":\"committed 12\",\"term\":5,\"ticket\":7}");
    done(HS_CALL_GRANT, grant,
         "{\"at\":6,\"do\":\"grant\",\"life\":8,\"reply\":\"grant 7 guard 3 until 105 95\",\"task\":2,\"ticket\":7}");
    done(HS_CALL_FREE, note,
         "{\"at\":6,\"do\":\"free\",\"note\":{\"kind\":\"guard\",\"life\":1,\"number\":7,\"task\":2},"
         "\"reply\":\"freed 10\",\"ticket\":7}");
    done(HS_CALL_LOSE, "", "{\"do\":\"lose\",\"reply\":\"lost 10\",\"ticket\":7}");
    done(HS_CALL_PHASE, "", "{\"do\":\"phase\",\"reply\":\"phase bridging 17 18\",\"ticket\":7}");
    is_line(steady, "", "{\"do\":\"phase\",\"reply\":\"phase steady 17\",\"ticket\":7}");
    done(HS_CALL_RESTORE, kept,
         "{\"deadline\":106,\"do\":\"restore\",\"granted\":1,\"last\":6,\"reply\":\"restored generation 1 grace 106\","
         "\"ticket\":7}");
}

static void task_lines(void) {
    struct hs_logged_call bridge = call_of(HS_CALL_SERVE, HS_DONE);
    bridge.told.kind = HS_BRIDGE;
    done(HS_CALL_OPEN, "", "{\"do\":\"open\",\"life\":8,\"reply\":\"opened 8\",\"task\":2,\"ticket\":7}");
    done(HS_CALL_START, "", "{\"at\":6,\"do\":\"start\",\"life\":8,\"reply\":\"started 8\",\"task\":2,\"ticket\":7}");
    done(HS_CALL_HEAR, grant,
         "{\"at\":6,\"do\":\"hear\",\"grant\":" LINE_GRANT ",\"reply\":\"heard 7\",\"task\":2,\"ticket\":7}");
    done(
        HS_CALL_RELEASE, note,
        "{\"at\":6,\"do\":\"release\",\"kind\":\"bridge\",\"reply\":\"released life 1 number 7\",\"task\":2,\"ticket\":7}");
    done(HS_CALL_SERVE, "",
         "{\"at\":6,\"do\":\"serve\",\"reply\":\"served guard 12\",\"slice_key\":9,\"task\":2,\"ticket\":7}");
    is_line(bridge, "",
            "{\"at\":6,\"do\":\"serve\",\"reply\":\"served bridge 12\",\"slice_key\":9,\"task\":2,\"ticket\":7}");
    done(HS_CALL_HOLD, "",
         "{\"at\":6,\"do\":\"hold\",\"reply\":\"handle life 8 position 19\",\"slice_key\":9,\"task\":2,\"ticket\":7}");
    done(HS_CALL_CHECK, "",
         "{\"at\":6,\"do\":\"check\",\"handle\":" LINE_HANDLE ",\"reply\":\"continuous\",\"task\":2,\"ticket\":7}");
    done(HS_CALL_SAMPLE, "{",
         "{\"do\":\"sample\",\"now\":6,\"reading\":22,\"reply\":\"sampled\",\"sent\":21,\"task\":2,\"ticket\":7}");
}

static void clerk_lines(void) {
    done(HS_CALL_LEARN, assignment,
         "{\"clerk\":3,\"do\":\"learn\",\"generation\":3,\"reply\":\"learnt 3\",\"slices\":" LINE_HALVES
         ",\"ticket\":7}");
    done(HS_CALL_LOOK, "",
         "{\"clerk\":3,\"do\":\"look\",\"reply\":\"found generation 20 owners 1,3\",\"slice_key\":9,\"ticket\":7}");
    done(HS_CALL_FORGET, "", "{\"clerk\":3,\"do\":\"forget\",\"reply\":\"forgotten\",\"ticket\":7}");
}

/* The reply of a call that is refused, in the line. */
static void refused(uint32_t call, int32_t code, const char *message, const char *words) {
    static uint8_t out[1024];
    char member[64] = "\"reply\":\"";
    size_t needed;
    struct hs_logged_call made = call_of(call, code);
    strcat(strcat(member, words), "\",");
    IS(write_line(&made, message, out, sizeof out - 1, &needed), HS_DONE);
    out[needed] = 0;
    HOLDS(strstr((const char *)out, member));
}

static void table_refusals(void) {
    static const struct {
        int32_t code;
        const char *words;
    } refusals[] = {{HS_CLOCK_BACK, "clock-back"},
                    {HS_READING_RANGE, "reading-range"},
                    {HS_JOB_HELD, "job-held 14"},
                    {HS_NOT_HOLDER, "not-holder 11"},
                    {HS_STALE_BASE, "stale-base 12"},
                    {HS_PENDING, "pending"},
                    {HS_NOTHING_PENDING, "nothing-pending"},
                    {HS_TOO_MANY_OWNERS_FOR_JOB, "too-many-owners-for-job"},
                    {HS_GRACE, "grace 14"},
                    {HS_HELD, "held 13 guard 11"},
                    {HS_NO_ROW, "no-row"},
                    {HS_NO_ASSIGNMENT, "no-assignment"},
                    {HS_NUMBERS_SPENT, "numbers-spent"}};
    for (size_t at = 0; at < COUNT(refusals); at++) {
        char words[48] = "refused ";
        strcat(words, refusals[at].words);
        refused(HS_CALL_COMMIT, refusals[at].code, "", words);
        refused(HS_CALL_GRANT, refusals[at].code, "", words);
        refused(HS_CALL_PROPOSE, refusals[at].code, assignment, words);
        refused(HS_CALL_FREE, refusals[at].code, note, words);
    }
}

static void task_refusals(void) {
    static const struct {
        int32_t code;
        const char *words;
    } refusals[] = {{HS_CLOCK_BACK, "refused clock-back"},    {HS_NOT_STARTED, "refused not-started"},
                    {HS_OLD_LIFE, "refused old-life"},        {HS_OTHER_TASK, "refused other-task"},
                    {HS_OTHER_LIFE, "refused other-life"},    {HS_OLD, "refused old 11"},
                    {HS_TOO_LATE, "refused too-late"},        {HS_NOTHING_HELD, "refused nothing-held"},
                    {HS_HISTORY_FULL, "refused history-full"}},
      grounds[] = {{HS_DOWN, "denied down"},
                   {HS_CLOCK_BACK, "denied clock-back"},
                   {HS_ENDED, "denied ended"},
                   {HS_NOT_OWNED, "denied not-owned 12"},
                   {HS_NO_LEASE, "denied no-lease"}};
    for (size_t at = 0; at < COUNT(refusals); at++) {
        refused(HS_CALL_START, refusals[at].code, "", refusals[at].words);
        refused(HS_CALL_HEAR, refusals[at].code, grant, refusals[at].words);
        refused(HS_CALL_RELEASE, refusals[at].code, "", refusals[at].words);
    }
    for (size_t at = 0; at < COUNT(grounds); at++) {
        refused(HS_CALL_SERVE, grounds[at].code, "", grounds[at].words);
        refused(HS_CALL_HOLD, grounds[at].code, "", grounds[at].words);
    }
    refused(HS_CALL_CHECK, HS_BROKEN, "", "broken");
    refused(HS_CALL_CHECK, HS_STRANGER, "", "refused stranger");
    refused(HS_CALL_LEARN, HS_OLD_GENERATION, assignment, "refused old 12");
    refused(HS_CALL_LOOK, HS_UNKNOWN, "", "refused unknown");
}

/* A code that is none of the call has no line. No call has one at a negative code. */
static void other_codes(void) {
    static const int32_t none[] = {HS_NO_MEMORY,   HS_NO_ROOM,   HS_NOT_JSON,     HS_WRONG_FORM,
                                   HS_OTHER_PLACE, HS_OTHER_JOB, INT32_MIN,       INT32_MAX,
                                   HS_NOT_ADOPTED, HS_NO_SAMPLE, HS_OTHER_POLICY, 47};
    for (uint32_t call = HS_CALL_TAKE; call <= HS_CALL_SAMPLE; call++) {
        const char *message = call == HS_CALL_HEAR                               ? grant
                              : call == HS_CALL_FREE                             ? note
                              : call == HS_CALL_RESTORE                          ? kept
                              : call == HS_CALL_PROPOSE || call == HS_CALL_LEARN ? assignment
                                                                                 : "";
        for (size_t at = 0; at < COUNT(none); at++)
            IS(try_line(call_of(call, none[at]), message), HS_WRONG_FORM);
    }
    IS(try_line(call_of(HS_CALL_SERVE, HS_NOT_STARTED), ""), HS_WRONG_FORM);
    IS(try_line(call_of(HS_CALL_HEAR, HS_DOWN), grant), HS_WRONG_FORM);
    IS(try_line(call_of(HS_CALL_COMMIT, HS_OLD), ""), HS_WRONG_FORM);
    IS(try_line(call_of(HS_CALL_CHECK, HS_DOWN), ""), HS_WRONG_FORM);
    IS(try_line(call_of(HS_CALL_OPEN, HS_OLD_LIFE), ""), HS_WRONG_FORM);
    IS(try_line(call_of(HS_CALL_RESTORE, HS_NO_TERM), kept), HS_WRONG_FORM);
    IS(try_line(call_of(HS_CALL_FORGET, HS_UNKNOWN), ""), HS_WRONG_FORM);
    IS(try_line(call_of(HS_CALL_PHASE, HS_CLOCK_BACK), ""), HS_WRONG_FORM);
    IS(try_line(call_of(HS_CALL_SAMPLE, HS_CLOCK_BACK), ""), HS_WRONG_FORM);
    IS(try_line(call_of(HS_CALL_SAMPLE, HS_SENT_AHEAD), ""), HS_WRONG_FORM);
}

#define WITHOUT(call, code, message, change)                                                                           \
    do {                                                                                                               \
        struct hs_logged_call changed = call_of((call), (code));                                                       \
        changed.change;                                                                                                \
        IS(try_line(changed, (message)), HS_WRONG_FORM);                                                               \
    } while (0)

static void numbers_beyond_limits(void) {
    WITHOUT(HS_CALL_TAKE, HS_DONE, "", call = 0);
    WITHOUT(HS_CALL_TAKE, HS_DONE, "", call = 21);
    WITHOUT(HS_CALL_GRANT, HS_DONE, grant, task = 0);
    WITHOUT(HS_CALL_GRANT, HS_DONE, grant, task = 65);
    WITHOUT(HS_CALL_COMMIT, HS_HELD, "", told.task = 0);
    WITHOUT(HS_CALL_COMMIT, HS_HELD, "", told.task = 65);
    WITHOUT(HS_CALL_COMMIT, HS_HELD, "", told.kind = 3);
    WITHOUT(HS_CALL_PHASE, HS_DONE, "", phase.proposed = 19);
    WITHOUT(HS_CALL_RELEASE, HS_DONE, note, kind = 0);
    WITHOUT(HS_CALL_RELEASE, HS_DONE, note, kind = 3);
    WITHOUT(HS_CALL_SERVE, HS_DONE, "", slice_key = KEYS);
    WITHOUT(HS_CALL_SERVE, HS_DONE, "", told.kind = 0);
    WITHOUT(HS_CALL_SERVE, HS_DONE, "", told.kind = ((uint64_t)1 << 32) + 1);
    WITHOUT(HS_CALL_HOLD, HS_DONE, "", slice_key = KEYS);
    WITHOUT(HS_CALL_HOLD, HS_DONE, "", handle.task = 0);
    WITHOUT(HS_CALL_CHECK, HS_DONE, "", handle.task = 65);
    WITHOUT(HS_CALL_CHECK, HS_BROKEN, "", handle.slice_key = KEYS);
    WITHOUT(HS_CALL_LOOK, HS_DONE, "", slice_key = KEYS);
    WITHOUT(HS_CALL_LOOK, HS_DONE, "", owners.count = 6);
    WITHOUT(HS_CALL_LOOK, HS_DONE, "", owners.tasks[1] = 65);
}

/* Members that a call does not name are not looked at, nor is the message of a call that has none. */
static void members_of_others(void) {
    struct hs_logged_call look = call_of(HS_CALL_LOOK, HS_UNKNOWN),
                          forget = {.ticket = 7, .call = HS_CALL_FORGET, .clerk = 3},
                          sample = {.ticket = 7, .call = HS_CALL_SAMPLE, .task = 2, .at = 6, .sent = 21, .reading = 22};
    look.owners.count = 6;
    look.kind = 3;
    is_line(look, "{", "{\"clerk\":3,\"do\":\"look\",\"reply\":\"refused unknown\",\"slice_key\":9,\"ticket\":7}");
    is_line(forget, "", "{\"clerk\":3,\"do\":\"forget\",\"reply\":\"forgotten\",\"ticket\":7}");
    is_line(sample, "",
            "{\"do\":\"sample\",\"now\":6,\"reading\":22,\"reply\":\"sampled\",\"sent\":21,\"task\":2,\"ticket\":7}");
    refused(HS_CALL_GRANT, HS_NO_ASSIGNMENT, "{", "refused no-assignment");
    refused(HS_CALL_RELEASE, HS_NOTHING_HELD, "{", "refused nothing-held");
}

static void messages(void) {
    const char *of_shop = WRITTEN_OF("shop", "note", "\"kind\":\"guard\",\"life\":1,\"number\":\"7\",\"task\":2");
    static uint8_t out[1024];
    struct hs_logged_call made = call_of(HS_CALL_FREE, HS_DONE);
    size_t needed = UNTOLD;
    IS(try_line(call_of(HS_CALL_HEAR, HS_DONE), ""), HS_NOT_JSON);
    IS(try_line(call_of(HS_CALL_HEAR, HS_DOWN), "{"), HS_NOT_JSON);
    IS(try_line(call_of(HS_CALL_HEAR, HS_DONE), note), HS_OTHER_TYPE);
    IS(try_line(call_of(HS_CALL_GRANT, HS_DONE), note), HS_OTHER_TYPE);
    IS(try_line(call_of(HS_CALL_RELEASE, HS_DONE), grant), HS_OTHER_TYPE);
    IS(try_line(call_of(HS_CALL_RESTORE, HS_DONE), grant), HS_OTHER_TYPE);
    IS(try_line(call_of(HS_CALL_LEARN, HS_DONE), "{\"version\":3}"), HS_VERSION);
    IS(try_line(call_of(HS_CALL_PROPOSE, HS_DONE), ASSIGNMENT("3", "[]")), HS_NO_SLICES);
    IS(try_line(made, of_shop), HS_OTHER_JOB);
    IS(hs_log_line((const uint8_t *)"shop", 4, &made, (const uint8_t *)of_shop, strlen(of_shop), out, sizeof out,
                   &needed),
       HS_DONE);
    IS(hs_log_line((const uint8_t *)"\xff", 1, &made, (const uint8_t *)"{", 1, out, sizeof out, &needed),
       HS_WRONG_FORM);
}

/* A write in which each member is another number. */
static struct hs_logged_write write_of(uint32_t reply) {
    return (struct hs_logged_write){.ticket = 7,
                                    .slice_key = KEYS - 1,
                                    .revision = UINT64_MAX,
                                    .token = {{0, 0, 0, 1, 0, 0, 0, 0, 0, 0, 0, 0xab, 0xff, 0, 0, 2}},
                                    .reply = reply};
}

/* The line of a write is this text and a line feed. A buffer that is one byte too short is told the length. */
static void is_written(uint32_t reply, const char *wanted) {
    static uint8_t out[1024];
    struct hs_logged_write write = write_of(reply);
    size_t length = strlen(wanted), needed = UNTOLD;
    memset(out, '-', sizeof out);
    IS(hs_log_write(&write, out, length, &needed), HS_NO_ROOM);
    HOLDS(needed == length + 1 && are_dashes(out, sizeof out));
    IS(hs_log_write(&write, out, length + 1, &needed), HS_DONE);
    HOLDS(needed == length + 1 && memcmp(out, wanted, length) == 0 && out[length] == '\n');
    HOLDS(are_dashes(out + needed, sizeof out - needed));
}

static void no_write(struct hs_logged_write write) {
    static uint8_t out[1024];
    size_t needed = UNTOLD;
    memset(out, '-', sizeof out);
    IS(hs_log_write(&write, out, sizeof out, &needed), HS_WRONG_FORM);
    HOLDS(needed == UNTOLD && are_dashes(out, sizeof out));
}

#define WRITE(reply)                                                                                                   \
    "{\"do\":\"write\",\"reply\":\"" reply "\",\"slice_key\":9223372036854775807,\"ticket\":7," TOKEN "}"
#define TOKEN "\"token\":\"0000000100000000000000abff000002\""

static void writes(void) {
    struct hs_logged_write beyond = write_of(HS_STORE_TAKEN);
    is_written(HS_STORE_NUMBERED, "{\"do\":\"write\",\"reply\":\"taken\",\"revision\":18446744073709551615,"
                                  "\"slice_key\":9223372036854775807,\"ticket\":7," TOKEN "}");
    is_written(HS_STORE_TAKEN, WRITE("taken"));
    is_written(HS_STORE_REFUSED, WRITE("refused"));
    is_written(HS_STORE_UNKNOWN, WRITE("unknown"));
    beyond.slice_key = KEYS;
    no_write(beyond);
    no_write(write_of(0));
    no_write(write_of(5));
}

void check_logs(void) {
    table_lines();
    task_lines();
    clerk_lines();
    table_refusals();
    task_refusals();
    other_codes();
    numbers_beyond_limits();
    members_of_others();
    messages();
    writes();
}
