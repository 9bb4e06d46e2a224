/* The targets: how each place is set up, the call, and the visible state. */
#include "fuzz.h"

#include <string.h>

/* The job with the empty name, which reads messages of version 1. */
#define NO_NAME (const uint8_t *)"", 0
#define MESSAGE(type, members) "{\"type\":\"" type "\",\"value\":{" members "},\"version\":1}"
#define GRANT(kind, number, ranges)                                                                                    \
    MESSAGE("grant", "\"ends\":95,\"generation\":3,\"kind\":\"" kind "\",\"life\":1,\"number\":" number                \
                     ",\"ranges\":" ranges ",\"task\":2,\"until\":105")
#define NOTE(kind, number, task)                                                                                       \
    MESSAGE("note", "\"kind\":\"" kind "\",\"life\":1,\"number\":" number ",\"task\":" task)
#define ASSIGNMENT(generation, slices) MESSAGE("assignment", "\"generation\":" generation ",\"slices\":" slices)
#define HALVES "[[0,[1]],[4611686018427387904,[2]]]"
#define COUNT(list) (sizeof(list) / sizeof *(list))

static const char *const grants[] = {GRANT("guard", "7", "[[0,9223372036854775808]]"), GRANT("guard", "8", "[]"),
                                     GRANT("bridge", "9", "[[0,4611686018427387904]]"),
                                     GRANT("bridge", "3", "[[1,2],[3,4],[4,9],[11,4000000000000000000]]")};
static const char *const assignments[] = {
    ASSIGNMENT("1", HALVES), ASSIGNMENT("2", HALVES), ASSIGNMENT("2", "[[0,[2]]]"),
    ASSIGNMENT("3", "[[0,[1,2,3,4,5]]]"),
    ASSIGNMENT("2", "[[0,[1]],[1,[2]],[2,[1]],[3,[2]],[4,[64]],[9223372036854775807,[1]]]")};
static const char *const notes[] = {NOTE("guard", "1", "1"), NOTE("guard", "9", "2"), NOTE("bridge", "1", "1")};
static const char *const delivered[] = {GRANT("guard", "7", "[[0,9223372036854775808]]"), ASSIGNMENT("1", HALVES),
                                        NOTE("guard", "1", "1")};
static const struct hs_policy policy = {
    .low = 1, .high = 2, .skew = 10, .guard = 100, .bridge = 100, .job = 1000, .numbers = 50};

static uint64_t sum_bytes(uint64_t sum, const void *bytes, size_t length) {
    const uint8_t *byte = bytes;
    for (size_t at = 0; at < length; at++)
        sum = (sum ^ byte[at]) * 1099511628211u;
    return sum;
}

static uint64_t sum_number(uint64_t sum, uint64_t number) {
    return sum_bytes(sum, &number, sizeof number);
}

static void begin_slicelet(struct hs_place *place) {
    struct hs_told told = {0};
    MUST(hs_slicelet_open(place, NO_NAME, 2) == HS_DONE);
    MUST(hs_slicelet_start(place, 1, 3) == HS_DONE);
    if (draw(2))
        MUST(hs_slicelet_hear(place, (const uint8_t *)grants[0], strlen(grants[0]), 4, &told) == HS_DONE);
}

static int32_t hear(struct hs_place *place, struct input input, struct hs_told *told) {
    return hs_slicelet_hear(place, input.bytes, input.length, 3 + draw(6), told);
}

static uint64_t slicelet_state(struct hs_place *place) {
    static const uint64_t readings[] = {3, 4, 5, 8, 94, 95};
    uint64_t sum = 0;
    uint8_t *none = room_of(0);
    for (size_t at = 0; at < COUNT(readings); at++) {
        struct hs_told told = {0, 0, 0, 0, 0, 0};
        struct hs_key_handle handle = {0, 0, 0, 0};
        sum = sum_number(sum, (uint64_t)hs_slicelet_serve(place, (const uint8_t *)"hello", 5, readings[at], &told));
        sum =
            sum_number(sum, (uint64_t)hs_slicelet_hold(place, (const uint8_t *)"abc", 3, readings[at], &handle, &told));
        sum = sum_number(sum_bytes(sum, &told, sizeof told), handle.position);
    }
    for (uint32_t kind = HS_GUARD; kind <= HS_BRIDGE; kind++) {
        size_t needed = 0;
        sum = sum_number(sum, (uint64_t)hs_slicelet_release(place, kind, 9, none, 0, &needed));
        sum = sum_number(sum, needed);
    }
    return sum;
}

static void begin_clerk(struct hs_place *place) {
    struct hs_told told = {0};
    MUST(hs_clerk_open(place, NO_NAME) == HS_DONE);
    if (draw(2))
        MUST(hs_clerk_learn(place, (const uint8_t *)assignments[0], strlen(assignments[0]), &told) == HS_DONE);
}

static int32_t learn(struct hs_place *place, struct input input, struct hs_told *told) {
    return hs_clerk_learn(place, input.bytes, input.length, told);
}

static uint64_t clerk_state(struct hs_place *place) {
    struct hs_owners owners;
    memset(&owners, 0, sizeof owners);
    uint64_t sum = sum_number(0, (uint64_t)hs_clerk_look(place, (const uint8_t *)"hello", 5, &owners));
    sum = sum_bytes(sum, &owners, sizeof owners);
    sum = sum_number(sum, (uint64_t)hs_clerk_look(place, (const uint8_t *)"abc", 3, &owners));
    return sum_bytes(sum, &owners, sizeof owners);
}

/* Sets up a table with a committed assignment and a grant to each of two tasks. */
static void begin_table(struct hs_place *place) {
    struct hs_told told = {0};
    struct hs_job_term term;
    size_t needed = 0;
    MUST(hs_table_open(place, NO_NAME, &policy) == HS_DONE);
    MUST(hs_table_take(place, 1, 0, &term, &told) == HS_DONE);
    MUST(hs_table_propose(place, 1, (const uint8_t *)assignments[0], strlen(assignments[0]), 1, &told) == HS_DONE);
    MUST(hs_table_commit(place, 1, 2, &told) == HS_DONE);
    for (uint64_t task = 1; task <= 2; task++)
        MUST(hs_table_grant(place, task, 1, 3, room_of(512), 512, &needed) == HS_DONE);
}

/* Returns a number for a list: mostly one that is accepted, and sometimes a great one. */
static uint64_t draw_number(uint64_t below) {
    static const uint64_t great[] = {65, (uint64_t)1 << 40, ((uint64_t)1 << 40) + 1, UINT64_MAX};
    return draw(64) ? draw(below) : great[draw(COUNT(great))];
}

static struct hs_plan_policy draw_policy(void) {
    struct hs_plan_policy policy = {1,       1 + draw(3), draw(2) ? (uint64_t)1 << 63 : draw(9),
                                    draw(3), draw(20),    1 + draw(64)};
    if (draw(16) == 0)
        policy.low = draw(7);
    if (draw(32) == 0)
        policy.most = draw(2) ? 0 : 1025;
    return policy;
}

/* Makes a plan. A clerk must learn the assignment that is planned. */
static int32_t plan(struct hs_place *place, struct input input, struct hs_told *told) {
    size_t loads_len = draw(8), tasks_len = draw(5), needed = 0, room = draw(4) ? LONGEST_INPUT : draw(64);
    uint64_t *loads = numbers_of(0, loads_len), *tasks = numbers_of(1, tasks_len);
    struct hs_plan_policy policy = draw_policy();
    uint8_t *out = room_of(room);
    for (size_t at = 0; at < loads_len; at++)
        loads[at] = draw_number(100);
    for (size_t at = 0; at < tasks_len; at++)
        tasks[at] = draw(32) ? 1 + at : draw_number(66);
    int32_t code =
        hs_plan(NO_NAME, input.bytes, input.length, loads, loads_len, tasks, tasks_len, &policy, out, room, &needed);
    MUST(code != HS_NO_ROOM || needed > room);
    if (code == HS_DONE) {
        MUST(needed <= room && hs_clerk_forget(place) == HS_DONE);
        MUST(hs_clerk_learn(place, out, needed, told) == HS_DONE);
    }
    return code;
}

/* Reads an assignment by numbers. A clerk must learn the message that is made of them. */
static int32_t read_slices(struct hs_place *place, struct input input, struct hs_told *told) {
    static struct hs_slice slices[1024];
    uint64_t generation = 99;
    size_t count = 99, length = 0;
    int32_t code = hs_assignment_read(NO_NAME, input.bytes, input.length, &generation, slices, COUNT(slices), &count);
    MUST(code != HS_NO_ROOM && (code == HS_DONE || (generation == 99 && count == 99)));
    if (code == HS_DONE) {
        uint8_t *out = room_of(LONGEST_INPUT);
        int32_t made = hs_assignment_new(NO_NAME, generation, slices, count, out, LONGEST_INPUT, &length);
        MUST(made == HS_NO_ROOM || made == HS_DONE);
        MUST(made == HS_NO_ROOM || hs_clerk_forget(place) == HS_DONE);
        MUST(made == HS_NO_ROOM || hs_clerk_learn(place, out, length, told) == HS_DONE);
    }
    return code;
}

/* Weighs a grant, under a policy that is mostly one. No place and no `told` is passed. */
static int32_t weigh(struct hs_place *place, struct input input, struct hs_told *told) {
    struct hs_policy weighed = policy;
    uint32_t shown = 99;
    (void)place, (void)told;
    if (draw(16) == 0)
        weighed.high = draw(9);
    int32_t code = hs_clock_evidence(NO_NAME, input.bytes, input.length, draw(120), &weighed, &shown);
    MUST(code == HS_DONE ? shown <= 1 : shown == 99);
    return code;
}

/* Writes the line of a call with the message. A line has no line feed but its last byte. No place and no `told` is
 * passed. */
static int32_t write_line(struct hs_place *place, struct input input, struct hs_told *told) {
    size_t needed = 99, room = draw(4) ? LONGEST_INPUT : draw(64);
    uint8_t *out = room_of(room);
    struct hs_logged_call call = {.ticket = draw_number(9), .call = (uint32_t)draw(21), .code = (int32_t)draw(31) - 1};
    (void)place, (void)told;
    call.task = draw_number(66);
    call.slice_key = draw(9) << draw(64);
    call.kind = (uint32_t)draw(4);
    call.told.kind = draw(4);
    call.told.task = draw_number(66);
    call.phase = (struct hs_phase){draw(3), draw(3)};
    call.handle.task = draw_number(66);
    call.owners.count = draw(7);
    for (size_t at = 0; at < 5; at++)
        call.owners.tasks[at] = draw_number(66);
    int32_t code = hs_log_line(NO_NAME, &call, input.bytes, input.length, out, room, &needed);
    if (code == HS_DONE)
        MUST(needed > 0 && needed <= room && memchr(out, '\n', needed) == out + needed - 1);
    else
        MUST(code == HS_NO_ROOM ? needed > room : needed == 99);
    return code;
}

static void begin_book(struct hs_place *place) {
    MUST(hs_load_book_open(place, NO_NAME) == HS_DONE);
}

/* Gathers records over an assignment. What is counted is the sum of the loads. */
static int32_t gather(struct hs_place *place, struct input input, struct hs_told *told) {
    static struct hs_load_record records[8];
    size_t records_len = draw(COUNT(records) + 1), room = draw(4) ? 1024 : draw(3), needed = 99;
    uint64_t *loads = numbers_of(0, room), task = draw(32) ? 1 + draw(3) : draw_number(66);
    uint64_t before = 0, after = 0, sum = 0;
    (void)told;
    for (size_t at = 0; at < records_len; at++) {
        records[at].slice_key = draw(64) ? draw((uint64_t)1 << 53) << 10 : UINT64_MAX >> draw(2);
        records[at].weight = draw(64) ? 1 + draw(9) : draw_number((uint64_t)1 << 33);
    }
    int32_t counted = hs_load_book_total(place, task, &before);
    int32_t code =
        hs_load_book_gather(place, input.bytes, input.length, task, records, records_len, loads, room, &needed);
    MUST(hs_load_book_total(place, task, &after) == counted);
    if (code == HS_NO_ROOM)
        MUST(room < needed && needed <= 1024);
    else if (code != HS_DONE)
        MUST(needed == 99);
    for (size_t at = 0; code == HS_DONE && at < needed; at++)
        sum += loads[at];
    MUST(code != HS_DONE || needed <= room);
    MUST(after - before == sum);
    return code;
}

static uint64_t book_state(struct hs_place *place) {
    uint64_t sum = 0;
    for (uint64_t task = 1; task <= 64; task++) {
        uint64_t total = 0;
        MUST(hs_load_book_total(place, task, &total) == HS_DONE);
        sum = sum_number(sum, total);
    }
    return sum;
}

static int32_t propose(struct hs_place *place, struct input input, struct hs_told *told) {
    return hs_table_propose(place, 1, input.bytes, input.length, 3 + draw(6), told);
}

static int32_t free_rows(struct hs_place *place, struct input input, struct hs_told *told) {
    uint64_t freed = 99;
    int32_t code = hs_table_free(place, input.bytes, input.length, 3 + draw(6), &freed, told);
    MUST(code == HS_DONE ? freed == 1 : freed == 99);
    return code;
}

static uint64_t table_state(struct hs_place *place) {
    struct hs_phase phase = {0, 0};
    struct hs_row rows[4];
    size_t needed = 0;
    memset(rows, 0, sizeof rows);
    uint64_t sum = sum_number(0, (uint64_t)hs_table_phase(place, &phase));
    sum = sum_bytes(sum, &phase, sizeof phase);
    sum = sum_number(sum, (uint64_t)hs_table_rows(place, rows, 4, &needed));
    sum = sum_number(sum_bytes(sum, rows, sizeof rows), needed);
    for (uint64_t at = 2; at < 9; at++) {
        needed = 0;
        sum = sum_number(sum, (uint64_t)hs_table_grant(place, 1, 1, at, room_of(0), 0, &needed));
        sum = sum_number(sum, needed);
    }
    return sum;
}

const struct target targets[] = {
    {"hear", grants, COUNT(grants), begin_slicelet, hear, slicelet_state},
    {"learn", assignments, COUNT(assignments), begin_clerk, learn, clerk_state},
    {"propose", assignments, COUNT(assignments), begin_table, propose, table_state},
    {"free", notes, COUNT(notes), begin_table, free_rows, table_state},
    {"gather", assignments, COUNT(assignments), begin_book, gather, book_state},
    {"plan", assignments, COUNT(assignments), begin_clerk, plan, clerk_state},
    {"read", assignments, COUNT(assignments), begin_clerk, read_slices, clerk_state},
    {"evidence", grants, COUNT(grants), begin_clerk, weigh, clerk_state},
    {"log", delivered, COUNT(delivered), begin_clerk, write_line, clerk_state},
};
const size_t targets_count = COUNT(targets);
