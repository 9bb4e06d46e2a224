/* Clocks. The values were worked out by hand, from the bound that docs/verification/MODEL.md states. */
#include "checks.h"

#include <string.h>

#define LARGEST UINT64_MAX

/* While the local clock gains 3 ticks, the table's gains at most 4, and 1 more. */
static struct hs_task_clock third(uint64_t oldest) {
    struct hs_task_clock clock;
    memset(&clock, '-', sizeof clock);
    IS(hs_task_clock_new(&clock, 1, 3, 1, oldest), HS_DONE);
    return clock;
}

static int same(const struct hs_task_clock *clock, const struct hs_task_clock *other) {
    return memcmp(clock, other, sizeof *clock) == 0;
}

/* Checks that a read is done, and writes this value. */
static void reads(struct hs_task_clock *clock, uint64_t now, uint64_t value) {
    uint64_t out = UNTOLD;
    IS(hs_task_clock_read(clock, now, &out), HS_DONE);
    HOLDS(out == value && clock->given == value && clock->last == now);
}

/* Checks that a call is refused, and changes nothing. */
static void refuses_read(struct hs_task_clock *clock, uint64_t now, int32_t code) {
    uint64_t out = UNTOLD;
    struct hs_task_clock before = *clock;
    IS(hs_task_clock_read(clock, now, &out), code);
    HOLDS(out == UNTOLD && same(clock, &before));
}

static void refuses_sample(struct hs_task_clock *clock, uint64_t sent, uint64_t reading, uint64_t now, int32_t code) {
    struct hs_task_clock before = *clock;
    IS(hs_task_clock_sample(clock, sent, reading, now), code);
    HOLDS(same(clock, &before));
}

/* Each field is written by the calls, and none is taken for another. */
static void fields(void) {
    struct hs_task_clock clock;
    memset(&clock, '-', sizeof clock);
    IS(hs_task_clock_new(&clock, 2, 5, 7, 1000), HS_DONE);
    HOLDS(same(&clock, &(struct hs_task_clock){.extra = 2, .per = 5, .grain = 7, .oldest = 1000}));
    IS(hs_task_clock_sample(&clock, 11, 300, 13), HS_DONE);
    HOLDS(same(&clock, &(struct hs_task_clock){2, 5, 7, 1000, 1, 11, 300, 11, 13, 0}));
    /* 300 and 6 local ticks, of which two fifths are 2.4 and so 3, and a grain of 7 */
    reads(&clock, 17, 316);
    HOLDS(same(&clock, &(struct hs_task_clock){2, 5, 7, 1000, 1, 11, 300, 11, 17, 316}));
    /* A worse sample, sent at 12: the best one is at 302 there. */
    IS(hs_task_clock_sample(&clock, 12, 400, 19), HS_DONE);
    HOLDS(same(&clock, &(struct hs_task_clock){2, 5, 7, 1000, 1, 11, 300, 12, 19, 316}));
    IS(hs_task_clock_new(&clock, LARGEST, LARGEST - 1, LARGEST - 2, LARGEST - 3), HS_DONE);
    HOLDS(same(&clock, &(struct hs_task_clock){LARGEST, LARGEST - 1, LARGEST - 2, LARGEST - 3, 0, 0, 0, 0, 0, 0}));
}

/* `per` of 0, in a call or in a clock that no call wrote, comes before every other code. */
static void no_drift(void) {
    struct hs_task_clock clock;
    memset(&clock, '-', sizeof clock);
    struct hs_task_clock before = clock;
    IS(hs_task_clock_new(&clock, 1, 0, 1, 1000), HS_WRONG_FORM);
    HOLDS(same(&clock, &before));
    struct hs_task_clock none = {1, 0, 1, 1000, 0, 0, 0, 0, 50, 0};
    refuses_sample(&none, 60, 100, 49, HS_WRONG_FORM);
    refuses_sample(&none, 50, 100, 51, HS_WRONG_FORM);
    refuses_read(&none, 49, HS_WRONG_FORM);
    none.sampled = 1;
    refuses_read(&none, 51, HS_WRONG_FORM);
}

/* A clock returns the least bound of its samples, and never less than before. */
static void least_bound(void) {
    struct hs_task_clock clock = third(1000);
    refuses_read(&clock, 5, HS_NO_SAMPLE);
    IS(hs_task_clock_sample(&clock, 10, 100, 12), HS_DONE);
    reads(&clock, 12, 104);
    reads(&clock, 16, 109);
    /* A better sample: its bound is 108 at 17, below what was returned, and 110 at 18. */
    IS(hs_task_clock_sample(&clock, 14, 103, 16), HS_DONE);
    HOLDS(clock.sent == 14 && clock.reading == 103);
    reads(&clock, 17, 109);
    reads(&clock, 18, 110);
    /* One that was sent before and came late, and is better still: at 14 it is at 94. */
    IS(hs_task_clock_sample(&clock, 11, 90, 18), HS_DONE);
    HOLDS(clock.sent == 11 && clock.reading == 90 && clock.newest == 14);
    reads(&clock, 18, 110);
    reads(&clock, 40, 130);
    /* One that is worse: at 40 the best is at 129. */
    IS(hs_task_clock_sample(&clock, 40, 140, 41), HS_DONE);
    HOLDS(clock.sent == 11 && clock.newest == 40);
    reads(&clock, 41, 131);
    /* At 43 the best one is at 133: a sample of 133 is not better, and one of 132 is. */
    IS(hs_task_clock_sample(&clock, 43, 133, 43), HS_DONE);
    HOLDS(clock.sent == 11);
    IS(hs_task_clock_sample(&clock, 43, 132, 43), HS_DONE);
    HOLDS(clock.sent == 43 && clock.reading == 132);
    /* Two that were sent before: at 43 one of 121 is at 132 too and replaces the best, which is not
     * below it; then one of 122, sent at the same time, is worse, and does not. */
    IS(hs_task_clock_sample(&clock, 35, 121, 43), HS_DONE);
    HOLDS(clock.sent == 35 && clock.reading == 121);
    IS(hs_task_clock_sample(&clock, 35, 122, 43), HS_DONE);
    HOLDS(clock.reading == 121);
}

/* The age is that of the newest sample, also if that is not the best. */
static void ages(void) {
    struct hs_task_clock clock = third(30);
    IS(hs_task_clock_sample(&clock, 10, 100, 11), HS_DONE);
    IS(hs_task_clock_sample(&clock, 20, 120, 21), HS_DONE);
    HOLDS(clock.sent == 10 && clock.newest == 20);
    reads(&clock, 50, 155);
    refuses_read(&clock, 51, HS_TOO_OLD);
    /* One that was sent before is no newer. */
    IS(hs_task_clock_sample(&clock, 15, 130, 51), HS_DONE);
    refuses_read(&clock, 51, HS_TOO_OLD);
    IS(hs_task_clock_sample(&clock, 51, 158, 52), HS_DONE);
    reads(&clock, 52, 157);
    struct hs_task_clock strict = third(0);
    IS(hs_task_clock_sample(&strict, 7, 100, 7), HS_DONE);
    reads(&strict, 7, 101);
    refuses_read(&strict, 8, HS_TOO_OLD);
}

/* The codes in their order. */
static void order(void) {
    struct hs_task_clock clock = third(30);
    refuses_sample(&clock, 9, 100, 8, HS_SENT_AHEAD);
    IS(hs_task_clock_sample(&clock, 8, LARGEST, 8), HS_DONE);
    refuses_sample(&clock, 9, 100, 7, HS_CLOCK_BACK);
    refuses_sample(&clock, 7, 100, 7, HS_CLOCK_BACK);
    refuses_sample(&clock, LARGEST, 100, LARGEST - 1, HS_SENT_AHEAD);
    refuses_read(&clock, 7, HS_CLOCK_BACK);
    refuses_read(&clock, 8, HS_TOO_LARGE);
    refuses_read(&clock, 39, HS_TOO_OLD);
    struct hs_task_clock empty = third(30);
    empty.last = 8;
    refuses_read(&empty, 7, HS_CLOCK_BACK);
    refuses_read(&empty, 1000, HS_NO_SAMPLE);
    HOLDS(empty.last == 8);
}

/* A value is exact up to 2^64 - 1, and refused from there on. */
static void edges(void) {
    struct hs_task_clock clock = third(LARGEST);
    IS(hs_task_clock_sample(&clock, 8, LARGEST - 4, 8), HS_DONE);
    reads(&clock, 10, LARGEST);
    refuses_read(&clock, 11, HS_TOO_LARGE);
    refuses_read(&clock, LARGEST, HS_TOO_LARGE);
    reads(&clock, 10, LARGEST);
    /* A sample of which nothing can be read any more is not better. */
    IS(hs_task_clock_sample(&clock, 9, LARGEST, 10), HS_DONE);
    HOLDS(clock.sent == 8 && clock.newest == 9);

    /* The drift: 2^63 local ticks, and half of them. 2^63 + 2^62 + 2. */
    const uint64_t half = (uint64_t)1 << 63;
    IS(hs_task_clock_new(&clock, 1, 2, 2, LARGEST), HS_DONE);
    IS(hs_task_clock_sample(&clock, 0, 0, 0), HS_DONE);
    reads(&clock, half, half + half / 2 + 2);
    /* The largest drift: (2^64 - 1) * (2^64 - 1) has 128 bits, and is divided by 2^64 - 1. */
    IS(hs_task_clock_new(&clock, LARGEST, LARGEST, 0, LARGEST), HS_DONE);
    IS(hs_task_clock_sample(&clock, 0, 0, 0), HS_DONE);
    reads(&clock, half - 1, LARGEST - 1);
    refuses_read(&clock, half, HS_TOO_LARGE);
    refuses_read(&clock, LARGEST, HS_TOO_LARGE);
    IS(hs_task_clock_new(&clock, LARGEST, 1, 0, LARGEST), HS_DONE);
    IS(hs_task_clock_sample(&clock, 0, 0, 0), HS_DONE);
    reads(&clock, 0, 0);
    refuses_read(&clock, 1, HS_TOO_LARGE);
    refuses_read(&clock, LARGEST, HS_TOO_LARGE);
    /* Rounded up: one part in 2^64 - 1 of one tick is a tick. */
    IS(hs_task_clock_new(&clock, 1, LARGEST, 0, LARGEST), HS_DONE);
    IS(hs_task_clock_sample(&clock, 0, 0, 0), HS_DONE);
    reads(&clock, 0, 0);
    reads(&clock, 1, 2);
    reads(&clock, LARGEST - 1, LARGEST);
    refuses_read(&clock, LARGEST, HS_TOO_LARGE);
    /* No drift, and no grain. */
    IS(hs_task_clock_new(&clock, 0, 1, 0, LARGEST), HS_DONE);
    IS(hs_task_clock_sample(&clock, 0, 0, 0), HS_DONE);
    reads(&clock, LARGEST, LARGEST);
    /* The grain alone. */
    IS(hs_task_clock_new(&clock, 0, 1, LARGEST, LARGEST), HS_DONE);
    IS(hs_task_clock_sample(&clock, LARGEST, 0, LARGEST), HS_DONE);
    reads(&clock, LARGEST, LARGEST);
    IS(hs_task_clock_new(&clock, 0, 1, LARGEST, LARGEST), HS_DONE);
    IS(hs_task_clock_sample(&clock, LARGEST, 1, LARGEST), HS_DONE);
    refuses_read(&clock, LARGEST, HS_TOO_LARGE);
}

/* The clocks that the header proposes, in nanoseconds: a second is 1 s, 201 microseconds and the grain. */
static void nanoseconds(void) {
    const uint64_t sent = 5000000000000000000u, reading = 1000000000000000000u;
    struct hs_task_clock clock;
    IS(hs_task_clock_new(&clock, 201, 1000000, 2, LARGEST), HS_DONE);
    IS(hs_task_clock_sample(&clock, sent, reading, sent + 3000000), HS_DONE);
    reads(&clock, sent + 1000000000, reading + 1000201002);
}

/* A copy is a clock of its own. */
static void copies(void) {
    struct hs_task_clock clock = third(1000);
    IS(hs_task_clock_sample(&clock, 10, 100, 12), HS_DONE);
    struct hs_task_clock copy = clock;
    reads(&copy, 16, 109);
    reads(&clock, 12, 104);
}

/* Numbers that no call wrote are safe, and a field of no use is kept. */
static void other_numbers(void) {
    struct hs_task_clock clock;
    memset(&clock, 255, sizeof clock);
    refuses_read(&clock, LARGEST - 1, HS_CLOCK_BACK);
    refuses_read(&clock, LARGEST, HS_TOO_LARGE);
    clock = (struct hs_task_clock){0, 1, 0, 5, 9, 3, 40, 4, 2, 6};
    reads(&clock, 7, 44);
    HOLDS(clock.sampled != 0 && clock.sent == 3 && clock.reading == 40 && clock.newest == 4);
    /* A `sent` above `now` counts as no time. */
    clock = (struct hs_task_clock){1, 1, 0, 5, 1, 90, 40, 90, 2, 6};
    reads(&clock, 7, 40);
}

static void table_reads(struct hs_table_clock *clock, uint64_t now, uint64_t reading) {
    uint64_t out = UNTOLD;
    struct hs_table_clock wanted = *clock;
    wanted.last = now;
    IS(hs_table_clock_read(clock, now, &out), HS_DONE);
    HOLDS(out == reading && memcmp(clock, &wanted, sizeof wanted) == 0);
}

static void table_refuses(struct hs_table_clock *clock, uint64_t now, int32_t code) {
    uint64_t out = UNTOLD;
    struct hs_table_clock before = *clock;
    IS(hs_table_clock_read(clock, now, &out), code);
    HOLDS(out == UNTOLD && memcmp(clock, &before, sizeof before) == 0);
}

static struct hs_table_clock opened(uint64_t kept, uint64_t ahead, uint64_t now, uint64_t start) {
    struct hs_table_clock clock, wanted = {start, now, kept, now};
    memset(&clock, '-', sizeof clock);
    IS(hs_table_clock_open(&clock, kept, ahead, now), HS_DONE);
    HOLDS(memcmp(&clock, &wanted, sizeof wanted) == 0);
    return clock;
}

static void tables(void) {
    struct hs_table_clock clock = opened(1000, 100, 7, 900);
    table_refuses(&clock, 6, HS_CLOCK_BACK);
    table_refuses(&clock, 50, HS_NOT_YET);
    table_refuses(&clock, 106, HS_NOT_YET);
    table_reads(&clock, 107, 1000);
    table_reads(&clock, 110, 1003);
    table_refuses(&clock, 109, HS_CLOCK_BACK);
    table_reads(&clock, 110, 1003);
    /* The next process, whose local clock is far behind, goes on from there. */
    clock = opened(1008, 10, 3, 998);
    table_refuses(&clock, 12, HS_NOT_YET);
    table_reads(&clock, 13, 1008);
    /* The first process, and nothing ahead. */
    clock = opened(0, 100, 40, 0);
    table_reads(&clock, 40, 0);
    table_reads(&clock, 41, 1);
    clock = opened(50, 51, 40, 0);
    table_refuses(&clock, 89, HS_NOT_YET);
    table_reads(&clock, 90, 50);
    clock = opened(50, 0, 40, 50);
    table_reads(&clock, 40, 50);
}

static void table_edges(void) {
    struct hs_table_clock clock = opened(LARGEST, 0, 0, LARGEST);
    table_reads(&clock, 0, LARGEST);
    table_refuses(&clock, 1, HS_TOO_LARGE);
    clock = opened(LARGEST, LARGEST, 5, 0);
    table_refuses(&clock, LARGEST, HS_NOT_YET);
    clock = opened(LARGEST, LARGEST, 0, 0);
    table_refuses(&clock, LARGEST - 1, HS_NOT_YET);
    table_reads(&clock, LARGEST, LARGEST);
    clock = opened(0, 0, LARGEST, 0);
    table_refuses(&clock, LARGEST - 1, HS_CLOCK_BACK);
    table_reads(&clock, LARGEST, 0);
    /* Numbers that no call wrote: what is too large is told before what was kept. */
    clock = (struct hs_table_clock){LARGEST, 1, LARGEST, 1};
    table_refuses(&clock, 2, HS_TOO_LARGE);
    clock = (struct hs_table_clock){7, 90, 3, 1};
    table_reads(&clock, 2, 7);
}

static int32_t weigh_bytes(const char *grant, size_t length, uint64_t at, const struct hs_policy *by, uint32_t *out) {
    uint8_t *copy = block_of(grant, length);
    *out = UNTOLD;
    int32_t code = hs_clock_evidence(JOB, copy, length, at, by, out);
    drop_block(copy);
    HOLDS(code == HS_DONE ? *out <= 1 : *out == UNTOLD);
    return code;
}

/* Checks what a grant shows at a reading. */
static void shows(const char *grant, uint64_t at, const struct hs_policy *by, uint32_t wanted) {
    uint32_t shown = UNTOLD;
    IS(weigh_bytes(grant, strlen(grant), at, by, &shown), HS_DONE);
    HOLDS(shown == wanted);
}

static void no_grant(const char *text, int32_t code) {
    uint32_t shown = UNTOLD;
    IS(weigh_bytes(text, strlen(text), 0, &policy, &shown), code);
}

/* A grant that the table made at 40: its deadline is 140 there for a guard, and 240 for a bridge. */
#define MADE_AT_40(kind, until)                                                                                        \
    MESSAGE("grant", "\"ends\":130,\"generation\":3,\"kind\":\"" kind                                                  \
                     "\",\"life\":1,\"number\":7,\"ranges\":" ALL_KEYS ",\"task\":2,\"until\":" until)

static void evidence(void) {
    static const char guard[] = MADE_AT_40("guard", "140"), bridge[] = MADE_AT_40("bridge", "240");
    /* The skew is 10: at 30 clocks may be timely, at 29 they are not. */
    shows(guard, 29, &policy, 1);
    shows(guard, 30, &policy, 0);
    shows(bridge, 29, &policy, 1);
    shows(bridge, 30, &policy, 0);
    shows(guard, 0, &policy, 1);
    shows(guard, LARGEST, &policy, 0);
    shows(guard, LARGEST - 10, &policy, 0);
    struct hs_policy exact = policy;
    exact.skew = 0;
    shows(guard, 39, &exact, 1);
    shows(guard, 40, &exact, 0);
    /* A deadline before the end of a term, which no table gives, was made at 0. */
    shows(MADE_AT_40("guard", "99"), 0, &exact, 0);
    shows(MADE_AT_40("guard", "101"), 0, &exact, 1);
    shows(MADE_AT_40("bridge", "18446744073709551615"), LARGEST - 211, &policy, 1);
    shows(MADE_AT_40("bridge", "18446744073709551615"), LARGEST - 210, &policy, 0);
}

/* Numbers that are no policy come before bytes that are no grant. */
static void no_evidence(void) {
    static const char grant[] = MADE_AT_40("guard", "140");
    uint32_t shown = UNTOLD;
    const struct hs_policy none[] = {{0, 1, 10, 100, 200, 1000, 1000}, {2, 1, 10, 100, 200, 1000, 1000},
                                     {1, 6, 10, 100, 200, 1000, 1000}, {1, 1, 100, 100, 200, 1000, 1000},
                                     {1, 1, 10, 0, 200, 1000, 1000},   {1, 1, 10, 100, 10, 1000, 1000},
                                     {1, 1, 10, 100, 200, 0, 1000},    {1, 1, 10, 100, 200, 1000, 0}};
    for (size_t at = 0; at < sizeof none / sizeof *none; at++) {
        IS(weigh_bytes(grant, strlen(grant), 0, &none[at], &shown), HS_WRONG_FORM);
        IS(weigh_bytes("{", 1, 0, &none[at], &shown), HS_WRONG_FORM);
    }
    for (size_t length = 0; length < strlen(grant); length++)
        IS(weigh_bytes(grant, length, 0, &policy, &shown), HS_NOT_JSON);
    no_grant("{\"version\":1}", HS_WRONG_FORM);
    no_grant("{\"version\":9}", HS_VERSION);
    no_grant(NOTE("guard", "1", "7", "2"), HS_OTHER_TYPE);
    no_grant(GRANT("guard", "1", "7", "[[0,5],[4,9]]", "2"), HS_UNSORTED);
    no_grant(GRANT("guard", "1", "7", "[[5,5]]", "2"), HS_EMPTY);
    no_grant(GRANT("guard", "1", "7", "[[0,9223372036854775809]]", "2"), HS_PAST_END);
}

void check_clocks(void) {
    fields();
    no_drift();
    least_bound();
    ages();
    order();
    edges();
    nanoseconds();
    copies();
    other_numbers();
    tables();
    table_edges();
    evidence();
    no_evidence();
}
