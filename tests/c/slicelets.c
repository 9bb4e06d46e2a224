/* Slicelets. Expected codes follow from the refusals in docs/FORMATS.md; the numbers were worked out by hand. */
#include "checks.h"

#include <string.h>

static const char all_keys[] = GRANT("guard", "1", "7", ALL_KEYS, "2");
static const char note[] = WRITTEN_NOTE("guard", "1", "7", "2");

static int32_t serve(struct hs_place *place, uint64_t at) {
    return hs_slicelet_serve(place, HELLO, at, fresh_told());
}

static struct hs_place opened(void) {
    struct hs_place place = new_place();
    IS(hs_slicelet_open(&place, JOB, 0), HS_WRONG_FORM);
    IS(hs_slicelet_open(&place, JOB, 65), HS_WRONG_FORM);
    IS(hs_slicelet_open(&place, JOB, UINT64_MAX), HS_WRONG_FORM);
    IS(hs_slicelet_open(&place, JOB, 64), HS_DONE);
    IS(hs_slicelet_open(&place, JOB, 1), HS_DONE);
    IS(hs_slicelet_open(&place, JOB, 2), HS_DONE);
    return place;
}

/* Before the first life, nothing is heard, released or served. */
static void starts(struct hs_place *place) {
    struct hs_key_handle handle = {9, 9, 9, 9};
    uint8_t out[256];
    size_t needed = 0;
    STAYS(slicelet_state(place), hear(place, all_keys, 5), HS_NOT_STARTED);
    IS(hs_slicelet_release(place, HS_GUARD, 5, out, sizeof out, &needed), HS_NOT_STARTED);
    IS(serve(place, 5), HS_DOWN);
    IS(hs_slicelet_hold(place, HELLO, 5, &handle, fresh_told()), HS_DOWN);
    HOLDS(handle.task == 9 && handle.slice_key == 9 && handle.position == 9 && handle.life == 9);
    STAYS(slicelet_state(place), hs_slicelet_start(place, 0, 3), HS_OLD_LIFE);
    IS(hs_slicelet_start(place, 1, 3), HS_DONE);
    STAYS(slicelet_state(place), hs_slicelet_start(place, 1, 3), HS_OLD_LIFE);
    STAYS(slicelet_state(place), hs_slicelet_start(place, 2, 2), HS_CLOCK_BACK);
    IS(serve(place, 3), HS_NO_LEASE);
    IS(serve(place, 2), HS_CLOCK_BACK);
    HOLDS(tells(UNTOLD, UNTOLD, UNTOLD, UNTOLD, UNTOLD));
}

/* Bytes that are not a grant. */
static void unread(struct hs_place *place) {
    for (size_t length = 0; length < strlen(all_keys); length++)
        IS(hear_bytes(place, all_keys, length, 5), HS_NOT_JSON);
    STAYS(slicelet_state(place), hear(place, "{", 5), HS_NOT_JSON);
    IS(hear_bytes(place, "{\"version\":1}\0", 14, 5), HS_NOT_JSON);
    IS(hear(place, "\"\xff\"", 5), HS_NOT_JSON);
    IS(hear(place, "[]", 5), HS_WRONG_FORM);
    IS(hear(place, "{\"version\":\"1\"}", 5), HS_WRONG_FORM);
    IS(hear(place, "{\"version\":1}", 5), HS_WRONG_FORM);
    IS(hear(place, "{\"version\":9}", 5), HS_VERSION);
    HOLDS(tells(9, UNTOLD, UNTOLD, UNTOLD, UNTOLD));
    IS(hear(place, note, 5), HS_OTHER_TYPE);
    HOLDS(tells(UNTOLD, UNTOLD, UNTOLD, UNTOLD, UNTOLD));
    IS(hear(place, GRANT("guard", "1", "7", "[[0,5],[4,9]]", "2"), 5), HS_UNSORTED);
    IS(hear(place, GRANT("guard", "1", "7", "[[5,5]]", "2"), 5), HS_EMPTY);
    IS(hear(place, GRANT("guard", "1", "7", "[[0,9223372036854775809]]", "2"), 5), HS_PAST_END);
}

/* Grants with a member that is missing, unknown or outside its limits. */
static void wrong_members(struct hs_place *place) {
    IS(hear(place, MESSAGE("grant", ""), 5), HS_WRONG_FORM);
    IS(hear(place, MESSAGE("grant", "\"ends\":95"), 5), HS_WRONG_FORM);
    IS(hear(place, GRANT("both", "1", "7", ALL_KEYS, "2"), 5), HS_WRONG_FORM);
    IS(hear(place, GRANT("guard", "4294967296", "7", ALL_KEYS, "2"), 5), HS_WRONG_FORM);
    IS(hear(place, GRANT("guard", "1", "-7", ALL_KEYS, "2"), 5), HS_WRONG_FORM);
    IS(hear(place, GRANT("guard", "1", "7.5", ALL_KEYS, "2"), 5), HS_WRONG_FORM);
    IS(hear(place, GRANT("guard", "1", "18446744073709551616", ALL_KEYS, "2"), 5), HS_WRONG_FORM);
    IS(hear(place, GRANT("guard", "1", "\"7\"", ALL_KEYS, "2"), 5), HS_WRONG_FORM);
    IS(hear(place, GRANT("guard", "1", "7", "[[0]]", "2"), 5), HS_WRONG_FORM);
    IS(hear(place, GRANT("guard", "1", "7", "{}", "2"), 5), HS_WRONG_FORM);
    IS(hear(place, GRANT("guard", "1", "7", ALL_KEYS, "0"), 5), HS_WRONG_FORM);
    IS(hear(place, GRANT("guard", "1", "7", ALL_KEYS, "65"), 5), HS_WRONG_FORM);
    IS(hear(place, GRANT("guard", "1", "7", ALL_KEYS, "2,\"more\":1"), 5), HS_WRONG_FORM);
}

static void hears(struct hs_place *place) {
    STAYS(slicelet_state(place), hear(place, all_keys, 2), HS_CLOCK_BACK);
    STAYS(slicelet_state(place), hear(place, GRANT("guard", "1", "7", ALL_KEYS, "3"), 5), HS_OTHER_TASK);
    STAYS(slicelet_state(place), hear(place, GRANT("guard", "2", "7", ALL_KEYS, "2"), 5), HS_OTHER_LIFE);
    STAYS(slicelet_state(place), hear(place, all_keys, 95), HS_TOO_LATE);
    IS(serve(place, 5), HS_NO_LEASE);
    IS(hear(place, GRANT("bridge", "1", "8", "[[0,5],[9,10]]", "2"), 5), HS_DONE);
    HOLDS(tells(8, 3, HS_BRIDGE, UNTOLD, 95));
    IS(serve(place, 5), HS_NOT_OWNED);
    HOLDS(tells(UNTOLD, 3, UNTOLD, UNTOLD, UNTOLD));
    IS(hear(place, all_keys, 5), HS_DONE);
    HOLDS(tells(7, 3, HS_GUARD, UNTOLD, 95));
    STAYS(slicelet_state(place), hear(place, all_keys, 5), HS_OLD);
    HOLDS(tells(7, UNTOLD, UNTOLD, UNTOLD, UNTOLD));
    IS(serve(place, 4), HS_CLOCK_BACK);
    IS(serve(place, 94), HS_DONE);
    HOLDS(tells(7, 3, HS_GUARD, UNTOLD, 95));
    IS(serve(place, 95), HS_ENDED);
    HOLDS(tells(UNTOLD, UNTOLD, UNTOLD, UNTOLD, UNTOLD));
}

/* A handle that is taken after three calls: a start and two grants. */
static void holds(struct hs_place *place, struct hs_key_handle *handle) {
    IS(hs_slicelet_hold(place, HELLO, 95, handle, fresh_told()), HS_ENDED);
    HOLDS(handle->task == 0 && handle->position == 0);
    IS(hs_slicelet_hold(place, HELLO, 6, handle, fresh_told()), HS_DONE);
    HOLDS(handle->task == 2 && handle->life == 1 && handle->position == 3);
    HOLDS(handle->slice_key == hs_slice_key(HELLO));
    HOLDS(tells(7, 3, HS_GUARD, UNTOLD, 95) && tells_covering(3));
    IS(hs_slicelet_check(place, handle, 94), HS_DONE);
    IS(hs_slicelet_check(place, handle, 95), HS_BROKEN);
    IS(hs_slicelet_check(place, handle, 4), HS_BROKEN);
}

static int32_t check_other(struct hs_place *place, uint64_t task, uint64_t slice_key, uint64_t position,
                           uint32_t life) {
    const struct hs_key_handle handle = {task, slice_key, position, life};
    return hs_slicelet_check(place, &handle, 6);
}

static void checks_others(struct hs_place *place) {
    uint64_t key = hs_slice_key(HELLO);
    IS(check_other(place, 2, key, 3, 1), HS_DONE);
    IS(check_other(place, 0, key, 3, 1), HS_WRONG_FORM);
    IS(check_other(place, 65, key, 3, 1), HS_WRONG_FORM);
    IS(check_other(place, 2, (uint64_t)1 << 63, 3, 1), HS_WRONG_FORM);
    IS(check_other(place, 2, UINT64_MAX, 3, 1), HS_WRONG_FORM);
    IS(check_other(place, 3, key, 3, 1), HS_STRANGER);
    IS(check_other(place, 2, key, 4, 1), HS_STRANGER);
    IS(check_other(place, 2, key, 0, 2), HS_STRANGER);
    IS(check_other(place, 2, key, 2, 1), HS_BROKEN);
    IS(check_other(place, 2, key, 9, 0), HS_STRANGER);
}

/* The note is written whole or not at all. If it is not written, the lease is still held. */
static void releases(struct hs_place *place, const struct hs_key_handle *handle) {
    size_t needed = 0, length = strlen(note);
    uint8_t *out = dashes(length);
    IS(hs_slicelet_release(place, 0, 7, out, length, &needed), HS_WRONG_FORM);
    IS(hs_slicelet_release(place, 3, 7, out, length, &needed), HS_WRONG_FORM);
    IS(hs_slicelet_release(place, HS_GUARD, 4, out, length, &needed), HS_CLOCK_BACK);
    uint8_t *nothing = dashes(0);
    STAYS(slicelet_state(place), hs_slicelet_release(place, HS_GUARD, 7, nothing, 0, &needed), HS_NO_ROOM);
    drop_block(nothing);
    HOLDS(needed == length);
    uint8_t *shorter = dashes(length - 1);
    STAYS(slicelet_state(place), hs_slicelet_release(place, HS_GUARD, 7, shorter, length - 1, &needed), HS_NO_ROOM);
    HOLDS(needed == length && are_dashes(shorter, length - 1));
    drop_block(shorter);
    HOLDS(are_dashes(out, length));
    IS(serve(place, 6), HS_DONE);
    IS(hs_slicelet_release(place, HS_GUARD, 7, out, length, &needed), HS_DONE);
    HOLDS(needed == length && memcmp(out, note, length) == 0);
    drop_block(out);
    uint8_t *longer = dashes(300);
    STAYS(slicelet_state(place), hs_slicelet_release(place, HS_GUARD, 7, longer, 300, &needed), HS_NOTHING_HELD);
    HOLDS(are_dashes(longer, 300));
    IS(hs_slicelet_release(place, HS_BRIDGE, 7, longer, 300, &needed), HS_DONE);
    HOLDS(needed == strlen(WRITTEN_NOTE("bridge", "1", "8", "2")) && are_dashes(longer + needed, 300 - needed));
    HOLDS(memcmp(longer, WRITTEN_NOTE("bridge", "1", "8", "2"), needed) == 0);
    drop_block(longer);
    IS(hs_slicelet_check(place, handle, 7), HS_BROKEN);
    IS(serve(place, 7), HS_NO_LEASE);
    IS(hear(place, all_keys, 7), HS_OLD);
}

/* A new life holds no lease, and hears any number again. */
static void restarts(struct hs_place *place, const struct hs_key_handle *handle) {
    IS(hs_slicelet_start(place, 2, 8), HS_DONE);
    IS(hear(place, all_keys, 8), HS_OTHER_LIFE);
    IS(hear(place, GRANT("guard", "2", "1", ALL_KEYS, "2"), 8), HS_DONE);
    IS(serve(place, 8), HS_DONE);
    IS(hs_slicelet_check(place, handle, 8), HS_BROKEN);
}

/* A lease that has ended can be released: the table still needs its note. */
static void late_release(void) {
    struct hs_place place = serving_task();
    uint8_t out[256];
    size_t needed = 0;
    IS(hs_slicelet_release(&place, HS_GUARD, UINT64_MAX, out, sizeof out, &needed), HS_DONE);
    HOLDS(needed == strlen(note) && memcmp(out, note, needed) == 0);
    IS(serve(&place, UINT64_MAX - 1), HS_CLOCK_BACK);
    IS(serve(&place, UINT64_MAX), HS_NO_LEASE);
    hs_place_free(&place);
}

/* A slicelet accepts 65,536 calls and then no more. */
static void fills_up(void) {
    struct hs_place place = new_place();
    uint8_t out[256];
    size_t needed = 0;
    struct hs_key_handle handle = {0, 0, 0, 0};
    IS(hs_slicelet_open(&place, JOB, 2), HS_DONE);
    for (uint32_t life = 1; life < 65536; life++)
        IS(hs_slicelet_start(&place, life, 3), HS_DONE);
    IS(hear(&place, GRANT("guard", "65535", "7", ALL_KEYS, "2"), 5), HS_DONE);
    IS(hs_slicelet_start(&place, 70000, 6), HS_HISTORY_FULL);
    IS(hear(&place, GRANT("guard", "65535", "8", ALL_KEYS, "2"), 6), HS_HISTORY_FULL);
    IS(hs_slicelet_release(&place, HS_GUARD, 6, out, sizeof out, &needed), HS_HISTORY_FULL);
    IS(serve(&place, 5), HS_DONE);
    IS(hs_slicelet_hold(&place, HELLO, 5, &handle, fresh_told()), HS_DONE);
    HOLDS(handle.position == 65536);
    IS(hs_slicelet_check(&place, &handle, 94), HS_DONE);
    hs_place_free(&place);
}

/* The guard lease is asked first, and then the bridge lease. HS_NOT_OWNED sets the greater generation of
 * two live leases. */
static void two_leases(void) {
    struct hs_place place = serving_task();
    const char *bridge = MESSAGE("grant", "\"ends\":99,\"generation\":4,\"kind\":\"bridge\",\"life\":1,\"number\":9,"
                                          "\"ranges\":[[0,4611686018427387904]],\"task\":2,\"until\":109");
    IS(hear(&place, bridge, 6), HS_DONE);
    HOLDS(tells(9, 4, HS_BRIDGE, UNTOLD, 99));
    IS(serve(&place, 94), HS_DONE);
    HOLDS(tells(7, 3, HS_GUARD, UNTOLD, 95) && tells_covering(4));
    IS(serve(&place, 95), HS_DONE);
    HOLDS(tells(9, 4, HS_BRIDGE, UNTOLD, 99) && tells_covering(4));
    IS(hs_slicelet_serve(&place, ABC, 98, fresh_told()), HS_ENDED);
    HOLDS(tells_covering(3));
    IS(hear(&place, GRANT("guard", "1", "10", "[[0,5]]", "2"), 7), HS_DONE);
    IS(hs_slicelet_serve(&place, ABC, 94, fresh_told()), HS_NOT_OWNED);
    HOLDS(tells(UNTOLD, 4, UNTOLD, UNTOLD, UNTOLD) && tells_covering(0));
    IS(serve(&place, 99), HS_ENDED);
    HOLDS(tells_covering(4));
    hs_place_free(&place);
}

/* Whether a token is of an epoch, a generation and a life that are below 256. */
static int is_token(const struct hs_token *token, uint8_t epoch, uint8_t generation, uint8_t life) {
    const uint8_t bytes[16] = {[3] = epoch, [11] = generation, [15] = life};
    return memcmp(token->bytes, bytes, sizeof bytes) == 0;
}

/* The greatest generation of the leases that cover the key, live or ended. */
static void tokens(void) {
    struct hs_place place = serving_task();
    const char *bridge = MESSAGE("grant", "\"ends\":99,\"generation\":4,\"kind\":\"bridge\",\"life\":1,\"number\":9,"
                                          "\"ranges\":[[0,4611686018427387904]],\"task\":2,\"until\":109");
    struct hs_token token = {{7, [15] = 7}}, before = token;
    IS(hs_slicelet_token(&place, 2, 9, HELLO, 95, &token), HS_MANY_OWNERS);
    IS(hs_slicelet_token(&place, 1, 9, HELLO, 95, &token), HS_ENDED);
    IS(hs_slicelet_token(&place, 1, 9, HELLO, 0, &token), HS_CLOCK_BACK);
    IS(hs_slicelet_token_at(&place, 2, 9, (uint64_t)1 << 63, 6, &token), HS_WRONG_FORM);
    HOLDS(memcmp(&token, &before, sizeof token) == 0);
    IS(hs_slicelet_token(&place, 1, 9, HELLO, 94, &token), HS_DONE);
    HOLDS(is_token(&token, 9, 3, 1));
    IS(hear(&place, bridge, 6), HS_DONE);
    IS(hs_slicelet_token(&place, 0, 8, HELLO, 94, &token), HS_DONE);
    HOLDS(is_token(&token, 8, 4, 1));
    IS(hs_slicelet_token_at(&place, 1, 9, hs_slice_key(ABC), 94, &token), HS_DONE);
    HOLDS(is_token(&token, 9, 3, 1));
    IS(hs_slicelet_token_at(&place, 1, 9, hs_slice_key(HELLO), 95, &token), HS_DONE);
    HOLDS(is_token(&token, 9, 4, 1));
    hs_place_free(&place);
}

/* Tokens are compared by epoch, generation and life, and a refused one changes nothing. */
static void fences(void) {
    static const uint8_t offered[][5] = {/* epoch, generation, life; whether it is accepted, and is the greatest */
                                         {1, 2, 9, 1, 1}, {1, 2, 8, 0, 0}, {1, 1, 10, 0, 0}, {1, 3, 1, 1, 1},
                                         {1, 3, 1, 1, 1}, {0, 9, 9, 0, 0}, {2, 1, 1, 1, 1},  {1, 200, 200, 0, 0}};
    struct hs_token greatest = {{0}}, none = {{0}};
    IS(hs_fence_accept(&greatest, &none), HS_DONE);
    for (size_t at = 0; at < sizeof offered / sizeof *offered; at++) {
        const uint8_t *it = offered[at];
        const struct hs_token token = {{[3] = it[0], [11] = it[1], [15] = it[2]}}, before = greatest;
        IS(hs_fence_accept(&greatest, &token), it[3] ? HS_DONE : HS_FENCED);
        HOLDS(memcmp(&greatest, it[4] ? &token : &before, sizeof greatest) == 0);
    }
    const struct hs_token large = {{0, 0, 1, 0}}, above = {{0, 0, 1, 0, [5] = 1}};
    IS(hs_fence_accept(&greatest, &large), HS_DONE);
    IS(hs_fence_accept(&greatest, &above), HS_DONE);
    IS(hs_fence_accept(&greatest, &large), HS_FENCED);
}

/* By slice key as by the key that has it. */
static void by_slice_key(void) {
    struct hs_place task = serving_task();
    const uint64_t hello = hs_slice_key(HELLO), keys = (uint64_t)1 << 63;
    struct hs_key_handle handle = {5, 5, 5, 5};
    IS(hs_slicelet_serve_at(&task, hello, 6, fresh_told()), HS_DONE);
    HOLDS(tells(7, 3, HS_GUARD, UNTOLD, 95));
    IS(hs_slicelet_serve_at(&task, keys - 1, 6, fresh_told()), HS_DONE);
    IS(hs_slicelet_serve_at(&task, hello, 95, fresh_told()), HS_ENDED);
    IS(hs_slicelet_serve_at(&task, keys, 6, fresh_told()), HS_WRONG_FORM);
    IS(hs_slicelet_serve_at(&task, UINT64_MAX, 6, fresh_told()), HS_WRONG_FORM);
    IS(hs_slicelet_hold_at(&task, hello, 95, &handle, fresh_told()), HS_ENDED);
    IS(hs_slicelet_hold_at(&task, keys, 6, &handle, fresh_told()), HS_WRONG_FORM);
    HOLDS(tells_covering(UNTOLD));
    HOLDS(handle.task == 5 && handle.slice_key == 5 && handle.position == 5 && handle.life == 5);
    IS(hs_slicelet_hold_at(&task, hello, 6, &handle, fresh_told()), HS_DONE);
    HOLDS(handle.task == 2 && handle.slice_key == hello && handle.position == 2 && handle.life == 1);
    HOLDS(tells(7, 3, HS_GUARD, UNTOLD, 95) && tells_covering(3));
    hs_place_free(&task);
}

/* Checks that a line is the one that hs_log_line writes of the same call. */
static void logged_as(uint32_t call, int32_t code, const struct hs_block *block, const uint8_t *line, size_t length) {
    struct hs_logged_call same = {.ticket = block->ticket,
                                  .call = call,
                                  .code = code,
                                  .task = 2,
                                  .at = block->at,
                                  .slice_key = hs_slice_key(HELLO),
                                  .told = block->told,
                                  .handle = block->handle};
    uint8_t out[512];
    size_t needed = 0;
    IS(hs_log_line(JOB, &same, (const uint8_t *)"", 0, out, sizeof out, &needed), HS_DONE);
    HOLDS(length == needed && memcmp(line, out, needed) == 0);
}

/* A block is entered and left at the values of a clock that is 6 ahead of the local one. */
static void blocks(void) {
    struct hs_place task = serving_task();
    struct hs_task_clock clock, before;
    struct hs_block block = {.ticket = 21};
    uint8_t line[512];
    size_t needed = UNTOLD;
    IS(hs_task_clock_new(&clock, 0, 1, 0, UINT64_MAX), HS_DONE);
    IS(hs_slicelet_enter(&task, &clock, 0, HELLO, &block, line, sizeof line, &needed), HS_NO_SAMPLE);
    HOLDS(needed == UNTOLD && block.at == 0);
    IS(hs_task_clock_sample(&clock, 0, 6, 0), HS_DONE);
    before = clock;
    IS(hs_slicelet_enter(&task, &clock, 1, HELLO, &block, line, 1, &needed), HS_NO_ROOM);
    HOLDS(needed > 1 && block.at == 0 && memcmp(&clock, &before, sizeof clock) == 0);
    IS(hs_slicelet_enter_at(&task, &clock, 1, UINT64_MAX, &block, line, sizeof line, &needed), HS_WRONG_FORM);
    HOLDS(block.at == 0 && memcmp(&clock, &before, sizeof clock) == 0);
    IS(hs_slicelet_enter(&task, &clock, 1, HELLO, &block, line, sizeof line, &needed), HS_DONE);
    HOLDS(block.at == 7 && clock.given == 7 && block.handle.position == 2 && block.handle.life == 1);
    HOLDS(block.told.number == 7 && block.told.generation == 3 && block.told.until == 95 && block.told.covering == 3);
    logged_as(HS_CALL_HOLD, HS_DONE, &block, line, needed);
    block.ticket = 22;
    IS(hs_slicelet_leave(&task, &clock, 87, &block, line, 0, &needed), HS_DONE);
    HOLDS(needed == 0 && block.at == 93);
    IS(hs_slicelet_leave(&task, &clock, 89, &block, line, sizeof line, &needed), HS_BROKEN);
    HOLDS(block.at == 95 && clock.given == 95);
    logged_as(HS_CALL_CHECK, HS_BROKEN, &block, line, needed);
    block.told.covering = 0;
    IS(hs_slicelet_enter_at(&task, &clock, 89, hs_slice_key(HELLO), &block, line, sizeof line, &needed), HS_ENDED);
    HOLDS(block.told.covering == 3);
    logged_as(HS_CALL_HOLD, HS_ENDED, &block, line, needed);
    IS(hs_slicelet_leave(&task, &clock, 88, &block, line, sizeof line, &needed), HS_CLOCK_BACK);
    HOLDS(block.at == 95);
    hs_place_free(&task);
}

/* A grant that was made at a reading of 40, by the policy, and may be heard until 130. */
static const char ahead[] = MESSAGE("grant", "\"ends\":130,\"generation\":3,\"kind\":\"guard\",\"life\":1,"
                                             "\"number\":9,\"ranges\":[[0,5]],\"task\":2,\"until\":140");

/* A task with its clock, and what was written of the last grant that it received. */
struct receiver {
    struct hs_place place;
    struct hs_task_clock clock;
    struct hs_receipt receipt;
    uint8_t line[1024];
    size_t needed;
};

/* The value of its clock is 6 ahead of the local reading, for at most 90 ticks. */
static struct receiver receiver(void) {
    struct receiver made = {.place = serving_task(), .needed = UNTOLD};
    memset(&made.receipt, '-', sizeof made.receipt);
    memset(made.line, '-', sizeof made.line);
    made.receipt.ticket = 23;
    IS(hs_task_clock_new(&made.clock, 0, 1, 0, 90), HS_DONE);
    IS(hs_task_clock_sample(&made.clock, 0, 6, 0), HS_DONE);
    return made;
}

static int32_t receive(struct receiver *task, uint64_t now, const struct hs_policy *by, const char *text, size_t room) {
    return hs_slicelet_receive(&task->place, &task->clock, now, by, (const uint8_t *)text, strlen(text), &task->receipt,
                               task->line, room, &task->needed);
}

/* The same by the calls that it is made of. */
static int32_t receive_by_parts(struct receiver *task, uint64_t now, const struct hs_policy *by, const char *text) {
    struct hs_task_clock clock = task->clock;
    struct hs_receipt receipt = task->receipt;
    const uint8_t *grant = (const uint8_t *)text;
    int32_t code = hs_task_clock_read(&clock, now, &receipt.at);
    if (code == HS_DONE)
        code = hs_clock_evidence(JOB, grant, strlen(text), receipt.at, by, &receipt.evidence);
    if (code != HS_DONE)
        return code;
    task->needed = 0;
    if (!receipt.evidence) {
        code = hs_slicelet_hear(&task->place, grant, strlen(text), receipt.at, &receipt.told);
        struct hs_logged_call call = {.ticket = receipt.ticket,
                                      .call = HS_CALL_HEAR,
                                      .code = code,
                                      .task = 2,
                                      .at = receipt.at,
                                      .told = receipt.told};
        IS(hs_log_line(JOB, &call, grant, strlen(text), task->line, sizeof task->line, &task->needed), HS_DONE);
    }
    task->clock = clock;
    task->receipt = receipt;
    return code;
}

static int told_alike(const struct hs_receipt *one, const struct hs_receipt *other) {
    return one->ticket == other->ticket && one->at == other->at && one->evidence == other->evidence &&
           memcmp(&one->told, &other->told, sizeof one->told) == 0;
}

static int are_alike(struct receiver *one, struct receiver *other) {
    return slicelet_state(&one->place) == slicelet_state(&other->place) && one->needed == other->needed &&
           memcmp(&one->clock, &other->clock, sizeof one->clock) == 0 && told_alike(&one->receipt, &other->receipt) &&
           memcmp(one->line, other->line, sizeof one->line) == 0;
}

/* In one call as by its parts. */
static void receives(uint64_t now, const struct hs_policy *by, const char *text, int32_t wanted) {
    struct receiver one = receiver(), other = receiver();
    IS(receive(&one, now, by, text, sizeof one.line), wanted);
    IS(receive_by_parts(&other, now, by, text), wanted);
    HOLDS(are_alike(&one, &other));
    hs_place_free(&one.place);
    hs_place_free(&other.place);
}

/* A call that is not made changes nothing. */
static void receives_nothing(uint64_t now, const struct hs_policy *by, const char *text, size_t room, int32_t wanted) {
    struct receiver one = receiver(), other = receiver();
    IS(receive(&one, now, by, text, room), wanted);
    HOLDS(wanted == HS_NO_ROOM ? one.needed > room : one.needed == UNTOLD);
    one.needed = other.needed;
    HOLDS(are_alike(&one, &other));
    hs_place_free(&one.place);
    hs_place_free(&other.place);
}

static void receives_without_line(void) {
    struct receiver one = receiver(), other = receiver();
    IS(receive(&one, 24, &policy, ahead, 0), HS_DONE);
    HOLDS(one.needed == 0 && are_dashes(one.line, sizeof one.line) && one.receipt.evidence == 0);
    IS(receive_by_parts(&other, 24, &policy, ahead), HS_DONE);
    HOLDS(slicelet_state(&one.place) == slicelet_state(&other.place) && one.clock.given == 30);
    HOLDS(told_alike(&one.receipt, &other.receipt) && one.receipt.told.number == 9);
    IS(receive(&one, 25, &policy, ahead, 0), HS_OLD);
    HOLDS(one.receipt.told.number == 9 && one.receipt.at == 31 && one.clock.given == 31);
    hs_place_free(&one.place);
    hs_place_free(&other.place);
}

/* A grant that was made at 40 is evidence at 29, with a skew of 10, and none at 30. */
static void receives_grants(void) {
    const char *old = GRANT("guard", "1", "7", ALL_KEYS, "2"), *late = GRANT("bridge", "1", "8", "[[0,5]]", "2");
    const struct hs_policy none = {0};
    struct hs_place other = knowing_clerk();
    struct receiver stopped = receiver();
    receives(24, &policy, ahead, HS_DONE);
    receives(23, &policy, ahead, HS_DONE);
    receives(1, &policy, late, HS_DONE);
    receives(1, &policy, old, HS_OLD);
    receives(89, &policy, late, HS_TOO_LATE);
    receives(1, &policy, GRANT("guard", "1", "9", ALL_KEYS, "3"), HS_OTHER_TASK);
    receives(1, &policy, GRANT("guard", "2", "9", ALL_KEYS, "2"), HS_OTHER_LIFE);
    receives(91, &policy, late, HS_TOO_OLD);
    receives(1, &policy, "{", HS_NOT_JSON);
    receives(1, &policy, note, HS_OTHER_TYPE);
    receives(1, &none, late, HS_WRONG_FORM);
    receives(1, &none, "{", HS_WRONG_FORM);
    receives_nothing(91, &none, late, 1024, HS_TOO_OLD);
    receives_nothing(1, &policy, "{\"version\":9}", 1024, HS_VERSION);
    receives_nothing(1, &none, "{\"version\":9}", 1024, HS_WRONG_FORM);
    receives_nothing(24, &policy, ahead, 1, HS_NO_ROOM);
    receives_nothing(1, &policy, old, 1, HS_NO_ROOM);
    receives_without_line();
    IS(receive(&stopped, 23, &policy, ahead, 1024), HS_DONE);
    HOLDS(stopped.receipt.evidence == 1 && stopped.receipt.at == 29 && stopped.needed == 0);
    HOLDS(are_dashes(stopped.line, sizeof stopped.line) && stopped.clock.given == 29);
    IS(serve(&stopped.place, 29), HS_DONE);
    HOLDS(tells(7, 3, HS_GUARD, UNTOLD, 95));
    stopped.clock.per = 0;
    IS(receive(&stopped, 24, &policy, ahead, 1024), HS_WRONG_FORM);
    IS(hs_slicelet_receive(&other, &stopped.clock, 24, &policy, (const uint8_t *)"{", 1, &stopped.receipt, stopped.line,
                           1024, &stopped.needed),
       HS_OTHER_PLACE);
    hs_place_free(&stopped.place);
    hs_place_free(&other);
}

/* A task's next process starts only higher lives, and knows no handle of an earlier one. Its notes are those of
 * the greatest number that a grant can have. */
static void resumes(void) {
    const char *guard = WRITTEN_NOTE("guard", "1", "4294967296", "2");
    struct hs_place task = serving_task();
    struct hs_key_handle handle;
    uint64_t left = 0;
    uint8_t out[256];
    size_t needed = 0;
    IS(hs_slicelet_hold(&task, HELLO, 6, &handle, fresh_told()), HS_DONE);
    IS(hs_slicelet_calls_left(&task, &left), HS_DONE);
    HOLDS(left == 65534);
    IS(hs_slicelet_resume(&task, JOB, 65, 1), HS_WRONG_FORM);
    IS(hs_slicelet_check(&task, &handle, 6), HS_DONE);
    IS(hs_slicelet_resume(&task, JOB, 2, 1), HS_DONE);
    IS(hs_slicelet_calls_left(&task, &left), HS_DONE);
    HOLDS(left == 65536);
    IS(serve(&task, 6), HS_DOWN);
    IS(hs_slicelet_check(&task, &handle, 6), HS_STRANGER);
    IS(hs_slicelet_start(&task, 1, 0), HS_OLD_LIFE);
    IS(hs_slicelet_start(&task, 2, 0), HS_DONE);
    IS(hear(&task, GRANT("guard", "1", "7", ALL_KEYS, "2"), 1), HS_OTHER_LIFE);
    IS(hs_slicelet_check(&task, &handle, 6), HS_STRANGER);
    IS(hs_ended_note(JOB, 2, 1, HS_GUARD, out, sizeof out, &needed), HS_DONE);
    HOLDS(needed == strlen(guard) && memcmp(out, guard, needed) == 0);
    IS(hs_ended_note(JOB, 2, 1, HS_GUARD, out, needed - 1, &needed), HS_NO_ROOM);
    HOLDS(needed == strlen(guard));
    IS(hs_ended_note(JOB, 0, 1, HS_GUARD, out, sizeof out, &needed), HS_WRONG_FORM);
    IS(hs_ended_note(JOB, 2, 1, 3, out, sizeof out, &needed), HS_WRONG_FORM);
    hs_place_free(&task);
}

/* What a task holds, and what it does next: while 3 is committed it keeps its guard lease, while 4 is proposed it
 * asks for a bridge lease and then gives up the guard lease. */
static void goes_on(void) {
    const char *bridge = MESSAGE("grant", "\"ends\":99,\"generation\":4,\"kind\":\"bridge\",\"life\":1,\"number\":9,"
                                          "\"ranges\":[[0,4611686018427387904]],\"task\":2,\"until\":109");
    const struct hs_phase steady = {3, 0}, bridging = {3, 4}, none = {3, 5};
    struct hs_place task = serving_task();
    struct hs_held_lease held = {5, 5, 5};
    uint32_t action = 9;
    IS(hs_slicelet_held(&task, HS_BRIDGE, &held), HS_NOTHING_HELD);
    IS(hs_slicelet_held(&task, 3, &held), HS_WRONG_FORM);
    HOLDS(held.number == 5 && held.generation == 5 && held.until == 5);
    IS(hs_slicelet_held(&task, HS_GUARD, &held), HS_DONE);
    HOLDS(held.number == 7 && held.generation == 3 && held.until == 95);
    IS(hs_slicelet_next(&task, &none, 6, &action), HS_WRONG_FORM);
    HOLDS(action == 9);
    IS(hs_slicelet_next(&task, &steady, 94, &action), HS_DONE);
    HOLDS(action == HS_TASK_REST);
    IS(hs_slicelet_next(&task, &steady, 95, &action), HS_DONE);
    HOLDS(action == HS_ASK_GUARD);
    IS(hs_slicelet_next(&task, &bridging, 6, &action), HS_DONE);
    HOLDS(action == HS_ASK_BRIDGE);
    IS(hear(&task, bridge, 6), HS_DONE);
    IS(hs_slicelet_next(&task, &bridging, 6, &action), HS_DONE);
    HOLDS(action == HS_GIVE_UP_GUARD);
    IS(hs_slicelet_next(&task, &steady, 6, &action), HS_DONE);
    HOLDS(action == HS_TASK_REST); /* a phase that the table has left; the bridge lease is kept */
    IS(hs_slicelet_resume(&task, JOB, 2, 1), HS_DONE);
    IS(hs_slicelet_next(&task, &steady, 6, &action), HS_DONE);
    HOLDS(action == HS_START);
    hs_place_free(&task);
}

/* Whether the keys that the task may serve at the reading are these ranges: it is given room for one boundary more. */
static int permits(struct hs_place *task, uint64_t at, const uint64_t *wanted, size_t count) {
    uint64_t boundaries[8];
    size_t needed = UNTOLD;
    memset(boundaries, '-', sizeof boundaries);
    IS(hs_slicelet_permitted(task, at, boundaries, count + 1, &needed), HS_DONE);
    HOLDS(are_dashes((uint8_t *)&boundaries[needed], sizeof boundaries - needed * sizeof *boundaries));
    return needed == count && memcmp(boundaries, wanted, count * sizeof *boundaries) == 0;
}

/* Writes the keys of `some` that are not in `others`, and returns how many boundaries they have: at most those
 * of both. */
static size_t minus(const uint64_t *some, size_t some_len, const uint64_t *others, size_t others_len, uint64_t *out) {
    size_t one = 0, other = 0, made = 0;
    while (one < some_len || other < others_len) {
        uint64_t a = one < some_len ? some[one] : UINT64_MAX, b = other < others_len ? others[other] : UINT64_MAX;
        uint64_t key = a < b ? a : b;
        one += a == key;
        other += b == key;
        if ((one % 2 == 1 && other % 2 == 0) != (made % 2 == 1))
            out[made++] = key;
    }
    return made;
}

/* What was gained from the first to the second ranges of the check below, and lost from the second to the third. */
static void tells_apart(const uint64_t guards[4], const uint64_t both[2], const uint64_t bridges[2]) {
    const uint64_t gained[] = {5, 9}, lost[] = {0, 3, 10, 12};
    uint64_t out[6];
    HOLDS(minus(both, 2, guards, 4, out) == 2 && memcmp(out, gained, sizeof gained) == 0);
    HOLDS(minus(guards, 4, both, 2, out) == 0 && minus(both, 2, both, 2, out) == 0);
    HOLDS(minus(both, 2, bridges, 2, out) == 4 && memcmp(out, lost, sizeof lost) == 0);
    HOLDS(minus(guards, 4, out, 0, out) == 4 && memcmp(out, guards, 4 * sizeof *guards) == 0);
}

/* The ranges of the guard lease are [0, 5) and [9, 12) until 95, those of the bridge lease [3, 10) until 99. */
static void permits_ranges(void) {
    const char *bridge = MESSAGE("grant", "\"ends\":99,\"generation\":4,\"kind\":\"bridge\",\"life\":1,\"number\":9,"
                                          "\"ranges\":[[3,10]],\"task\":2,\"until\":109");
    const uint64_t guards[] = {0, 5, 9, 12}, both[] = {0, 12}, bridges[] = {3, 10};
    struct hs_place task = new_place();
    uint64_t boundaries[3];
    uint8_t out[256];
    size_t needed = UNTOLD;
    memset(boundaries, '-', sizeof boundaries);
    IS(hs_slicelet_open(&task, JOB, 2), HS_DONE);
    HOLDS(permits(&task, 5, guards, 0));
    IS(hs_slicelet_start(&task, 1, 3), HS_DONE);
    IS(hear(&task, GRANT("guard", "1", "7", "[[0,5],[9,12]]", "2"), 5), HS_DONE);
    HOLDS(permits(&task, 94, guards, 4) && permits(&task, 4, guards, 0) && permits(&task, 95, guards, 0));
    IS(hs_slicelet_permitted(&task, 5, boundaries, 3, &needed), HS_NO_ROOM);
    HOLDS(needed == 4 && are_dashes((uint8_t *)boundaries, sizeof boundaries));
    IS(hear(&task, bridge, 6), HS_DONE);
    HOLDS(permits(&task, 94, both, 2) && permits(&task, 95, bridges, 2) && permits(&task, 99, guards, 0));
    IS(hs_slicelet_release(&task, HS_GUARD, 7, out, sizeof out, &needed), HS_DONE);
    HOLDS(permits(&task, 7, bridges, 2));
    tells_apart(guards, both, bridges);
    hs_place_free(&task);
}

static int32_t read(const char *job, const char *text, struct hs_grant *grant, uint64_t *boundaries, size_t room,
                    size_t *needed) {
    return hs_grant_read((const uint8_t *)job, strlen(job), (const uint8_t *)text, strlen(text), grant, boundaries,
                         room, needed);
}

/* What a grant says: its numbers all differ. */
static void reads_grants(void) {
    const char *text = MESSAGE("grant", "\"ends\":95,\"generation\":3,\"kind\":\"bridge\",\"life\":4,\"number\":7,"
                                        "\"ranges\":[[0,5],[9,10]],\"task\":6,\"until\":105");
    const struct hs_grant wanted = {7, 6, 4, HS_BRIDGE, 3, 95, 105};
    struct hs_grant grant = {1, 1, 1, 1, 1, 1, 1};
    const struct hs_grant untold = grant;
    uint64_t boundaries[5] = {1, 1, 1, 1, 1};
    size_t needed = UNTOLD;
    IS(read("", "{", &grant, boundaries, 5, &needed), HS_NOT_JSON);
    IS(read("", NOTE("guard", "1", "7", "2"), &grant, boundaries, 5, &needed), HS_OTHER_TYPE);
    IS(read("shop", text, &grant, boundaries, 5, &needed), HS_OTHER_JOB);
    IS(read("\xff", text, &grant, boundaries, 5, &needed), HS_WRONG_FORM);
    IS(read("", GRANT("guard", "1", "7", "[[5,5]]", "2"), &grant, boundaries, 5, &needed), HS_EMPTY);
    HOLDS(memcmp(&grant, &untold, sizeof grant) == 0 && boundaries[0] == 1 && needed == UNTOLD);
    IS(read("", text, &grant, boundaries, 3, &needed), HS_NO_ROOM);
    HOLDS(memcmp(&grant, &wanted, sizeof grant) == 0 && boundaries[0] == 1 && needed == 4);
    grant = untold;
    IS(read("", text, &grant, boundaries, 5, &needed), HS_DONE);
    HOLDS(memcmp(&grant, &wanted, sizeof grant) == 0 && needed == 4);
    HOLDS(boundaries[0] == 0 && boundaries[1] == 5 && boundaries[2] == 9 && boundaries[3] == 10 && boundaries[4] == 1);
    IS(read("", GRANT("guard", "1", "7", "[]", "2"), &grant, boundaries, 0, &needed), HS_DONE);
    HOLDS(grant.kind == HS_GUARD && needed == 0);
    IS(read("", GRANT("guard", "1", "7", "[[0,5],[5,10]]", "2"), &grant, boundaries, 2, &needed), HS_DONE);
    HOLDS(boundaries[0] == 0 && boundaries[1] == 10 && needed == 2);
}

void check_slicelets(void) {
    struct hs_key_handle handle = {0, 0, 0, 0};
    struct hs_place place = opened();
    starts(&place);
    unread(&place);
    wrong_members(&place);
    hears(&place);
    holds(&place, &handle);
    checks_others(&place);
    releases(&place, &handle);
    restarts(&place, &handle);
    hs_place_free(&place);
    late_release();
    fills_up();
    two_leases();
    tokens();
    fences();
    by_slice_key();
    blocks();
    receives_grants();
    resumes();
    goes_on();
    permits_ranges();
    reads_grants();
}
