/* Memory: each allocation of a call fails in turn, and some calls allocate nothing.
 *
 * The program is linked with --wrap for the functions below, so that every allocation comes here, those
 * of the library too. Blocks that are set apart (apart.c) are not freed one by one. */
#include "checks.h"

#include <string.h>

void *__real_malloc(size_t size);
void *__real_calloc(size_t count, size_t size);
void *__real_realloc(void *block, size_t size);
void *__real_aligned_alloc(size_t alignment, size_t size);
int __real_posix_memalign(void **block, size_t alignment, size_t size);
void __real_free(void *block);
void *__wrap_malloc(size_t size);
void *__wrap_calloc(size_t count, size_t size);
void *__wrap_realloc(void *block, size_t size);
void *__wrap_aligned_alloc(size_t alignment, size_t size);
int __wrap_posix_memalign(void **block, size_t alignment, size_t size);
void __wrap_free(void *block);

size_t allocations;
static size_t refused;

void refuse_allocation(size_t number) {
    refused = number ? allocations + number : 0;
}

int was_refused(void) {
    return refused && allocations >= refused;
}

static int is_refused(void) {
    return ++allocations == refused;
}

void *__wrap_malloc(size_t size) {
    if (is_refused())
        return NULL;
    void *block = allocate_apart(size);
    return block ? block : __real_malloc(size);
}

void *__wrap_calloc(size_t count, size_t size) {
    return is_refused() ? NULL : __real_calloc(count, size);
}

void *__wrap_realloc(void *block, size_t size) {
    if (is_refused())
        return NULL;
    return is_apart(block) ? reallocate_apart(block, size) : __real_realloc(block, size);
}

void *__wrap_aligned_alloc(size_t alignment, size_t size) {
    return is_refused() ? NULL : __real_aligned_alloc(alignment, size);
}

int __wrap_posix_memalign(void **block, size_t alignment, size_t size) {
    return is_refused() ? 12 : __real_posix_memalign(block, alignment, size);
}

void __wrap_free(void *block) {
    if (!is_apart(block))
        __real_free(block);
}

/* A place to start from, a call that takes memory, and the visible state of the place. */
struct trial {
    const char *name;
    struct hs_place (*begin)(void);
    int32_t (*call)(struct hs_place *place);
    uint64_t (*state)(struct hs_place *place);
};

static int32_t hear_more(struct hs_place *place) {
    const char *text = GRANT("guard", "1", "8", "[[0,5],[9,10]]", "2");
    return hs_slicelet_hear(place, (const uint8_t *)text, strlen(text), 6, fresh_told());
}

/* Receives the same grant, with its line. */
static int32_t receive_more(struct hs_place *place) {
    const char *text = GRANT("guard", "1", "8", "[[0,5],[9,10]]", "2");
    struct hs_receipt receipt = {.ticket = 1, .at = UNTOLD};
    struct hs_task_clock clock, before;
    uint8_t out[512];
    size_t needed = UNTOLD;
    memset(out, '-', sizeof out);
    IS(hs_task_clock_new(&clock, 0, 1, 0, UINT64_MAX), HS_DONE);
    IS(hs_task_clock_sample(&clock, 0, 6, 0), HS_DONE);
    before = clock;
    int32_t code = hs_slicelet_receive(place, &clock, 0, &policy, (const uint8_t *)text, strlen(text), &receipt, out,
                                       sizeof out, &needed);
    HOLDS(code == HS_DONE ? needed < sizeof out && receipt.at == 6 && clock.given == 6
                          : needed == UNTOLD && receipt.at == UNTOLD && are_dashes(out, sizeof out) &&
                                memcmp(&clock, &before, sizeof clock) == 0);
    return code;
}

static int32_t give_back(struct hs_place *place) {
    static uint8_t out[256];
    size_t needed = 0;
    memset(out, '-', sizeof out);
    int32_t code = hs_slicelet_release(place, HS_GUARD, 6, out, sizeof out, &needed);
    HOLDS(code == HS_DONE || are_dashes(out, sizeof out));
    return code;
}

static int32_t learn_more(struct hs_place *place) {
    const char *text = ASSIGNMENT("2", "[[0,[2]]]");
    return hs_clerk_learn(place, (const uint8_t *)text, strlen(text), fresh_told());
}

static int32_t propose_more(struct hs_place *place) {
    const char *text = ASSIGNMENT("2", "[[0,[2]]]");
    return hs_table_propose(place, 1, (const uint8_t *)text, strlen(text), 5, fresh_told());
}

static int32_t grant_more(struct hs_place *place) {
    static uint8_t out[256];
    size_t needed = 0;
    memset(out, '-', sizeof out);
    int32_t code = hs_table_grant(place, 1, 1, 6, out, sizeof out, &needed);
    HOLDS(code == HS_DONE || are_dashes(out, sizeof out));
    return code;
}

static struct hs_place granted_table(void) {
    struct hs_place table = steady_table();
    IS(grant_more(&table), HS_DONE);
    return table;
}

static int32_t free_row(struct hs_place *place) {
    const char *text = NOTE("guard", "1", "1", "1");
    uint64_t freed = UNTOLD;
    int32_t code = hs_table_free(place, (const uint8_t *)text, strlen(text), 7, &freed, fresh_told());
    HOLDS(freed == (code == HS_DONE ? 1 : UNTOLD));
    return code;
}

static int32_t list_rows(struct hs_place *place) {
    static struct hs_row rows[4];
    size_t needed = 0;
    memset(rows, '-', sizeof rows);
    int32_t code = hs_table_rows(place, rows, 4, &needed);
    HOLDS(code == HS_DONE || are_dashes((const uint8_t *)rows, sizeof rows));
    return code;
}

static int32_t give_committed(struct hs_place *place) {
    return give_text(hs_table_committed, place);
}

static int32_t give_kept(struct hs_place *place) {
    return give_text(hs_table_kept, place);
}

static const char new_kept[] =
    MESSAGE("kept", "\"committed\":null,\"deadline\":0,\"granted\":0,\"last\":0,\"pending\":null,"
                    "\"policy\":{\"bridge\":200,\"guard\":100,\"job\":1000,"
                    "\"numbers\":1000,\"redundancy\":[1,1],\"skew\":10},\"term\":null");

static int32_t save_first(struct hs_place *place) {
    static uint8_t out[512];
    size_t needed = 0;
    memset(out, '-', sizeof out);
    int32_t code = hs_table_save(place, (const uint8_t *)"", 0, 10, 50, out, sizeof out, &needed);
    HOLDS(code == HS_DONE || are_dashes(out, sizeof out));
    return code;
}

/* What is saved is that of a new table. */
static int32_t save_over(struct hs_place *place) {
    static uint8_t out[512];
    size_t needed = 0;
    memset(out, '-', sizeof out);
    int32_t code = hs_table_save(place, (const uint8_t *)new_kept, strlen(new_kept), 10, 50, out, sizeof out, &needed);
    HOLDS(code == HS_DONE || are_dashes(out, sizeof out));
    return code;
}

static int32_t restore_table(struct hs_place *place) {
    return hs_table_restore(place, JOB, &policy, (const uint8_t *)new_kept, strlen(new_kept), fresh_told());
}

static int32_t plan(struct hs_place *place) {
    const char *text = ASSIGNMENT("1", HALVES);
    const uint64_t loads[] = {6, 4}, tasks[] = {1, 2};
    const struct hs_plan_policy bounds = {1, 1, 1, 0, 100, 1024};
    static uint8_t out[256];
    size_t needed = 0;
    (void)place;
    memset(out, '-', sizeof out);
    int32_t code =
        hs_plan(JOB, (const uint8_t *)text, strlen(text), loads, 2, tasks, 2, &bounds, out, sizeof out, &needed);
    HOLDS(code == HS_DONE || are_dashes(out, sizeof out));
    return code;
}

static int32_t weigh(struct hs_place *place) {
    const char *text = GRANT("guard", "1", "7", ALL_KEYS, "2");
    uint32_t shown = UNTOLD;
    (void)place;
    int32_t code = hs_clock_evidence(JOB, (const uint8_t *)text, strlen(text), 5, &policy, &shown);
    HOLDS(shown == (code == HS_DONE ? 0 : UNTOLD));
    return code;
}

static int32_t read_grant(struct hs_place *place) {
    const char *text = GRANT("guard", "1", "7", ALL_KEYS, "2");
    struct hs_grant grant = {1, 1, 1, 1, 1, 1, 1};
    uint64_t boundaries[2] = {1, 1};
    size_t needed = UNTOLD;
    (void)place;
    int32_t code = hs_grant_read(JOB, (const uint8_t *)text, strlen(text), &grant, boundaries, 2, &needed);
    HOLDS(code == HS_DONE ? grant.number == 7 && needed == 2 : grant.number == 1 && needed == UNTOLD);
    return code;
}

static int32_t list_permitted(struct hs_place *place) {
    uint64_t boundaries[2] = {1, 1};
    size_t needed = UNTOLD;
    int32_t code = hs_slicelet_permitted(place, 6, boundaries, 2, &needed);
    HOLDS(code == HS_DONE ? needed == 2 && boundaries[0] == 0 : needed == UNTOLD && boundaries[0] == 1);
    return code;
}

static int32_t make_assignment(struct hs_place *place) {
    const struct hs_slice slices[2] = {{0, 1, {2}}, {9, 2, {3, 1}}};
    uint8_t out[256];
    size_t needed = UNTOLD;
    (void)place;
    memset(out, '-', sizeof out);
    int32_t code = hs_assignment_new(JOB, 7, slices, 2, out, sizeof out, &needed);
    HOLDS(code == HS_DONE ? needed < sizeof out : needed == UNTOLD && are_dashes(out, sizeof out));
    return code;
}

static int32_t read_assignment(struct hs_place *place) {
    const char *text = ASSIGNMENT("7", HALVES);
    struct hs_slice slices[2];
    uint64_t generation = UNTOLD;
    size_t needed = UNTOLD;
    (void)place;
    memset(slices, '-', sizeof slices);
    int32_t code = hs_assignment_read(JOB, (const uint8_t *)text, strlen(text), &generation, slices, 2, &needed);
    HOLDS(code == HS_DONE ? generation == 7 && needed == 2
                          : generation == UNTOLD && needed == UNTOLD && are_dashes((uint8_t *)slices, sizeof slices));
    return code;
}

static int32_t find_slice(struct hs_place *place) {
    const char *text = ASSIGNMENT("7", HALVES);
    struct hs_slice slice;
    (void)place;
    memset(&slice, '-', sizeof slice);
    int32_t code = hs_assignment_slice(JOB, (const uint8_t *)text, strlen(text), 9, &slice);
    HOLDS(code == HS_DONE ? slice.count == 1 : are_dashes((uint8_t *)&slice, sizeof slice));
    return code;
}

static int32_t log_proposal(struct hs_place *place) {
    const char *text = ASSIGNMENT("1", HALVES);
    const struct hs_logged_call call = {.ticket = 1, .call = HS_CALL_PROPOSE, .term = 1, .at = 2};
    uint8_t out[256];
    size_t needed = UNTOLD;
    (void)place;
    memset(out, '-', sizeof out);
    int32_t code = hs_log_line(JOB, &call, (const uint8_t *)text, strlen(text), out, sizeof out, &needed);
    HOLDS(code == HS_DONE ? needed < sizeof out : needed == UNTOLD && are_dashes(out, sizeof out));
    return code;
}

static int32_t log_store_write(struct hs_place *place) {
    const struct hs_logged_write write = {.ticket = 1, .slice_key = 2, .revision = 3, .reply = HS_STORE_NUMBERED};
    uint8_t out[256];
    size_t needed = UNTOLD;
    (void)place;
    memset(out, '-', sizeof out);
    int32_t code = hs_log_write(&write, out, sizeof out, &needed);
    HOLDS(code == HS_DONE ? needed < sizeof out : needed == UNTOLD && are_dashes(out, sizeof out));
    return code;
}

static int32_t gather_more(struct hs_place *place) {
    const char *text = ASSIGNMENT("1", HALVES);
    const struct hs_load_record records[] = {{5, 1}, {(uint64_t)1 << 62, 2}, {6, 3}, {7, 4}, {8, 5}};
    uint64_t loads[2] = {UNTOLD, UNTOLD};
    size_t needed = UNTOLD;
    int32_t code = hs_load_book_gather(place, (const uint8_t *)text, strlen(text), 1, records, 5, loads, 2, &needed);
    HOLDS(code == HS_DONE ? loads[0] == 13 && loads[1] == 2 && needed == 2 : loads[0] == UNTOLD && needed == UNTOLD);
    return code;
}

static uint64_t state_when_done(const struct trial *trial) {
    struct hs_place place = trial->begin();
    IS(trial->call(&place), HS_DONE);
    uint64_t state = trial->state(&place);
    hs_place_free(&place);
    return state;
}

/* Checks a call that had an allocation fail. Either it changed nothing and succeeds when it is made again,
 * or it did without that memory and leaves the same state as a call that had all of it. */
static void look_at(const struct trial *trial, struct hs_place *place, int32_t code, uint64_t before) {
    if (code != HS_DONE) {
        IS(code, HS_NO_MEMORY);
        HOLDS(trial->state(place) == before);
        IS(trial->call(place), HS_DONE);
    }
    HOLDS(trial->state(place) == state_when_done(trial));
}

/* Makes the call with its first allocation failing, then with its second, until none fails. */
static void refuse_each(const struct trial *trial) {
    int fell_short = 1;
    for (size_t number = 1; fell_short; number++) {
        struct hs_place place = trial->begin();
        uint64_t before = trial->state(&place);
        refuse_allocation(number);
        int32_t code = trial->call(&place);
        fell_short = was_refused();
        refuse_allocation(0);
        if (fell_short)
            look_at(trial, &place, code, before);
        else
            IS(code, HS_DONE);
        hs_place_free(&place);
    }
}

static void refuse_places(void) {
    struct hs_place place = {NULL};
    refuse_allocation(1);
    int32_t code = hs_place_new(&place);
    HOLDS(was_refused());
    refuse_allocation(0);
    IS(code, HS_NO_MEMORY);
    HOLDS(!place.at);
}

/* The calls that take no memory, as the header says. */
static void takes_none(void) {
    struct hs_place task = serving_task(), clerk = knowing_clerk(), book = counting_book();
    struct hs_key_handle handle;
    struct hs_owners owners;
    struct hs_task_clock clock;
    struct hs_table_clock table_clock;
    uint64_t value = 0;
    size_t before = allocations;
    IS(hs_slicelet_serve(&task, HELLO, 6, fresh_told()), HS_DONE);
    IS(hs_slicelet_hold(&task, HELLO, 6, &handle, fresh_told()), HS_DONE);
    IS(hs_slicelet_serve_at(&task, handle.slice_key, 6, fresh_told()), HS_DONE);
    IS(hs_slicelet_hold_at(&task, handle.slice_key, 6, &handle, fresh_told()), HS_DONE);
    IS(hs_slicelet_check(&task, &handle, 6), HS_DONE);
    IS(hs_clerk_look(&clerk, HELLO, &owners), HS_DONE);
    IS(hs_clerk_look_at(&clerk, handle.slice_key, &owners), HS_DONE);
    IS(hs_load_book_total(&book, 2, &value), HS_DONE);
    HOLDS(hs_slice_key(HELLO) == handle.slice_key);
    IS(hs_task_clock_new(&clock, 1, 3, 1, 1000), HS_DONE);
    IS(hs_task_clock_sample(&clock, 10, 100, 12), HS_DONE);
    IS(hs_task_clock_read(&clock, 12, &value), HS_DONE);
    IS(hs_table_clock_open(&table_clock, 0, 0, 12), HS_DONE);
    IS(hs_table_clock_read(&table_clock, 12, &value), HS_DONE);
    HOLDS(allocations == before);
    hs_place_free(&task);
    hs_place_free(&clerk);
    hs_place_free(&book);
}

void check_memory(void) {
    const struct trial trials[] = {
        {"hear", serving_task, hear_more, slicelet_state},
        {"receive", serving_task, receive_more, slicelet_state},
        {"release", serving_task, give_back, slicelet_state},
        {"learn", knowing_clerk, learn_more, clerk_state},
        {"propose", steady_table, propose_more, table_state},
        {"grant", steady_table, grant_more, table_state},
        {"free", granted_table, free_row, table_state},
        {"rows", granted_table, list_rows, table_state},
        {"committed", granted_table, give_committed, table_state},
        {"kept", granted_table, give_kept, table_state},
        {"save first", granted_table, save_first, table_state},
        {"save over", granted_table, save_over, table_state},
        {"restore", steady_table, restore_table, table_state},
        {"gather", counting_book, gather_more, load_book_state},
        {"plan", knowing_clerk, plan, clerk_state},
        {"log line", knowing_clerk, log_proposal, clerk_state},
        {"log write", knowing_clerk, log_store_write, clerk_state},
        {"evidence", knowing_clerk, weigh, clerk_state},
        {"read grant", knowing_clerk, read_grant, clerk_state},
        {"permitted", serving_task, list_permitted, slicelet_state},
        {"make assignment", knowing_clerk, make_assignment, clerk_state},
        {"read assignment", knowing_clerk, read_assignment, clerk_state},
        {"find slice", knowing_clerk, find_slice, clerk_state},
    };
    for (size_t at = 0; at < sizeof trials / sizeof *trials; at++)
        refuse_each(&trials[at]);
    refuse_places();
    takes_none();
}
