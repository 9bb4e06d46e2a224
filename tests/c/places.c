/* Places: a call for another kind of object than the place holds is refused. */
#include "checks.h"

#include <string.h>

enum standing { NOTHING, SLICELET, CLERK, TABLE, LOAD_BOOK, ASSIGNER, KINDS };

static void open_as(struct hs_place *place, enum standing kind) {
    if (kind == SLICELET)
        IS(hs_slicelet_open(place, JOB, 2), HS_DONE);
    else if (kind == CLERK)
        IS(hs_clerk_open(place, JOB), HS_DONE);
    else if (kind == TABLE)
        IS(hs_table_open(place, JOB, &policy), HS_DONE);
    else if (kind == LOAD_BOOK)
        IS(hs_load_book_open(place, JOB), HS_DONE);
    else if (kind == ASSIGNER)
        IS(hs_assigner_open(place, 1, 1000), HS_DONE);
}

static void refuse_slicelet(struct hs_place *place) {
    struct hs_key_handle handle = {2, 5, 1, 1};
    struct hs_held_lease held = {5, 5, 5};
    const struct hs_phase phase = {1, 0};
    uint64_t left = 5;
    uint32_t action = 5;
    uint8_t out[256];
    size_t needed = 0;
    memset(out, '-', sizeof out);
    IS(hs_slicelet_start(place, 1, 0), HS_OTHER_PLACE);
    IS(hear(place, GRANT("guard", "1", "7", ALL_KEYS, "2"), 5), HS_OTHER_PLACE);
    IS(hs_slicelet_release(place, HS_GUARD, 5, out, sizeof out, &needed), HS_OTHER_PLACE);
    IS(hs_slicelet_serve(place, HELLO, 5, fresh_told()), HS_OTHER_PLACE);
    HOLDS(tells(UNTOLD, UNTOLD, UNTOLD, UNTOLD, UNTOLD));
    IS(hs_slicelet_hold(place, HELLO, 5, &handle, fresh_told()), HS_OTHER_PLACE);
    HOLDS(handle.task == 2 && handle.slice_key == 5 && handle.position == 1 && handle.life == 1);
    IS(hs_slicelet_serve_at(place, 5, 5, fresh_told()), HS_OTHER_PLACE);
    IS(hs_slicelet_hold_at(place, 5, 5, &handle, fresh_told()), HS_OTHER_PLACE);
    HOLDS(handle.task == 2 && handle.slice_key == 5 && handle.position == 1 && handle.life == 1);
    HOLDS(tells(UNTOLD, UNTOLD, UNTOLD, UNTOLD, UNTOLD));
    IS(hs_slicelet_check(place, &handle, 5), HS_OTHER_PLACE);
    IS(hs_slicelet_token(place, 1, 5, HELLO, 5, (struct hs_token *)out), HS_OTHER_PLACE);
    IS(hs_slicelet_token_at(place, 1, 5, 5, 5, (struct hs_token *)out), HS_OTHER_PLACE);
    IS(hs_slicelet_held(place, HS_GUARD, &held), HS_OTHER_PLACE);
    HOLDS(held.number == 5 && held.generation == 5 && held.until == 5);
    IS(hs_slicelet_permitted(place, 5, &left, 1, &needed), HS_OTHER_PLACE);
    IS(hs_slicelet_next(place, &phase, 5, &action), HS_OTHER_PLACE);
    IS(hs_slicelet_calls_left(place, &left), HS_OTHER_PLACE);
    HOLDS(action == 5 && left == 5);
    IS(hs_slicelet_close(place), HS_OTHER_PLACE);
    HOLDS(are_dashes(out, sizeof out));
}

static void refuse_clerk(struct hs_place *place) {
    struct hs_owners owners;
    memset(&owners, '-', sizeof owners);
    IS(learn(place, ASSIGNMENT("1", HALVES)), HS_OTHER_PLACE);
    IS(hs_clerk_look(place, HELLO, &owners), HS_OTHER_PLACE);
    IS(hs_clerk_look_at(place, 5, &owners), HS_OTHER_PLACE);
    IS(hs_clerk_forget(place), HS_OTHER_PLACE);
    IS(hs_clerk_close(place), HS_OTHER_PLACE);
    HOLDS(are_dashes((const uint8_t *)&owners, sizeof owners));
}

static void refuse_table(struct hs_place *place) {
    struct hs_job_term term = {5, 5, 5};
    struct hs_phase phase = {5, 5};
    uint64_t count = 5;
    uint8_t out[256];
    struct hs_row rows[2];
    size_t needed = 0;
    memset(out, '-', sizeof out);
    memset(rows, '-', sizeof rows);
    IS(hs_table_take(place, 1, 0, &term, fresh_told()), HS_OTHER_PLACE);
    IS(hs_table_renew(place, 1, 0, &term, fresh_told()), HS_OTHER_PLACE);
    IS(propose(place, 1, ASSIGNMENT("1", HALVES), 1), HS_OTHER_PLACE);
    IS(hs_table_commit(place, 1, 1, fresh_told()), HS_OTHER_PLACE);
    IS(hs_table_grant(place, 1, 1, 1, out, sizeof out, &needed), HS_OTHER_PLACE);
    IS(free_rows(place, NOTE("guard", "1", "7", "2"), 1, &count), HS_OTHER_PLACE);
    IS(hs_table_restart(place, &count), HS_OTHER_PLACE);
    IS(hs_table_phase(place, &phase), HS_OTHER_PLACE);
    IS(hs_table_rows(place, rows, 2, &needed), HS_OTHER_PLACE);
    IS(hs_table_committed(place, out, sizeof out, &needed), HS_OTHER_PLACE);
    IS(hs_table_close(place), HS_OTHER_PLACE);
    HOLDS(term.number == 5 && term.assigner == 5 && term.until == 5 && count == 5);
    HOLDS(phase.committed == 5 && phase.proposed == 5);
    HOLDS(are_dashes(out, sizeof out) && are_dashes((const uint8_t *)rows, sizeof rows));
}

static void refuse_load_book(struct hs_place *place) {
    const struct hs_load_record record = {5, 1};
    uint64_t loads[2] = {5, 5}, total = 5;
    size_t needed = 5;
    IS(hs_load_book_gather(place, (const uint8_t *)"", 0, 0, &record, 1, loads, 2, &needed), HS_OTHER_PLACE);
    IS(hs_load_book_total(place, 0, &total), HS_OTHER_PLACE);
    IS(hs_load_book_close(place), HS_OTHER_PLACE);
    HOLDS(loads[0] == 5 && loads[1] == 5 && needed == 5 && total == 5);
}

static void refuse_assigner(struct hs_place *place) {
    const struct hs_job_term term = {1, 1, 1000};
    const struct hs_phase phase = {0, 0};
    uint32_t action = 9;
    uint64_t number = 5;
    IS(hs_assigner_adopt(place, &term), HS_OTHER_PLACE);
    IS(hs_assigner_drop_term(place), HS_OTHER_PLACE);
    IS(hs_assigner_next(place, 0, &phase, 1, &action, &number), HS_OTHER_PLACE);
    IS(hs_assigner_close(place), HS_OTHER_PLACE);
    HOLDS(action == 9 && number == 5);
}

static void refuse_others(struct hs_place *place, enum standing kind) {
    if (kind != SLICELET)
        refuse_slicelet(place);
    if (kind != CLERK)
        refuse_clerk(place);
    if (kind != TABLE)
        refuse_table(place);
    if (kind != LOAD_BOOK)
        refuse_load_book(place);
    if (kind != ASSIGNER)
        refuse_assigner(place);
}

static int32_t close_as(struct hs_place *place, enum standing kind) {
    if (kind == SLICELET)
        return hs_slicelet_close(place);
    if (kind == CLERK)
        return hs_clerk_close(place);
    if (kind == TABLE)
        return hs_table_close(place);
    if (kind == LOAD_BOOK)
        return hs_load_book_close(place);
    return hs_assigner_close(place);
}

/* An `open` that is refused leaves the place unchanged. */
static void refused_open(void) {
    struct hs_place clerk = knowing_clerk();
    struct hs_policy none = policy;
    none.low = 0;
    STAYS(clerk_state(&clerk), hs_slicelet_open(&clerk, JOB, 0), HS_WRONG_FORM);
    STAYS(clerk_state(&clerk), hs_slicelet_open(&clerk, JOB, 65), HS_WRONG_FORM);
    STAYS(clerk_state(&clerk), hs_table_open(&clerk, JOB, &none), HS_WRONG_FORM);
    STAYS(clerk_state(&clerk), hs_load_book_open(&clerk, (const uint8_t *)"\xff", 1), HS_WRONG_FORM);
    STAYS(clerk_state(&clerk), hs_assigner_open(&clerk, 0, 1000), HS_WRONG_FORM);
    hs_place_free(&clerk);
}

/* A zeroed place holds nothing and takes nothing, and so does one that was freed. */
static void nowhere(struct hs_place *place) {
    refuse_others(place, NOTHING);
    IS(hs_slicelet_open(place, JOB, 2), HS_OTHER_PLACE);
    IS(hs_slicelet_open(place, JOB, 0), HS_OTHER_PLACE);
    IS(hs_clerk_open(place, JOB), HS_OTHER_PLACE);
    IS(hs_table_open(place, JOB, &policy), HS_OTHER_PLACE);
    IS(hs_load_book_open(place, JOB), HS_OTHER_PLACE);
    IS(hs_assigner_open(place, 1, 1000), HS_OTHER_PLACE);
    HOLDS(!place->at);
    hs_place_free(place);
    HOLDS(!place->at);
}

static void made_and_freed(void) {
    struct hs_place place = {NULL};
    nowhere(&place);
    IS(hs_place_new(&place), HS_DONE);
    HOLDS(place.at);
    IS(hs_clerk_open(&place, JOB), HS_DONE);
    void *at = place.at;
    IS(hs_place_new(&place), HS_DONE);
    HOLDS(place.at == at);
    refuse_others(&place, NOTHING);
    hs_place_free(&place);
    nowhere(&place);
}

void check_places(void) {
    made_and_freed();
    for (enum standing kind = NOTHING; kind < KINDS; kind++) {
        struct hs_place place = new_place();
        open_as(&place, kind);
        refuse_others(&place, kind);
        if (kind != NOTHING)
            IS(close_as(&place, kind), HS_DONE);
        refuse_others(&place, NOTHING);
        hs_place_free(&place);
    }
    /* Each kind replaces each kind. The address sanitizer checks that what was there is freed. */
    for (enum standing one = NOTHING; one < KINDS; one++) {
        for (enum standing other = SLICELET; other < KINDS; other++) {
            struct hs_place place = new_place();
            open_as(&place, one);
            open_as(&place, other);
            refuse_others(&place, other);
            hs_place_free(&place);
        }
    }
    refused_open();
}
