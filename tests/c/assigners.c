/* Assigners: what one does next, by docs/verification/MODEL.md. */
#include "checks.h"

static void next_is(struct hs_place *place, uint64_t at, const struct hs_phase *phase, uint32_t wanted, uint32_t action,
                    uint64_t number) {
    uint32_t found = 0;
    uint64_t kept = UNTOLD;
    IS(hs_assigner_next(place, at, phase, wanted, &found, &kept), HS_DONE);
    HOLDS(found == action && kept == number);
}

static int32_t adopt(struct hs_place *place, uint64_t number, uint64_t assigner, uint64_t until) {
    const struct hs_job_term term = {number, assigner, until};
    return hs_assigner_adopt(place, &term);
}

/* A phase whose proposed generation is not the one after the committed generation is refused. */
static void no_phases(struct hs_place *place) {
    const struct hs_phase phases[] = {{1, 1}, {1, 3}, {2, 1}, {UINT64_MAX, 1}};
    for (size_t at = 0; at < sizeof phases / sizeof *phases; at++) {
        uint32_t action = 9;
        uint64_t number = UNTOLD;
        IS(hs_assigner_next(place, 10, &phases[at], 1, &action, &number), HS_WRONG_FORM);
        HOLDS(action == 9 && number == UNTOLD);
    }
}

void check_assigners(void) {
    const struct hs_phase first = {0, 0}, bridging = {1, 2}, steady = {2, 0};
    struct hs_place place = new_place();
    IS(hs_assigner_open(&place, 7, 1001), HS_DONE);
    next_is(&place, 0, &first, 1, HS_TAKE, 0);
    IS(adopt(&place, 1, 8, 1000), HS_NOT_ADOPTED);
    next_is(&place, 0, &first, 1, HS_TAKE, 0);
    IS(adopt(&place, 4, 7, 1000), HS_DONE);
    next_is(&place, 10, &first, 1, HS_PROPOSE, 4);
    next_is(&place, 10, &steady, 7, HS_PROPOSE, 4);
    next_is(&place, 10, &steady, 0, HS_REST, 4);
    next_is(&place, 10, &bridging, 1, HS_COMMIT, 4);
    next_is(&place, 10, &bridging, 0, HS_COMMIT, 4);
    /* Half of 1001, rounded down, is 500: the term is renewed from 500 on. */
    next_is(&place, 499, &bridging, 0, HS_COMMIT, 4);
    next_is(&place, 500, &bridging, 0, HS_RENEW, 4);
    next_is(&place, 999, &bridging, 0, HS_RENEW, 4);
    next_is(&place, 1000, &bridging, 0, HS_TAKE, 4);
    IS(adopt(&place, 4, 7, 1000), HS_NOT_ADOPTED);
    IS(adopt(&place, 3, 7, 5000), HS_NOT_ADOPTED);
    IS(adopt(&place, 5, 8, 5000), HS_NOT_ADOPTED);
    next_is(&place, 999, &bridging, 0, HS_RENEW, 4);
    IS(adopt(&place, 4, 7, 2000), HS_DONE);
    next_is(&place, 1000, &steady, 0, HS_REST, 4);
    IS(adopt(&place, 5, 7, 1500), HS_DONE);
    next_is(&place, 1000, &steady, 0, HS_RENEW, 5);
    no_phases(&place);
    IS(hs_assigner_drop_term(&place), HS_DONE);
    next_is(&place, 1000, &steady, 0, HS_TAKE, 0);
    IS(adopt(&place, 1, 7, 3000), HS_DONE);
    next_is(&place, 1000, &steady, 1, HS_PROPOSE, 1);
    hs_place_free(&place);
}
