/* Load books: what gathers write and count, and each reason why they count nothing. */
#include "checks.h"

#include <string.h>

#define KEYS ((uint64_t)1 << 63)
#define HALF (KEYS / 2)
#define MOST_WEIGHT ((uint64_t)1 << 32)
#define COUNT(list) (sizeof(list) / sizeof *(list))

static const char halves[] = ASSIGNMENT("1", HALVES);

/* Gathers over an assignment of two slices. A call that is not done writes no load. */
static int32_t gather_over(struct hs_place *place, const char *assignment, uint64_t task,
                           const struct hs_load_record *records, size_t records_len, uint64_t loads[2]) {
    size_t needed = UNTOLD;
    loads[0] = loads[1] = UNTOLD;
    int32_t code = hs_load_book_gather(place, (const uint8_t *)assignment, strlen(assignment), task, records,
                                       records_len, loads, 2, &needed);
    HOLDS(code == HS_DONE ? needed == 2 : needed == UNTOLD && loads[0] == UNTOLD && loads[1] == UNTOLD);
    return code;
}

static int32_t gather(struct hs_place *place, uint64_t task, const struct hs_load_record *records, size_t records_len) {
    uint64_t loads[2];
    return gather_over(place, halves, task, records, records_len, loads);
}

static uint64_t total_of(const struct hs_place *place, uint64_t task) {
    uint64_t total = UNTOLD;
    IS(hs_load_book_total(place, task, &total), HS_DONE);
    return total;
}

uint64_t load_book_state(struct hs_place *place) {
    uint64_t sum = 0;
    for (uint64_t task = 1; task <= 64; task++)
        sum = sum_number(sum, (int64_t)total_of(place, task));
    return sum;
}

struct hs_place counting_book(void) {
    const struct hs_load_record record = {5, 3};
    struct hs_place book = new_place();
    IS(hs_load_book_open(&book, JOB), HS_DONE);
    IS(gather(&book, 2, &record, 1), HS_DONE);
    return book;
}

/* "hello" is in the lower half, and so is the key before HALF. */
static void gathers(void) {
    const struct hs_load_record records[] = {
        {hs_slice_key(HELLO), 5}, {hs_slice_key(ABC), 7}, {HALF, 11}, {HALF - 1, 17}, {KEYS - 1, MOST_WEIGHT}};
    struct hs_place book = new_place();
    uint64_t loads[2];
    IS(hs_load_book_open(&book, JOB), HS_DONE);
    HOLDS(total_of(&book, 1) == 0 && total_of(&book, 64) == 0);
    IS(gather_over(&book, halves, 2, records, 4, loads), HS_DONE);
    HOLDS(loads[0] == 22 && loads[1] == 18 && total_of(&book, 2) == 40);
    IS(gather_over(&book, halves, 64, records + 3, 2, loads), HS_DONE);
    HOLDS(loads[0] == 17 && loads[1] == MOST_WEIGHT && total_of(&book, 64) == MOST_WEIGHT + 17);
    IS(gather_over(&book, halves, 2, records, 1, loads), HS_DONE);
    HOLDS(loads[0] == 5 && loads[1] == 0 && total_of(&book, 2) == 45 && total_of(&book, 1) == 0);
    IS(gather_over(&book, halves, 3, records, 0, loads), HS_DONE);
    HOLDS(loads[0] == 0 && loads[1] == 0 && total_of(&book, 3) == 0);
    hs_place_free(&book);
}

/* A buffer that is too short is told how long it has to be, and the records are not counted. */
static void short_buffers(void) {
    const struct hs_load_record record = {HALF, 9};
    struct hs_place book = counting_book();
    uint64_t loads[3] = {UNTOLD, UNTOLD, UNTOLD};
    const uint8_t *text = (const uint8_t *)halves;
    for (size_t room = 0; room < 2; room++) {
        size_t needed = UNTOLD;
        STAYS(load_book_state(&book),
              hs_load_book_gather(&book, text, strlen(halves), 2, &record, 1, loads, room, &needed), HS_NO_ROOM);
        HOLDS(needed == 2 && loads[0] == UNTOLD);
    }
    size_t needed = UNTOLD;
    IS(hs_load_book_gather(&book, text, strlen(halves), 2, &record, 1, loads, 3, &needed), HS_DONE);
    HOLDS(needed == 2 && loads[0] == 0 && loads[1] == 9 && loads[2] == UNTOLD && total_of(&book, 2) == 12);
    hs_place_free(&book);
}

static void refused_records(struct hs_place *book) {
    const struct hs_load_record good = {5, 1}, no_key = {KEYS, 1}, nothing = {5, 0}, heavy = {5, MOST_WEIGHT + 1};
    const struct hs_load_record keys_first[] = {nothing, no_key}, late[] = {good, nothing};
    STAYS(load_book_state(book), gather(book, 0, &good, 1), HS_WRONG_FORM);
    STAYS(load_book_state(book), gather(book, 65, &good, 1), HS_WRONG_FORM);
    STAYS(load_book_state(book), gather(book, 2, &no_key, 1), HS_WRONG_FORM);
    STAYS(load_book_state(book), gather(book, 2, &nothing, 1), HS_WEIGHT_RANGE);
    STAYS(load_book_state(book), gather(book, 2, &heavy, 1), HS_WEIGHT_RANGE);
    STAYS(load_book_state(book), gather(book, 2, keys_first, 2), HS_WRONG_FORM);
    STAYS(load_book_state(book), gather(book, 2, late, 2), HS_WEIGHT_RANGE);
}

static void refused_assignments(struct hs_place *book) {
    const char *note = NOTE("guard", "1", "7", "2");
    const char *of_shop = WRITTEN_OF("shop", "assignment", "\"generation\":\"1\",\"slices\":" WRITTEN_HALVES);
    const struct hs_load_record no_key = {KEYS, 1};
    uint64_t loads[2];
    STAYS(load_book_state(book), gather_over(book, "", 2, &no_key, 1, loads), HS_NOT_JSON);
    STAYS(load_book_state(book), gather_over(book, "{\"version\":3}", 2, &no_key, 1, loads), HS_VERSION);
    STAYS(load_book_state(book), gather_over(book, note, 2, &no_key, 1, loads), HS_OTHER_TYPE);
    STAYS(load_book_state(book), gather_over(book, ASSIGNMENT("1", "[]"), 2, &no_key, 1, loads), HS_NO_SLICES);
    STAYS(load_book_state(book), gather_over(book, of_shop, 2, &no_key, 1, loads), HS_OTHER_JOB);
}

/* The totals of all tasks add up to at most 2^40, which is 256 weights of 2^32. */
static void full_book(void) {
    static struct hs_load_record records[257];
    struct hs_place book = counting_book();
    uint64_t loads[2];
    for (size_t at = 0; at < COUNT(records); at++)
        records[at] = (struct hs_load_record){at % 2 ? HALF : 0, MOST_WEIGHT};
    STAYS(load_book_state(&book), gather(&book, 1, records, 257), HS_TOTAL_RANGE);
    STAYS(load_book_state(&book), gather(&book, 1, records, 256), HS_TOTAL_RANGE);
    records[0].weight = MOST_WEIGHT - 3;
    IS(gather_over(&book, halves, 1, records, 256, loads), HS_DONE);
    HOLDS(loads[0] == 128 * MOST_WEIGHT - 3 && loads[1] == 128 * MOST_WEIGHT);
    HOLDS(total_of(&book, 1) == 256 * MOST_WEIGHT - 3 && total_of(&book, 2) == 3);
    records[0].weight = 1;
    STAYS(load_book_state(&book), gather(&book, 64, records, 1), HS_TOTAL_RANGE);
    hs_place_free(&book);
}

static void refused_totals(const struct hs_place *book) {
    uint64_t total = UNTOLD;
    IS(hs_load_book_total(book, 0, &total), HS_WRONG_FORM);
    IS(hs_load_book_total(book, 65, &total), HS_WRONG_FORM);
    HOLDS(total == UNTOLD);
}

void check_loads(void) {
    gathers();
    short_buffers();
    struct hs_place book = counting_book();
    refused_records(&book);
    refused_assignments(&book);
    refused_totals(&book);
    hs_place_free(&book);
    full_book();
}
