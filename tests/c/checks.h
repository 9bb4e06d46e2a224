/* Shared by the checks of hourstable.h. */
#ifndef CHECKS_H
#define CHECKS_H

#include "guarded.h"

/* Ends the program unless the call returns this code. */
#define IS(call, wanted) check_code((call), (wanted), __FILE__, __LINE__)
#define HOLDS(fact) check_fact((fact) != 0, #fact, __FILE__, __LINE__)

/* Ends the program unless the call returns this code and leaves the visible state of a place unchanged. */
#define STAYS(state, call, wanted)                                                                                     \
    do {                                                                                                               \
        uint64_t state_before = (state);                                                                               \
        IS((call), (wanted));                                                                                          \
        struct hs_told told_then = told;                                                                               \
        HOLDS((state) == state_before);                                                                                \
        told = told_then;                                                                                              \
    } while (0)

/* The name of the job of most checks, which is empty: it reads messages of version 1, which name no job. */
#define JOB (const uint8_t *)"", 0
/* A message of version 1. The library writes version 2, in which numbers that may be 2^53 or more are texts. */
#define MESSAGE(type, members) "{\"type\":\"" type "\",\"value\":{" members "},\"version\":1}"
#define GRANT(kind, life, number, ranges, task)                                                                        \
    MESSAGE("grant", "\"ends\":95,\"generation\":3,\"kind\":\"" kind "\",\"life\":" life ",\"number\":" number         \
                     ",\"ranges\":" ranges ",\"task\":" task ",\"until\":105")
#define WRITTEN_OF(job, type, members)                                                                                 \
    "{\"job\":\"" job "\",\"type\":\"" type "\",\"value\":{" members "},\"version\":2}"
#define WRITTEN_MESSAGE(type, members) WRITTEN_OF("", type, members)
#define WRITTEN_NOTE(kind, life, number, task)                                                                         \
    WRITTEN_MESSAGE("note", "\"kind\":\"" kind "\",\"life\":" life ",\"number\":\"" number "\",\"task\":" task)
#define WRITTEN_ASSIGNMENT(generation, slices)                                                                         \
    WRITTEN_MESSAGE("assignment", "\"generation\":\"" generation "\",\"slices\":" slices)
#define NOTE(kind, life, number, task)                                                                                 \
    MESSAGE("note", "\"kind\":\"" kind "\",\"life\":" life ",\"number\":" number ",\"task\":" task)
#define ASSIGNMENT(generation, slices) MESSAGE("assignment", "\"generation\":" generation ",\"slices\":" slices)

#define ALL_KEYS "[[0,9223372036854775808]]"
#define WRITTEN_HALVES "[[\"0\",[1]],[\"4611686018427387904\",[2]]]"
#define HALVES "[[0,[1]],[4611686018427387904,[2]]]"

/* The key "hello" is in the lower half of the keys, "abc" in the upper one. */
#define HELLO (const uint8_t *)"hello", 5
#define ABC (const uint8_t *)"abc", 3

/* A number that no code of these checks sets. */
#define UNTOLD 777777

void check_code(int32_t code, int32_t wanted, const char *file, int line);
void check_fact(int is_true, const char *fact, const char *file, int line);

/* The hs_told of the last call that has one; every field is UNTOLD before the call. */
extern struct hs_told told;
struct hs_told *fresh_told(void);
int tells(uint64_t number, uint64_t generation, uint64_t kind, uint64_t task, uint64_t until);
int tells_covering(uint64_t generation);

struct hs_place new_place(void);

/* Return a copy of bytes, and a block of dashes. Each is in pages of its own, so that an access past
 * its end is found. */
void *block_of(const void *bytes, size_t length);
uint8_t *dashes(size_t length);
void drop_block(void *block);

/* Whether all bytes are dashes. */
int are_dashes(const uint8_t *block, size_t length);
/* A call that writes a text of what a place holds. The first check is that it writes this text, and nothing if the
 * buffer is too short; the second makes the call with a long buffer, and checks that it writes nothing if it fails. */
typedef int32_t (*text_call)(const struct hs_place *, uint8_t *, size_t, size_t *);
void gives_text(text_call call, const struct hs_place *place, const char *wanted);
int32_t give_text(text_call call, const struct hs_place *place);

/* Hash bytes or a number into a sum, so that two states can be compared. */
uint64_t sum_bytes(uint64_t sum, const void *bytes, size_t length);
uint64_t sum_number(uint64_t sum, int64_t number);

/* How many allocations were asked for. refuse_allocation lets the one with this number fail, counted
 * from now on; 0 lets none fail. */
extern size_t allocations;
void refuse_allocation(size_t number);
int was_refused(void);

/* From set_memory_apart to protect_memory, every allocation is made in memory of its own of this many bytes, which
 * begins with a block of `first` bytes. protect_memory sets how it may be accessed, as mprotect does. */
void *set_memory_apart(size_t size, size_t first);
void protect_memory(int protection);
void drop_memory(void);
int is_apart(const void *block);
void *allocate_apart(size_t size);
void *reallocate_apart(void *block, size_t size);

/* Make a call with the text of a message, of which the library reads a copy of exactly its length. */
int32_t hear(struct hs_place *place, const char *grant, uint64_t at);
int32_t hear_bytes(struct hs_place *place, const char *grant, size_t length, uint64_t at);
int32_t learn(struct hs_place *place, const char *assignment);
int32_t learn_bytes(struct hs_place *place, const char *assignment, size_t length);
int32_t propose(struct hs_place *place, uint64_t term, const char *assignment, uint64_t at);
int32_t propose_bytes(struct hs_place *place, const char *assignment, size_t length, uint64_t at);
int32_t free_rows(struct hs_place *place, const char *note, uint64_t at, uint64_t *freed);

/* Return a sum of what calls show of a place. */
uint64_t slicelet_state(struct hs_place *place);
uint64_t clerk_state(struct hs_place *place);
uint64_t table_state(struct hs_place *place);
uint64_t load_book_state(struct hs_place *place);

/* Places to start from: task 2 in life 1, with guard lease number 7 on all keys until 95; a clerk with
 * the halves of generation 1; a table with the halves of generation 1, a term of assigner 1 until 1000
 * and last reading 2; a load book in which task 2 has the total 3. */
struct hs_place serving_task(void);
struct hs_place knowing_clerk(void);
struct hs_place steady_table(void);
struct hs_place counting_book(void);
extern const struct hs_policy policy;

void check_version(void);
void check_keys(void);
void check_places(void);
void check_slicelets(void);
void check_clerks(void);
void check_tables(void);
void check_assigners(void);
void check_assignments(void);
void check_loads(void);
void check_plans(void);
void check_clocks(void);
void check_memory(void);
void check_readers(void);
void check_jobs(void);
void check_keeping(void);
void check_logs(void);

#endif
