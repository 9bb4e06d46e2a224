/* Shared by the parts of the fuzzer. */
#ifndef FUZZ_H
#define FUZZ_H

#include "hourstable.h"

#define LONGEST_INPUT 16384

/* Prints the input at fault, and ends the program. */
void fail(const char *what);
#define MUST(fact)                                                                                                     \
    do {                                                                                                               \
        if (!(fact))                                                                                                   \
            fail(#fact);                                                                                               \
    } while (0)

/* Pseudorandom numbers: the same seed gives the same sequence. */
void seed(uint64_t number);
uint64_t draw(uint64_t below);

/* An input in pages of its own, so that a read past its end is found. */
struct input {
    const uint8_t *bytes;
    size_t length;
};

/* Returns one of the texts, changed in a few places, or random bytes. */
struct input next_input(const char *const *texts, size_t count);

/* Return a buffer that ends at the end of its pages. There is one buffer of bytes, and one for each of two
 * lists of numbers. */
uint8_t *room_of(size_t length);
uint64_t *numbers_of(size_t list, size_t count);

/* Start to count allocations; return the largest one since then, and the sum of all. */
void count_allocations(void);
size_t largest_allocation(void);
size_t whole_allocation(void);

/* A target: a call with an input. A call that is refused must leave the state unchanged. */
struct target {
    const char *name;
    const char *const *texts;
    size_t texts_count;
    void (*begin)(struct hs_place *place);
    int32_t (*call)(struct hs_place *place, struct input input, struct hs_told *told);
    uint64_t (*state)(struct hs_place *place);
};

extern const struct target targets[];
extern const size_t targets_count;

#endif
