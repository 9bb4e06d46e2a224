/* Inputs: texts that are changed in a few places, and random bytes. */
#define _GNU_SOURCE
#include "fuzz.h"

#include <string.h>
#include <sys/mman.h>
#include <unistd.h>

static uint64_t drawn;

void seed(uint64_t number) {
    drawn = number;
}

/* xorshift64* */
uint64_t draw(uint64_t below) {
    drawn ^= drawn >> 12;
    drawn ^= drawn << 25;
    drawn ^= drawn >> 27;
    return (drawn * 2685821657736338717u >> 11) % below;
}

/* Maps pages that are followed by one that cannot be accessed, and returns their end. */
static uint8_t *end_of_pages(size_t length) {
    size_t page = (size_t)sysconf(_SC_PAGESIZE), used = (length + page - 1) / page * page;
    uint8_t *pages = mmap(NULL, used + page, PROT_READ | PROT_WRITE, MAP_PRIVATE | MAP_ANONYMOUS, -1, 0);
    if (pages == MAP_FAILED || mprotect(pages + used, page, PROT_NONE))
        fail("no pages");
    return pages + used;
}

uint8_t *room_of(size_t length) {
    static uint8_t *end;
    if (!end)
        end = end_of_pages(LONGEST_INPUT);
    MUST(length <= LONGEST_INPUT);
    return end - length;
}

uint64_t *numbers_of(size_t list, size_t count) {
    static uint64_t *ends[2];
    if (!ends[list])
        ends[list] = (uint64_t *)(void *)end_of_pages(LONGEST_INPUT);
    MUST(count * sizeof **ends <= LONGEST_INPUT);
    return ends[list] - count;
}

static char text[LONGEST_INPUT];
static size_t length;

static void replace(size_t at, size_t taken, const char *put, size_t put_length) {
    if (length - taken + put_length > LONGEST_INPUT)
        return;
    memmove(text + at + put_length, text + at + taken, length - at - taken);
    memcpy(text + at, put, put_length);
    length = length - taken + put_length;
}

/* Replaces a number by another one. */
static void change_number(void) {
    /* clang-format off */
    static const char *const numbers[] = {
        "0", "1", "2", "3", "7", "64", "65", "4294967295", "4294967296", "4611686018427387904", "9223372036854775807",
        "9223372036854775808", "9223372036854775809", "18446744073709551615", "18446744073709551616", "-1", "1.5", "1e3",
        "1e999", "01", "\"1\"", "null", "[]", "{}"};
    /* clang-format on */
    const char *put = numbers[draw(sizeof numbers / sizeof *numbers)];
    size_t at = draw(length), end;
    while (at < length && (text[at] < '0' || text[at] > '9'))
        at++;
    for (end = at; end < length && text[end] >= '0' && text[end] <= '9';)
        end++;
    if (at < end)
        replace(at, end - at, put, strlen(put));
}

static void change_bytes(void) {
    static const char marks[] = "{}[]\",:.\\-+eE019 \n\t\0\x7f\x80\xc3\xff";
    size_t at = draw(length), taken = draw(8);
    char byte = draw(2) ? marks[draw(sizeof marks - 1)] : (char)draw(256);
    if (draw(3) == 0)
        replace(at, at + taken <= length ? taken : 1, "", 0);
    else
        replace(at, draw(2), &byte, 1);
}

/* Copies a part of the text to another place, once or many times. */
static void repeat(void) {
    char part[64];
    size_t from = draw(length), part_length = 1 + draw(sizeof part), times = draw(8) ? 1 : 1 + draw(200);
    if (from + part_length > length)
        part_length = length - from;
    memcpy(part, text + from, part_length);
    for (size_t at = draw(length); times && length + part_length <= LONGEST_INPUT; times--)
        replace(at, 0, part, part_length);
}

static void change(void) {
    uint64_t kind = draw(10);
    if (!length)
        return;
    if (kind < 6)
        change_number();
    else if (kind < 8)
        change_bytes();
    else if (kind < 9)
        repeat();
    else
        length = draw(length + 1);
}

struct input next_input(const char *const *texts, size_t count) {
    static uint8_t *end;
    if (!end)
        end = end_of_pages(LONGEST_INPUT);
    uint64_t kind = draw(16);
    if (kind == 0) {
        length = draw(64);
        for (size_t at = 0; at < length; at++)
            text[at] = (char)draw(256);
    } else {
        const char *from = texts[draw(count)];
        length = strlen(from);
        memcpy(text, from, length);
        for (uint64_t changes = kind < 4 ? 0 : 1 + draw(2); changes; changes--)
            change();
    }
    memcpy(end - length, text, length);
    return (struct input){end - length, length};
}
