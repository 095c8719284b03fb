/*
 * What AFL++ runs. The first octet of an input says the options. Below 128 the second says a type that is built in, and
 * the rest is an encoding. Else the second says a place, and then come a schema file, a zero, and a message of the type
 * at that place: JSON where the first octet is 192 or more, and an encoding otherwise. What is read is in front of a
 * page that can't be, and so is the room for an answer, which is as long as that. It ends by abort() where calls
 * disagree: about what is refused, the value of an encoding and of what is made of it anew, what is made of the JSON of
 * a value, or the length of an answer.
 */
#include <stdint.h>
#include <stdlib.h>
#include <string.h>
#include <sys/mman.h>
#include <unistd.h>

#include "per.h"

#define ROOM (1u << 20)
#define PAGE 4096u

__AFL_FUZZ_INIT();

/* The ends of the rooms: of an input, an answer, and an answer to that. */
static uint8_t *in, *out, *again;

/* The table that was loaded. */
static struct per_types table = PER_EMPTY_HANDLE;

/* The end of a room behind which nothing can be read or written. */
static uint8_t *room(void) {
    uint8_t *start = mmap(NULL, ROOM + PAGE, PROT_READ | PROT_WRITE, MAP_PRIVATE | MAP_ANONYMOUS, -1, 0);
    if (start == MAP_FAILED || mprotect(start + ROOM, PAGE, PROT_NONE)) exit(1);
    return start + ROOM;
}

static void demand(int holds) {
    if (!holds) abort();
}

typedef uint32_t call(uint32_t, uint32_t, const uint8_t *, size_t, uint8_t *, size_t, size_t *);

static uint32_t recode_by(uint32_t options, uint32_t place, const uint8_t *octets, size_t count, uint8_t *to,
                          size_t capacity, size_t *written) {
    return per_recode_by(&table, options, place, octets, count, to, capacity, written);
}

static uint32_t to_json(uint32_t options, uint32_t place, const uint8_t *octets, size_t count, uint8_t *to,
                        size_t capacity, size_t *written) {
    return per_to_json(&table, options, place, octets, count, to, capacity, written);
}

static uint32_t from_json(uint32_t options, uint32_t place, const uint8_t *text, size_t count, uint8_t *to,
                          size_t capacity, size_t *written) {
    return per_from_json(&table, options, place, text, count, to, capacity, written);
}

/* The answer of a call in a room of its length and no more; what stands in front of it stays. */
static uint32_t answered(call *of, uint32_t options, uint32_t type, const uint8_t *octets, size_t count, uint8_t *end,
                         size_t *written) {
    size_t length = 0;
    uint32_t told = of(options, type, octets, count, end, 0, &length);
    if (told != PER_OK && told != PER_NO_ROOM) return told;
    if (length >= ROOM) return PER_NO_ROOM;
    *(end - length - 1) = 0xa5;
    told = of(options, type, octets, count, end - length, length, written);
    demand(told == PER_OK && *written == length && *(end - length - 1) == 0xa5);
    return told;
}

/* Whether two answers, which end where their rooms do, are the same. */
static int same(const uint8_t *one, size_t length, const uint8_t *other, size_t count) {
    return length == count && !memcmp(one - length, other - length, length);
}

/* What a call made of an encoding or of JSON is made of itself again. */
static void try_again(call *recode, uint32_t options, uint32_t type, size_t length) {
    size_t anew = 0;
    demand(answered(recode, options, type, out - length, length, again, &anew) == PER_OK);
    demand(same(out, length, again, anew));
}

static void try(uint32_t options, uint32_t type, size_t count) {
    size_t length = 0, text = 0;
    uint32_t checked = per_check(options, type, in - count, count);
    uint32_t told = answered(per_recode, options, type, in - count, count, out, &length);
    demand(told == checked || told == PER_NO_ROOM);
    if (told == PER_OK) try_again(per_recode, options, type, length);
    told = answered(per_json, options, type, in - count, count, out, &text);
    demand(checked != PER_OK || told == PER_OK || told == PER_NO_ROOM || told >= PER_JSON_NO_JSON);
}

/* The JSON of what was written is read, and tells a value of the same JSON; open types may have other octets. */
static void try_json(uint32_t options, uint32_t place, size_t length) {
    size_t text = 0, anew = 0, shown = 0;
    if (answered(to_json, options, place, out - length, length, again, &text) != PER_OK) return;
    uint32_t told = answered(from_json, options, place, again - text, text, in, &anew);
    if (told == PER_NO_ROOM) return;
    demand(told == PER_OK && answered(to_json, options, place, in - anew, anew, out, &shown) == PER_OK);
    demand(same(again, text, out, shown));
}

static void try_message(uint32_t options, int is_json, uint32_t place, size_t count) {
    size_t length = 0;
    uint32_t checked = per_check_by(&table, options, place, in - count, count);
    uint32_t told = answered(is_json ? from_json : recode_by, options, place, in - count, count, out, &length);
    demand(is_json || told == checked || told == PER_NO_ROOM);
    if (told != PER_OK) return;
    try_again(recode_by, options, place, length);
    try_json(options, place, length);
}

static void try_table(uint32_t options, int is_json, uint32_t place, size_t count) {
    size_t line = 0;
    const uint8_t *text = in - count, *end = memchr(text, 0, count);
    size_t schema = end ? (size_t)(end - text) : count;
    uint32_t told = per_load(text, schema, &table, &line);
    demand(told == PER_OK || told == PER_BAD_SCHEMA || told == PER_OUT_OF_MEMORY);
    demand((told == PER_BAD_SCHEMA) == (line > 0));
    if (told != PER_OK) return;
    try_message(options, is_json, place, end ? count - schema - 1 : 0);
    per_free(&table);
    demand(per_check_by(&table, options, place, in, 0) == PER_NO_TYPES);
}

int main(void) {
    in = room(), out = room(), again = room();
    uint32_t types = 0;
    while (per_type_name(types).text[0]) types++;
    __AFL_INIT();
    unsigned char *input = __AFL_FUZZ_TESTCASE_BUF;
    while (__AFL_LOOP(10000)) {
        size_t length = __AFL_FUZZ_TESTCASE_LEN;
        if (length < 2 || length > 65536) continue;
        memcpy(in - (length - 2), input + 2, length - 2);
        if (input[0] < 128) {
            try(input[0] % 4, input[1] % types, length - 2);
        } else {
            try_table(input[0] % 2, input[0] >= 192, input[1], length - 2);
        }
    }
    return 0;
}
