/*
 * check FILE [json]: prints the canonical encoding of each message in a file, or its JSON, or why there is none.
 *
 * A line of the file is a variant, a type of docs/TYPES.md and the octets of a message in hexadecimal, as
 * "uper integer 021000"; behind a variant "_zero" asks that padding is zero. Its reply is a line of hexadecimal or of
 * JSON, or "!" and the refusal's name. The status is 0 where each line has such words.
 *
 * With libper_c.a from `rt lib` in crates/per_c, and KIT the folder of the toolchain:
 *     cc -std=c99 -Icrates/per_c/include -o check crates/per_c/examples/check.c crates/per_c/out/libper_c.a \
 *         KIT/c/liblibc_c.a
 */
#include "per.h"

#include <stdio.h>
#include <stdlib.h>
#include <string.h>

/* The words of `enum per_options`, each at its number. */
static const char *const OPTIONS[] = {"uper", "aper", "uper_zero", "aper_zero"};

/* Octets in memory that grows. */
struct octets {
    uint8_t *at;
    size_t count;
    size_t capacity;
};

/* Makes room for so many octets in all. */
static int grow(struct octets *octets, size_t capacity) {
    uint8_t *at;
    if (capacity <= octets->capacity)
        return 1;
    at = realloc(octets->at, capacity);
    if (!at)
        return 0;
    octets->at = at;
    octets->capacity = capacity;
    return 1;
}

/* Reads a line without its end. Returns 0 where there is none, or where memory runs out. */
static int read_line(FILE *file, struct octets *line) {
    int c;
    line->count = 0;
    while ((c = getc(file)) != EOF) {
        if (!grow(line, line->count < line->capacity ? line->capacity : 2 * line->capacity + 64))
            return 0;
        if (c == '\n')
            break;
        line->at[line->count++] = (uint8_t)c;
    }
    if (line->count == 0 && c == EOF)
        return 0;
    return grow(line, line->count + 1) && (line->at[line->count] = 0, 1);
}

/* The number of the options that a word names, or how many there are. */
static uint32_t options_of(const char *word) {
    uint32_t options = 0;
    while (options < 4 && strcmp(word, OPTIONS[options]) != 0)
        options++;
    return options;
}

/* The number of the type that a word names, or PER_TYPES. */
static uint32_t type_of(const char *word) {
    uint32_t type;
    for (type = 0; type < PER_TYPES; type++) {
        struct per_name name = per_type_name(type);
        if (strcmp(word, name.text) == 0)
            break;
    }
    return type;
}

static int digit(char c) {
    static const char DIGITS[] = "0123456789abcdef";
    const char *found = c ? strchr(DIGITS, c) : NULL;
    return found ? (int)(found - DIGITS) : -1;
}

/* Replaces pairs of lower-case digits by their octets, in place. Returns how many these are, or -1. */
static long octets_of(char *digits) {
    long count = 0;
    const char *at;
    for (at = digits; *at; at += 2) {
        int high = digit(at[0]), low = high < 0 ? -1 : digit(at[1]);
        if (low < 0)
            return -1;
        digits[count++] = (char)(high << 4 | low);
    }
    return count;
}

/* per_recode or per_json. */
typedef uint32_t call(uint32_t options, uint32_t type, const uint8_t *octets, size_t count, uint8_t *out,
                      size_t capacity, size_t *written);

/* Writes what a call answers to `out`, in as much memory as it takes. Returns PER_OK or a refusal. */
static uint32_t answer(call *ask, uint32_t options, uint32_t type, const uint8_t *octets, size_t count,
                       struct octets *out) {
    uint32_t refusal = ask(options, type, octets, count, out->at, out->capacity, &out->count);
    if (refusal != PER_NO_ROOM)
        return refusal;
    if (!grow(out, out->count))
        return PER_OUT_OF_MEMORY;
    return ask(options, type, octets, count, out->at, out->capacity, &out->count);
}

/* Prints what a call answered on a line: JSON as it is, octets in hexadecimal. */
static void print(call *ask, const struct octets *out) {
    size_t i;
    if (ask == per_json)
        fwrite(out->at, 1, out->count, stdout);
    else
        for (i = 0; i < out->count; i++)
            printf("%02x", out->at[i]);
    putchar('\n');
}

/* Replies to a line. Returns 0 where it has other words than a line should. */
static int reply(call *ask, char *line, struct octets *out) {
    char *variant = line, *type = strchr(line, ' '), *digits = type ? strchr(type + 1, ' ') : NULL;
    uint32_t options, number, refusal;
    long count;
    if (!digits)
        return 0;
    *type++ = 0;
    *digits++ = 0;
    options = options_of(variant);
    number = type_of(type);
    count = octets_of(digits);
    if (count < 0)
        return 0;
    refusal = per_check(options, number, (const uint8_t *)digits, (size_t)count);
    if (refusal == PER_OK)
        refusal = answer(ask, options, number, (const uint8_t *)digits, (size_t)count, out);
    if (refusal != PER_OK) {
        struct per_name name = per_refusal_name(refusal);
        printf("! %s\n", name.text);
        return 1;
    }
    print(ask, out);
    return 1;
}

int main(int argc, char **argv) {
    struct octets line = {NULL, 0, 0}, out = {NULL, 0, 0};
    call *ask = argc == 3 ? per_json : per_recode;
    int is_asked = argc == 2 || (argc == 3 && strcmp(argv[2], "json") == 0);
    FILE *file = is_asked ? fopen(argv[1], "rb") : NULL;
    int status = 0;
    if (!file) {
        fprintf(stderr, "usage: check FILE [json]\n");
        return 2;
    }
    while (read_line(file, &line)) {
        if (!reply(ask, (char *)line.at, &out)) {
            fprintf(stderr, "check: no message: %.60s\n", (char *)line.at);
            status = 2;
        }
    }
    free(line.at);
    free(out.at);
    fclose(file);
    return status;
}
