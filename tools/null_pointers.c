/*
 * Gives each call of per.h NULL for each of its pointers in turn, while the others are right. It has to answer
 * PER_NULL_POINTER and write nothing; another code where the pointer's count is 0; and PER_OK where all are right.
 * Prints each call and how many pointers it has, and what it answers otherwise; the status is 0 where nothing is.
 */
#include <per.h>

#include <stdio.h>
#include <string.h>

/* More pointers than a call has. */
enum { MOST = 6 };

/* A pointer, and its count, 0 where it has none. */
struct pointer {
    void *at;
    size_t count;
};

/* What calls read. */
static char schema[] = "per_schema 1 1 1 1\nmodule M -\nboolean\nroot M Truth 0\n", name[] = "M.Truth", json[] = "true";
static uint8_t octets[] = {0x80};

/* What they may write to, and what that was. */
static struct {
    struct per_types types, other;
    struct per_bit bit;
    size_t number, written;
    uint8_t out[16];
} memory, before;

/* Each call with its pointers from an array. */
#define ASKED(call, ...)                                                                                               \
    static uint32_t asked_##call(const struct pointer *p) {                                                            \
        return call(__VA_ARGS__);                                                                                      \
    }
#define COUNTED(pointer) (pointer).at, (pointer).count
ASKED(per_load, COUNTED(p[0]), p[1].at, p[2].at)
ASKED(per_share, p[0].at, p[1].at)
ASKED(per_find, p[0].at, COUNTED(p[1]), p[2].at)
ASKED(per_check, PER_ALIGNED, PER_TYPE_BOOLEAN, COUNTED(p[0]))
ASKED(per_recode, PER_ALIGNED, PER_TYPE_BOOLEAN, COUNTED(p[0]), COUNTED(p[1]), p[2].at)
ASKED(per_json, PER_ALIGNED, PER_TYPE_BOOLEAN, COUNTED(p[0]), COUNTED(p[1]), p[2].at)
ASKED(per_check_by, p[0].at, PER_ALIGNED, 0, COUNTED(p[1]))
ASKED(per_recode_by, p[0].at, PER_ALIGNED, 0, COUNTED(p[1]), COUNTED(p[2]), p[3].at)
ASKED(per_first_length, p[0].at, PER_ALIGNED, 0, COUNTED(p[1]), p[2].at)
ASKED(per_to_json, p[0].at, PER_ALIGNED, 0, COUNTED(p[1]), COUNTED(p[2]), p[3].at)
ASKED(per_from_json, p[0].at, PER_ALIGNED, 0, COUNTED(p[1]), COUNTED(p[2]), p[3].at)
ASKED(per_refused_at, p[0].at, PER_ALIGNED, 0, COUNTED(p[1]), COUNTED(p[2]), p[3].at, p[4].at)
ASKED(per_json_refused_at, p[0].at, 0, COUNTED(p[1]), COUNTED(p[2]), p[3].at, p[4].at)

/* The calls in the order in which they are made, and their right pointers. */
#define TYPES {&memory.types, 0}
#define OTHER {&memory.other, 0}
#define BIT {&memory.bit, 0}
#define NUMBER {&memory.number, 0}
#define WRITTEN {&memory.written, 0}
#define OUT {memory.out, sizeof memory.out}
#define OCTETS {octets, sizeof octets}
#define TEXT(text) {text, sizeof text - 1}
static const struct asked {
    const char *call;
    uint32_t (*asked)(const struct pointer *p);
    struct pointer right[MOST];
} ALL[] = {
    {"per_load", asked_per_load, {TEXT(schema), TYPES, NUMBER}},
    {"per_share", asked_per_share, {TYPES, OTHER}},
    {"per_find", asked_per_find, {TYPES, TEXT(name), NUMBER}},
    {"per_check", asked_per_check, {OCTETS}},
    {"per_recode", asked_per_recode, {OCTETS, OUT, WRITTEN}},
    {"per_json", asked_per_json, {OCTETS, OUT, WRITTEN}},
    {"per_check_by", asked_per_check_by, {TYPES, OCTETS}},
    {"per_recode_by", asked_per_recode_by, {TYPES, OCTETS, OUT, WRITTEN}},
    {"per_first_length", asked_per_first_length, {TYPES, OCTETS, NUMBER}},
    {"per_to_json", asked_per_to_json, {TYPES, OCTETS, OUT, WRITTEN}},
    {"per_from_json", asked_per_from_json, {TYPES, TEXT(json), OUT, WRITTEN}},
    {"per_refused_at", asked_per_refused_at, {TYPES, OCTETS, OUT, WRITTEN, BIT}},
    {"per_json_refused_at", asked_per_json_refused_at, {TYPES, TEXT(json), OUT, WRITTEN, NUMBER}},
};

static int wrong;

/* Counts and prints what isn't answered as it should. */
static void demand(int holds, const char *what, size_t place) {
    if (!holds) {
        wrong++;
        printf(" (%s %zu)", what, place);
    }
}

/* Makes a call with NULL for each of its pointers, and then with the right ones. */
static void try_call(const struct asked *it) {
    struct pointer given[MOST];
    size_t place;
    uint32_t code;
    printf("%s", it->call);
    for (place = 0; it->right[place].at; place++) {
        memcpy(given, it->right, sizeof given);
        given[place].at = NULL;
        memory.number = memory.written = 99;
        memcpy(&before, &memory, sizeof memory);
        code = it->asked(given);
        demand(code == PER_NULL_POINTER, "isn't refused:", place);
        demand(memcmp(&before, &memory, sizeof memory) == 0, "is refused, and something is written:", place);
        given[place].count = 0;
        if (it->right[place].count)
            demand(it->asked(given) != PER_NULL_POINTER, "is refused with a count of 0:", place);
    }
    code = it->asked(it->right);
    demand(code == PER_OK, "with right pointers the code is", code);
    printf(" %zu\n", place);
}

int main(void) {
    size_t place;
    setvbuf(stdout, NULL, _IONBF, 0);
    for (place = 0; place < sizeof ALL / sizeof *ALL; place++)
        try_call(&ALL[place]);
    printf("per_free");
    per_free(NULL);
    per_free(&memory.types);
    per_free(&memory.other);
    demand(!memory.types.is_loaded && !memory.other.is_loaded, "tables stay:", 0);
    printf(" 1\n");
    return wrong != 0 || strcmp(per_refusal_name(PER_NULL_POINTER).text, "NullPointer") != 0;
}
