/* Straight-line C as the limit: `enc` into a buffer of the caller's, `new` into a new one, `dec` into a value whose strings
   take new memory. It checks its input as a program must that reads from strangers. */
#include "bench.h"
#include <stdbool.h>

static bool aligned;

static inline uint64_t load(const uint8_t *from)
{
    uint64_t word;
    memcpy(&word, from, 8);
    return __builtin_bswap64(word);
}

static inline void store(uint8_t *to, uint64_t word)
{
    word = __builtin_bswap64(word);
    memcpy(to, &word, 8);
}

static inline uint64_t low_bits(uint64_t value, unsigned width) { return value & (~0ull >> (64 - width)); }

/* Octets that are written, and fewer than eight bits behind them, at the top of a word. Room for eight octets more. */
struct writer {
    uint8_t *at;
    uint64_t held;
    unsigned bits;
};

/* Appends 1 to 56 bits. */
static inline void put(struct writer *to, uint64_t value, unsigned width)
{
    to->bits += width;
    to->held |= value << (64 - to->bits);
    store(to->at, to->held);
    unsigned whole = to->bits / 8;
    to->at += whole;
    to->held <<= 8 * whole;
    to->bits %= 8;
}

static inline void align(struct writer *to)
{
    if (aligned && to->bits) put(to, 0, 8 - to->bits);
}

static inline size_t complete(struct writer *to, const uint8_t *start)
{
    if (to->bits) put(to, 0, 8 - to->bits);
    return (size_t)(to->at - start);
}

static void put_octets(struct writer *to, const uint8_t *octets, size_t length)
{
    if (!to->bits) {
        memcpy(to->at, octets, length);
        to->at += length;
        return;
    }
    size_t i = 0;
    for (; i + 8 <= length; i += 8, to->at += 8) {
        uint64_t word = load(octets + i);
        store(to->at, to->held | word >> to->bits);
        to->held = word << (64 - to->bits);
    }
    for (; i < length; i++) put(to, octets[i], 8);
}

static void put_length(struct writer *to, size_t length)
{
    if (length < 128) put(to, length, 8);
    else put(to, 0x8000 | length, 16);
}

static void put_counted(struct writer *to, const uint8_t *octets, size_t length)
{
    align(to);
    while (length >= 16384) {
        size_t units = length / 16384 < 4 ? length / 16384 : 4;
        put(to, 0xc0 | units, 8);
        put_octets(to, octets, units * 16384);
        octets += units * 16384;
        length -= units * 16384;
    }
    put_length(to, length);
    put_octets(to, octets, length);
}

/* How many bits are read of so many. */
struct reader {
    const uint8_t *octets;
    size_t at, end;
    bool bad;
};

/* The next 1 to 56 bits; 0 and `bad` where fewer are left. */
static inline uint64_t take(struct reader *from, unsigned width)
{
    if (from->end - from->at < width) {
        from->bad = true;
        return 0;
    }
    uint64_t word = load(from->octets + from->at / 8) << from->at % 8;
    from->at += width;
    return word >> (64 - width);
}

static inline void skip(struct reader *from)
{
    if (aligned && from->at % 8) from->bad |= take(from, 8 - from->at % 8) != 0;
}

static inline bool ends(struct reader *from)
{
    unsigned spare = -from->at % 8;
    return !from->bad && from->end - from->at == spare && (!spare || !take(from, spare));
}

static void take_octets(struct reader *from, uint8_t *to, size_t length)
{
    if (from->end - from->at < 8 * length) {
        from->bad = true;
        return;
    }
    const uint8_t *octets = from->octets + from->at / 8;
    unsigned bits = from->at % 8;
    from->at += 8 * length;
    if (!bits) {
        memcpy(to, octets, length);
        return;
    }
    size_t i = 0;
    for (; i + 8 <= length; i += 8) store(to + i, load(octets + i) << bits | octets[i + 8] >> (8 - bits));
    for (; i < length; i++) to[i] = (uint8_t)(octets[i] << bits | octets[i + 1] >> (8 - bits));
}

struct string {
    size_t length;
    uint8_t *octets;
};

static size_t take_length(struct reader *from)
{
    size_t length = take(from, 8);
    if (length < 0x80) return length;
    return (length & 63) << 8 | take(from, 8);
}

static void take_counted(struct reader *from, struct string *to)
{
    skip(from);
    to->octets = malloc((from->end - from->at) / 8 + 8);
    to->length = 0;
    for (;;) {
        size_t length = take(from, 8);
        bool is_last = length < 0xc0;
        if (!is_last) length = (length & 63) << 14;
        else if (length >= 0x80) length = (length & 63) << 8 | take(from, 8);
        take_octets(from, to->octets + to->length, length);
        if (from->bad) return;
        to->length += length;
        if (is_last) return;
    }
}

static void put_integer(struct writer *to, int64_t number)
{
    uint64_t bits = (uint64_t)(number ^ (number >> 63));
    unsigned count = bits ? (unsigned)(64 - __builtin_clzll(bits)) / 8 + 1 : 1;
    align(to);
    put(to, count, 8);
    if (count > 4) put(to, low_bits((uint64_t)number >> 32, 8 * count - 32), 8 * count - 32);
    count = count > 4 ? 4 : count;
    put(to, low_bits((uint64_t)number, 8 * count), 8 * count);
}

static int64_t take_integer(struct reader *from)
{
    skip(from);
    unsigned count = (unsigned)take(from, 8);
    if (count == 0 || count > 8) {
        from->bad = true;
        return 0;
    }
    uint64_t high = count > 4 ? take(from, 8 * count - 32) : 0;
    uint64_t number = high << 32 | take(from, count > 4 ? 32 : 8 * count);
    unsigned spare = 64 - 8 * count;
    return (int64_t)(number << spare) >> spare;
}

/* -10..400: nine bits, in APER two octets. */
static inline void put_bounded(struct writer *to, int64_t number)
{
    align(to);
    put(to, (uint64_t)(number + 10), aligned ? 16 : 9);
}

static inline int64_t take_bounded(struct reader *from)
{
    skip(from);
    int64_t above = (int64_t)take(from, aligned ? 16 : 9);
    from->bad |= above > 410;
    return above - 10;
}

struct four {
    bool a, c;
    int64_t b, d;
};

static inline void put_four(struct writer *to, const struct four *four)
{
    put(to, four->a, 1);
    put_integer(to, four->b);
    put(to, four->c, 1);
    put_bounded(to, four->d);
}

static inline void take_four(struct reader *from, struct four *four)
{
    four->a = take(from, 1);
    four->b = take_integer(from);
    four->c = take(from, 1);
    four->d = take_bounded(from);
}

/* Eight characters of seven bits in a word, and back. */
static inline uint64_t squeezed(uint64_t word)
{
    word = (word & 0x7f007f007f007f00u) >> 1 | (word & 0x007f007f007f007fu);
    word = (word & 0x3fff00003fff0000u) >> 2 | (word & 0x00003fff00003fffu);
    return (word & 0x0fffffff00000000u) >> 4 | (word & 0x000000000fffffffu);
}

static inline uint64_t spread(uint64_t word)
{
    word = (word & 0x00fffffff0000000u) << 4 | (word & 0x000000000fffffffu);
    word = (word & 0x0fffc0000fffc000u) << 2 | (word & 0x00003fff00003fffu);
    return (word & 0x3f803f803f803f80u) << 1 | (word & 0x007f007f007f007fu);
}

/* Each octet of the word is one of the characters 32 to 126. */
static inline bool is_visible(uint64_t word)
{
    return !((word | (word - 0x2020202020202020u) | (word + 0x0101010101010101u)) & 0x8080808080808080u);
}

static bool are_visible(const uint8_t *octets, size_t length)
{
    bool good = true;
    size_t i = 0;
    for (; i + 8 <= length; i += 8) good &= is_visible(load(octets + i));
    for (; i < length; i++) good &= octets[i] >= 32 && octets[i] <= 126;
    return good;
}

/* Fewer than 16384 characters. */
static void put_visible(struct writer *to, const struct string *text)
{
    align(to);
    put_length(to, text->length);
    if (!are_visible(text->octets, text->length)) exit(1);
    if (aligned) {
        put_octets(to, text->octets, text->length);
        return;
    }
    size_t i = 0;
    for (; i + 8 <= text->length; i += 8) put(to, squeezed(load(text->octets + i)), 56);
    for (; i < text->length; i++) put(to, text->octets[i], 7);
}

static void take_visible(struct reader *from, struct string *text)
{
    skip(from);
    size_t length = take_length(from), i = 0;
    text->octets = malloc(length + 8);
    text->length = length;
    if (aligned) take_octets(from, text->octets, length);
    else {
        for (; i + 8 <= length; i += 8) store(text->octets + i, spread(take(from, 56)));
        for (; i < length; i++) text->octets[i] = (uint8_t)take(from, 7);
    }
    if (!from->bad) from->bad = !are_visible(text->octets, length);
}

struct report {
    bool urgent, has_lane, has_code, has_octets, has_moving, moving, has_degrees;
    uint8_t lane;
    uint16_t code;
    int64_t degrees;
};

struct inner {
    bool flag;
    uint8_t octets[3];
};

static inline void put_inner(struct writer *to, const struct inner *inner)
{
    put(to, inner->flag, 1);
    align(to);
    put_octets(to, inner->octets, 3);
}

static inline void take_inner(struct reader *from, struct inner *inner)
{
    inner->flag = take(from, 1);
    skip(from);
    take_octets(from, inner->octets, 3);
}

/* A value of any kind; the kind says which fields are used. */
struct value {
    struct four four, *fours;
    size_t count;
    struct string string;
    struct report report;
    struct inner inner;
    bool flag, first, second, has_group;
    unsigned which;
};

static void put_report(struct writer *to, const struct value *value)
{
    const struct report *report = &value->report;
    put(to, (uint64_t)(report->has_lane << 4 | report->has_code << 3 | report->has_octets << 2 | report->has_moving << 1 | report->has_degrees), 5);
    put(to, report->urgent, 1);
    if (report->has_lane) align(to), put(to, report->lane, 8);
    if (report->has_code) align(to), put(to, report->code, 16);
    if (report->has_octets) put_counted(to, value->string.octets, value->string.length);
    if (report->has_moving) put(to, report->moving, 1);
    if (report->has_degrees) put_bounded(to, report->degrees);
}

static void take_report(struct reader *from, struct value *value)
{
    struct report *report = &value->report;
    unsigned present = (unsigned)take(from, 5);
    report->has_lane = present >> 4, report->has_code = present >> 3 & 1, report->has_octets = present >> 2 & 1;
    report->has_moving = present >> 1 & 1, report->has_degrees = present & 1;
    report->urgent = take(from, 1);
    if (report->has_lane) skip(from), report->lane = (uint8_t)take(from, 8);
    if (report->has_code) skip(from), report->code = (uint16_t)take(from, 16);
    if (report->has_octets) take_counted(from, &value->string);
    if (report->has_moving) report->moving = take(from, 1);
    if (report->has_degrees) report->degrees = take_bounded(from);
}

static void put_list(struct writer *to, const struct value *value)
{
    align(to);
    put_length(to, value->count);
    for (size_t i = 0; i < value->count; i++) put_four(to, &value->fours[i]);
}

static void take_list(struct reader *from, struct value *value)
{
    skip(from);
    value->count = take_length(from);
    value->fours = malloc(value->count * sizeof *value->fours);
    for (size_t i = 0; i < value->count && !from->bad; i++) take_four(from, &value->fours[i]);
}

static void put_group(struct writer *to, const struct value *value)
{
    put(to, value->has_group, 1);
    put(to, (uint64_t)(value->first << 1 | value->second), 2);
    if (!value->has_group) return;
    put(to, 1, 8); /* one addition, which is there */
    uint8_t octets[16];
    struct writer group = {octets, 0, 0};
    put_inner(&group, &value->inner);
    size_t length = complete(&group, octets);
    put_counted(to, octets, length);
}

static void take_group(struct reader *from, struct value *value)
{
    value->has_group = take(from, 1);
    value->first = take(from, 1);
    value->second = take(from, 1);
    if (!value->has_group) return;
    from->bad |= take(from, 8) != 1;
    skip(from);
    size_t length = take_length(from);
    if (from->bad || from->end - from->at < 8 * length) {
        from->bad = true;
        return;
    }
    uint8_t octets[16 + BEHIND_INPUT];
    if (length > 16) exit(UNKNOWN);
    take_octets(from, octets, length);
    struct reader group = {octets, 0, 8 * length, false};
    take_inner(&group, &value->inner);
    from->bad |= !ends(&group);
}

static void put_choice(struct writer *to, const struct value *value)
{
    put(to, value->which, 2);
    put_inner(to, &value->inner);
}

static void take_choice(struct reader *from, struct value *value)
{
    value->which = (unsigned)take(from, 2);
    if (value->which != 1) exit(UNKNOWN);
    take_inner(from, &value->inner);
}

enum kind { FOUR, INTEGER, OCTETS, BEHIND, VISIBLE, OPTIONAL, LIST, GROUP, CHOICE };

static enum kind kind_named(const char *name)
{
    static const struct { const char *name; enum kind kind; } KINDS[] = {
        {"four", FOUR}, {"integer", INTEGER}, {"octets1k", OCTETS}, {"octets1m", OCTETS}, {"octets16m", OCTETS},
        {"behind1k", BEHIND}, {"behind1m", BEHIND}, {"visible1k", VISIBLE}, {"optional", OPTIONAL}, {"list", LIST},
        {"group", GROUP}, {"choice", CHOICE},
    };
    for (size_t i = 0; i < sizeof KINDS / sizeof *KINDS; i++)
        if (!strcmp(KINDS[i].name, name)) return KINDS[i].kind;
    exit(UNKNOWN);
}

static __attribute__((noinline)) size_t encode(enum kind kind, const struct value *value, uint8_t *out)
{
    struct writer to = {out, 0, 0};
    switch (kind) {
    case FOUR: put_four(&to, &value->four); break;
    case INTEGER: put_integer(&to, value->four.b); break;
    case BEHIND: put(&to, value->flag, 1); /* fall through */
    case OCTETS: put_counted(&to, value->string.octets, value->string.length); break;
    case VISIBLE: put_visible(&to, &value->string); break;
    case OPTIONAL: put_report(&to, value); break;
    case LIST: put_list(&to, value); break;
    case GROUP: put_group(&to, value); break;
    case CHOICE: put_choice(&to, value); break;
    }
    return complete(&to, out);
}

static __attribute__((noinline)) bool decode(enum kind kind, struct value *value, const uint8_t *octets, size_t length)
{
    struct reader from = {octets, 0, 8 * length, false};
    value->string.octets = NULL;
    value->fours = NULL;
    switch (kind) {
    case FOUR: take_four(&from, &value->four); break;
    case INTEGER: value->four.b = take_integer(&from); break;
    case BEHIND: value->flag = take(&from, 1); /* fall through */
    case OCTETS: take_counted(&from, &value->string); break;
    case VISIBLE: take_visible(&from, &value->string); break;
    case OPTIONAL: take_report(&from, value); break;
    case LIST: take_list(&from, value); break;
    case GROUP: take_group(&from, value); break;
    case CHOICE: take_choice(&from, value); break;
    }
    return ends(&from);
}

static uint64_t digest_of(enum kind kind, const struct value *value)
{
    switch (kind) {
    case FOUR: return ((uint64_t)value->four.b & 255) + ((uint64_t)value->four.d & 255);
    case INTEGER: return (uint64_t)value->four.b & 255;
    case LIST: return value->count ? (uint64_t)value->fours[value->count - 1].b & 255 : 0;
    case GROUP: case CHOICE: return digest(value->inner.octets, 3);
    default: return value->string.octets ? digest(value->string.octets, value->string.length) : 0;
    }
}

static uint64_t decoded_anew(enum kind kind, uint8_t *octets, size_t length)
{
    struct value value;
    if (!decode(kind, &value, opaque(octets), length)) exit(1);
    uint64_t sum = digest_of(kind, &value);
    free(opaque(value.string.octets));
    free(opaque(value.fours));
    return sum;
}

static uint64_t encoded_anew(enum kind kind, struct value *value, size_t room)
{
    uint8_t *out = opaque(malloc(room));
    uint64_t sum = digest(out, encode(kind, opaque(value), out));
    free(out);
    return sum;
}

int main(int count, char **words)
{
    if (count != 5) return 2;
    aligned = !strcmp(words[1], "aper");
    const char *operation = words[2];
    enum kind kind = kind_named(words[3]);
    uint64_t times = strtoull(words[4], NULL, 10), sum = 0;
    size_t length;
    uint8_t *octets = read_line(&length);
    struct value value;
    if (!decode(kind, &value, octets, length)) {
        fprintf(stderr, "the C by hand refuses the octets\n");
        return 1;
    }
    size_t room = length + 64;
    uint8_t *out = malloc(room);
    if (!strcmp(operation, "check")) {
        print_line(out, encode(kind, &value, out));
        return 0;
    }
    for (uint64_t i = 0; i < times; i++) {
        if (operation[0] == 'e') sum = sum * 31 + digest(out, encode(kind, opaque(&value), opaque(out)));
        else if (operation[0] == 'n') sum = sum * 31 + encoded_anew(kind, &value, room);
        else sum = sum * 31 + decoded_anew(kind, octets, length);
    }
    printf("%llu\n", (unsigned long long)sum);
    return 0;
}
