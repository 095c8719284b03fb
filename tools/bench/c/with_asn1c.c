/* The C that asn1c generates, over one of libraries.h: `enc` into a buffer of the caller's, `new` into a new one, `dec` into a
   new value. */
#include "libraries.h"
#include <Alt.h>
#include <Behind.h>
#include <Four.h>
#include <Fours.h>
#include <Octets.h>
#include <Outer.h>
#include <Report.h>
#include <Visible.h>
#include <Whole.h>

static uint64_t of_octets(const void *value)
{
    const OCTET_STRING_t *string = value;
    return digest(string->buf, (size_t)string->size);
}

static uint64_t of_whole(const void *value) { return (uint64_t)*(const long *)value & 255; }

static uint64_t of_four(const void *value)
{
    const Four_t *four = value;
    return ((uint64_t)four->b & 255) + ((uint64_t)four->d & 255);
}

static uint64_t of_behind(const void *value)
{
    const Behind_t *behind = value;
    return of_octets(&behind->octets) + (uint64_t)behind->flag;
}

static uint64_t of_fours(const void *value)
{
    const Fours_t *fours = value;
    return fours->list.count ? of_four(fours->list.array[fours->list.count - 1]) : 0;
}

static uint64_t of_report(const void *value)
{
    const Report_t *report = value;
    return report->octets ? of_octets(report->octets) : 0;
}

static uint64_t of_outer(const void *value)
{
    const Outer_t *outer = value;
    return outer->group ? of_octets(&outer->group->octets) : 0;
}

static uint64_t of_alt(const void *value)
{
    const Alt_t *alt = value;
    return alt->present == Alt_PR_inner ? of_octets(&alt->choice.inner.octets) : 0;
}

static const struct kind {
    const char *name;
    asn_TYPE_descriptor_t *type;
    uint64_t (*digest)(const void *);
} KINDS[] = {
    {"four", &asn_DEF_Four, of_four},
    {"integer", &asn_DEF_Whole, of_whole},
    {"octets1k", &asn_DEF_Octets, of_octets},
    {"octets1m", &asn_DEF_Octets, of_octets},
    {"octets16m", &asn_DEF_Octets, of_octets},
    {"behind1k", &asn_DEF_Behind, of_behind},
    {"behind1m", &asn_DEF_Behind, of_behind},
    {"visible1k", &asn_DEF_Visible, of_octets},
    {"optional", &asn_DEF_Report, of_report},
    {"list", &asn_DEF_Fours, of_fours},
    {"group", &asn_DEF_Outer, of_outer},
    {"choice", &asn_DEF_Alt, of_alt},
    MESSAGE,
};

static const struct kind *kind_named(const char *name)
{
    for (size_t i = 0; i < sizeof KINDS / sizeof *KINDS; i++)
        if (!strcmp(KINDS[i].name, name)) return &KINDS[i];
    exit(UNKNOWN);
}

static void *decoded(const struct kind *kind, const uint8_t *octets, size_t length)
{
    void *value = NULL;
    asn_dec_rval_t answer = decode_complete(NULL, kind->type, &value, opaque((void *)octets), length);
    if (answer.code != RC_OK) {
        fprintf(stderr, "asn1c refuses the octets\n");
        exit(1);
    }
    return value;
}

static size_t encoded(const struct kind *kind, void *value, uint8_t *octets, size_t room)
{
    asn_enc_rval_t answer = encode_to_buffer(kind->type, opaque(value), octets, room);
    if (answer.encoded < 0) {
        fprintf(stderr, "asn1c refuses the value\n");
        exit(1);
    }
    return (size_t)(answer.encoded + 7) / 8;
}

static uint64_t encoded_anew(const struct kind *kind, void *value)
{
    void *octets;
    ssize_t length = encode_to_new_buffer(kind->type, NULL, opaque(value), &octets);
    if (length < 0) exit(1);
    uint64_t sum = digest(octets, (size_t)length);
    give_back(octets);
    return sum;
}

static uint64_t decoded_anew(const struct kind *kind, const uint8_t *octets, size_t length)
{
    void *value = decoded(kind, octets, length);
    uint64_t sum = kind->digest(value);
    ASN_STRUCT_FREE(*kind->type, value);
    return sum;
}

int main(int count, char **words)
{
    if (count != 5) return 2;
    if (strcmp(words[1], VARIANT)) return UNKNOWN;
    prepare();
    const char *operation = words[2];
    const struct kind *kind = kind_named(words[3]);
    uint64_t times = strtoull(words[4], NULL, 10), sum = 0;
    size_t length;
    uint8_t *octets = read_line(&length);
    void *value = decoded(kind, octets, length);
    size_t room = length + 1024;
    uint8_t *out = malloc(room);
    if (!strcmp(operation, "check")) {
        print_line(out, encoded(kind, value, out, room));
        return 0;
    }
    for (uint64_t i = 0; i < times; i++) {
        if (operation[0] == 'e') sum = sum * 31 + digest(out, encoded(kind, value, out, room));
        else if (operation[0] == 'n') sum = sum * 31 + encoded_anew(kind, value);
        else sum = sum * 31 + decoded_anew(kind, octets, length);
    }
    printf("%llu\n", (unsigned long long)sum);
    return 0;
}
