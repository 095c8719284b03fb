/*
 * tables SCHEMA [show|make]: prints the canonical encoding of each message that it reads, its JSON, or what JSON makes.
 *
 * A line of the standard input is a variant, a type of the schema file and a message in hexadecimal, or for `make` in
 * JSON, as "aper NGAP-PDU-Descriptions.NGAP-PDU 0009..". Its reply is the answer, or "!" and the refusal's name.
 *     cc -o tables tables.c $(pkg-config --cflags --libs per)
 */
#include <per.h>

#include <stdio.h>
#include <stdlib.h>
#include <string.h>

enum { MOST = 1 << 20 };
static char line[MOST];
static uint8_t given[MOST], out[MOST];

/* Reads a whole file into `out`. Returns how many octets it has. */
static size_t read_file(const char *name) {
    FILE *file = fopen(name, "rb");
    size_t count = file ? fread(out, 1, MOST, file) : 0;
    if (file)
        fclose(file);
    return count;
}

/* Reads pairs of hexadecimal digits into `given`. Returns how many octets they are. */
static size_t octets_of(const char *digits) {
    size_t count = 0;
    unsigned octet;
    while (sscanf(digits + 2 * count, "%2x", &octet) == 1)
        given[count++] = (uint8_t)octet;
    return count;
}

/* Puts the answer to a line in `out`, and its length in `written`. Returns PER_OK or a refusal. */
static uint32_t answer(struct per_types *types, char task, size_t *written) {
    char *name = strchr(line, ' '), *text = name ? strchr(name + 1, ' ') : NULL;
    uint32_t options = strncmp(line, "aper ", 5) == 0 ? PER_ALIGNED : PER_UNALIGNED, refusal;
    size_t place;
    if (!text)
        return PER_UNKNOWN_TYPE;
    refusal = per_find(types, (const uint8_t *)name + 1, (size_t)(text - name - 1), &place);
    if (refusal != PER_OK)
        return refusal;
    text++;
    if (task == 'm')
        return per_from_json(types, options, place, (const uint8_t *)text, strlen(text), out, MOST, written);
    if (task == 's')
        return per_to_json(types, options, place, given, octets_of(text), out, MOST, written);
    return per_recode_by(types, options, place, given, octets_of(text), out, MOST, written);
}

int main(int argc, char **argv) {
    struct per_types types = PER_EMPTY_HANDLE;
    char task = argc > 2 ? argv[2][0] : 'r';
    size_t written, i;
    uint32_t refusal = argc > 1 ? per_load(out, read_file(argv[1]), &types, &written) : PER_BAD_SCHEMA;
    if (refusal != PER_OK) {
        fprintf(stderr, "tables: %s\n", per_refusal_name(refusal).text);
        return 1;
    }
    while (fgets(line, MOST, stdin)) {
        line[strcspn(line, "\n")] = 0;
        refusal = answer(&types, task, &written);
        if (refusal != PER_OK)
            printf("! %s", per_refusal_name(refusal).text);
        else if (task == 's')
            fwrite(out, 1, written, stdout);
        else
            for (i = 0; i < written; i++)
                printf("%02x", out[i]);
        putchar('\n');
    }
    per_free(&types);
    return 0;
}
