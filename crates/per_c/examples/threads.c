/*
 * threads SCHEMA TYPE OCTETS: several threads show and make one message at once, by one table of types.
 *
 * TYPE is a name of the schema file, OCTETS a canonical encoding of it in the ALIGNED variant, in hexadecimal. Prints
 * how often a thread's answer was another than that, and is run under tools that find races.
 *     cc -o threads threads.c $(pkg-config --cflags --libs per) -lpthread
 */
#include <per.h>

#include <pthread.h>
#include <stdio.h>
#include <string.h>

enum { MOST = 1 << 20, THREADS = 4, TIMES = 50 };
static uint8_t octets[MOST];
static size_t place, count;

/* A thread's own: its handle of the table, and how many of its answers were wrong. */
struct work {
    pthread_t thread;
    struct per_types types;
    size_t wrong;
    uint8_t text[MOST], made[MOST];
};
static struct work works[THREADS];

/* Shows and makes the message. */
static void *done(void *its) {
    struct work *work = its;
    size_t length, written = 0, i;
    for (i = 0; i < TIMES; i++)
        if (per_to_json(&work->types, PER_ALIGNED, place, octets, count, work->text, MOST, &length) != PER_OK ||
            per_from_json(&work->types, PER_ALIGNED, place, work->text, length, work->made, MOST, &written) != PER_OK ||
            written != count || memcmp(work->made, octets, count) != 0)
            work->wrong++;
    return NULL;
}

/* Loads the table of a file, and finds a type. Returns PER_OK or a refusal. */
static uint32_t loaded(struct per_types *types, const char *name, const char *type) {
    FILE *file = fopen(name, "rb");
    size_t length = file ? fread(octets, 1, MOST, file) : 0, line;
    uint32_t refusal = per_load(octets, length, types, &line);
    if (file)
        fclose(file);
    return refusal != PER_OK ? refusal : per_find(types, (const uint8_t *)type, strlen(type), &place);
}

int main(int argc, char **argv) {
    struct per_types types = PER_EMPTY_HANDLE;
    size_t i, wrong = 0;
    unsigned octet;
    if (argc != 4 || loaded(&types, argv[1], argv[2]) != PER_OK)
        return 2;
    while (count < MOST && sscanf(argv[3] + 2 * count, "%2x", &octet) == 1)
        octets[count++] = (uint8_t)octet;
    for (i = 0; i < THREADS; i++)
        if (per_share(&types, &works[i].types) != PER_OK ||
            pthread_create(&works[i].thread, NULL, done, &works[i]) != 0)
            return 2;
    per_free(&types);
    for (i = 0; i < THREADS; i++) {
        pthread_join(works[i].thread, NULL);
        per_free(&works[i].types);
        wrong += works[i].wrong;
    }
    printf("%zu wrong\n", wrong);
    return wrong != 0;
}
