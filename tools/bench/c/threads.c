/* `threads (aper|uper) COUNT THREADS TYPE SCHEMA` reads a line of hexadecimal. Each of so many threads writes again, COUNT
   times, the message that it reads of these octets, by one table of types. Prints the seconds from the start of the first
   thread to the end of the last, and the status is 1 where an answer was another than these octets. */
#include "bench.h"
#include <per.h>
#include <pthread.h>
#include <time.h>

enum { MOST_THREADS = 64 };

static uint8_t *octets;
static size_t length, place;
static uint64_t times;
static uint32_t options;

/* What a thread has: its handle of the table, and how many of its answers were wrong. */
struct work {
    pthread_t thread;
    struct per_types types;
    uint64_t wrong;
};
static struct work works[MOST_THREADS];

static void *recode(void *its)
{
    struct work *work = its;
    uint8_t *out = malloc(length);
    for (uint64_t i = 0; i < times; i++) {
        size_t written;
        uint32_t answer = per_recode_by(&work->types, options, place, octets, length, out, length, &written);
        work->wrong += answer != PER_OK || written != length || memcmp(out, octets, length) != 0;
    }
    free(out);
    return NULL;
}

/* Loads the table of a schema file, and finds the type. */
static int load(struct per_types *types, const char *path, const char *type)
{
    static uint8_t text[1 << 22];
    FILE *file = fopen(path, "rb");
    if (!file) return 0;
    size_t line, size = fread(text, 1, sizeof text, file);
    fclose(file);
    return per_load(text, size, types, &line) == PER_OK
        && per_find(types, (const uint8_t *)type, strlen(type), &place) == PER_OK;
}

static double now(void)
{
    struct timespec time;
    clock_gettime(CLOCK_MONOTONIC, &time);
    return (double)time.tv_sec + (double)time.tv_nsec / 1e9;
}

/* Runs so many threads and returns the seconds that they take, less than 0 where one doesn't start or answers otherwise. */
static double seconds(struct per_types *types, size_t threads)
{
    for (size_t i = 0; i < threads; i++)
        if (per_share(types, &works[i].types) != PER_OK) return -1;
    uint64_t wrong = 0;
    double start = now();
    for (size_t i = 0; i < threads; i++)
        if (pthread_create(&works[i].thread, NULL, recode, &works[i])) return -1;
    for (size_t i = 0; i < threads; i++) {
        pthread_join(works[i].thread, NULL);
        wrong += works[i].wrong;
    }
    return wrong ? -1 : now() - start;
}

int main(int count, char **words)
{
    struct per_types types = PER_EMPTY_HANDLE;
    if (count != 6 || !load(&types, words[5], words[4])) return 2;
    options = strcmp(words[1], "aper") ? PER_UNALIGNED : PER_ALIGNED;
    times = strtoull(words[2], NULL, 10);
    size_t threads = strtoull(words[3], NULL, 10);
    if (threads > MOST_THREADS) return 2;
    octets = read_line(&length);
    double took = seconds(&types, threads);
    printf("%.9f\n", took);
    return took < 0;
}
