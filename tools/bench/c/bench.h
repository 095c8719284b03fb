/* What the C programs share: `PROGRAM (aper|uper) OPERATION KIND COUNT` reads a line of hexadecimal, does the operation
   COUNT times and prints a checksum, or with the operation `check` the canonical octets in hexadecimal. */
#ifndef BENCH_H
#define BENCH_H
#include <stdint.h>
#include <stdio.h>
#include <stdlib.h>
#include <string.h>
#include <sys/types.h>

/* So many octets behind the input can be read. */
enum { BEHIND_INPUT = 64 };

/* The status of a program that doesn't know the kind or the variant. */
enum { UNKNOWN = 3 };

static int digit(int c)
{
    if (c >= '0' && c <= '9') return c - '0';
    if (c >= 'a' && c <= 'f') return c - 'a' + 10;
    return -1;
}

static uint8_t *read_line(size_t *length)
{
    size_t room = 1 << 16, n = 0;
    uint8_t *octets = malloc(room + BEHIND_INPUT);
    for (;;) {
        int high = digit(getchar());
        if (high < 0) break;
        int low = digit(getchar());
        if (low < 0) exit(2);
        if (n == room) {
            room *= 2;
            octets = realloc(octets, room + BEHIND_INPUT);
        }
        octets[n++] = (uint8_t)(high << 4 | low);
    }
    memset(octets + n, 0, BEHIND_INPUT);
    *length = n;
    return octets;
}

static void print_line(const uint8_t *octets, size_t length)
{
    for (size_t i = 0; i < length; i++) printf("%02x", octets[i]);
    printf("\n");
}

static inline uint64_t digest(const uint8_t *octets, size_t length)
{
    return length + (length ? octets[length - 1] : 0);
}

/* Keeps the compiler from seeing what a pointer points to, so that no work leaves a loop. */
static inline void *opaque(void *pointer)
{
    __asm__ volatile("" : "+r"(pointer) : : "memory");
    return pointer;
}
#endif
