#define _POSIX_C_SOURCE 199309L
#include "common.h"
#include <errno.h>
#include <stdio.h>
#include <stdlib.h>
#include <time.h>

uint64_t seed;

int below(int n)
{
    seed = seed * 6364136223846793005u + 1442695040888963407u;
    return (seed >> 33) % n;
}

void put(unsigned char *file, int *length, int bytes, int number)
{
    while (bytes-- > 0)
        file[(*length)++] = (unsigned)number >> 8 * bytes;
}

double now(void)
{
    struct timespec t;
    clock_gettime(CLOCK_MONOTONIC, &t);
    return t.tv_sec + 1e-9 * t.tv_nsec;
}

uint64_t number(const char *word, uint64_t least, uint64_t most, const char *usage)
{
    char *end;
    errno = 0;
    uint64_t n = strtoull(word, &end, 10);
    if (*word < '0' || *word > '9' || *end || errno || n < least || n > most) {
        fprintf(stderr, "usage: %s\n", usage);
        exit(2);
    }
    return n;
}
