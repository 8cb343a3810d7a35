/* What the measurements of this folder have in common: draws from a seed, files byte by byte, the time, numbers on the command line. */
#ifndef COMMON_H
#define COMMON_H
#include <stdint.h>

/* where the draws stand; whoever draws sets it first */
extern uint64_t seed;

/* the next draw: a number from 0 up to n, n itself left out */
int below(int n);

/* a number with so many bytes, the high one first, behind those that a file has */
void put(unsigned char *file, int *length, int bytes, int number);

/* seconds from some moment on */
double now(void);

/* a number in decimal digits alone, within these limits; anything else ends the program with how it is to be called */
uint64_t number(const char *word, uint64_t least, uint64_t most, const char *usage);

#endif
