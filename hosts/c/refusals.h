/* A refusal in words. */
#ifndef REFUSALS_H
#define REFUSALS_H

#include <stddef.h>
#include <stdio.h>

/* Prints a refusal: its number and place, then what is wrong with the file called `which` ("request file" or "plan"), which has so many
   bytes, and what the place counts. */
void print_refusal(FILE *out, unsigned number, size_t place, const char *which, size_t file_bytes);

#endif
