/* Small requests by chance, and what brute force says of them, without the library and without the finder. */
#ifndef BRUTE_H
#define BRUTE_H

#include <stddef.h>
#include <stdint.h>

/* the most circuits of a request */
enum { MOST = 8 };

/* a request: what the brute force knows of it, and its file. A route is a set of links, a bit for each. */
struct small {
    int count, guard, slots, width[MOST];
    unsigned route[MOST];
    size_t length;
    uint8_t file[1000];
};

/* where the draws stand, and the next one: a number from 0 up to n, n itself left out */
extern uint64_t draws;
int below(int n);

/* Draws a request: a cycle of 5 to 7 links one way, once in four times with some more links by chance. */
void draw_small(struct small *small);

/* the lowest end of all plans whatever; one more than the slots where there is no plan */
int optimum(const struct small *small);

/* the end of a plan; -1 where it is not allowed */
int plan_end(const struct small *small, const uint16_t *starts);

/* whether weights are a certificate, by all sets of circuits */
int is_certificate(const struct small *small, const uint8_t *weights, size_t count, int a);

/* Where weights that are no certificate are at fault: at K where there are not K of them or a is not 1 or 2; else at the first weight above
   a; else at the lowest circuit that is the first of a set, all of whose circuits weigh something and no two share a link, which weighs
   more than a. Three circuits of such a set are enough for that, its first among them. */
size_t fault_place(const struct small *small, const uint8_t *weights, size_t count, int a);

/* the least end that a certificate leaves: the first at which a times the band with one guard more is enough */
unsigned certified_low(const struct small *small, const uint8_t *weights, int a);

#endif
