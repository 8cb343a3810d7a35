/* The finder: looks for a plan that ends low, and for a certificate that no plan ends lower. Nothing of it is believed: what it finds goes
   to lightplan_certify, which says what the two prove. What it knows of a request is from lightplan_read and lightplan_read_routes. */
#ifndef FINDER_H
#define FINDER_H

#include "lightplan.h"

/* Asked again and again, some thousand times a second: anything but 0 ends the search for more. */
struct finder_stop {
    int (*asked)(void *with);
    void *with;
};

/* What was found: the plan by listing position, and the certificate of the highest end below which it says that no plan ends. */
struct finding {
    size_t place; /* beside a refusal where the fault is, else 0 */
    int planned; /* whether there is a plan; else `end` and `starts` mean nothing */
    unsigned end;
    uint16_t starts[LIGHTPLAN_DEMANDS];
    uint8_t a;
    uint8_t weights[LIGHTPLAN_DEMANDS];
    unsigned low;
};

/* Finds until the plan ends where the certificate says that none ends lower, or the certificate ends above the band, or it is told to stop.
   First fit along three orders and the certificates of links come before it asks. The draws begin at `seed`. Answers 0, or the refusal of
   the file, with its place in the finding. */
uint8_t find(const uint8_t *file, size_t file_bytes, uint64_t seed, const struct finder_stop *stop, struct finding *finding);

#endif
