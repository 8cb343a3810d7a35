/* A lightplan_certify that answers wrongly, and a finder that does, to show that the comparison with brute force notices. Linked with
   --wrap for both; the variable WRONG picks one of the faults below by its number. */
#include "../../hosts/c/finder.h"
#include <stdlib.h>
#include <string.h>

enum fault {
    CALLED_BEST = 1,
    NOT_CALLED_BEST,
    LOW_ABOVE,
    LOW_BELOW,
    ANOTHER_END,
    ACCEPTS_ANY,
    ACCEPTS_ANY_A,
    REFUSES_TWOS,
    ANOTHER_WHICH,
    ANOTHER_PLACE,
    PLACE_OF_NO_WEIGHT,
    ANOTHER_END_OF_OTHERS,
    NO_PLAN,
    NO_CERTIFICATE,
    ANOTHER_LOW_WITHOUT,
    REFUSES_REQUESTS,
    FAULTS
};

static int is(enum fault fault)
{
    const char *wrong = getenv("WRONG");
    return wrong && atoi(wrong) == (int)fault;
}

/* the weights that the finder found last */
static uint8_t found_weights[LIGHTPLAN_DEMANDS];

static size_t first_without_weight(const uint8_t *weights, size_t place)
{
    for (size_t k = 0; k < place; k++)
        if (!weights[k])
            return k;
    return place;
}

struct lightplan_certified __real_lightplan_certify(const uint8_t *, size_t, const uint16_t *, size_t, const uint8_t *, size_t, uint8_t);

struct lightplan_certified __wrap_lightplan_certify(const uint8_t *file, size_t file_bytes, const uint16_t *starts, size_t starts_count,
                                                    const uint8_t *weights, size_t weights_count, uint8_t a)
{
    struct lightplan_certified c =
        __real_lightplan_certify(file, file_bytes, starts, starts_count, weights, weights_count, a);
    if (c.refusal == LIGHTPLAN_NO_CERTIFICATE && (is(ACCEPTS_ANY) || (is(ACCEPTS_ANY_A) && a > 2)))
        c = (struct lightplan_certified){.outcome = LIGHTPLAN_AT_LEAST};
    if (c.refusal && is(ANOTHER_WHICH))
        c.which = LIGHTPLAN_OF_PLAN;
    c.place += c.refusal && is(ANOTHER_PLACE);
    if (c.refusal == LIGHTPLAN_NO_CERTIFICATE && c.place < weights_count && weights[c.place] <= a && is(PLACE_OF_NO_WEIGHT))
        c.place = first_without_weight(weights, c.place);
    if (c.refusal)
        return c;
    c.end += c.outcome == LIGHTPLAN_AT_LEAST && is(ANOTHER_END_OF_OTHERS) && memcmp(weights, found_weights, weights_count) != 0;
    if (c.outcome == LIGHTPLAN_AT_LEAST && is(CALLED_BEST))
        c.outcome = LIGHTPLAN_BEST;
    if (c.outcome == LIGHTPLAN_BEST && is(NOT_CALLED_BEST))
        c.outcome = LIGHTPLAN_AT_LEAST;
    c.low += is(LOW_ABOVE);
    c.low -= c.low && is(LOW_BELOW);
    c.end += is(ANOTHER_END);
    if (a == 2 && is(REFUSES_TWOS))
        c = (struct lightplan_certified){.refusal = LIGHTPLAN_NO_CERTIFICATE, .which = LIGHTPLAN_OF_CERTIFICATE};
    return c;
}

uint8_t __real_find(const uint8_t *, size_t, uint64_t, const struct finder_stop *, struct finding *);

uint8_t __wrap_find(const uint8_t *file, size_t file_bytes, uint64_t seed, const struct finder_stop *stop, struct finding *finding)
{
    uint8_t refusal = __real_find(file, file_bytes, seed, stop, finding);
    if (is(NO_PLAN))
        memset(finding->starts, 0, sizeof finding->starts);
    if (is(NO_CERTIFICATE))
        memset(finding->weights, 2, sizeof finding->weights);
    finding->low += !finding->planned && is(ANOTHER_LOW_WITHOUT);
    memcpy(found_weights, finding->weights, sizeof found_weights);
    if (!is(REFUSES_REQUESTS))
        return refusal;
    finding->place = 9;
    return LIGHTPLAN_BAD_ROUTE;
}
