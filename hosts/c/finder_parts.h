/* What the parts of the finder share: the request as they need it, the draws, and when to stop. */
#ifndef FINDER_PARTS_H
#define FINDER_PARTS_H

#include "finder.h"

enum { SET_WORDS = (LIGHTPLAN_DEMANDS + 63) / 64 };

/* demands, a bit for each listing position */
struct set {
    uint64_t word[SET_WORDS];
};

struct finder {
    int count, slots, guard, links;
    int width[LIGHTPLAN_DEMANDS];
    int hops[LIGHTPLAN_DEMANDS];
    uint16_t links_of[LIGHTPLAN_DEMANDS][LIGHTPLAN_HOPS];
    struct set meets[LIGHTPLAN_DEMANDS]; /* who shares a link with each, itself left out */
    uint64_t draws;
    unsigned asked; /* how often it was asked whether it is over */
    int over;
    const struct finder_stop *stop;
    struct finding *found;
};

static inline int has(const struct set *set, int k) { return set->word[k / 64] >> k % 64 & 1; }
static inline void put_in(struct set *set, int k) { set->word[k / 64] |= UINT64_C(1) << k % 64; }
static inline void take_out(struct set *set, int k) { set->word[k / 64] &= ~(UINT64_C(1) << k % 64); }

static inline void put_all_in(struct set *set, const struct set *others)
{
    for (int w = 0; w < SET_WORDS; w++)
        set->word[w] |= others->word[w];
}

/* The place of the lowest bit that is set, where one is. The number below has each six bits in a row once, so that shifted by the place
   its six highest bits tell it. */
static inline int lowest_bit(uint64_t bits)
{
    static const unsigned char place[64] = {
        0, 1, 48, 2, 57, 49, 28, 3, 61, 58, 50, 42, 38, 29, 17, 4, 62, 55, 59, 36, 53, 51, 43, 22, 45, 39, 33, 30, 24, 18, 12, 5,
        63, 47, 56, 27, 60, 41, 37, 16, 54, 35, 52, 21, 44, 32, 23, 11, 46, 26, 40, 15, 34, 20, 31, 10, 25, 14, 19, 9, 13, 8, 7, 6,
    };
    return place[(bits & (~bits + 1)) * UINT64_C(0x03f79d71b4cb0a89) >> 58];
}

/* the first of a set from k on; LIGHTPLAN_DEMANDS or more where there is none */
static inline int next_of(const struct set *set, int k)
{
    while (k < LIGHTPLAN_DEMANDS) {
        uint64_t rest = set->word[k / 64] >> k % 64;
        if (rest)
            return k + lowest_bit(rest);
        k = (k / 64 + 1) * 64;
    }
    return k;
}

/* the next draw: a number from 0 up to n, n itself left out */
static inline int drawn(struct finder *finder, int n)
{
    finder->draws = finder->draws * 6364136223846793005u + 1442695040888963407u;
    return (int)((finder->draws >> 33) * (uint64_t)n >> 31);
}

/* whether to stop: it was said so, or plan and certificate meet, or the certificate leaves no room for a plan */
int is_over(struct finder *finder);

/* the demands that go over a link */
struct set over_link(const struct finder *finder, int link);

/* takes a plan or a certificate for the best where it is better than what there is */
void offer_plan(struct finder *finder, const int *starts);
void offer_weights(struct finder *finder, const uint8_t *weights, uint8_t a);

/* Plans by first fit: along three orders; then along orders in which demands that end above the target are brought forward. */
void first_orders(struct finder *finder);
void search_orders(struct finder *finder, int target, int tries);

/* Plans that end at the target or lower, by putting demands down and taking up who is in the way there. */
void search_turns(struct finder *finder, int target, int turns);

/* Certificates: of each link; then of demands grown from each; then moved about. */
void link_weights(struct finder *finder);
void grown_weights(struct finder *finder);
void search_weights(struct finder *finder, int moves);

#endif
