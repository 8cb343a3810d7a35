/* Certificates. For a = 1 one is a set of demands that share links two by two. For a = 2 one is a set in which among any three demands two
   share a link: those that share one with all the others weigh 2, and the rest 1. So here a certificate is a set, and all that may weigh 2
   do. */
#include "finder_parts.h"

/* the demands of a set that share no link with k, k left out */
static struct set apart_from(const struct finder *finder, const struct set *set, int k)
{
    struct set apart;
    for (int w = 0; w < SET_WORDS; w++)
        apart.word[w] = set->word[w] & ~finder->meets[k].word[w];
    take_out(&apart, k);
    return apart;
}

static int is_empty(const struct set *set)
{
    uint64_t any = 0;
    for (int w = 0; w < SET_WORDS; w++)
        any |= set->word[w];
    return !any;
}

/* a width with its guard: what a demand adds to the sum for each 1 that it weighs */
static int need(const struct finder *finder, int k) { return finder->width[k] + finder->guard; }

/* what a demand of a set weighs with a = 2 */
static int weight_in(const struct finder *finder, const struct set *set, int k)
{
    struct set apart = apart_from(finder, set, k);
    return is_empty(&apart) ? 2 : 1;
}

/* what a set comes to with a = 2 */
static int sum_of(const struct finder *finder, const struct set *set)
{
    int sum = 0;
    for (int k = next_of(set, 0); k < finder->count; k = next_of(set, k + 1))
        sum += need(finder, k) * weight_in(finder, set, k);
    return sum;
}

/* whether the demands of a set share links two by two */
static int all_share(const struct finder *finder, const struct set *set)
{
    for (int k = next_of(set, 0); k < finder->count; k = next_of(set, k + 1))
        if (weight_in(finder, set, k) == 1)
            return 0;
    return 1;
}

/* offers the certificate of a set: with a = 1 where all share links two by two, and then each weighs 1 */
static void offer_set(struct finder *finder, const struct set *set)
{
    uint8_t weights[LIGHTPLAN_DEMANDS] = {0}, a = all_share(finder, set) ? 1 : 2;
    for (int k = next_of(set, 0); k < finder->count; k = next_of(set, k + 1))
        weights[k] = a == 1 ? 1 : (uint8_t)weight_in(finder, set, k);
    offer_weights(finder, weights, a);
}

void link_weights(struct finder *finder)
{
    for (int link = 0; link < finder->links; link++) {
        struct set over = over_link(finder, link);
        offer_set(finder, &over);
    }
}

/* leaves of a set what is in another */
static void keep_in(struct set *set, const struct set *other)
{
    for (int w = 0; w < SET_WORDS; w++)
        set->word[w] &= other->word[w];
}

/* of a set the demand with the largest need, to which a number below `chance` is added by lot */
static int draw_largest(struct finder *finder, const struct set *from, int chance)
{
    int best = -1, most = -1;
    for (int k = next_of(from, 0); k < finder->count; k = next_of(from, k + 1)) {
        int worth = need(finder, k) + (chance ? drawn(finder, chance) : 0);
        if (worth > most) {
            best = k;
            most = worth;
        }
    }
    return best;
}

/* Of the demands in `from` some that share links two by two: the largest, by lot as above; then again among those that share a link with
   all that were taken. */
static struct set keep_sharing(struct finder *finder, struct set from, int chance)
{
    struct set kept = {{0}};
    while (!is_empty(&from)) {
        int k = draw_largest(finder, &from, chance);
        put_in(&kept, k);
        keep_in(&from, &finder->meets[k]);
    }
    return kept;
}

/* a demand, and as many more as share a link with it and with each other */
static struct set grown_from(struct finder *finder, int k, int chance)
{
    struct set set = keep_sharing(finder, finder->meets[k], chance);
    put_in(&set, k);
    return set;
}

/* the demands from one on, round the listing, that can be put in with none taken out */
static struct set taken_from(const struct finder *finder, int first)
{
    struct set set = {{0}};
    for (int n = 0; n < finder->count; n++) {
        int k = (first + n) % finder->count;
        struct set apart = apart_from(finder, &set, k);
        if (all_share(finder, &apart))
            put_in(&set, k);
    }
    return set;
}

void grown_weights(struct finder *finder)
{
    for (int k = 0; k < finder->count && !is_over(finder); k++) {
        struct set sharing = grown_from(finder, k, 0), taken = taken_from(finder, k);
        offer_set(finder, &sharing);
        offer_set(finder, &taken);
    }
}

/* a set with k put in: of those that share no link with it stay what share links two by two */
static struct set with(struct finder *finder, const struct set *set, int k)
{
    struct set apart = apart_from(finder, set, k), stay = keep_sharing(finder, apart, drawn(finder, 4) ? 0 : 4), other = *set;
    for (int w = 0; w < SET_WORDS; w++)
        other.word[w] &= ~apart.word[w] | stay.word[w];
    put_in(&other, k);
    return other;
}

/* where a search begins: at the best certificate, or at one made anew from a demand by lot */
static struct set beginning(struct finder *finder)
{
    struct set set = {{0}};
    switch (drawn(finder, 3)) {
    case 0:
        return grown_from(finder, drawn(finder, finder->count), 8);
    case 1:
        return taken_from(finder, drawn(finder, finder->count));
    }
    for (int k = 0; k < finder->count; k++)
        if (finder->found->weights[k])
            put_in(&set, k);
    return set;
}

void search_weights(struct finder *finder, int moves)
{
    struct set set = beginning(finder);
    int sum = sum_of(finder, &set), best = sum, heat = 1 + drawn(finder, 60);
    offer_set(finder, &set);
    for (int move = 0; move < moves && !is_over(finder); move++) {
        int k = drawn(finder, finder->count), less = drawn(finder, 1 + heat * (moves - move) / moves);
        struct set other = set;
        if (has(&set, k))
            take_out(&other, k);
        else
            other = with(finder, &set, k);
        int other_sum = sum_of(finder, &other);
        if (other_sum + less < sum)
            continue;
        set = other;
        sum = other_sum;
        if (sum > best) {
            best = sum;
            offer_set(finder, &set);
        }
    }
}
