/* Plans by first fit along orders. */
#include "finder_parts.h"
#include <string.h>

/* the band and a guard behind it: a block holds its slots and the guard above them, and then it is enough that no two overlap */
enum { BAND_WORDS = (384 + 8 + 63) / 64 };

struct band {
    uint64_t word[BAND_WORDS];
};

/* what is held on each link */
struct board {
    struct band held[LIGHTPLAN_LINKS];
};

/* an order with the plan that first fit makes along it; `over` is by how much its demands end above the target, all together */
struct ordered {
    int order[LIGHTPLAN_DEMANDS];
    int start[LIGHTPLAN_DEMANDS];
    long over;
};

static void fill(struct band *band, int from, int to)
{
    for (int w = from / 64; w <= (to - 1) / 64; w++) {
        uint64_t bits = ~UINT64_C(0);
        if (w == from / 64)
            bits &= ~UINT64_C(0) << from % 64;
        if (w == (to - 1) / 64)
            bits &= ~UINT64_C(0) >> (63 - (to - 1) % 64);
        band->word[w] |= bits;
    }
}

/* keeps the slots that are free with the one so many above them */
static void keep_with(struct band *free, int above)
{
    int words = above / 64, bits = above % 64;
    for (int w = 0; w < BAND_WORDS; w++) {
        uint64_t low = w + words < BAND_WORDS ? free->word[w + words] : 0;
        uint64_t high = w + words + 1 < BAND_WORDS ? free->word[w + words + 1] : 0;
        free->word[w] &= bits ? low >> bits | high << (64 - bits) : low;
    }
}

/* the slots that are free on all links of a demand */
static struct band free_for(const struct finder *finder, const struct board *board, int k)
{
    struct band free = {{0}};
    fill(&free, 0, finder->slots + finder->guard);
    for (int h = 0; h < finder->hops[k]; h++)
        for (int w = 0; w < BAND_WORDS; w++)
            free.word[w] &= ~board->held[finder->links_of[k][h]].word[w];
    return free;
}

/* Keeps the slots at which a whole block is free. What begins a free block of some length, and another so much above it, begins one of up
   to twice that length. */
static void keep_blocks(struct band *free, int block)
{
    for (int kept = 1, more; kept < block; kept += more) {
        more = kept < block - kept ? kept : block - kept;
        keep_with(free, more);
    }
}

/* the lowest start of a demand; -1 where there is none within the band */
static int lowest_start(const struct finder *finder, const struct board *board, int k)
{
    struct band free = free_for(finder, board, k);
    keep_blocks(&free, finder->width[k] + finder->guard);
    for (int w = 0; w < BAND_WORDS; w++)
        if (free.word[w])
            return 64 * w + lowest_bit(free.word[w]);
    return -1;
}

static void put_down(const struct finder *finder, struct board *board, int k, int start)
{
    for (int h = 0; h < finder->hops[k]; h++)
        fill(&board->held[finder->links_of[k][h]], start, start + finder->width[k] + finder->guard);
}

static int end_of(const struct finder *finder, const struct ordered *ordered, int k)
{
    return ordered->start[k] < 0 ? 2 * finder->slots : ordered->start[k] + finder->width[k];
}

/* First fit along an order, of which the first `same` demands stay where they are. It is given up where it is over by more than `most`. */
static void fit(const struct finder *finder, struct ordered *ordered, int same, int target, long most)
{
    struct board board;
    memset(board.held, 0, (size_t)finder->links * sizeof board.held[0]);
    ordered->over = 0;
    for (int i = 0; i < finder->count && ordered->over <= most; i++) {
        int k = ordered->order[i], end;
        if (i >= same)
            ordered->start[k] = lowest_start(finder, &board, k);
        if (ordered->start[k] >= 0)
            put_down(finder, &board, k, ordered->start[k]);
        end = end_of(finder, ordered, k);
        ordered->over += end > target ? end - target : 0;
    }
}

/* offers the plan of an order, where every demand has its start */
static void offer(struct finder *finder, const struct ordered *ordered)
{
    for (int k = 0; k < finder->count; k++)
        if (ordered->start[k] < 0)
            return;
    offer_plan(finder, ordered->start);
}

/* lists the demands by falling keys, of equal ones the first listed first */
static void order_by(const struct finder *finder, const int *key, int *order)
{
    for (int k = 0; k < finder->count; k++) {
        int i = k;
        for (; i > 0 && key[order[i - 1]] < key[k]; i--)
            order[i] = order[i - 1];
        order[i] = k;
    }
}

static int shared(const struct finder *finder, int k)
{
    int sum = 0;
    for (int j = next_of(&finder->meets[k], 0); j < finder->count; j = next_of(&finder->meets[k], j + 1))
        sum += finder->width[j] + finder->guard;
    return sum;
}

/* by what demands are ordered: as listed, widest first, most shared first */
enum way { AS_LISTED, WIDEST, MOST_SHARED, WAYS };

static int key_of(const struct finder *finder, enum way way, int k)
{
    switch (way) {
    case AS_LISTED:
        return 0;
    case WIDEST:
        return finder->width[k];
    default:
        return shared(finder, k) + finder->width[k];
    }
}

static void fit_by(struct finder *finder, enum way way)
{
    struct ordered ordered;
    int key[LIGHTPLAN_DEMANDS];
    for (int k = 0; k < finder->count; k++)
        key[k] = key_of(finder, way, k);
    order_by(finder, key, ordered.order);
    fit(finder, &ordered, 0, finder->slots, INT32_MAX);
    offer(finder, &ordered);
}

void first_orders(struct finder *finder)
{
    for (int way = AS_LISTED; way < WAYS; way++)
        fit_by(finder, (enum way)way);
}

/* widest first or most shared first, by lot, with some chance in each key */
static void begin_anew(struct finder *finder, struct ordered *ordered)
{
    enum way way = drawn(finder, 2) ? WIDEST : MOST_SHARED;
    int key[LIGHTPLAN_DEMANDS], chance = 1 + drawn(finder, 100);
    for (int k = 0; k < finder->count; k++) {
        key[k] = key_of(finder, way, k);
        key[k] = key[k] * 100 + drawn(finder, key[k] * chance + 1);
    }
    order_by(finder, key, ordered->order);
}

/* the place in the order of a demand, drawn by lot, that ends above the target */
static int draw_above(struct finder *finder, const struct ordered *ordered, int target)
{
    int from = drawn(finder, finder->count);
    for (int n = 0; n < finder->count; n++) {
        int i = (from + n) % finder->count;
        if (end_of(finder, ordered, ordered->order[i]) > target)
            return i;
    }
    return 0;
}

/* brings such a demand forward; keeps the order where that is no worse, and says whether it is better */
static int bring_forward(struct finder *finder, struct ordered *ordered, int target)
{
    struct ordered other = *ordered;
    int from = draw_above(finder, ordered, target), to = drawn(finder, from + 1), k = other.order[from];
    memmove(&other.order[to + 1], &other.order[to], (size_t)(from - to) * sizeof other.order[0]);
    other.order[to] = k;
    fit(finder, &other, to, target, ordered->over);
    int better = other.over < ordered->over;
    if (other.over <= ordered->over)
        *ordered = other;
    return better;
}

void search_orders(struct finder *finder, int target, int tries)
{
    struct ordered ordered;
    begin_anew(finder, &ordered);
    fit(finder, &ordered, 0, target, INT32_MAX);
    for (int idle = 0; idle < tries && ordered.over > 0 && !is_over(finder); idle++)
        if (bring_forward(finder, &ordered, target))
            idle = -1;
    offer(finder, &ordered);
}
