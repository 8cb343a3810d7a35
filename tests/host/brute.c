/* Small requests by chance, and what brute force says of them. */
#include "brute.h"

enum { NODES = 7, LINKS = 14, SLOTS = 20 };

uint64_t draws;

int below(int n)
{
    draws = draws * 6364136223846793005u + 1442695040888963407u;
    return (int)((draws >> 33) % (uint64_t)n);
}

/* ---- requests by chance */

static void put(struct small *small, int bytes, int number)
{
    while (bytes-- > 0)
        small->file[small->length++] = (uint8_t)((unsigned)number >> 8 * bytes);
}

/* a demand over a walk that meets no node twice */
static void put_demand(struct small *small, const int (*link)[2], int links)
{
    int k = small->count++, walk[NODES], hops = 0, most = below(2) ? 2 : 1 + below(4), node = link[below(links)][0];
    unsigned met = 1u << node;
    for (int tries = 0; tries < 100 && hops < most; tries++) {
        int next = below(links);
        if (link[next][0] != node || met >> link[next][1] & 1)
            continue;
        walk[hops++] = next;
        node = link[next][1];
        met |= 1u << node;
    }
    if (!hops)
        walk[hops++] = below(links);
    small->width[k] = below(2) ? 1 : 1 + below(4);
    put(small, 3, 0x030004 + hops);
    put(small, 2, 7 * k + 1);
    put(small, 2, small->width[k]);
    small->route[k] = 0;
    for (int h = 0; h < hops; h++) {
        small->route[k] |= 1u << walk[h];
        put(small, 1, walk[h]);
    }
}

void draw_small(struct small *small)
{
    int link[LINKS][2], cycle = 5 + below(3), links = below(4) ? cycle : cycle + below(LINKS - cycle);
    int count = below(4) ? MOST - below(4) : below(MOST + 1);
    *small = (struct small){.guard = below(2) * below(3), .slots = 8 + below(SLOTS - 7)};
    put(small, 3, 0x010005);
    put(small, 2, 0);
    put(small, 2, small->slots);
    put(small, 1, small->guard);
    for (int k = 0; k < links; k++) {
        link[k][0] = k < cycle ? k : below(NODES);
        link[k][1] = k < cycle ? (k + 1) % cycle : (link[k][0] + 1 + below(NODES - 1)) % NODES;
        put(small, 3, 0x020002);
        put(small, 1, link[k][0]);
        put(small, 1, link[k][1]);
    }
    while (small->count < count)
        put_demand(small, (const int(*)[2])link, links);
}

/* ---- brute force */

static int share(const struct small *small, int i, int j) { return (small->route[i] & small->route[j]) != 0; }

static int clash(const struct small *small, int i, int start, int j, int other)
{
    return share(small, i, j) && start < other + small->width[j] + small->guard && other < start + small->width[i] + small->guard;
}

static int is_free(const struct small *small, unsigned placed, const int *start, int k, int at)
{
    for (int j = 0; j < small->count; j++)
        if (placed >> j & 1 && clash(small, k, at, j, start[j]))
            return 0;
    return 1;
}

/* of those in `rest` the one with the fewest free starts */
static int most_pressed(const struct small *small, unsigned rest, unsigned placed, const int *start, int end)
{
    int pressed = 0, fewest = SLOTS + 1;
    for (int k = 0; k < small->count; k++) {
        int count = rest >> k & 1 ? 0 : SLOTS + 1;
        for (int at = 0; count < fewest && at + small->width[k] <= end; at++)
            count += is_free(small, placed, start, k, at);
        if (count < fewest) {
            pressed = k;
            fewest = count;
        }
    }
    return pressed;
}

/* whether those of `rest` find starts beside the ones that have one, all of them ending at `end` or lower: by trying every start */
static int fits(const struct small *small, unsigned rest, unsigned placed, int *start, int end)
{
    if (!rest)
        return 1;
    int k = most_pressed(small, rest, placed, start, end);
    for (int at = 0; at + small->width[k] <= end; at++) {
        start[k] = at;
        if (is_free(small, placed, start, k, at) && fits(small, rest & ~(1u << k), placed | 1u << k, start, end))
            return 1;
    }
    return 0;
}

/* k and all that are tied to it, by links that they share, one by one */
static unsigned tied_to(const struct small *small, int k)
{
    unsigned tied = 1u << k, before = 0;
    while (before != tied) {
        before = tied;
        for (int i = 0; i < small->count; i++)
            for (int j = 0; j < small->count; j++)
                if (before >> i & 1 && share(small, i, j))
                    tied |= 1u << j;
    }
    return tied;
}

/* Circuits that are not tied do not matter to each other. */
int optimum(const struct small *small)
{
    int end = 0, start[MOST];
    for (int k = 0; k < small->count; k++)
        while (end <= small->slots && !fits(small, tied_to(small, k), 0, start, end))
            end++;
    return end;
}

int plan_end(const struct small *small, const uint16_t *starts)
{
    int end = 0;
    for (int i = 0; i < small->count; i++) {
        for (int j = 0; j < i; j++)
            if (clash(small, i, starts[i], j, starts[j]))
                return -1;
        end = starts[i] + small->width[i] > end ? starts[i] + small->width[i] : end;
    }
    return end <= small->slots ? end : -1;
}

/* what a set weighs; 0 where two of it share a link */
static int weight_apart(const struct small *small, const uint8_t *weights, unsigned set)
{
    int sum = 0;
    for (int i = 0; i < small->count; i++)
        for (int j = 0; j <= i; j++)
            if (set >> i & set >> j & 1) {
                if (i != j && share(small, i, j))
                    return 0;
                sum += i == j ? weights[i] : 0;
            }
    return sum;
}

int is_certificate(const struct small *small, const uint8_t *weights, size_t count, int a)
{
    if (count != (size_t)small->count || a < 1 || a > 2)
        return 0;
    for (unsigned set = 0; set < 1u << small->count; set++)
        if (weight_apart(small, weights, set) > a)
            return 0;
    return 1;
}

static int first_above(const struct small *small, const uint8_t *weights, int a)
{
    int k = 0;
    while (k < small->count && weights[k] <= a)
        k++;
    return k;
}

/* the circuits from k on that weigh something */
static unsigned weighing_from(const struct small *small, const uint8_t *weights, int k)
{
    unsigned set = 0;
    for (; k < small->count; k++)
        set |= (unsigned)(weights[k] > 0) << k;
    return set;
}

/* whether a set in which k is the first circuit, and all weigh something, weighs too much */
static int is_first_of_too_much(const struct small *small, const uint8_t *weights, int a, int k)
{
    unsigned weighing = weighing_from(small, weights, k);
    for (unsigned set = 1u << k; set < 1u << small->count; set++)
        if (set >> k & 1 && !(set & ~weighing) && weight_apart(small, weights, set) > a)
            return 1;
    return 0;
}

size_t fault_place(const struct small *small, const uint8_t *weights, size_t count, int a)
{
    if (count != (size_t)small->count || a < 1 || a > 2)
        return (size_t)small->count;
    int k = first_above(small, weights, a);
    if (k < small->count)
        return (size_t)k;
    k = 0;
    while (k < small->count && !is_first_of_too_much(small, weights, a, k))
        k++;
    return (size_t)k;
}

unsigned certified_low(const struct small *small, const uint8_t *weights, int a)
{
    int sum = 0, low = 0;
    for (int k = 0; k < small->count; k++)
        sum += weights[k] * (small->width[k] + small->guard);
    while (a * (low + small->guard) < sum)
        low++;
    return (unsigned)low;
}
