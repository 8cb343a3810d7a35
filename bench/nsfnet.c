/* Lists of circuits on NSFNET, each made from its number: 14 nodes, 21 pairs of them joined, a link each way. */
#include "common.h"
#include "list.h"
#include <stdlib.h>
#include <string.h>

enum { NODES = NSFNET_NODES, LINKS = 2 * JOINED, WAYS = 2 * PAIRS, RATES = 5, EDGE = -284, SLOTS = 384 };

const unsigned char joined[JOINED][2] = {
    {0, 1},  {0, 2}, {0, 7}, {1, 2}, {1, 3},  {2, 5},  {3, 4},   {3, 10},  {4, 5},   {4, 6}, {5, 9},
    {5, 13}, {6, 7}, {7, 8}, {8, 9}, {8, 11}, {8, 12}, {10, 11}, {10, 12}, {11, 13}, {12, 13},
};

/* the bit rates, in Gbit/s, the slots that each takes, and how many circuits in a hundred ask for it */
static const int rates[RATES] = {10, 40, 100, 400, 1000};
static const int widths[RATES] = {1, 1, 2, 8, 20};
static const int shares[SPREADS][RATES] = {
    [MOSTLY_LOW] = {30, 25, 20, 15, 10},
    [EVEN] = {20, 20, 20, 20, 20},
    [MOSTLY_HIGH] = {10, 15, 20, 25, 30},
};

struct circuit {
    int from, to, rate, width, hops, route[HOPS];
};

static int link_from(int link)
{
    return joined[link / 2][link % 2];
}

static int link_to(int link)
{
    return joined[link / 2][1 - link % 2];
}

/* for each node the link by which a search from one node meets it first, nearer nodes before farther ones; -1 for that node itself */
static void meet_all(int from, int *by)
{
    int queue[NODES] = {from}, met = 1;
    unsigned seen = 1u << from;
    by[from] = -1;
    for (int k = 0; k < met; k++)
        for (int link = 0; link < LINKS; link++)
            if (link_from(link) == queue[k] && !(seen >> link_to(link) & 1)) {
                seen |= 1u << link_to(link);
                by[link_to(link)] = link;
                queue[met++] = link_to(link);
            }
}

/* the route with the fewest links; of several, at the first node where they part, the one that goes on to the lower node */
static void find_route(struct circuit *circuit)
{
    int by[NODES], hops = 0;
    meet_all(circuit->from, by);
    for (int node = circuit->to; by[node] >= 0; node = link_from(by[node]))
        hops++;
    circuit->hops = hops;
    for (int node = circuit->to; by[node] >= 0; node = link_from(by[node]))
        circuit->route[--hops] = by[node];
}

/* between each two nodes one way, drawn by lot; then the ways back */
static void draw_ways(struct circuit *ways)
{
    int k = 0;
    for (int low = 0; low < NODES; low++)
        for (int high = low + 1; high < NODES; high++, k++) {
            int back = below(2);
            ways[k + PAIRS * back] = (struct circuit){.from = low, .to = high};
            ways[k + PAIRS * !back] = (struct circuit){.from = high, .to = low};
        }
}

/* brings ways back that are drawn by lot to the places from PAIRS up to count */
static void draw_ways_back(struct circuit *ways, int count)
{
    for (int k = PAIRS; k < count; k++) {
        int drawn = k + below(WAYS - k);
        struct circuit way = ways[drawn];
        ways[drawn] = ways[k];
        ways[k] = way;
    }
}

static void draw_rate(struct circuit *circuit, const int *share)
{
    int lot = below(100), k = 0;
    while (lot >= share[k])
        lot -= share[k++];
    circuit->rate = rates[k];
    circuit->width = widths[k];
}

static int ident(const struct circuit *circuit)
{
    return 100 * circuit->from + circuit->to;
}

/* the widest first; of those the ones with the longest route; of those by their nodes */
static int by_listing(const void *a, const void *b)
{
    const struct circuit *p = a, *q = b;
    if (p->width != q->width)
        return q->width - p->width;
    return p->hops != q->hops ? q->hops - p->hops : ident(p) - ident(q);
}

static void add(struct list *list, int bytes, int number)
{
    put(list->file, &list->length, bytes, number);
}

static void add_network(struct list *list)
{
    add(list, 3, 0x010005);
    add(list, 2, EDGE);
    add(list, 2, list->slots);
    add(list, 1, list->guard);
    for (int link = 0; link < LINKS; link++) {
        add(list, 3, 0x020002);
        add(list, 1, link_from(link));
        add(list, 1, link_to(link));
    }
}

/* circuit i, booked at its bit rate */
static void add_circuit(struct list *list, int i, const struct circuit *circuit)
{
    list->width[i] = circuit->width;
    list->hops[i] = circuit->hops;
    memcpy(list->route[i], circuit->route, sizeof circuit->route);
    add(list, 3, 0x050004 + circuit->hops);
    add(list, 2, ident(circuit));
    add(list, 2, circuit->rate);
    for (int k = 0; k < circuit->hops; k++)
        add(list, 1, circuit->route[k]);
}

/* what the fullest link needs */
static int find_bound(const struct list *list)
{
    int need[LINKS] = {0}, bound = 0;
    for (int i = 0; i < list->count; i++)
        for (int k = 0; k < list->hops[i]; k++) {
            int *sum = &need[list->route[i][k]];
            *sum += list->width[i] + (*sum ? list->guard : 0);
            bound = bound < *sum ? *sum : bound;
        }
    return bound;
}

/* A start for the draws that is far from those of the neighbouring numbers. */
static uint64_t scattered(uint64_t which)
{
    which = (which + 1) * 0x9E3779B97F4A7C15u;
    which = (which ^ which >> 30) * 0xBF58476D1CE4E5B9u;
    which = (which ^ which >> 27) * 0x94D049BB133111EBu;
    return which ^ which >> 31;
}

void draw_list(struct list *list, int count, int guard, enum spread spread, uint64_t which)
{
    struct circuit ways[WAYS];
    seed = scattered(which);
    draw_ways(ways);
    draw_ways_back(ways, count);
    for (int i = 0; i < count; i++) {
        draw_rate(&ways[i], shares[spread]);
        find_route(&ways[i]);
    }
    qsort(ways, count, sizeof ways[0], by_listing);
    *list = (struct list){.count = count, .guard = guard, .slots = SLOTS};
    add_network(list);
    for (int i = 0; i < count; i++)
        add_circuit(list, i, &ways[i]);
    list->bound = find_bound(list);
}

void share_both_ways(struct list *list)
{
    for (int i = 0; i < list->count; i++)
        for (int k = 0; k < list->hops[i]; k++)
            list->route[i][k] -= list->route[i][k] % 2;
    list->bound = find_bound(list);
    list->length = 0;
}
