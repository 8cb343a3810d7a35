/* Requests to settle: a network, then circuits on it, whose routes meet no node twice. */
#include "requests.h"
#include "common.h"
#include "list.h"

enum { NODES = 16, LINKS = 64, RATES = 5, EDGE = -284, SLOTS = 384 };
enum { MESH_NODES = 10, MESH_PAIRS = 16 };

struct network {
    int nodes, links, from[LINKS], to[LINKS];
};

struct route {
    int hops, link[NODES];
};

static const int rates[RATES] = {10, 40, 100, 400, 1000};

static void lead(struct network *net, int from, int to)
{
    net->from[net->links] = from;
    net->to[net->links++] = to;
}

static void join(struct network *net, int one, int other)
{
    lead(net, one, other);
    lead(net, other, one);
}

static int are_joined(const struct network *net, int one, int other)
{
    for (int link = 0; link < net->links; link++)
        if (net->from[link] == one && net->to[link] == other)
            return 1;
    return one == other;
}

/* each node is joined to one before it; then pairs by lot */
static void draw_mesh(struct network *net)
{
    net->nodes = MESH_NODES;
    for (int node = 1; node < MESH_NODES; node++)
        join(net, below(node), node);
    while (net->links < 2 * MESH_PAIRS) {
        int one = below(MESH_NODES), other = below(MESH_NODES);
        if (!are_joined(net, one, other))
            join(net, one, other);
    }
}

static void make_nsfnet(struct network *net)
{
    net->nodes = NSFNET_NODES;
    for (int k = 0; k < JOINED; k++)
        join(net, joined[k][0], joined[k][1]);
}

static void make_cycle(struct network *net, int nodes, int both_ways)
{
    net->nodes = nodes;
    for (int node = 0; node < nodes; node++) {
        lead(net, node, (node + 1) % nodes);
        if (both_ways)
            lead(net, (node + 1) % nodes, node);
    }
}

static void draw_network(struct network *net, enum kind kind)
{
    *net = (struct network){0};
    switch (kind) {
    case RINGS:
        make_cycle(net, 8 + below(9), 1);
        break;
    case NSFNET:
        make_nsfnet(net);
        break;
    case MESHES:
        draw_mesh(net);
        break;
    default:
        make_cycle(net, 5 + 2 * below(3), 0);
    }
}

/* the link by which a search from one node meets each other first, the links of a node taken from one by lot on; -1 for that node */
static void meet_all(const struct network *net, int from, int *by)
{
    int queue[NODES] = {from}, met = 1, first = below(net->links);
    unsigned seen = 1u << from;
    by[from] = -1;
    for (int k = 0; k < met; k++)
        for (int n = 0; n < net->links; n++) {
            int link = (first + n) % net->links;
            if (net->from[link] != queue[k] || seen >> net->to[link] & 1)
                continue;
            seen |= 1u << net->to[link];
            by[net->to[link]] = link;
            queue[met++] = net->to[link];
        }
}

/* how many links such a search went over to meet a node */
static int hops_to(const struct network *net, const int *by, int node)
{
    int hops = 0;
    for (; by[node] >= 0; node = net->from[by[node]])
        hops++;
    return hops;
}

/* a route with the fewest links between two nodes by lot */
static void draw_shortest(const struct network *net, struct route *route)
{
    int by[NODES], from = below(net->nodes), to = (from + 1 + below(net->nodes - 1)) % net->nodes;
    meet_all(net, from, by);
    int hop = route->hops = hops_to(net, by, to);
    for (int node = to; by[node] >= 0; node = net->from[by[node]])
        route->link[--hop] = by[node];
}

/* on a ring a way by lot, in either direction; the links from each node on and back to it stand side by side */
static void draw_way_round(const struct network *net, struct route *route)
{
    int back = below(2), node = below(net->nodes);
    route->hops = 1 + below(net->nodes - 1);
    for (int hop = 0; hop < route->hops; hop++) {
        int joint = back ? (node + net->nodes - 1 - hop) % net->nodes : (node + hop) % net->nodes;
        route->link[hop] = 2 * joint + back;
    }
}

/* on a cycle of 2 n + 1 links a route of 2 to n of them */
static void draw_arc(const struct network *net, struct route *route)
{
    int most = net->nodes / 2, from = below(net->nodes);
    route->hops = 2 + below(most - 1);
    for (int hop = 0; hop < route->hops; hop++)
        route->link[hop] = (from + hop) % net->nodes;
}

/* the link from a node to one that was not met, the first from one by lot on; -1 where there is none */
static int draw_onward(const struct network *net, int node, unsigned seen)
{
    int first = below(net->links);
    for (int n = 0; n < net->links; n++) {
        int link = (first + n) % net->links;
        if (net->from[link] == node && !(seen >> net->to[link] & 1))
            return link;
    }
    return -1;
}

/* up to 5 links by lot, until there is no way on */
static void draw_walk(const struct network *net, struct route *route)
{
    int node = below(net->nodes), most = 1 + below(5), link;
    unsigned seen = 1u << node;
    for (route->hops = 0; route->hops < most && (link = draw_onward(net, node, seen)) >= 0; route->hops++) {
        route->link[route->hops] = link;
        node = net->to[link];
        seen |= 1u << node;
    }
}

static void draw_route(const struct network *net, enum kind kind, struct route *route)
{
    switch (kind) {
    case RINGS:
        draw_way_round(net, route);
        break;
    case MESHES:
        draw_walk(net, route);
        break;
    case ODD_CYCLES:
        draw_arc(net, route);
        break;
    default:
        draw_shortest(net, route);
    }
}

static void add(struct request_file *file, int bytes, int number) { put(file->bytes, &file->length, bytes, number); }

static void add_network(struct request_file *file, const struct network *net, int guard)
{
    add(file, 3, 0x010005);
    add(file, 2, EDGE);
    add(file, 2, SLOTS);
    add(file, 1, guard);
    for (int link = 0; link < net->links; link++) {
        add(file, 3, 0x020002);
        add(file, 1, net->from[link]);
        add(file, 1, net->to[link]);
    }
}

/* a circuit booked at one of the first bit rates */
static void add_circuit(struct request_file *file, int ident, int booked, const struct route *route)
{
    add(file, 3, 0x050004 + route->hops);
    add(file, 2, ident);
    add(file, 2, rates[below(booked)]);
    for (int hop = 0; hop < route->hops; hop++)
        add(file, 1, route->link[hop]);
}

/* how many of the bit rates are booked: the highest are left out where so many circuits would not fit into the band */
static int bookable(enum kind kind, int count)
{
    if (kind == NSFNET || count <= 60)
        return RATES;
    return kind == ODD_CYCLES && count > 100 ? RATES - 2 : RATES - 1;
}

void draw_request(struct request_file *file, enum kind kind, int count, uint64_t which)
{
    struct network net;
    int booked = bookable(kind, count);
    seed = (which * KINDS + kind) * 1000 + count;
    for (int k = 0; k < 20; k++)
        below(2);
    draw_network(&net, kind);
    file->length = 0;
    add_network(file, &net, below(2));
    for (int k = 0; k < count; k++) {
        struct route route;
        draw_route(&net, kind, &route);
        add_circuit(file, k + 1, booked, &route);
    }
}
