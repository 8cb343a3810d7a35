/* The finder's beginning and its rounds; see finder.h. */
#include "finder_parts.h"
#include <string.h>

/* to ask takes as long as some steps do, so it is done once in so many */
enum { STEPS_UNASKED = 16 };

int is_over(struct finder *finder)
{
    const struct finding *found = finder->found;
    if (found->low > (unsigned)finder->slots || (found->planned && found->end <= found->low))
        finder->over = 1;
    if (!finder->over && finder->asked++ % STEPS_UNASKED == 0)
        finder->over = finder->stop->asked(finder->stop->with);
    return finder->over;
}

static unsigned last_end(const struct finder *finder, const int *starts)
{
    int last = 0;
    for (int k = 0; k < finder->count; k++)
        if (last < starts[k] + finder->width[k])
            last = starts[k] + finder->width[k];
    return (unsigned)last;
}

void offer_plan(struct finder *finder, const int *starts)
{
    struct finding *found = finder->found;
    unsigned end = last_end(finder, starts);
    if (found->planned && found->end <= end)
        return;
    found->planned = 1;
    found->end = end;
    for (int k = 0; k < finder->count; k++)
        found->starts[k] = (uint16_t)starts[k];
}

void offer_weights(struct finder *finder, const uint8_t *weights, uint8_t a)
{
    struct finding *found = finder->found;
    unsigned sum = 0, guard = (unsigned)finder->guard;
    for (int k = 0; k < finder->count; k++)
        sum += weights[k] * ((unsigned)finder->width[k] + guard);
    unsigned high = (sum + a - 1) / a, low = high > guard ? high - guard : 0;
    if (low <= found->low)
        return;
    found->low = low;
    found->a = a;
    memcpy(found->weights, weights, (size_t)finder->count);
}

struct set over_link(const struct finder *finder, int link)
{
    struct set over = {{0}};
    for (int k = 0; k < finder->count; k++)
        for (int h = 0; h < finder->hops[k]; h++)
            if (finder->links_of[k][h] == link)
                put_in(&over, k);
    return over;
}

/* each of those over one link meets the others */
static void note_meetings(struct finder *finder, const struct set *over)
{
    for (int k = next_of(over, 0); k < finder->count; k = next_of(over, k + 1)) {
        put_all_in(&finder->meets[k], over);
        take_out(&finder->meets[k], k);
    }
}

static void find_meetings(struct finder *finder)
{
    for (int link = 0; link < finder->links; link++) {
        struct set over = over_link(finder, link);
        note_meetings(finder, &over);
    }
}

static uint8_t read_widths(struct finder *finder, const uint8_t *file, size_t file_bytes)
{
    uint16_t idents[LIGHTPLAN_DEMANDS], widths[LIGHTPLAN_DEMANDS], rates[LIGHTPLAN_DEMANDS];
    struct lightplan_request request =
        lightplan_read(file, file_bytes, idents, LIGHTPLAN_DEMANDS, widths, LIGHTPLAN_DEMANDS, rates, LIGHTPLAN_DEMANDS);
    finder->found->place = request.place;
    if (request.refusal)
        return request.refusal;
    finder->count = (int)request.demands;
    finder->slots = request.slots;
    finder->guard = request.guard;
    finder->links = (int)request.links;
    for (int k = 0; k < finder->count; k++)
        finder->width[k] = widths[k];
    return 0;
}

static uint8_t read_routes(struct finder *finder, const uint8_t *file, size_t file_bytes)
{
    uint16_t ends[LIGHTPLAN_ENDS], hops[LIGHTPLAN_DEMANDS], routes[LIGHTPLAN_ROUTES], *link = routes;
    struct lightplan_routes lists =
        lightplan_read_routes(file, file_bytes, ends, LIGHTPLAN_ENDS, hops, LIGHTPLAN_DEMANDS, routes, LIGHTPLAN_ROUTES);
    finder->found->place = lists.place;
    if (lists.refusal)
        return lists.refusal;
    for (int k = 0; k < finder->count; k++, link += hops[k - 1]) {
        finder->hops[k] = hops[k];
        memcpy(finder->links_of[k], link, hops[k] * sizeof *link);
    }
    find_meetings(finder);
    return 0;
}

/* The target of a round: mostly the lowest end that may be, else one slot less than the best end, or one in between. */
static int target_of(const struct finder *finder, int round)
{
    const struct finding *found = finder->found;
    int low = (int)found->low, below = found->planned ? (int)found->end - 1 : finder->slots;
    switch (round % 4) {
    case 1:
        return below;
    case 3:
        return (low + below) / 2;
    default:
        return low;
    }
}

/* Rounds of all searches, each longer than the one before it, until it is over. Of orders there are few, since each has demands placed by
   the hundred; moves of weights and turns take far less. */
static void go_round(struct finder *finder)
{
    for (int round = 0; !is_over(finder); round++) {
        int orders = 25 + 12 * (round < 1000 ? round : 1000);
        search_orders(finder, target_of(finder, round), orders);
        search_weights(finder, 80 * orders);
        search_turns(finder, target_of(finder, round), 160 * orders);
    }
}

uint8_t find(const uint8_t *file, size_t file_bytes, uint64_t seed, const struct finder_stop *stop, struct finding *finding)
{
    struct finder finder = {.draws = seed, .stop = stop, .found = finding};
    *finding = (struct finding){.a = 1};
    uint8_t refusal = read_widths(&finder, file, file_bytes);
    if (!refusal)
        refusal = read_routes(&finder, file, file_bytes);
    if (refusal)
        return refusal;
    link_weights(&finder);
    if (finding->low > (unsigned)finder.slots)
        return 0;
    first_orders(&finder);
    grown_weights(&finder);
    go_round(&finder);
    return 0;
}
