/* A library that answers wrongly, to show that the tests notice. Linked with --wrap for each entry; the variable WRONG picks one of the
   faults below by its number. Without it every answer goes through as it is. */
#include "../../hosts/c/lightplan.h"
#include <stdlib.h>

enum fault {
    READ_BOUND = 1,
    READ_WIDTH,
    READ_IDENT,
    READ_LINKS,
    READ_BEHIND,
    READ_WRITES_REFUSED,
    READ_PLACE,
    SEARCH_END,
    SEARCH_STEPS,
    SEARCH_REACHED,
    SEARCH_RULED,
    SEARCH_START,
    SEARCH_ORDER,
    SEARCH_FINISHED,
    SEARCH_WRITES_WITHOUT,
    SEARCH_BEHIND,
    SEARCH_PLACE,
    SEARCH_READS_ON,
    CHECK_ACCEPTS,
    CHECK_REFUSES,
    CHECK_END,
    CHECK_START,
    CHECK_BEHIND,
    CHECK_READS_ON,
    CHECK_PLACE,
    STARTS_CLASH_FIRST,
    STARTS_READS_ON,
    STARTS_END,
    FREQUENCY_N,
    FREQUENCY_MHZ,
    FREQUENCY_REFUSES,
    SEARCH_OUTCOME,
    ROUTES_END,
    ROUTES_HOP,
    ROUTES_LINK,
    ROUTES_TOTAL,
    ROUTES_BEHIND,
    ROUTES_WRITES_REFUSED,
    ROUTES_PLACE,
    CHECK_WHICH,
    STARTS_WHICH,
    VERSION,
    BLOCKER_NAMED,
    BLOCKER_UNNAMED,
    BLOCKER_LISTED_LATER,
    BLOCKERS_BY_TURN,
    BLOCKERS_BEHIND,
    BLOCKERS_WITHOUT,
    BLOCKERS_REFUSED,
    BLOCKERS_ROOM,
    READ_RATE,
    READ_RATE_OF_WIDTH,
    READ_WIDTH_OF_RATE,
    RATES_BEHIND,
    RATES_REFUSED,
    RATES_ROOM,
    GROUPS_END,
    GROUPS_BOUND,
    GROUPS_ORDER,
    GROUPS_COUNT,
    GROUPS_START,
    GROUPS_BLOCKER,
    GROUPS_FOUND,
    GROUPS_BEHIND,
    GROUPS_WRITES_WITHOUT,
    GROUPS_WRITES_REFUSED,
    GROUPS_PLACE,
    GROUPS_BEFORE_ROOM,
    GROUPS_BY_LISTING,
    CERTIFY_BEST,
    CERTIFY_END,
    CERTIFY_LOW,
    CERTIFY_WHICH,
    CERTIFY_PLACE,
    CERTIFY_ACCEPTS,
    CERTIFY_HALVES,
    CERTIFY_READS_ON,
    CERTIFY_BEFORE_THE_PLAN,
    FAULTS
};

static int is(enum fault fault)
{
    const char *word = getenv("WRONG");
    return word && atoi(word) == (int)fault;
}

static volatile uint8_t looked_at;

struct lightplan_request __real_lightplan_read(const uint8_t *, size_t, uint16_t *, size_t, uint16_t *, size_t, uint16_t *, size_t);

/* the first demand by rate told with another rate, each demand by width with a rate of 10, each by rate with a width of 1 */
static void spoil_rates(size_t count, uint16_t *widths, uint16_t *rates)
{
    int spoilt = 0;
    for (size_t k = 0; k < count; k++) {
        if (!rates[k] && is(READ_RATE_OF_WIDTH))
            rates[k] = 10;
        else if (rates[k] && is(READ_WIDTH_OF_RATE))
            widths[k] = 1;
        else if (rates[k] && !spoilt++ && is(READ_RATE))
            rates[k] = rates[k] == 10 ? 40 : 10;
    }
}

struct lightplan_request __wrap_lightplan_read(const uint8_t *file, size_t file_bytes, uint16_t *idents, size_t idents_count,
                                               uint16_t *widths, size_t widths_count, uint16_t *rates, size_t rates_count)
{
    uint16_t others[LIGHTPLAN_DEMANDS];
    struct lightplan_request r =
        __real_lightplan_read(file, file_bytes, idents, idents_count, widths, widths_count, rates, rates_count);
    if (r.refusal == LIGHTPLAN_BUFFER_SHORT && rates_count < r.place && is(RATES_ROOM))
        return __real_lightplan_read(file, file_bytes, idents, idents_count, widths, widths_count, others, LIGHTPLAN_DEMANDS);
    if (r.refusal && is(RATES_REFUSED) && rates_count)
        rates[0] = 0;
    r.place += is(READ_PLACE) && r.refusal;
    if (r.refusal && is(READ_WRITES_REFUSED) && widths_count)
        widths[0] = 0;
    if (r.refusal)
        return r;
    r.bound += is(READ_BOUND);
    r.links += is(READ_LINKS);
    if (r.demands && is(READ_WIDTH))
        widths[0]++;
    if (r.demands && is(READ_IDENT))
        idents[0] ^= 256;
    if (r.demands < widths_count && is(READ_BEHIND))
        widths[r.demands] = 0;
    if (r.demands < rates_count && is(RATES_BEHIND))
        rates[r.demands] = 0;
    spoil_rates(r.demands, widths, rates);
    return r;
}

struct lightplan_routes __real_lightplan_read_routes(const uint8_t *, size_t, uint16_t *, size_t, uint16_t *, size_t, uint16_t *, size_t);

struct lightplan_routes __wrap_lightplan_read_routes(const uint8_t *file, size_t file_bytes, uint16_t *ends, size_t ends_count,
                                                     uint16_t *hops, size_t hops_count, uint16_t *routes, size_t routes_count)
{
    struct lightplan_routes r =
        __real_lightplan_read_routes(file, file_bytes, ends, ends_count, hops, hops_count, routes, routes_count);
    r.place += is(ROUTES_PLACE) && r.refusal;
    if (r.refusal && is(ROUTES_WRITES_REFUSED) && hops_count)
        hops[0] = 0;
    if (r.refusal)
        return r;
    r.hops += is(ROUTES_TOTAL);
    if (is(ROUTES_END))
        ends[1]++;
    if (r.demands && is(ROUTES_HOP))
        hops[0]++;
    if (r.hops && is(ROUTES_LINK))
        routes[r.hops - 1]++;
    if (r.hops < routes_count && is(ROUTES_BEHIND))
        routes[r.hops] = 0;
    return r;
}

/* what a fault of the blockers goes by: how many demands there are, and their widths */
struct demands {
    size_t count;
    uint16_t idents[LIGHTPLAN_DEMANDS], widths[LIGHTPLAN_DEMANDS], rates[LIGHTPLAN_DEMANDS];
};

static struct demands demands_of(const uint8_t *file, size_t file_bytes)
{
    struct demands d;
    d.count = __real_lightplan_read(file, file_bytes, d.idents, LIGHTPLAN_DEMANDS, d.widths, LIGHTPLAN_DEMANDS, d.rates, LIGHTPLAN_DEMANDS)
                  .demands;
    return d;
}

/* a demand that ends where this one does and is listed later; else this one */
static uint16_t listed_later(const struct demands *d, const uint16_t *starts, uint16_t one)
{
    for (size_t k = one; k < d->count; k++)
        if (k > one && starts[k] + d->widths[k] == starts[one] + d->widths[one])
            return (uint16_t)k;
    return one;
}

static void spoil_blockers(const struct demands *d, const uint16_t *starts, const uint16_t *order, uint16_t *blockers)
{
    uint16_t right[LIGHTPLAN_DEMANDS];
    for (size_t k = 0; k < d->count; k++)
        right[k] = blockers[k];
    for (size_t k = 0; k < d->count; k++) {
        if (right[k] == LIGHTPLAN_NOBODY && is(BLOCKER_NAMED))
            blockers[k] = (uint16_t)k;
        if (right[k] != LIGHTPLAN_NOBODY && is(BLOCKER_UNNAMED))
            blockers[k] = LIGHTPLAN_NOBODY;
        if (right[k] != LIGHTPLAN_NOBODY && is(BLOCKER_LISTED_LATER))
            blockers[k] = listed_later(d, starts, right[k]);
        if (is(BLOCKERS_BY_TURN))
            blockers[k] = right[order[k]];
    }
}

struct lightplan_answer __real_lightplan_search(const uint8_t *, size_t, uint32_t, uint16_t *, size_t, uint16_t *, size_t, uint16_t *,
                                                size_t);

struct lightplan_answer __wrap_lightplan_search(const uint8_t *file, size_t file_bytes, uint32_t limit, uint16_t *starts,
                                                size_t starts_count, uint16_t *order, size_t order_count, uint16_t *blockers,
                                                size_t blockers_count)
{
    struct lightplan_answer a =
        __real_lightplan_search(file, file_bytes, limit, starts, starts_count, order, order_count, blockers, blockers_count);
    int plan = !a.refusal && a.end;
    struct demands d = demands_of(file, file_bytes);
    if (plan)
        spoil_blockers(&d, starts, order, blockers);
    if (plan && d.count < blockers_count && is(BLOCKERS_BEHIND))
        blockers[blockers_count - 1] = 0;
    if (blockers_count && ((a.refusal && is(BLOCKERS_REFUSED)) || (!a.refusal && !plan && is(BLOCKERS_WITHOUT))))
        blockers[0] = 0;
    if (blockers_count < d.count && is(BLOCKERS_ROOM))
        a = __real_lightplan_search(file, file_bytes, limit, starts, starts_count, order, order_count, d.idents, LIGHTPLAN_DEMANDS);
    if (file_bytes && is(SEARCH_READS_ON))
        looked_at = file[file_bytes];
    a.place += is(SEARCH_PLACE) && a.refusal;
    a.end += is(SEARCH_END) && plan;
    a.steps += is(SEARCH_STEPS) && !a.refusal;
    a.reached += is(SEARCH_REACHED) && plan;
    a.ruled += is(SEARCH_RULED) && !a.refusal;
    if (plan && is(SEARCH_START))
        starts[0]++;
    if (plan && is(SEARCH_ORDER))
        order[0] = order[order_count - 1];
    if (plan && is(SEARCH_FINISHED))
        a.outcome = LIGHTPLAN_FINISHED;
    a.outcome -= is(SEARCH_OUTCOME) && !a.refusal;
    if (!plan && starts_count && is(SEARCH_WRITES_WITHOUT))
        starts[0] = 0;
    if (plan && is(SEARCH_BEHIND))
        starts[starts_count - 1] = 0;
    return a;
}

struct lightplan_grouped __real_lightplan_groups(const uint8_t *, size_t, size_t, uint16_t *, size_t, uint16_t *, size_t);

/* a plan told otherwise: its numbers, its group order, its buffers */
static void spoil_groups(struct lightplan_grouped *g, uint16_t *starts, size_t starts_count, uint16_t *blockers)
{
    g->end += is(GROUPS_END);
    g->bound += is(GROUPS_BOUND);
    g->groups -= is(GROUPS_COUNT) && g->groups > 1;
    if (is(GROUPS_ORDER))
        g->order[0] = g->order[g->groups - 1];
    if (is(GROUPS_START))
        starts[0]++;
    if (is(GROUPS_BLOCKER))
        blockers[0] = blockers[0] == LIGHTPLAN_NOBODY ? 0 : LIGHTPLAN_NOBODY;
    if (is(GROUPS_BEHIND))
        starts[starts_count - 1] = 0;
}

struct lightplan_grouped __wrap_lightplan_groups(const uint8_t *file, size_t file_bytes, size_t groups, uint16_t *starts,
                                                 size_t starts_count, uint16_t *blockers, size_t blockers_count)
{
    size_t asked = is(GROUPS_BY_LISTING) && groups <= LIGHTPLAN_GROUPS ? 1 : groups;
    struct lightplan_grouped g = __real_lightplan_groups(file, file_bytes, asked, starts, starts_count, blockers, blockers_count);
    g.place += is(GROUPS_PLACE) && g.refusal;
    if (g.refusal == LIGHTPLAN_BUFFER_SHORT && groups > LIGHTPLAN_GROUPS && is(GROUPS_BEFORE_ROOM))
        g = (struct lightplan_grouped){.refusal = LIGHTPLAN_GROUPS_OUTSIDE, .place = groups};
    if (starts_count && g.refusal && is(GROUPS_WRITES_REFUSED))
        starts[0] = 0;
    if (blockers_count && g.outcome == LIGHTPLAN_NOTHING_FOUND && is(GROUPS_WRITES_WITHOUT))
        blockers[0] = 0;
    if (g.outcome == LIGHTPLAN_NOTHING_FOUND && is(GROUPS_FOUND))
        g.outcome = LIGHTPLAN_GROUPED;
    if (g.outcome == LIGHTPLAN_GROUPED && g.groups)
        spoil_groups(&g, starts, starts_count, blockers);
    return g;
}

struct lightplan_verdict __real_lightplan_check(const uint8_t *, size_t, const uint8_t *, size_t, uint16_t *, size_t);

struct lightplan_verdict __wrap_lightplan_check(const uint8_t *file, size_t file_bytes, const uint8_t *plan, size_t plan_bytes,
                                                uint16_t *starts, size_t starts_count)
{
    struct lightplan_verdict v = __real_lightplan_check(file, file_bytes, plan, plan_bytes, starts, starts_count);
    if (plan_bytes && is(CHECK_READS_ON))
        looked_at = plan[plan_bytes];
    v.place += is(CHECK_PLACE) && v.refusal;
    if (v.refusal && is(CHECK_WHICH))
        v.which = LIGHTPLAN_OF_REQUEST;
    if (v.refusal && is(CHECK_ACCEPTS))
        v = (struct lightplan_verdict){0};
    if (v.end && is(CHECK_REFUSES))
        v = (struct lightplan_verdict){.refusal = LIGHTPLAN_CLASH, .which = LIGHTPLAN_OF_PLAN};
    v.end += is(CHECK_END) && v.end;
    if (v.end && is(CHECK_START))
        starts[0]++;
    if (starts_count && is(CHECK_BEHIND))
        starts[starts_count - 1] = 0;
    return v;
}

struct lightplan_verdict __real_lightplan_check_starts(const uint8_t *, size_t, const uint16_t *, size_t);

struct lightplan_verdict __wrap_lightplan_check_starts(const uint8_t *file, size_t file_bytes, const uint16_t *starts, size_t starts_count)
{
    struct lightplan_verdict v = __real_lightplan_check_starts(file, file_bytes, starts, starts_count);
    if (starts_count && is(STARTS_READS_ON))
        looked_at = (uint8_t)starts[starts_count];
    if (v.refusal == LIGHTPLAN_END_ABOVE && is(STARTS_CLASH_FIRST))
        v.refusal = LIGHTPLAN_CLASH;
    if (v.refusal && is(STARTS_WHICH))
        v.which = LIGHTPLAN_OF_REQUEST;
    v.end += is(STARTS_END) && !v.refusal;
    return v;
}

struct lightplan_certified __real_lightplan_certify(const uint8_t *, size_t, const uint16_t *, size_t, const uint8_t *, size_t, uint8_t);

struct lightplan_certified __wrap_lightplan_certify(const uint8_t *file, size_t file_bytes, const uint16_t *starts, size_t starts_count,
                                                    const uint8_t *weights, size_t weights_count, uint8_t a)
{
    struct lightplan_certified c = __real_lightplan_certify(file, file_bytes, starts, starts_count, weights, weights_count, a);
    if (weights_count && is(CERTIFY_READS_ON))
        looked_at = weights[weights_count];
    if (c.refusal == LIGHTPLAN_NO_CERTIFICATE && is(CERTIFY_ACCEPTS))
        c = (struct lightplan_certified){.outcome = LIGHTPLAN_BEST};
    if (c.refusal && c.which == LIGHTPLAN_OF_PLAN && (a < 1 || a > 2) && is(CERTIFY_BEFORE_THE_PLAN))
        c = (struct lightplan_certified){.refusal = LIGHTPLAN_NO_CERTIFICATE, .place = starts_count, .which = LIGHTPLAN_OF_CERTIFICATE};
    c.place += is(CERTIFY_PLACE) && c.refusal;
    if (c.refusal && is(CERTIFY_WHICH))
        c.which = LIGHTPLAN_OF_PLAN;
    if (!c.refusal && is(CERTIFY_BEST))
        c.outcome = LIGHTPLAN_BEST;
    if (c.outcome && a == 2 && is(CERTIFY_HALVES))
        c.low /= 2;
    c.end += is(CERTIFY_END) && !c.refusal;
    c.low += is(CERTIFY_LOW) && !c.refusal;
    return c;
}

struct lightplan_frequency_of __real_lightplan_frequency(int16_t, uint16_t, uint8_t, uint16_t, uint16_t);

struct lightplan_frequency_of __wrap_lightplan_frequency(int16_t n0, uint16_t slots, uint8_t guard, uint16_t start, uint16_t width)
{
    struct lightplan_frequency_of f = __real_lightplan_frequency(n0, slots, guard, start, width);
    f.n += is(FREQUENCY_N) && !f.refusal;
    f.mhz -= is(FREQUENCY_MHZ) && !f.refusal ? 6250 : 0;
    if (start + width == slots && is(FREQUENCY_REFUSES))
        f = (struct lightplan_frequency_of){.refusal = LIGHTPLAN_END_ABOVE};
    return f;
}

uint32_t __real_lightplan_version(void);

uint32_t __wrap_lightplan_version(void) { return __real_lightplan_version() + is(VERSION); }
