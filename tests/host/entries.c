/* Calls every entry of the library on request files, and on the plan file beside each where there is one, and holds the answers against
   what a few lines of C work out from the bytes, against each other, and against the promise that nothing but the first K entries of
   a lent buffer is written.
     entries REQUEST..
   The first difference is printed and ends the run with status 1. The last line counts the files and what was compared. */
#include "lent.h"
#include "seen.h"
#include <stdio.h>
#include <stdlib.h>
#include <string.h>

enum { STEPS = 3000, TRIED_GROUPS = 5, PLENTY = 203, PLENTY_OF_HOPS = 6403, NAME_BYTES = 4096 };

static const char *now_testing = "no file";
static unsigned long compared;

/* lent to the calls: two files and three buffers */
static struct lent request_lent, plan_lent, first_lent, second_lent, third_lent;

static void hold_at(int line, int holds, const char *what)
{
    compared++;
    if (holds)
        return;
    printf("FAILED: %s: entries.c, line %d: %s\n", now_testing, line, what);
    exit(1);
}

#define HOLD(what) hold_at(__LINE__, (what), #what)

/* a call writes K entries of each of three buffers and nothing else, or nothing at all */
static void hold_written(size_t entries)
{
    HOLD(lent_kept(&first_lent, 2 * entries));
    HOLD(lent_kept(&second_lent, 2 * entries));
    HOLD(lent_kept(&third_lent, 2 * entries));
}

/* ---- lightplan_read */

static struct lightplan_request read_with(const uint8_t *file, size_t bytes, size_t idents, size_t widths, size_t rates)
{
    uint16_t *first = lent_out(&first_lent, 2 * idents), *second = lent_out(&second_lent, 2 * widths);
    uint16_t *third = lent_out(&third_lent, 2 * rates);
    return lightplan_read(file, bytes, first, idents, second, widths, third, rates);
}

static void hold_no_request(const struct lightplan_request *request)
{
    HOLD(request->n0 == 0 && request->slots == 0 && request->guard == 0 && request->links == 0 && request->demands == 0 &&
         request->bound == 0);
    hold_written(0);
}

static void hold_too_short(const struct lightplan_request *request, size_t needed)
{
    HOLD(request->refusal == LIGHTPLAN_BUFFER_SHORT && request->place == needed);
    hold_no_request(request);
}

static void hold_read(const struct seen *seen, size_t idents, size_t widths, size_t rates)
{
    struct lightplan_request request = read_with(seen->file, seen->bytes, idents, widths, rates);
    HOLD(request.refusal == LIGHTPLAN_ANSWERED && request.place == 0);
    HOLD(request.n0 == seen->n0 && request.slots == seen->slots && request.guard == seen->guard);
    HOLD(request.links == seen->links && request.demands == seen->demands && request.bound == seen->bound);
    HOLD(!memcmp(first_lent.first + LENT_BYTES - 2 * idents, seen->idents, 2 * seen->demands));
    HOLD(!memcmp(second_lent.first + LENT_BYTES - 2 * widths, seen->widths, 2 * seen->demands));
    HOLD(!memcmp(third_lent.first + LENT_BYTES - 2 * rates, seen->rates, 2 * seen->demands));
    hold_written(seen->demands);
}

/* each of the three buffers short, just enough and longer, with every other */
static void test_read(const struct seen *seen)
{
    size_t k = seen->demands, room[3] = {k, PLENTY, k - 1};
    int rooms = k ? 3 : 2;
    for (int i = 0; i < rooms; i++)
        for (int w = 0; w < rooms; w++)
            for (int r = 0; r < rooms; r++) {
                if (i < 2 && w < 2 && r < 2) {
                    hold_read(seen, room[i], room[w], room[r]);
                    continue;
                }
                struct lightplan_request request = read_with(seen->file, seen->bytes, room[i], room[w], room[r]);
                hold_too_short(&request, k);
            }
    if (k > 0) {
        struct lightplan_request request = read_with(seen->file, seen->bytes, 0, 0, 0);
        hold_too_short(&request, k);
    }
}

/* ---- lightplan_read_routes */

static struct lightplan_routes routes_with(const uint8_t *file, size_t bytes, size_t ends, size_t hops, size_t routes)
{
    uint16_t *first = lent_out(&first_lent, 2 * ends), *second = lent_out(&second_lent, 2 * hops);
    uint16_t *third = lent_out(&third_lent, 2 * routes);
    return lightplan_read_routes(file, bytes, first, ends, second, hops, third, routes);
}

/* a refusal: nothing else is told, nothing is written */
static void hold_no_routes(struct lightplan_routes told, unsigned refusal, size_t place)
{
    HOLD(told.refusal == refusal && told.place == place);
    HOLD(told.links == 0 && told.demands == 0 && told.hops == 0);
    hold_written(0);
}

/* all links and routes, as the file's own bytes have them */
static void hold_routes(const struct seen *seen, size_t ends, size_t hops, size_t routes)
{
    struct lightplan_routes told = routes_with(seen->file, seen->bytes, ends, hops, routes);
    HOLD(told.refusal == LIGHTPLAN_ANSWERED && told.place == 0);
    HOLD(told.links == seen->links && told.demands == seen->demands && told.hops == seen->all_hops);
    HOLD(!memcmp(first_lent.first + LENT_BYTES - 2 * ends, seen->ends, 4 * seen->links));
    HOLD(!memcmp(second_lent.first + LENT_BYTES - 2 * hops, seen->hops, 2 * seen->demands));
    HOLD(!memcmp(third_lent.first + LENT_BYTES - 2 * routes, seen->routes, 2 * seen->all_hops));
    HOLD(lent_kept(&first_lent, 4 * seen->links) && lent_kept(&second_lent, 2 * seen->demands) &&
         lent_kept(&third_lent, 2 * seen->all_hops));
}

static void test_routes(const struct seen *seen)
{
    size_t e = 2 * seen->links, k = seen->demands, h = seen->all_hops;
    hold_routes(seen, PLENTY, PLENTY, PLENTY_OF_HOPS);
    hold_routes(seen, e, k, h);
    hold_routes(seen, e + 1, k + 1, h + 1);
    hold_no_routes(routes_with(seen->file, seen->bytes, e - 1, k, h), LIGHTPLAN_BUFFER_SHORT, e);
    hold_no_routes(routes_with(seen->file, seen->bytes, 0, 0, 0), LIGHTPLAN_BUFFER_SHORT, e);
    if (k == 0)
        return;
    hold_no_routes(routes_with(seen->file, seen->bytes, e, k - 1, h), LIGHTPLAN_BUFFER_SHORT, k);
    hold_no_routes(routes_with(seen->file, seen->bytes, e, k - 1, 0), LIGHTPLAN_BUFFER_SHORT, k);
    hold_no_routes(routes_with(seen->file, seen->bytes, e, k, h - 1), LIGHTPLAN_BUFFER_SHORT, h);
    hold_no_routes(routes_with(seen->file, seen->bytes, e, k, 0), LIGHTPLAN_BUFFER_SHORT, h);
}

/* ---- lightplan_check_starts */

static void hold_verdict(struct lightplan_verdict verdict, unsigned refusal, size_t place, unsigned which)
{
    HOLD(verdict.refusal == refusal && verdict.place == place && verdict.which == which);
    if (refusal)
        HOLD(verdict.end == 0 && verdict.bound == 0);
}

/* accepted, or a refusal of the plan */
static void hold_plan(struct lightplan_verdict verdict, unsigned refusal, size_t place)
{
    hold_verdict(verdict, refusal, place, refusal ? LIGHTPLAN_OF_PLAN : LIGHTPLAN_OF_NOTHING);
}

/* checks starts that are lent so that none behind them can be read */
static struct lightplan_verdict check_starts(const struct seen *seen, const uint16_t *starts, size_t count)
{
    uint16_t *lent = lent_out(&second_lent, 2 * count);
    memcpy(lent, starts, 2 * count);
    struct lightplan_verdict verdict = lightplan_check_starts(seen->file, seen->bytes, lent, count);
    HOLD(!memcmp(lent, starts, 2 * count) && lent_kept(&second_lent, 2 * count));
    return verdict;
}

/* ---- lightplan_certify */

/* holds starts and weights against a file; both are lent so that none behind them can be read */
static struct lightplan_certified certify_with(const struct seen *seen, const uint16_t *starts, size_t count, const uint8_t *weights,
                                               size_t weighed, unsigned a)
{
    uint16_t *first = lent_out(&second_lent, 2 * count);
    uint8_t *second = lent_out(&third_lent, weighed);
    memcpy(first, starts, 2 * count);
    memcpy(second, weights, weighed);
    struct lightplan_certified told = lightplan_certify(seen->file, seen->bytes, first, count, second, weighed, (uint8_t)a);
    HOLD(!memcmp(first, starts, 2 * count) && lent_kept(&second_lent, 2 * count));
    HOLD(!memcmp(second, weights, weighed) && lent_kept(&third_lent, weighed));
    return told;
}

static void hold_uncertified(struct lightplan_certified told, unsigned refusal, size_t place, unsigned which)
{
    HOLD(told.refusal == refusal && told.place == place && told.which == which);
    HOLD(told.outcome == 0 && told.end == 0 && told.low == 0);
}

/* weights beside an allowed plan: what is told is what a few lines of C work out. Gives the certificate's end, 0 without one */
static uint32_t hold_certificate(const struct seen *seen, const uint16_t *starts, const uint8_t *weights, size_t weighed, unsigned a)
{
    struct lightplan_certified told = certify_with(seen, starts, seen->demands, weights, weighed, a);
    size_t fault = certificate_fault(seen, weights, weighed, a);
    if (fault != NO_PLACE) {
        hold_uncertified(told, LIGHTPLAN_NO_CERTIFICATE, fault, LIGHTPLAN_OF_CERTIFICATE);
        return 0;
    }
    uint32_t end = end_of(seen, starts), low = certificate_end(seen, weights, a);
    HOLD(told.refusal == LIGHTPLAN_ANSWERED && told.place == 0 && told.which == LIGHTPLAN_OF_NOTHING);
    HOLD(told.end == end && told.low == low && low <= end);
    HOLD(told.outcome == (low == end ? LIGHTPLAN_BEST : LIGHTPLAN_AT_LEAST));
    return low;
}

/* the demands of one link are a certificate, with a weight of 1 out of 1 or of 2 out of 2, and those of the fullest link give the bound */
static void hold_links_certify(const struct seen *seen, const uint16_t *starts)
{
    uint8_t weights[LIGHTPLAN_DEMANDS] = {0};
    uint32_t highest = 0;
    for (size_t link = 0; link < seen->links; link++) {
        for (size_t k = 0; k < seen->demands; k++)
            weights[k] = seen->links_of[k] >> link & 1;
        uint32_t low = hold_certificate(seen, starts, weights, seen->demands, 1);
        for (size_t k = 0; k < seen->demands; k++)
            weights[k] *= 2;
        HOLD(hold_certificate(seen, starts, weights, seen->demands, 2) == low);
        highest = low > highest ? low : highest;
    }
    HOLD(highest == seen->bound);
}

/* weights that may be a certificate or not; those of another shape are none; and a plan that is refused is told before them */
static void hold_certificates(const struct seen *seen, const uint16_t *starts)
{
    size_t k = seen->demands;
    uint8_t weights[LIGHTPLAN_DEMANDS + 1];
    for (unsigned turn = 0; turn < 6; turn++) {
        for (size_t i = 0; i <= k; i++)
            weights[i] = (uint8_t)(turn < 3 ? turn : (i * 5 + turn) % 7 / turn);
        for (unsigned a = 0; a <= 3; a++)
            hold_certificate(seen, starts, weights, k, a);
        hold_certificate(seen, starts, weights, k + 1, 1 + turn % 2);
    }
    hold_certificate(seen, starts, weights, k, 255);
    if (k == 0)
        return;
    hold_certificate(seen, starts, weights, k - 1, 1);
    hold_uncertified(certify_with(seen, starts, k - 1, weights, 0, 0), LIGHTPLAN_NO_ROW, k - 1, LIGHTPLAN_OF_PLAN);
    memset(weights, 0, sizeof weights);
    hold_certificate(seen, starts, weights, k, 2);
    weights[k / 2] = 3;
    hold_certificate(seen, starts, weights, k, 2);
    weights[k / 2] = 255;
    hold_certificate(seen, starts, weights, k, 1);
}

/* an allowed plan is accepted with its end and the bound, whatever stands behind its starts; one start more, or less, or moved up is not */
static void hold_allowed(const struct seen *seen, const uint16_t *allowed)
{
    size_t k = seen->demands;
    uint16_t starts[LIGHTPLAN_DEMANDS + 2] = {0};
    memcpy(starts, allowed, 2 * k);
    starts[k] = starts[k + 1] = 65535;
    for (size_t count = k; count <= k + 2; count += 2) {
        struct lightplan_verdict verdict = check_starts(seen, starts, count);
        hold_plan(verdict, LIGHTPLAN_ANSWERED, 0);
        HOLD(verdict.end == end_of(seen, allowed) && verdict.bound == seen->bound && seen->bound <= verdict.end);
    }
    hold_links_certify(seen, starts);
    hold_certificates(seen, starts);
    if (k == 0)
        return;
    hold_plan(check_starts(seen, starts, k - 1), LIGHTPLAN_NO_ROW, k - 1);
    hold_plan(check_starts(seen, starts, 0), LIGHTPLAN_NO_ROW, 0);
    starts[k / 2] = (uint16_t)(seen->slots - seen->widths[k / 2] + 1);
    hold_plan(check_starts(seen, starts, k), LIGHTPLAN_END_ABOVE, k / 2);
    starts[k / 2] = 65535;
    hold_plan(check_starts(seen, starts, k), LIGHTPLAN_END_ABOVE, k / 2);
    hold_uncertified(certify_with(seen, starts, k, (const uint8_t *)starts, k, 1), LIGHTPLAN_END_ABOVE, k / 2, LIGHTPLAN_OF_PLAN);
}

/* ---- lightplan_search */

/* how many entries a search is lent, and what it leaves in them */
struct rooms {
    size_t starts, order, blockers;
};

struct found {
    uint16_t starts[LIGHTPLAN_SEARCHED], order[LIGHTPLAN_SEARCHED], blockers[LIGHTPLAN_SEARCHED];
};

static struct rooms each(size_t room) { return (struct rooms){room, room, room}; }

static struct lightplan_answer search_with(const uint8_t *file, size_t bytes, uint32_t limit, struct rooms rooms)
{
    uint16_t *first = lent_out(&first_lent, 2 * rooms.starts), *second = lent_out(&second_lent, 2 * rooms.order);
    uint16_t *third = lent_out(&third_lent, 2 * rooms.blockers);
    return lightplan_search(file, bytes, limit, first, rooms.starts, second, rooms.order, third, rooms.blockers);
}

/* the first K entries of what was lent to a search */
static struct found found_in(struct rooms rooms, size_t k)
{
    struct found found = {{0}, {0}, {0}};
    memcpy(found.starts, first_lent.first + LENT_BYTES - 2 * rooms.starts, 2 * k);
    memcpy(found.order, second_lent.first + LENT_BYTES - 2 * rooms.order, 2 * k);
    memcpy(found.blockers, third_lent.first + LENT_BYTES - 2 * rooms.blockers, 2 * k);
    return found;
}

static int same_found(const struct found *a, const struct found *b) { return !memcmp(a, b, sizeof *a); }

static void hold_no_answer(struct lightplan_answer answer, unsigned refusal, size_t place)
{
    HOLD(answer.refusal == refusal && answer.place == place);
    HOLD(answer.outcome == 0 && answer.end == 0 && answer.bound == 0 && answer.steps == 0 && answer.reached == 0 && answer.ruled == 0);
    hold_written(0);
}

static int same_answer(const struct lightplan_answer *a, const struct lightplan_answer *b)
{
    return a->refusal == b->refusal && a->place == b->place && a->outcome == b->outcome && a->end == b->end && a->bound == b->bound &&
           a->steps == b->steps && a->reached == b->reached && a->ruled == b->ruled;
}

/* the sums that the outcomes promise */
static void hold_sums(const struct seen *seen, const struct lightplan_answer *answer, const uint16_t *order)
{
    uint64_t sum = answer->reached + answer->ruled, all = orders_of(seen->demands);
    HOLD(answer->bound == seen->bound);
    if (answer->outcome == LIGHTPLAN_FINISHED && answer->end == answer->bound)
        HOLD(sum == rank_of(order, seen->demands));
    else if (answer->outcome == LIGHTPLAN_FINISHED || answer->outcome == LIGHTPLAN_NOTHING_FITS)
        HOLD(sum == all);
    else
        HOLD(sum < all);
}

/* a plan that was found: its order, its end and who is in the way hold by themselves, and it is allowed */
static void hold_found(const struct seen *seen, const struct lightplan_answer *answer, const struct found *found)
{
    size_t k = seen->demands;
    uint16_t blockers[LIGHTPLAN_SEARCHED];
    HOLD(is_order(found->order, k) && answer->end == end_of(seen, found->starts) && seen->bound <= answer->end);
    blockers_of(seen, found->starts, found->order, blockers);
    HOLD(!memcmp(found->blockers, blockers, 2 * k));
    for (size_t i = 0; i < k; i++) {
        size_t blocker = found->blockers[i];
        HOLD((found->starts[i] == 0) == (blocker == LIGHTPLAN_NOBODY));
        HOLD(blocker == LIGHTPLAN_NOBODY || found->starts[blocker] + seen->widths[blocker] + seen->guard == found->starts[i]);
    }
    hold_allowed(seen, found->starts);
}

/* what a search gives within some room: its answer holds by itself; what it finds is copied to `found` */
static struct lightplan_answer hold_search(const struct seen *seen, uint32_t limit, struct rooms rooms, struct found *found)
{
    size_t k = seen->demands;
    struct lightplan_answer answer = search_with(seen->file, seen->bytes, limit, rooms);
    HOLD(answer.refusal == LIGHTPLAN_ANSWERED && answer.place == 0);
    HOLD(LIGHTPLAN_FINISHED <= answer.outcome && answer.outcome <= LIGHTPLAN_UNFINISHED_EMPTY && answer.steps <= limit);
    *found = found_in(rooms, k);
    hold_sums(seen, &answer, found->order);
    if (answer.outcome == LIGHTPLAN_FINISHED || answer.outcome == LIGHTPLAN_UNFINISHED) {
        hold_written(k);
        hold_found(seen, &answer, found);
    } else {
        hold_written(0);
        HOLD(answer.end == 0);
    }
    return answer;
}

/* one step less than a search took leaves it unfinished, and as many are enough */
static void hold_limits(const struct seen *seen, const struct lightplan_answer *answer)
{
    struct found found;
    struct lightplan_answer other = hold_search(seen, answer->steps, each(seen->demands), &found);
    HOLD(same_answer(answer, &other));
    if (answer->steps == 0)
        return;
    other = hold_search(seen, answer->steps - 1, each(PLENTY), &found);
    HOLD(other.outcome >= LIGHTPLAN_UNFINISHED && other.steps == answer->steps - 1);
    HOLD(other.reached <= answer->reached && other.ruled <= answer->ruled);
}

/* each of the three buffers short, just enough and longer, with every other */
static void hold_rooms(const struct seen *seen, const struct lightplan_answer *answer, const struct found *found)
{
    size_t k = seen->demands, room[3] = {k - 1, k, PLENTY};
    for (int pick = 0; pick < 27; pick++) {
        struct rooms rooms = {room[pick / 9], room[pick / 3 % 3], room[pick % 3]};
        if (rooms.starts < k || rooms.order < k || rooms.blockers < k) {
            hold_no_answer(search_with(seen->file, seen->bytes, STEPS, rooms), LIGHTPLAN_BUFFER_SHORT, k);
        } else {
            struct found again;
            struct lightplan_answer other = hold_search(seen, STEPS, rooms, &again);
            HOLD(same_answer(answer, &other) && same_found(found, &again));
        }
    }
    hold_no_answer(search_with(seen->file, seen->bytes, 0, each(0)), LIGHTPLAN_BUFFER_SHORT, k);
}

static void test_search(const struct seen *seen)
{
    size_t k = seen->demands;
    struct found found;
    if (k > LIGHTPLAN_SEARCHED) {
        hold_no_answer(search_with(seen->file, seen->bytes, STEPS, each(PLENTY)), LIGHTPLAN_TOO_MANY_TO_SEARCH, k);
        hold_no_answer(search_with(seen->file, seen->bytes, STEPS, each(0)), LIGHTPLAN_TOO_MANY_TO_SEARCH, k);
        return;
    }
    struct lightplan_answer answer = hold_search(seen, STEPS, each(LIGHTPLAN_SEARCHED), &found);
    hold_limits(seen, &answer);
    if (k > 0)
        hold_rooms(seen, &answer, &found);
}

/* ---- lightplan_groups */

static struct lightplan_grouped groups_with(const uint8_t *file, size_t bytes, size_t groups, size_t starts, size_t blockers)
{
    uint16_t *first = lent_out(&first_lent, 2 * starts), *second = lent_out(&second_lent, 2 * blockers);
    return lightplan_groups(file, bytes, groups, first, starts, second, blockers);
}

/* whether an order has these entries, and 0 behind them */
static int is_group_order(const uint16_t *order, const uint16_t *groups, size_t count)
{
    static const uint16_t none[LIGHTPLAN_GROUPS];
    return !memcmp(order, groups, 2 * count) && !memcmp(order + count, none, 2 * (LIGHTPLAN_GROUPS - count));
}

/* a refusal: nothing else is told, nothing is written */
static void hold_no_groups(struct lightplan_grouped grouped, unsigned refusal, size_t place)
{
    HOLD(grouped.refusal == refusal && grouped.place == place);
    HOLD(grouped.outcome == 0 && grouped.end == 0 && grouped.bound == 0 && grouped.groups == 0);
    HOLD(is_group_order(grouped.order, grouped.order, 0));
    HOLD(lent_kept(&first_lent, 0) && lent_kept(&second_lent, 0));
}

/* a plan of so many groups: as first fit makes it of this order of theirs, allowed, with who is in the way */
static void hold_grouped_plan(const struct seen *seen, const struct lightplan_grouped *grouped, const uint16_t *groups, size_t count,
                              const uint16_t *starts)
{
    size_t k = seen->demands;
    uint16_t order[LIGHTPLAN_DEMANDS], blockers[LIGHTPLAN_DEMANDS];
    HOLD(grouped->outcome == LIGHTPLAN_GROUPED && grouped->end == end_of(seen, starts));
    HOLD(grouped->groups == count && is_group_order(grouped->order, groups, count));
    members_of(seen, groups, count, order);
    blockers_of(seen, starts, order, blockers);
    HOLD(!memcmp(first_lent.first + LENT_BYTES - first_lent.bytes, starts, 2 * k));
    HOLD(!memcmp(second_lent.first + LENT_BYTES - second_lent.bytes, blockers, 2 * k));
    HOLD(lent_kept(&first_lent, 2 * k) && lent_kept(&second_lent, 2 * k));
}

/* so many groups, within some room, answer as all their orders do that are tried one after the other */
static void hold_groups(const struct seen *seen, size_t count, size_t starts_room, size_t blockers_room)
{
    uint16_t groups[LIGHTPLAN_GROUPS], starts[LIGHTPLAN_DEMANDS];
    uint32_t end = best_of_groups(seen, count, groups, starts);
    struct lightplan_grouped grouped = groups_with(seen->file, seen->bytes, count, starts_room, blockers_room);
    HOLD(grouped.refusal == LIGHTPLAN_ANSWERED && grouped.place == 0 && grouped.bound == seen->bound);
    if (end != NO_END) {
        hold_grouped_plan(seen, &grouped, groups, count, starts);
        hold_allowed(seen, starts);
        return;
    }
    HOLD(grouped.outcome == LIGHTPLAN_NOTHING_FOUND && grouped.end == 0 && grouped.groups == 0);
    HOLD(is_group_order(grouped.order, groups, 0) && lent_kept(&first_lent, 0) && lent_kept(&second_lent, 0));
}

/* with a group for each demand groups find the end of a finished search, and nothing where nothing fits */
static void hold_groups_searched(const struct seen *seen)
{
    size_t k = seen->demands;
    struct found found;
    struct lightplan_answer answer = hold_search(seen, UINT32_MAX, each(k), &found);
    struct lightplan_grouped grouped = groups_with(seen->file, seen->bytes, k, k, k);
    HOLD((grouped.outcome == LIGHTPLAN_GROUPED) == (answer.outcome == LIGHTPLAN_FINISHED) && grouped.end == answer.end);
    HOLD(is_group_order(grouped.order, found.order, grouped.groups));
}

/* numbers of groups that there are not, and a buffer that is short, which is told first */
static void hold_groups_refused(const struct seen *seen)
{
    size_t k = seen->demands, most = k < LIGHTPLAN_GROUPS ? k : LIGHTPLAN_GROUPS, bad[] = {0, most + 1, 9, 201, SIZE_MAX};
    for (size_t b = 0; b < sizeof bad / sizeof bad[0]; b++) {
        hold_no_groups(groups_with(seen->file, seen->bytes, bad[b], k, k), LIGHTPLAN_GROUPS_OUTSIDE, bad[b]);
        hold_no_groups(groups_with(seen->file, seen->bytes, bad[b], PLENTY, PLENTY), LIGHTPLAN_GROUPS_OUTSIDE, bad[b]);
        if (k == 0)
            continue;
        hold_no_groups(groups_with(seen->file, seen->bytes, bad[b], k - 1, k), LIGHTPLAN_BUFFER_SHORT, k);
        hold_no_groups(groups_with(seen->file, seen->bytes, bad[b], PLENTY, k - 1), LIGHTPLAN_BUFFER_SHORT, k);
        hold_no_groups(groups_with(seen->file, seen->bytes, 1, 0, 0), LIGHTPLAN_BUFFER_SHORT, k);
    }
}

static void test_groups(const struct seen *seen)
{
    size_t k = seen->demands, most = k < TRIED_GROUPS ? k : TRIED_GROUPS;
    hold_groups_refused(seen);
    for (size_t count = 1; count <= most; count++)
        hold_groups(seen, count, count % 2 ? PLENTY : k, count % 3 ? k : PLENTY);
    if (0 < k && k <= LIGHTPLAN_GROUPS)
        hold_groups_searched(seen);
}

/* ---- lightplan_check */

static struct lightplan_verdict check_with(const struct seen *seen, const uint8_t *plan, size_t bytes, size_t room)
{
    uint16_t *first = lent_out(&first_lent, 2 * room);
    return lightplan_check(seen->file, seen->bytes, plan, bytes, first, room);
}

static void test_accepted(const struct seen *seen, const uint8_t *plan, size_t bytes)
{
    size_t k = seen->demands;
    uint16_t starts[LIGHTPLAN_DEMANDS] = {0};
    starts_of_rows(seen, plan, bytes, starts);
    hold_allowed(seen, starts);
    for (size_t room = k; room <= PLENTY; room += PLENTY - k) {
        struct lightplan_verdict verdict = check_with(seen, plan, bytes, room);
        hold_plan(verdict, LIGHTPLAN_ANSWERED, 0);
        HOLD(verdict.end == end_of(seen, starts) && verdict.bound == seen->bound);
        HOLD(!memcmp(first_lent.first + LENT_BYTES - 2 * room, starts, 2 * k));
        HOLD(lent_kept(&first_lent, 2 * k));
    }
    if (k > 0) {
        hold_verdict(check_with(seen, plan, bytes, k - 1), LIGHTPLAN_BUFFER_SHORT, k, LIGHTPLAN_OF_BUFFER);
        HOLD(lent_kept(&first_lent, 0));
    }
}

static void test_plan(const struct seen *seen, const uint8_t *plan, size_t bytes)
{
    struct lightplan_verdict verdict = check_with(seen, plan, bytes, PLENTY);
    if (verdict.refusal == LIGHTPLAN_ANSWERED) {
        test_accepted(seen, plan, bytes);
        return;
    }
    hold_plan(verdict, verdict.refusal, verdict.place);
    HOLD(lent_kept(&first_lent, 0));
    struct lightplan_verdict without_room = check_with(seen, plan, bytes, 0);
    hold_plan(without_room, verdict.refusal, verdict.place);
    if (verdict.refusal == LIGHTPLAN_CLASH) {
        uint16_t starts[LIGHTPLAN_DEMANDS] = {0};
        starts_of_rows(seen, plan, bytes, starts);
        hold_plan(check_starts(seen, starts, seen->demands), LIGHTPLAN_CLASH, verdict.place);
    }
}

/* ---- lightplan_frequency */

static void hold_frequency(int n0, unsigned slots, unsigned guard, unsigned start, unsigned width)
{
    struct lightplan_frequency_of centre =
        lightplan_frequency((int16_t)n0, (uint16_t)slots, (uint8_t)guard, (uint16_t)start, (uint16_t)width);
    unsigned fault = block_fault(n0, slots, guard, start, width);
    int32_t n = fault ? 0 : n0 + 2 * (int32_t)start + (int32_t)width;
    HOLD(centre.refusal == fault && centre.place == 0);
    HOLD(centre.n == n && centre.m == (fault ? 0 : width));
    HOLD(centre.mhz == (fault ? 0 : INT64_C(193100000) + INT64_C(6250) * n));
}

static void test_frequencies(void)
{
    static const int edges[] = {-32768, -401, -400, -399, -284, -1, 0, 1, 399, 400, 401, 32767};
    static const unsigned counts[] = {0, 1, 2, 141, 383, 384, 385, 65535}, guards[] = {0, 1, 8, 9, 255};
    for (size_t e = 0; e < sizeof edges / sizeof edges[0]; e++)
        for (size_t s = 0; s < 8; s++)
            for (size_t g = 0; g < 5; g++)
                for (size_t b = 0; b < 64; b++)
                    hold_frequency(edges[e], counts[s], guards[g], counts[b / 8], counts[b % 8]);
    hold_frequency(-284, 384, 0, 0, 2);
    hold_frequency(-284, 384, 0, 141, 2);
    hold_frequency(-284, 384, 0, 383, 1);
}

/* ---- what needs no file */

/* the header is the library's, and a struct of zeros tells of no outcome */
static void test_version(void)
{
    struct lightplan_answer zeros = {0};
    struct lightplan_grouped no_groups = {0};
    struct lightplan_certified no_certificate = {0};
    HOLD(no_certificate.outcome != LIGHTPLAN_BEST && no_certificate.outcome != LIGHTPLAN_AT_LEAST);
    HOLD(lightplan_version() == LIGHTPLAN_VERSION);
    HOLD(no_groups.outcome != LIGHTPLAN_GROUPED && no_groups.outcome != LIGHTPLAN_NOTHING_FOUND);
    HOLD(zeros.outcome != LIGHTPLAN_FINISHED && zeros.outcome != LIGHTPLAN_NOTHING_FITS && zeros.outcome != LIGHTPLAN_UNFINISHED &&
         zeros.outcome != LIGHTPLAN_UNFINISHED_EMPTY);
}

/* with nothing lent, a pointer is not looked at */
static void test_nothing(void)
{
    struct lightplan_request request = lightplan_read(NULL, 0, NULL, 0, NULL, 0, NULL, 0);
    struct lightplan_answer answer = lightplan_search(NULL, 0, STEPS, NULL, 0, NULL, 0, NULL, 0);
    HOLD(request.refusal == LIGHTPLAN_WRONG_TAG && request.place == 0);
    HOLD(answer.refusal == LIGHTPLAN_WRONG_TAG && answer.place == 0);
    struct lightplan_routes routes = lightplan_read_routes(NULL, 0, NULL, 0, NULL, 0, NULL, 0);
    HOLD(routes.refusal == LIGHTPLAN_WRONG_TAG && routes.place == 0);
    struct lightplan_grouped grouped = lightplan_groups(NULL, 0, 1, NULL, 0, NULL, 0);
    HOLD(grouped.refusal == LIGHTPLAN_WRONG_TAG && grouped.place == 0);
    hold_verdict(lightplan_check(NULL, 0, NULL, 0, NULL, 0), LIGHTPLAN_WRONG_TAG, 0, LIGHTPLAN_OF_REQUEST);
    hold_verdict(lightplan_check_starts(NULL, 0, NULL, 0), LIGHTPLAN_WRONG_TAG, 0, LIGHTPLAN_OF_REQUEST);
    hold_uncertified(lightplan_certify(NULL, 0, NULL, 0, NULL, 0, 1), LIGHTPLAN_WRONG_TAG, 0, LIGHTPLAN_OF_REQUEST);
}

/* a band and a link, no demand: nothing lent is enough for every answer */
static void test_no_demand(void)
{
    static const uint8_t file[13] = {1, 0, 5, 0, 0, 0, 1, 0, 2, 0, 2, 0, 1};
    struct lightplan_request request = lightplan_read(file, sizeof file, NULL, 0, NULL, 0, NULL, 0);
    struct lightplan_answer answer = lightplan_search(file, sizeof file, 0, NULL, 0, NULL, 0, NULL, 0);
    HOLD(request.refusal == LIGHTPLAN_ANSWERED && request.slots == 1 && request.links == 1 && request.demands == 0 && request.bound == 0);
    uint16_t ends[2] = {7, 7};
    struct lightplan_routes routes = lightplan_read_routes(file, sizeof file, ends, 2, NULL, 0, NULL, 0);
    HOLD(routes.refusal == LIGHTPLAN_ANSWERED && routes.links == 1 && routes.demands == 0 && routes.hops == 0);
    HOLD(ends[0] == 0 && ends[1] == 1);
    HOLD(answer.refusal == LIGHTPLAN_ANSWERED && answer.outcome == LIGHTPLAN_FINISHED && answer.steps == 0 && answer.reached == 1);
    struct lightplan_grouped grouped = lightplan_groups(file, sizeof file, 1, NULL, 0, NULL, 0);
    HOLD(grouped.refusal == LIGHTPLAN_GROUPS_OUTSIDE && grouped.place == 1);
    hold_plan(lightplan_check(file, sizeof file, NULL, 0, NULL, 0), LIGHTPLAN_ANSWERED, 0);
    hold_plan(lightplan_check_starts(file, sizeof file, NULL, 0), LIGHTPLAN_ANSWERED, 0);
    struct lightplan_certified told = lightplan_certify(file, sizeof file, NULL, 0, NULL, 0, 1);
    HOLD(told.refusal == LIGHTPLAN_ANSWERED && told.outcome == LIGHTPLAN_BEST && told.end == 0 && told.low == 0);
}

/* the same request in a band of three slots, for which no plan is allowed */
static void test_narrow(const uint8_t *wide)
{
    uint8_t file[43];
    memcpy(file, wide, sizeof file);
    file[5] = 0;
    file[6] = 3;
    struct lightplan_answer answer = search_with(file, sizeof file, 0, each(3));
    HOLD(answer.refusal == LIGHTPLAN_ANSWERED && answer.outcome == LIGHTPLAN_NOTHING_FITS && answer.bound == 4);
    hold_written(0);
}

/* three demands on two links, with every number known */
static void test_known(void)
{
    static const uint8_t file[43] = {
        1, 0, 5, 254, 228, 1, 128, 0,
        2, 0, 2, 0, 1,
        2, 0, 2, 1, 2,
        3, 0, 5, 0, 10, 0, 2, 0,
        3, 0, 6, 0, 20, 0, 1, 0, 1,
        3, 0, 5, 0, 30, 0, 3, 1,
    };
    static const struct found best = {{0, 3, 0}, {0, 2, 1}, {LIGHTPLAN_NOBODY, 2, LIGHTPLAN_NOBODY}};
    static const struct found by_listing = {{0, 2, 3}, {0, 1, 2}, {LIGHTPLAN_NOBODY, 0, 1}};
    static const uint16_t clashing[3] = {0, 2, 2};
    static const uint16_t ends[4] = {0, 1, 1, 2}, hops[3] = {1, 2, 1}, routes[4] = {0, 0, 1, 1};
    struct lightplan_routes told = routes_with(file, sizeof file, 4, 3, 4);
    HOLD(told.refusal == LIGHTPLAN_ANSWERED && told.links == 2 && told.demands == 3 && told.hops == 4);
    HOLD(!memcmp(first_lent.first + LENT_BYTES - 8, ends, 8) && !memcmp(second_lent.first + LENT_BYTES - 6, hops, 6));
    HOLD(!memcmp(third_lent.first + LENT_BYTES - 8, routes, 8));
    struct lightplan_answer answer = search_with(file, sizeof file, 5, each(3));
    struct found found = found_in(each(3), 3);
    HOLD(answer.outcome == LIGHTPLAN_FINISHED && answer.end == 4 && answer.bound == 4);
    HOLD(answer.steps == 5 && answer.reached == 2 && answer.ruled == 0);
    HOLD(same_found(&found, &best));
    answer = search_with(file, sizeof file, 4, each(3));
    found = found_in(each(3), 3);
    HOLD(answer.outcome == LIGHTPLAN_UNFINISHED && answer.end == 6 && answer.steps == 4 && same_found(&found, &by_listing));
    answer = search_with(file, sizeof file, 0, each(3));
    HOLD(answer.outcome == LIGHTPLAN_UNFINISHED_EMPTY && answer.end == 0 && answer.steps == 0);
    hold_written(0);
    test_narrow(file);
    hold_plan(lightplan_check_starts(file, sizeof file, clashing, 3), LIGHTPLAN_CLASH, 2);
    hold_plan(lightplan_check_starts(file, sizeof file, NULL, 0), LIGHTPLAN_NO_ROW, 0);
    hold_plan(lightplan_check(file, sizeof file, NULL, 0, NULL, 0), LIGHTPLAN_NO_ROW, 0);
}

/* three demands on two links in two groups, with every number known: the second group, of one demand, goes first. One group would end
   outside the band, and nothing fits into a band of three slots */
static void test_known_groups(void)
{
    uint8_t file[43] = {
        1, 0, 5, 254, 228, 0, 5, 0,
        2, 0, 2, 0, 1,
        2, 0, 2, 1, 2,
        3, 0, 5, 0, 10, 0, 2, 0,
        3, 0, 6, 0, 20, 0, 1, 0, 1,
        3, 0, 5, 0, 30, 0, 3, 1,
    };
    static const uint16_t starts[3] = {0, 3, 0}, blockers[3] = {LIGHTPLAN_NOBODY, 2, LIGHTPLAN_NOBODY}, groups[2] = {1, 0};
    struct lightplan_grouped grouped = groups_with(file, sizeof file, 2, 3, 3);
    HOLD(grouped.refusal == LIGHTPLAN_ANSWERED && grouped.outcome == LIGHTPLAN_GROUPED && grouped.end == 4 && grouped.bound == 4);
    HOLD(grouped.groups == 2 && is_group_order(grouped.order, groups, 2));
    HOLD(!memcmp(first_lent.first + LENT_BYTES - 6, starts, 6) && !memcmp(second_lent.first + LENT_BYTES - 6, blockers, 6));
    grouped = groups_with(file, sizeof file, 1, 3, 3);
    HOLD(grouped.refusal == LIGHTPLAN_ANSWERED && grouped.outcome == LIGHTPLAN_NOTHING_FOUND && grouped.end == 0 && grouped.bound == 4);
    HOLD(grouped.groups == 0 && lent_kept(&first_lent, 0) && lent_kept(&second_lent, 0));
    file[6] = 3;
    grouped = groups_with(file, sizeof file, 3, PLENTY, PLENTY);
    HOLD(grouped.refusal == LIGHTPLAN_ANSWERED && grouped.outcome == LIGHTPLAN_NOTHING_FOUND && grouped.end == 0 && grouped.bound == 4);
    HOLD(grouped.groups == 0 && lent_kept(&first_lent, 0) && lent_kept(&second_lent, 0));
}

/* four demands with a guard of 1: two end where the third is kept, and the one that is listed first is named */
static void test_blocked(void)
{
    static const uint8_t file[57] = {
        1, 0, 5, 254, 228, 0, 16, 1,
        2, 0, 2, 0, 1,
        2, 0, 2, 1, 2,
        2, 0, 2, 2, 3,
        3, 0, 5, 0, 10, 0, 2, 0,
        3, 0, 5, 0, 30, 0, 2, 1,
        3, 0, 6, 0, 20, 0, 1, 0, 1,
        3, 0, 6, 0, 40, 0, 2, 1, 2,
    };
    static const struct found known = {{0, 0, 3, 5}, {0, 1, 2, 3}, {LIGHTPLAN_NOBODY, LIGHTPLAN_NOBODY, 0, 2}};
    struct lightplan_answer answer = search_with(file, sizeof file, 4, each(4));
    struct found found = found_in(each(4), 4);
    HOLD(answer.outcome == LIGHTPLAN_FINISHED && answer.end == 7 && answer.bound == 7 && answer.steps == 4);
    HOLD(same_found(&found, &known));
}

/* the five rates and a width, with every number known; and rates that are none */
static void test_rates(void)
{
    uint8_t file[66] = {
        1, 0, 5, 0, 0, 0, 20, 0,
        2, 0, 2, 0, 1,
        2, 0, 2, 1, 2,
        5, 0, 5, 0, 1, 0, 10, 0,
        5, 0, 5, 0, 2, 0, 40, 0,
        3, 0, 5, 0, 3, 0, 1, 0,
        5, 0, 5, 0, 4, 0, 100, 0,
        5, 0, 5, 0, 5, 1, 144, 0,
        5, 0, 5, 0, 6, 3, 232, 1,
    };
    static const uint16_t widths[6] = {1, 1, 1, 2, 8, 20}, rates[6] = {10, 40, 0, 100, 400, 1000};
    static const unsigned unknown[] = {0, 1, 2, 8, 9, 11, 20, 39, 41, 99, 101, 200, 399, 401, 999, 1001, 10000, 65535};
    struct lightplan_request told = read_with(file, sizeof file, 6, 6, 6);
    HOLD(told.refusal == LIGHTPLAN_ANSWERED && told.demands == 6 && told.bound == 20);
    HOLD(!memcmp(second_lent.first + LENT_BYTES - 12, widths, 12) && !memcmp(third_lent.first + LENT_BYTES - 12, rates, 12));
    file[6] = 19;
    told = read_with(file, sizeof file, 6, 6, 6);
    HOLD(told.refusal == LIGHTPLAN_BAD_WIDTH && told.place == 58);
    hold_no_request(&told);
    for (size_t u = 0; u < sizeof unknown / sizeof unknown[0]; u++) {
        file[63] = (uint8_t)(unknown[u] >> 8);
        file[64] = (uint8_t)unknown[u];
        told = read_with(file, sizeof file, 6, 6, 6);
        HOLD(told.refusal == LIGHTPLAN_UNKNOWN_RATE && told.place == 58);
        hold_no_request(&told);
    }
    file[62] = 5;
    told = read_with(file, sizeof file, 0, 0, 0);
    HOLD(told.refusal == LIGHTPLAN_IDENT_USED && told.place == 58);
}

/* three demands of which any two share a link, and no three share one: the bound is 2, the lowest end 3, and weights prove that */
static void test_known_certificate(void)
{
    static const uint8_t file[50] = {
        1, 0, 5, 254, 228, 0, 3, 0,
        2, 0, 2, 0, 1,
        2, 0, 2, 1, 2,
        2, 0, 2, 2, 0,
        3, 0, 6, 0, 10, 0, 1, 0, 1,
        3, 0, 6, 0, 20, 0, 1, 1, 2,
        3, 0, 6, 0, 30, 0, 1, 2, 0,
    };
    static const uint16_t starts[3] = {0, 1, 2}, clashing[3] = {0, 1, 1};
    static const uint8_t ones[3] = {1, 1, 1}, twos[3] = {2, 2, 2}, two_of_them[3] = {1, 1, 0}, halves[3] = {1, 2, 1};
    static const struct {
        const uint8_t *weights;
        unsigned a, outcome, low;
    } known[] = {{ones, 1, LIGHTPLAN_BEST, 3}, {twos, 2, LIGHTPLAN_BEST, 3}, {two_of_them, 1, LIGHTPLAN_AT_LEAST, 2},
                 {ones, 2, LIGHTPLAN_AT_LEAST, 2}, {halves, 2, LIGHTPLAN_AT_LEAST, 2}};
    struct lightplan_certified told;
    for (size_t c = 0; c < sizeof known / sizeof known[0]; c++) {
        told = lightplan_certify(file, sizeof file, starts, 3, known[c].weights, 3, (uint8_t)known[c].a);
        HOLD(told.refusal == LIGHTPLAN_ANSWERED && told.place == 0 && told.which == LIGHTPLAN_OF_NOTHING);
        HOLD(told.outcome == known[c].outcome && told.end == 3 && told.low == known[c].low);
    }
    hold_uncertified(lightplan_certify(file, sizeof file, starts, 3, twos, 3, 1), LIGHTPLAN_NO_CERTIFICATE, 0, LIGHTPLAN_OF_CERTIFICATE);
    hold_uncertified(lightplan_certify(file, sizeof file, starts, 3, halves, 3, 1), LIGHTPLAN_NO_CERTIFICATE, 1, LIGHTPLAN_OF_CERTIFICATE);
    hold_uncertified(lightplan_certify(file, sizeof file, starts, 3, ones, 2, 1), LIGHTPLAN_NO_CERTIFICATE, 3, LIGHTPLAN_OF_CERTIFICATE);
    hold_uncertified(lightplan_certify(file, sizeof file, clashing, 3, twos, 2, 0), LIGHTPLAN_CLASH, 2, LIGHTPLAN_OF_PLAN);
}

/* ---- files */

/* the bytes of a file, lent; 0 where there is no such file */
static int lend_file(const char *name, struct lent *lent, const uint8_t **file, size_t *bytes)
{
    static uint8_t all[LENT_BYTES];
    FILE *in = fopen(name, "rb");
    if (!in)
        return 0;
    *bytes = fread(all, 1, sizeof all, in);
    HOLD(!ferror(in));
    fclose(in);
    *file = memcpy(lent_out(lent, *bytes), all, *bytes);
    return 1;
}

/* a refused request is refused alike by every entry that takes it */
static void test_refused(const uint8_t *file, size_t bytes, const struct lightplan_request *request)
{
    struct seen seen = {.file = file, .bytes = bytes};
    uint16_t none = 0;
    hold_no_request(request);
    HOLD(request->refusal != LIGHTPLAN_BUFFER_SHORT);
    hold_no_routes(routes_with(file, bytes, PLENTY, PLENTY, PLENTY_OF_HOPS), request->refusal, request->place);
    hold_no_routes(routes_with(file, bytes, 0, 0, 0), request->refusal, request->place);
    hold_no_answer(search_with(file, bytes, STEPS, each(PLENTY)), request->refusal, request->place);
    hold_no_answer(search_with(file, bytes, 0, each(0)), request->refusal, request->place);
    hold_no_groups(groups_with(file, bytes, 1, PLENTY, PLENTY), request->refusal, request->place);
    hold_no_groups(groups_with(file, bytes, 0, 0, 0), request->refusal, request->place);
    hold_verdict(check_with(&seen, (const uint8_t *)&none, 0, 0), request->refusal, request->place, LIGHTPLAN_OF_REQUEST);
    hold_verdict(check_with(&seen, (const uint8_t *)&none, 2, PLENTY), request->refusal, request->place, LIGHTPLAN_OF_REQUEST);
    HOLD(lent_kept(&first_lent, 0));
    hold_verdict(check_starts(&seen, &none, 0), request->refusal, request->place, LIGHTPLAN_OF_REQUEST);
    hold_verdict(check_starts(&seen, &none, 1), request->refusal, request->place, LIGHTPLAN_OF_REQUEST);
    hold_uncertified(certify_with(&seen, &none, 0, (const uint8_t *)&none, 0, 1), request->refusal, request->place, LIGHTPLAN_OF_REQUEST);
    hold_uncertified(certify_with(&seen, &none, 1, (const uint8_t *)&none, 2, 0), request->refusal, request->place, LIGHTPLAN_OF_REQUEST);
}

static void test_file(const char *name)
{
    static struct seen seen;
    const uint8_t *file, *plan;
    size_t bytes, plan_bytes, stem = strlen(name) - strlen(".request");
    char plan_name[NAME_BYTES];
    now_testing = name;
    HOLD(lend_file(name, &request_lent, &file, &bytes));
    struct lightplan_request request = read_with(file, bytes, PLENTY, PLENTY, PLENTY);
    if (request.refusal != LIGHTPLAN_ANSWERED) {
        test_refused(file, bytes, &request);
        return;
    }
    see(&seen, file, bytes);
    test_read(&seen);
    test_routes(&seen);
    test_search(&seen);
    test_groups(&seen);
    snprintf(plan_name, sizeof plan_name, "%.*s.plan", (int)stem, name);
    if (lend_file(plan_name, &plan_lent, &plan, &plan_bytes))
        test_plan(&seen, plan, plan_bytes);
    HOLD(lent_kept(&request_lent, bytes) && lent_kept(&plan_lent, plan_lent.bytes));
}

int main(int count, char **words)
{
    lent_make(&request_lent);
    lent_make(&plan_lent);
    lent_make(&first_lent);
    lent_make(&second_lent);
    lent_make(&third_lent);
    lent_out(&plan_lent, 0);
    test_frequencies();
    test_version();
    test_nothing();
    test_no_demand();
    test_known();
    test_known_groups();
    test_blocked();
    test_rates();
    test_known_certificate();
    for (int k = 1; k < count; k++) {
        if (!strstr(words[k], ".request")) {
            fprintf(stderr, "entries: not a request file: %s\n", words[k]);
            return 2;
        }
        test_file(words[k]);
    }
    printf("%d files, %lu comparisons\n", count - 1, compared);
    return 0;
}
