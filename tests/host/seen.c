#include "seen.h"
#include <string.h>

static unsigned two(const uint8_t *bytes) { return bytes[0] * 256u + bytes[1]; }

/* the most that a link needs: its demands' widths and a guard between each two */
static uint32_t bound_of(const struct seen *seen)
{
    int32_t needs[64], most = 0;
    for (int l = 0; l < 64; l++)
        needs[l] = -(int32_t)seen->guard;
    for (size_t k = 0, at = 0; k < seen->demands; k++)
        for (size_t h = 0; h < seen->hops[k]; h++) {
            int32_t *need = &needs[seen->routes[at++]];
            *need += (int32_t)(seen->widths[k] + seen->guard);
            if (most < *need)
                most = *need;
        }
    return (uint32_t)most;
}

/* the slots that a bit rate takes */
static unsigned slots_of(unsigned rate)
{
    switch (rate) {
    case 100:
        return 2;
    case 400:
        return 8;
    case 1000:
        return 20;
    default:
        return 1;
    }
}

/* reads off the field of one demand, by width or by rate */
static void see_demand(struct seen *seen, const uint8_t *field)
{
    size_t hops = two(field + 1) - 4, k = seen->demands++;
    seen->idents[k] = (uint16_t)two(field + 3);
    seen->rates[k] = (uint16_t)(field[0] == 5 ? two(field + 5) : 0);
    seen->widths[k] = (uint16_t)(field[0] == 5 ? slots_of(two(field + 5)) : two(field + 5));
    seen->hops[k] = (uint16_t)hops;
    for (size_t h = 0; h < hops; h++) {
        seen->routes[seen->all_hops++] = field[7 + h];
        seen->links_of[k] |= UINT64_C(1) << field[7 + h];
    }
}

void see(struct seen *seen, const uint8_t *file, size_t bytes)
{
    *seen = (struct seen){.file = file, .bytes = bytes, .slots = two(file + 5), .guard = file[7]};
    seen->n0 = (int)(two(file + 3) ^ 0x8000) - 0x8000;
    for (size_t at = 8; at < bytes; at += 3 + two(file + at + 1)) {
        if (file[at] == 2) {
            seen->ends[2 * seen->links] = file[at + 3];
            seen->ends[2 * seen->links++ + 1] = file[at + 4];
        } else {
            see_demand(seen, file + at);
        }
    }
    seen->bound = bound_of(seen);
}

uint32_t end_of(const struct seen *seen, const uint16_t *starts)
{
    uint32_t end = 0;
    for (size_t k = 0; k < seen->demands; k++)
        if (end < (uint32_t)starts[k] + seen->widths[k])
            end = (uint32_t)starts[k] + seen->widths[k];
    return end;
}

/* whether one demand at some start is too near to another at its own */
static int too_near(const struct seen *seen, size_t one, unsigned start, size_t other, unsigned other_start)
{
    int low = start + seen->widths[one] + seen->guard <= other_start, high = other_start + seen->widths[other] + seen->guard <= start;
    return (seen->links_of[one] & seen->links_of[other]) && !low && !high;
}

void blockers_of(const struct seen *seen, const uint16_t *starts, const uint16_t *order, uint16_t *blockers)
{
    for (size_t turn = 0; turn < seen->demands; turn++) {
        size_t k = order[turn];
        blockers[k] = LIGHTPLAN_NOBODY;
        for (size_t before = 0; starts[k] > 0 && before < turn; before++) {
            uint16_t other = order[before];
            if (other < blockers[k] && too_near(seen, k, starts[k] - 1u, other, starts[other]))
                blockers[k] = other;
        }
    }
}

void members_of(const struct seen *seen, const uint16_t *groups, size_t count, uint16_t *order)
{
    for (size_t turn = 0; turn < count; turn++) {
        size_t from = 0, to = 0;
        for (size_t group = 0; group <= groups[turn]; group++) {
            from = to;
            to += seen->demands / count + (group < seen->demands % count);
        }
        while (from < to)
            *order++ = (uint16_t)from++;
    }
}

/* the lowest start of a demand beside the first ones of an order, which stand: whoever is too near pushes it up to its end and guard */
static unsigned lowest_start(const struct seen *seen, size_t k, const uint16_t *order, size_t placed, const uint16_t *starts)
{
    unsigned start = 0;
    for (size_t before = 0; before < placed;) {
        size_t other = order[before++];
        if (too_near(seen, k, start, other, starts[other])) {
            start = starts[other] + seen->widths[other] + seen->guard;
            before = 0;
        }
    }
    return start;
}

/* first fit along an order: the end, or NO_END where one ends outside the band */
static uint32_t first_fit(const struct seen *seen, const uint16_t *order, uint16_t *starts)
{
    for (size_t turn = 0; turn < seen->demands; turn++) {
        unsigned start = lowest_start(seen, order[turn], order, turn, starts);
        if (start + seen->widths[order[turn]] > seen->slots)
            return NO_END;
        starts[order[turn]] = (uint16_t)start;
    }
    return end_of(seen, starts);
}

static void swap(uint16_t *one, uint16_t *other)
{
    uint16_t held = *one;
    *one = *other;
    *other = held;
}

/* the order that is listed next behind this one; 0 behind the last */
static int next_order(uint16_t *order, size_t count)
{
    size_t falls = count - 1, higher = count - 1;
    while (falls > 0 && order[falls - 1] > order[falls])
        falls--;
    if (falls == 0)
        return 0;
    while (order[higher] < order[falls - 1])
        higher--;
    swap(&order[falls - 1], &order[higher]);
    for (size_t low = falls, high = count - 1; low < high; low++, high--)
        swap(&order[low], &order[high]);
    return 1;
}

uint32_t best_of_groups(const struct seen *seen, size_t count, uint16_t *groups, uint16_t *starts)
{
    uint16_t tried[LIGHTPLAN_GROUPS], order[LIGHTPLAN_DEMANDS], placed[LIGHTPLAN_DEMANDS];
    uint32_t best = NO_END;
    for (size_t group = 0; group < count; group++)
        tried[group] = (uint16_t)group;
    do {
        members_of(seen, tried, count, order);
        uint32_t end = first_fit(seen, order, placed);
        if (end < best) {
            best = end;
            memcpy(groups, tried, 2 * count);
            memcpy(starts, placed, 2 * seen->demands);
        }
    } while (next_order(tried, count));
    return best;
}

uint64_t orders_of(size_t count) { return count ? count * orders_of(count - 1) : 1; }

uint64_t rank_of(const uint16_t *order, size_t count)
{
    uint64_t rank = 1;
    for (size_t k = 0; k < count; k++)
        for (size_t j = k + 1; j < count; j++)
            if (order[j] < order[k])
                rank += orders_of(count - k - 1);
    return rank;
}

int is_order(const uint16_t *order, size_t count)
{
    uint32_t met = 0;
    for (size_t k = 0; k < count; k++)
        met |= order[k] < count ? UINT32_C(1) << order[k] : 0;
    return met == (UINT32_C(1) << count) - 1;
}

void starts_of_rows(const struct seen *seen, const uint8_t *plan, size_t bytes, uint16_t *starts)
{
    for (size_t at = 0; at < bytes; at += 7)
        for (size_t k = 0; k < seen->demands; k++)
            if (seen->idents[k] == two(plan + at + 3))
                starts[k] = (uint16_t)two(plan + at + 5);
}

/* whether demands i, j and k weigh something each, no two of them share a link, and they weigh more than `a` together; k may be j */
static int heavy(const struct seen *seen, const uint8_t *weights, unsigned a, size_t i, size_t j, size_t k)
{
    const uint64_t *links = seen->links_of;
    unsigned third = j == k ? 0 : weights[k];
    if (!weights[i] || !weights[j] || !weights[k] || (links[i] & links[j]) || (links[i] & links[k]))
        return 0;
    return (j == k || !(links[j] & links[k])) && weights[i] + weights[j] + third > a;
}

size_t certificate_fault(const struct seen *seen, const uint8_t *weights, size_t count, unsigned a)
{
    if (count != seen->demands || a < 1 || a > 2)
        return seen->demands;
    for (size_t i = 0; i < count; i++)
        if (weights[i] > a)
            return i;
    for (size_t i = 0; i < count; i++)
        for (size_t j = i + 1; j < count; j++)
            for (size_t k = j; k < count; k++)
                if (heavy(seen, weights, a, i, j, k))
                    return i;
    return NO_PLACE;
}

uint32_t certificate_end(const struct seen *seen, const uint8_t *weights, unsigned a)
{
    uint32_t sum = 0;
    for (size_t k = 0; k < seen->demands; k++)
        sum += weights[k] * (seen->widths[k] + seen->guard);
    sum = sum / a + (sum % a != 0);
    return sum < seen->guard ? 0 : sum - seen->guard;
}

unsigned block_fault(int n0, unsigned slots, unsigned guard, unsigned start, unsigned width)
{
    if (n0 < -400 || n0 > 400 || slots < 1 || slots > 384 || guard > 8)
        return LIGHTPLAN_BAND_OUTSIDE;
    if (width < 1 || width > slots)
        return LIGHTPLAN_BAD_WIDTH;
    return start + width > slots ? LIGHTPLAN_END_ABOVE : LIGHTPLAN_ANSWERED;
}
