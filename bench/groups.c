/* First fit on every order of whole groups, in C: the loops of the proved code. The groups that are placed stay as they are while those
   behind them change, and a branch is left as soon as a circuit does not end below the best end so far. */
#include "list.h"
#include <string.h>

/* where the circuits stand that are placed, by listing position; one that ends at 0 does not stand yet */
struct level {
    uint16_t start[LISTED], end[LISTED];
};

static const struct list *l;
static int groups, cutting;
static unsigned char meets[LISTED][LISTED];
static struct grouped *best;
static int mark;
static uint64_t placements;

/* the groups placed, in order */
static int placed[GROUPS];

static int share_link(int i, int j)
{
    for (int a = 0; a < l->hops[i]; a++)
        for (int b = 0; b < l->hops[j]; b++)
            if (l->route[i][a] == l->route[j][b])
                return 1;
    return 0;
}

static void find_meetings(void)
{
    for (int i = 0; i < l->count; i++)
        for (int j = 0; j < l->count; j++)
            meets[i][j] = share_link(i, j);
}

/* the slots within which all must end for an order to become the best; those of the band where no branch is left */
static int room(void)
{
    return cutting ? mark - 1 : l->slots;
}

/* where the circuits in the way of circuit i end, the guard included; 0 for all others */
static void find_past(const struct level *level, int i, uint32_t *past)
{
    for (int j = 0; j < l->count; j++) {
        uint32_t end = level->end[j];
        past[j] = meets[i][j] & (level->start[j] < end) ? end + l->guard : 0;
    }
}

/* the lowest start below `above`, or one that is not below it where there is none */
static uint32_t scan(const uint16_t *start, const uint32_t *past, uint32_t span, uint32_t above)
{
    uint32_t at = 0;
    while (at < above) {
        uint32_t next = at, reach = at + span;
        for (int j = 0; j < l->count; j++) {
            uint32_t end = start[j] < reach ? past[j] : 0;
            next = next < end ? end : next;
        }
        if (next == at)
            return at;
        at = next;
    }
    return at;
}

/* places circuit i beside those that stand; its end, or 0 where it does not fit */
static int place(struct level *level, int i)
{
    uint32_t past[LISTED];
    int width = l->width[i], above = room() - width + 1;
    placements++;
    if (above <= 0)
        return 0;
    find_past(level, i, past);
    uint32_t at = scan(level->start, past, width + l->guard, above);
    if (at >= (uint32_t)above)
        return 0;
    level->start[i] = at;
    level->end[i] = at + width;
    return at + width;
}

/* the listing position at which a group begins: groups follow each other, and the first ones have the circuits that are left over */
static int group_begins(int group)
{
    int over = l->count % groups;
    return group * (l->count / groups) + (group < over ? group : over);
}

/* places a group behind those that end at `top`; the highest end then, or 0 where a circuit does not fit */
static int place_group(struct level *level, int group, int top)
{
    for (int i = group_begins(group); i < group_begins(group + 1); i++) {
        int end = place(level, i);
        if (!end)
            return 0;
        top = top < end ? end : top;
    }
    return top;
}

static void keep(const struct level *level, int end)
{
    mark = best->end = end;
    memcpy(best->order, placed, groups * sizeof placed[0]);
    for (int i = 0; i < l->count; i++)
        best->start[i] = level->start[i];
}

/* tries each group that is not used behind d that are, as long as these leave room for a better order */
static void walk(const struct level *level, int d, unsigned used, int top)
{
    for (int group = 0; group < groups && top <= room(); group++) {
        if (used >> group & 1)
            continue;
        struct level below = *level;
        int end = place_group(&below, group, top);
        placed[d] = group;
        if (end && d + 1 < groups)
            walk(&below, d + 1, used | 1u << group, end);
        else if (end && end < mark)
            keep(&below, end);
    }
}

uint64_t groups_placements(const struct list *list, int m, int cut, struct grouped *answer)
{
    static const struct level empty;
    l = list;
    groups = m;
    cutting = cut;
    best = answer;
    *best = (struct grouped){0};
    mark = l->slots + 1;
    placements = 0;
    find_meetings();
    walk(&empty, 0, 0, 0);
    return placements;
}

void groups_in_c(const struct list *list, int m, struct grouped *answer)
{
    groups_placements(list, m, 1, answer);
}
