/* Plans by turns: a demand that has no start is put down below the target, and who is in the way there is taken up and waits for its own
   turn. Whoever had to wait often is heavy, and it is put down where those in the way weigh least. */
#include "finder_parts.h"

enum { STARTS = 384 + 1, NOWHERE = -1 };

struct turns {
    int target, waiting;
    int wait[LIGHTPLAN_DEMANDS]; /* those without a start */
    int start[LIGHTPLAN_DEMANDS];
    int weight[LIGHTPLAN_DEMANDS];
};

/* the first and the last start of a demand at which another that is put down would be in its way */
static int first_near(const struct finder *finder, const struct turns *turns, int k, int other)
{
    int first = turns->start[other] - finder->guard - finder->width[k] + 1;
    return first < 0 ? 0 : first;
}

static int last_near(const struct finder *finder, const struct turns *turns, int other)
{
    return turns->start[other] + finder->width[other] + finder->guard - 1;
}

/* for each start of a demand up to the last by how much those in the way weigh more there than at the start one lower */
static void note_changes(const struct finder *finder, const struct turns *turns, int k, int last, int *change)
{
    for (int j = next_of(&finder->meets[k], 0); j < finder->count; j = next_of(&finder->meets[k], j + 1)) {
        if (turns->start[j] == NOWHERE)
            continue;
        int from = first_near(finder, turns, k, j), to = last_near(finder, turns, j);
        if (from > last)
            continue;
        change[from] += turns->weight[j];
        change[to < last ? to + 1 : last + 1] -= turns->weight[j];
    }
}

/* for each start of a demand how much those in the way weigh */
static void weigh_starts(const struct finder *finder, const struct turns *turns, int k, int *weigh)
{
    int last = turns->target - finder->width[k], change[STARTS + 1] = {0};
    note_changes(finder, turns, k, last, change);
    for (int s = 0, sum = 0; s <= last; s++)
        weigh[s] = sum += change[s];
}

/* a start at which those in the way weigh least, of several one by lot */
static int draw_start(struct finder *finder, const struct turns *turns, int k)
{
    int weigh[STARTS], last = turns->target - finder->width[k], best = 0, equal = 0;
    weigh_starts(finder, turns, k, weigh);
    for (int s = 0; s <= last; s++) {
        if (weigh[s] > weigh[best])
            continue;
        equal = weigh[s] < weigh[best] ? 1 : equal + 1;
        if (drawn(finder, equal) == 0)
            best = s;
    }
    return best;
}

/* puts a demand down and takes up who is in the way */
static void put_down(const struct finder *finder, struct turns *turns, int k, int start)
{
    for (int j = next_of(&finder->meets[k], 0); j < finder->count; j = next_of(&finder->meets[k], j + 1)) {
        if (turns->start[j] == NOWHERE || start < first_near(finder, turns, k, j) || start > last_near(finder, turns, j))
            continue;
        turns->start[j] = NOWHERE;
        turns->wait[turns->waiting++] = j;
    }
    turns->start[k] = start;
}

/* the turn of one that waits, drawn by lot */
static void take_turn(struct finder *finder, struct turns *turns)
{
    int lot = drawn(finder, turns->waiting), k = turns->wait[lot];
    turns->wait[lot] = turns->wait[--turns->waiting];
    turns->weight[k]++;
    put_down(finder, turns, k, draw_start(finder, turns, k));
}

/* begins with the best plan there is, without those that end above the target */
static void begin(const struct finder *finder, struct turns *turns, int target)
{
    const struct finding *found = finder->found;
    turns->target = target;
    turns->waiting = 0;
    for (int k = 0; k < finder->count; k++) {
        turns->weight[k] = 1;
        turns->start[k] = found->planned && found->starts[k] + finder->width[k] <= target ? found->starts[k] : NOWHERE;
        if (turns->start[k] == NOWHERE)
            turns->wait[turns->waiting++] = k;
    }
}

/* whether each demand by itself can end at the target or lower */
static int is_wide_enough(const struct finder *finder, int target)
{
    for (int k = 0; k < finder->count; k++)
        if (finder->width[k] > target)
            return 0;
    return 1;
}

void search_turns(struct finder *finder, int target, int turns_left)
{
    struct turns turns;
    if (!is_wide_enough(finder, target))
        return;
    begin(finder, &turns, target);
    while (turns.waiting && turns_left-- > 0 && !is_over(finder))
        take_turn(finder, &turns);
    if (!turns.waiting)
        offer_plan(finder, turns.start);
}
