/* The walk in C with kept starts: each demand that is not placed has its lowest start at hand, and a demand that is put down moves only
   those that it clashes with. */
#include "walk.h"
#include <string.h>

/* one level of the tree: the demands left, by listing position, and the lowest start of each */
struct level {
    uint16_t left[MOST], low[MOST];
};

static const struct task *t;
static struct answer *best;
static int mark;

/* the demands placed, in order: their starts, and where each is past, guard included */
static uint16_t placed[MOST], at[MOST], past[MOST];

static uint64_t factorial[MOST + 1];

static void fill_factorials(void)
{
    factorial[0] = 1;
    for (int n = 1; n <= MOST; n++)
        factorial[n] = n * factorial[n - 1];
}

static void keep(int end)
{
    mark = best->end = end;
    for (int k = 0; k < t->count; k++) {
        best->start[placed[k]] = at[k];
        best->order[k] = placed[k];
    }
}

/* the first start from `start` on at which demand j clears the first d that are placed */
static int scan(int d, int j, int start)
{
    int span = t->width[j] + t->guard;
    for (;;) {
        int next = start;
        for (int k = 0; k < d; k++)
            if (t->meets[placed[k]][j] && at[k] < start + span && next < past[k])
                next = past[k];
        if (next == start)
            return start;
        start = next;
    }
}

/* the level below, with the demand at place p of those left put down after d others */
static void put_down(const struct level *l, int d, int p, struct level *below)
{
    int n = t->count - d, i = l->left[p], from = at[d], to = past[d];
    memcpy(below->low, l->low, sizeof l->low);
    memcpy(below->left, l->left, p * sizeof l->left[0]);
    memcpy(below->left + p, l->left + p + 1, (n - p - 1) * sizeof l->left[0]);
    for (int q = 0; q < n - 1; q++) {
        int j = below->left[q], start = below->low[j];
        if (t->meets[i][j] && start < to && from < start + t->width[j] + t->guard)
            below->low[j] = scan(d + 1, j, to);
    }
}

/* tries each demand left, after d that are placed; 0 ends the walk */
static int walk(const struct level *l, int d, int top)
{
    for (int p = 0; p < t->count - d; p++) {
        int i = l->left[p], end = l->low[i] + t->width[i];
        if (best->steps == t->limit) {
            best->unfinished = 1;
            return 0;
        }
        best->steps++;
        placed[d] = i;
        at[d] = l->low[i];
        past[d] = end + t->guard;
        if (end < top)
            end = top;
        if (d + 1 == t->count) {
            best->reached++;
            if (end < mark) {
                keep(end);
                if (end == t->bound)
                    return 0;
            }
        } else if (end < mark) {
            struct level below;
            put_down(l, d, p, &below);
            if (!walk(&below, d + 1, end))
                return 0;
        } else {
            best->ruled += factorial[t->count - d - 1];
        }
    }
    return 1;
}

void walk_kept(const struct task *task, struct answer *answer)
{
    struct level first;
    fill_factorials();
    t = task;
    best = answer;
    *best = (struct answer){0};
    mark = t->slots + 1;
    for (int i = 0; i < MOST; i++) {
        first.left[i] = i;
        first.low[i] = 0;
    }
    walk(&first, 0, 0);
}
