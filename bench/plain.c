/* The walk in plain C: arrays, and every scan from 0. A start that clashes is raised past all that is in its way. */
#include "walk.h"

static const struct task *t;
static struct answer *best;
static int mark, placed[MOST], at[MOST], used[MOST];

static uint64_t factorial[MOST + 1];

static void fill_factorials(void)
{
    factorial[0] = 1;
    for (int n = 1; n <= MOST; n++)
        factorial[n] = n * factorial[n - 1];
}

/* the lowest start of demand i beside the first d that are placed */
static int lowest(int i, int d)
{
    int start = 0;
    for (;;) {
        int next = start;
        for (int k = 0; k < d; k++) {
            int j = placed[k];
            int past = at[j] + t->width[j] + t->guard;
            if (t->meets[j][i] && at[j] < start + t->width[i] + t->guard && start < past && next < past)
                next = past;
        }
        if (next == start)
            return start;
        start = next;
    }
}

static void keep(int end)
{
    mark = best->end = end;
    for (int k = 0; k < t->count; k++) {
        best->start[k] = at[k];
        best->order[k] = placed[k];
    }
}

/* tries each demand that is not placed, after d that are; 0 ends the walk */
static int walk(int d, int top)
{
    for (int i = 0; i < t->count; i++) {
        if (used[i])
            continue;
        if (best->steps == t->limit) {
            best->unfinished = 1;
            return 0;
        }
        best->steps++;
        at[i] = lowest(i, d);
        placed[d] = i;
        int end = at[i] + t->width[i];
        if (end < top)
            end = top;
        if (d + 1 == t->count) {
            best->reached++;
            if (end < mark) {
                keep(end);
                if (end == t->bound)
                    return 0;
            }
        } else if (end < mark) {
            used[i] = 1;
            int on = walk(d + 1, end);
            used[i] = 0;
            if (!on)
                return 0;
        } else {
            best->ruled += factorial[t->count - d - 1];
        }
    }
    return 1;
}

void walk_plain(const struct task *task, struct answer *answer)
{
    fill_factorials();
    t = task;
    best = answer;
    *best = (struct answer){0};
    mark = t->slots + 1;
    for (int i = 0; i < MOST; i++)
        used[i] = 0;
    walk(0, 0);
}
