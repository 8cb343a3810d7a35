/* The walk in C over packed levels, the fastest in C that is known here. A level holds the demands that are left and no other, each beside
   its lowest start and the set of placed ones that it meets; going down is one pass that drops one entry and mends those that clash. Tests
   are made without branches where the answer is hard to foresee, and the counts stand outside the answer until the end. */
#include "walk.h"

/* a demand that is left: its listing position, its lowest start, and which of the placed ones it meets, a bit for each in placing order */
struct entry {
    uint16_t demand, low;
    uint32_t met;
};

static const struct task *t;
static struct answer *best;
static uint64_t steps, reached, ruled, limit;
static int mark, guard;

/* the demands placed, in order: their starts, and where each is past, guard included */
static int placed[MOST], at[MOST], past[MOST];

/* of each demand: its width, and with the guard */
static int width[MOST], span[MOST];

static uint64_t factorial[MOST + 1];

static void fill_tables(void)
{
    factorial[0] = 1;
    for (int n = 1; n <= MOST; n++)
        factorial[n] = n * factorial[n - 1];
    for (int i = 0; i < MOST; i++) {
        width[i] = t->width[i];
        span[i] = t->width[i] + t->guard;
    }
}

static void keep(int end)
{
    mark = best->end = end;
    for (int k = 0; k < t->count; k++) {
        best->start[placed[k]] = at[k];
        best->order[k] = placed[k];
    }
}

/* the first start from `start` on at which demand j clears the placed ones that it meets */
static int scan(uint32_t met, int j, int start)
{
    for (;;) {
        int next = start;
        for (uint32_t left = met; left; left &= left - 1) {
            int k = __builtin_ctz(left);
            int clash = (at[k] < start + span[j]) & (next < past[k]);
            next = clash ? past[k] : next;
        }
        if (next == start)
            return start;
        start = next;
    }
}

/* the level below one of n demands, with the one at place p put down after d others */
static void put_down(const struct entry *level, int d, int n, int p, struct entry *below)
{
    const unsigned char *meets = t->meets[level[p].demand];
    int from = at[d], to = past[d];
    for (int q = 0; q < n; q++) {
        if (q == p)
            continue;
        int j = level[q].demand, start = level[q].low;
        uint32_t met = level[q].met | (uint32_t)meets[j] << d;
        if (meets[j] & (start < to) & (from < start + span[j]))
            start = scan(met, j, to);
        *below++ = (struct entry){j, start, met};
    }
}

/* tries each of the n demands left, after d that are placed; 0 ends the walk */
static int walk(const struct entry *level, int d, int n, int top)
{
    for (int p = 0; p < n; p++) {
        int i = level[p].demand, end = level[p].low + width[i];
        if (steps == limit) {
            best->unfinished = 1;
            return 0;
        }
        steps++;
        placed[d] = i;
        at[d] = level[p].low;
        past[d] = end + guard;
        if (end < top)
            end = top;
        if (n == 1) {
            reached++;
            if (end < mark) {
                keep(end);
                if (end == t->bound)
                    return 0;
            }
        } else if (end < mark) {
            struct entry below[MOST];
            put_down(level, d, n, p, below);
            if (!walk(below, d + 1, n - 1, end))
                return 0;
        } else {
            ruled += factorial[n - 1];
        }
    }
    return 1;
}

void walk_packed(const struct task *task, struct answer *answer)
{
    struct entry first[MOST];
    t = task;
    best = answer;
    *best = (struct answer){0};
    steps = reached = ruled = 0;
    limit = t->limit;
    guard = t->guard;
    mark = t->slots + 1;
    fill_tables();
    for (int i = 0; i < MOST; i++)
        first[i] = (struct entry){i, 0, 0};
    walk(first, 0, t->count, 0);
    best->steps = steps;
    best->reached = reached;
    best->ruled = ruled;
}
