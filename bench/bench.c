/* Runs the walks on the same requests, one after the other and five times over, and prints how many steps each takes in a second. Any
   difference in the counts, the starts or the order ends the run. */
#include "common.h"
#include "walk.h"
#include <stdio.h>
#include <stdlib.h>
#include <string.h>

enum { REQUESTS = 8, TIMES = 5, NODES = 5, EDGE = -284, SLOTS = 384, GUARD = 1 };

struct walker {
    const char *name;
    void (*walk)(const struct task *task, struct answer *answer);
};

static const struct walker walkers[] = {
    {"plain", walk_plain},
    {"kept", walk_kept},
    {"packed", walk_packed},
    {"proved", walk_proved},
};

enum { WALKERS = sizeof walkers / sizeof walkers[0] };

/* three links of a network, each beginning where the one before ends, along four nodes of which no two are the same */
static void draw_route(int links, const int *from, const int *to, int *route)
{
    for (;;) {
        for (int k = 0; k < 3; k++)
            route[k] = below(links);
        int joined = to[route[0]] == from[route[1]] && to[route[1]] == from[route[2]];
        int first = from[route[0]], second = to[route[0]], third = to[route[1]], last = to[route[2]];
        if (joined && first != third && first != last && second != last)
            return;
    }
}

static void add(struct task *task, int bytes, int number)
{
    put(task->file, &task->length, bytes, number);
}

/* the largest need of a link, and who meets whom */
static void weigh(struct task *task, int links, int route[MOST][3])
{
    for (int l = 0; l < links; l++) {
        int sum = -GUARD;
        for (int i = 0; i < task->count; i++)
            for (int k = 0; k < 3; k++)
                if (route[i][k] == l)
                    sum += task->width[i] + GUARD;
        if (task->bound < sum)
            task->bound = sum;
    }
    for (int i = 0; i < task->count; i++)
        for (int j = 0; j < task->count; j++)
            for (int a = 0; a < 9; a++)
                task->meets[i][j] |= route[i][a / 3] == route[j][a % 3];
}

/* 8 to 12 links, the first of them round all nodes, so that there are routes to draw; routes of three links, widths of 1, 1, 2, 8 and 20 */
static void draw(struct task *task, int count, uint32_t limit)
{
    static const int widths[5] = {1, 1, 2, 8, 20};
    int links = 8 + below(5), from[12], to[12], route[MOST][3];
    *task = (struct task){.count = count, .guard = GUARD, .slots = SLOTS, .limit = limit};
    add(task, 3, 0x010005);
    add(task, 2, EDGE);
    add(task, 2, SLOTS);
    add(task, 1, GUARD);
    for (int l = 0; l < links; l++) {
        from[l] = l % NODES;
        to[l] = (from[l] + 1 + (l < NODES ? 0 : below(NODES - 1))) % NODES;
        add(task, 3, 0x020002);
        add(task, 1, from[l]);
        add(task, 1, to[l]);
    }
    for (int i = 0; i < count; i++) {
        task->width[i] = widths[below(5)];
        draw_route(links, from, to, route[i]);
        add(task, 3, 0x030007);
        add(task, 2, i);
        add(task, 2, task->width[i]);
        for (int k = 0; k < 3; k++)
            add(task, 1, route[i][k]);
    }
    weigh(task, links, route);
}

/* the least time of each walker on one request; returns the steps */
static uint64_t measure(const struct task *task, double *least)
{
    struct answer answers[WALKERS];
    for (int w = 0; w < WALKERS; w++)
        least[w] = 1e9;
    for (int k = 0; k < TIMES; k++)
        for (int w = 0; w < WALKERS; w++) {
            memset(&answers[w], 0, sizeof answers[w]);
            double begun = now();
            walkers[w].walk(task, &answers[w]);
            double took = now() - begun;
            if (took < least[w])
                least[w] = took;
            if (memcmp(&answers[w], &answers[0], sizeof answers[0])) {
                printf("%s and %s answer differently\n", walkers[0].name, walkers[w].name);
                exit(1);
            }
        }
    return answers[0].steps;
}

static void bench(int count, uint32_t limit)
{
    double sum[WALKERS] = {0}, least[WALKERS];
    uint64_t steps = 0;
    for (int r = 0; r < REQUESTS; r++) {
        struct task task;
        do
            draw(&task, count, limit);
        while (task.bound > task.slots);
        steps += measure(&task, least);
        for (int w = 0; w < WALKERS; w++)
            sum[w] += least[w];
    }
    printf("K = %d:", count);
    for (int w = 0; w < WALKERS; w++)
        printf("  %s %.1f", walkers[w].name, steps / sum[w] / 1e6);
    for (int w = 0; w + 1 < WALKERS; w++)
        printf("  %s/%s %.2f", walkers[WALKERS - 1].name, walkers[w].name, sum[w] / sum[WALKERS - 1]);
    printf("\n");
}

int main(int count, char **words)
{
    static const char usage[] = "bench [SEED [STEPS]], two numbers, at least one step";
    seed = count > 1 ? number(words[1], 0, UINT64_MAX, usage) : 1;
    uint32_t limit = count > 2 ? (uint32_t)number(words[2], 1, UINT32_MAX, usage) : 2000000;
    printf("millions of steps in a second, %u steps at most for each request\n", limit);
    bench(12, limit);
    bench(16, limit);
    bench(20, limit);
    return 0;
}
