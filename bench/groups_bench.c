/* Orders whole groups of lists of 150 circuits, in C and by the proved call, one after the other and five times over, and prints how fast
   the proved one is beside C, and how many placements are saved where a branch is left that cannot become better. Any difference in the
   end, the order of the groups or the starts ends the run. */
#include "common.h"
#include "list.h"
#include <stdio.h>
#include <stdlib.h>
#include <string.h>

enum { LISTS = 3, TIMES = 5, CIRCUITS = 150, GUARD = 1 };

/* what was measured of one list, or of all together */
struct taken {
    double c, proved;
    uint64_t placed, uncut;
};

static void compare(const struct grouped *answer, const struct grouped *other, const char *whose)
{
    if (memcmp(answer, other, sizeof *answer)) {
        printf("groups in C and %s answer differently\n", whose);
        exit(1);
    }
}

static double time_of(void (*way)(const struct list *, int, struct grouped *), const struct list *list, int m, struct grouped *answer)
{
    memset(answer, 0, sizeof *answer);
    double begun = now();
    way(list, m, answer);
    return now() - begun;
}

static double lower(double a, double b)
{
    return a < b ? a : b;
}

/* the least times on one list, and its placements with and without the cut */
static struct taken measure(const struct list *list, int m)
{
    struct taken taken = {.c = 1e9, .proved = 1e9};
    struct grouped answer, other;
    for (int k = 0; k < TIMES; k++) {
        taken.c = lower(taken.c, time_of(groups_in_c, list, m, &answer));
        taken.proved = lower(taken.proved, time_of(groups_proved, list, m, &other));
        compare(&answer, &other, "as proved");
    }
    taken.placed = groups_placements(list, m, 1, &other);
    taken.uncut = groups_placements(list, m, 0, &other);
    compare(&answer, &other, "without the cut");
    printf("  bound %d, end %d: C %.1f ms, proved %.1f ms\n", list->bound, answer.end, 1e3 * taken.c, 1e3 * taken.proved);
    return taken;
}

int main(int count, char **words)
{
    static const char usage[] = "groups_bench [SEED [M]], a number and 1 to 8 groups";
    uint64_t first = count > 1 ? number(words[1], 0, UINT64_MAX, usage) : 1;
    int m = count > 2 ? (int)number(words[2], 1, GROUPS, usage) : GROUPS;
    struct taken all = {0};
    printf("%d circuits on NSFNET in %d groups\n", CIRCUITS, m);
    for (int k = 0; k < LISTS; k++) {
        static struct list list;
        draw_list(&list, CIRCUITS, GUARD, EVEN, first + k);
        struct taken one = measure(&list, m);
        all.c += one.c;
        all.proved += one.proved;
        all.placed += one.placed;
        all.uncut += one.uncut;
    }
    printf("  proved/C %.2f; %llu placements, %llu without the cut, which saves %.0f %%\n", all.c / all.proved,
           (unsigned long long)all.placed, (unsigned long long)all.uncut, 100 - 100.0 * all.placed / all.uncut);
    return 0;
}
