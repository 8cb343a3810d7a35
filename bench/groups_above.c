/* How far above the bound the groups end: on lists of 91 circuits, for each of the three spreads of the bit rates, the best end over 1 to M
   groups for M from 1 to 8; with links that lead one way, and with links that share their slots both ways. */
#include "common.h"
#include "list.h"
#include <stdio.h>

/* for each M: the sum over the lists of how far the end is above the bound, in hundredths of it; at how many it is the bound; and at how
   many it is lower than with one group */
struct sums {
    double above[GROUPS + 1];
    int at_bound[GROUPS + 1], lower[GROUPS + 1];
};

static const char *const names[SPREADS] = {"mostly low", "even", "mostly high"};

/* Once the bound is reached, more groups are not tried: nothing ends lower. */
static void weigh(const struct list *list, struct sums *sums)
{
    struct grouped answer;
    int least = list->slots + 1, first = 0;
    for (int m = 1; m <= GROUPS; m++) {
        if (least > list->bound) {
            groups_in_c(list, m, &answer);
            least = answer.end && answer.end < least ? answer.end : least;
        }
        if (m == 1)
            first = least;
        sums->above[m] += 100.0 * (least - list->bound) / list->bound;
        sums->at_bound[m] += least == list->bound;
        sums->lower[m] += least < first;
    }
}

static void show(const struct sums *sums, int lists)
{
    for (int m = 1; m <= GROUPS; m++)
        printf("  M = %d: %5.2f %% above the bound, at the bound %3d, lower than with one group %3d\n", m, sums->above[m] / lists,
               sums->at_bound[m], sums->lower[m]);
}

static void weigh_all(int lists, int guard, enum spread spread, int both_ways)
{
    struct sums sums = {0};
    for (int which = 1; which <= lists; which++) {
        static struct list list;
        draw_list(&list, PAIRS, guard, spread, which);
        if (both_ways)
            share_both_ways(&list);
        weigh(&list, &sums);
    }
    printf("%s, %s, guard %d, %d lists\n", names[spread], both_ways ? "both ways share" : "links lead one way", guard, lists);
    show(&sums, lists);
}

int main(int count, char **words)
{
    static const char usage[] = "groups_above [LISTS [GUARD]], 1 to 1000 lists of each kind, guard 0 to 8";
    int lists = count > 1 ? (int)number(words[1], 1, 1000, usage) : 100;
    int guard = count > 2 ? (int)number(words[2], 0, 8, usage) : 0;
    for (int both_ways = 0; both_ways < 2; both_ways++)
        for (enum spread spread = MOSTLY_LOW; spread < SPREADS; spread++)
            weigh_all(lists, guard, spread, both_ways);
    return 0;
}
