/* Lists of circuits on NSFNET, and what comes of ordering whole groups of them: the same numbers whoever works it out. */
#ifndef LIST_H
#define LIST_H
#include <stdint.h>

enum { LISTED = 200, HOPS = 13, GROUPS = 8, PAIRS = 91, NSFNET_NODES = 14, JOINED = 21 };

/* the pairs of nodes that NSFNET joins, by a link each way */
extern const unsigned char joined[JOINED][2];

/* how often the five bit rates are asked for: mostly low ones, each as often, mostly high ones */
enum spread { MOSTLY_LOW, EVEN, MOSTLY_HIGH, SPREADS };

/* a request: its circuits in listing order, the widest first, with the numbers of the band and the end that no plan can be below; and the
   same request as the bytes of a file */
struct list {
    int count, guard, slots, bound;
    uint16_t width[LISTED];
    int hops[LISTED], route[LISTED][HOPS];
    int length;
    unsigned char file[8128];
};

/* the lowest end, or 0 where every order of the groups is refused; the first order of the groups that has it; and its starts */
struct grouped {
    int end;
    int order[GROUPS];
    int start[LISTED];
};

/* Makes the list of that number: a circuit between each two of the 14 nodes, its direction drawn by lot, and as many circuits the other
   way, drawn by lot, as are then missing. So the count is 91 to 182. */
void draw_list(struct list *list, int count, int guard, enum spread spread, uint64_t which);

/* The same list where what goes along a link keeps its slots from what goes back. No file says so: links lead one way there. */
void share_both_ways(struct list *list);

/* First fit on every order of m groups, by loops in C and as proved. */
void groups_in_c(const struct list *list, int m, struct grouped *answer);
void groups_proved(const struct list *list, int m, struct grouped *answer);

/* how often a circuit was placed, or tried in vain, with the branches left that cannot become better or with all of them gone into */
uint64_t groups_placements(const struct list *list, int m, int cut, struct grouped *answer);

#endif
