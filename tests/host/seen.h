/* What a few lines of C work out by themselves, to hold the library's answers against. */
#ifndef SEEN_H
#define SEEN_H

#include "../../hosts/c/lightplan.h"

/* what a request file says, read off an accepted file's bytes: of each demand its width, the rate that it asks for or 0, and its route's
   links, as bits too */
struct seen {
    const uint8_t *file;
    size_t bytes, links, demands;
    int n0;
    unsigned slots, guard;
    uint32_t bound;
    uint16_t idents[LIGHTPLAN_DEMANDS], widths[LIGHTPLAN_DEMANDS], rates[LIGHTPLAN_DEMANDS];
    uint16_t ends[LIGHTPLAN_ENDS], hops[LIGHTPLAN_DEMANDS], routes[LIGHTPLAN_ROUTES];
    size_t all_hops;
    uint64_t links_of[LIGHTPLAN_DEMANDS];
};

/* Reads off what a request file says that was accepted. */
void see(struct seen *seen, const uint8_t *file, size_t bytes);

/* The largest end of some starts, by listing position. */
uint32_t end_of(const struct seen *seen, const uint16_t *starts);

/* The starts of a plan file whose rows are whole and known, by listing position. */
void starts_of_rows(const struct seen *seen, const uint8_t *plan, size_t bytes, uint16_t *starts);

/* Whether each of so many listing positions, at most 20, is there. */
int is_order(const uint16_t *order, size_t count);

/* For each listing position who is in the way of a plan's demand, placed in this order, one slot below its start: the lowest listing
   position of those that stand before it in the order and are too near there, or LIGHTPLAN_NOBODY. */
void blockers_of(const struct seen *seen, const uint16_t *starts, const uint16_t *order, uint16_t *blockers);

/* How many orders there are of so many demands, and the rank of one among them, from 1, as they are listed. */
uint64_t orders_of(size_t count);
uint64_t rank_of(const uint16_t *order, size_t count);

/* The listing positions group by group: so many groups in this order, cut from the listing so that the first ones have one demand more
   where the demands do not come out even. */
void members_of(const struct seen *seen, const uint16_t *groups, size_t count, uint16_t *order);

/* The best of all orders of so many groups, 1 to 8, which are tried one after the other as they are listed: the first that gives the
   lowest end inside the band, its starts, and that end; NO_END where none gives a plan. */
enum { NO_END = 65535 };
uint32_t best_of_groups(const struct seen *seen, size_t count, uint16_t *groups, uint16_t *starts);

/* The place at which so many weights are refused as no certificate, NO_PLACE where they are one; and the end that a certificate gives. */
enum { NO_PLACE = 65535 };
size_t certificate_fault(const struct seen *seen, const uint8_t *weights, size_t count, unsigned a);
uint32_t certificate_end(const struct seen *seen, const uint8_t *weights, unsigned a);

/* The number that a block is refused with, or 0. */
unsigned block_fault(int n0, unsigned slots, unsigned guard, unsigned start, unsigned width);

#endif
