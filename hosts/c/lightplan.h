/* Lightplan for C: reads request files, searches for the plan that ends lowest, checks plans, and holds certificates against them. Nine
   calls over a library in which every function is proved to meet its contract.

   A request lists demands (circuits): each has an ident, a width in slots or a bit rate, which takes so many slots, and a route over
   links. A plan gives each demand a start, its first slot; the demand then ends at start + width. Demands go by listing position: their
   place in the request file, from 0. K is how many there are. Request and plan files are given as their bytes; docs/RULES.md says how
   they are laid out.

   Slices. What the library reads or writes is lent as a pointer and a count of elements. A call never looks beyond that count, keeps no
   pointer after it returns, and wants the pointer aligned for its elements. A buffer that a call writes must not overlap anything else
   that the call is lent. With the count 0 the pointer is not looked at, and may be NULL.

   Refusals. Every struct begins with `refusal`. It is 0 for an answer. Else it is a number of enum lightplan_refusal, `place` says where
   the fault is, every other field is 0 (but for `which`, where there is one), and every lent buffer is exactly as it was.

   Calls. No call fails otherwise, whatever the bytes are. There is no global state, no allocation, no input or output: calls may run in
   any number of threads at once, each with buffers of its own. All that a call needs besides is stack, see LIGHTPLAN_STACK. */
#ifndef LIGHTPLAN_H
#define LIGHTPLAN_H

#include <stddef.h>
#include <stdint.h>

#ifdef __cplusplus
extern "C" {
#endif

/* The version of these calls and structs. A library fits this header where lightplan_version() answers the same number.
   Changes: 2 numbers outcomes from 1 (1 did from 0), tells what a check refuses, and adds lightplan_read_routes and this number. 3 lends
   lightplan_search a third buffer, for who is in the way, and adds LIGHTPLAN_NOBODY. 4 reads demands by bit rate: it lends lightplan_read a
   third buffer, for the rates, and adds LIGHTPLAN_UNKNOWN_RATE. 5 adds lightplan_groups and LIGHTPLAN_GROUPS_OUTSIDE. 6 adds
   lightplan_certify, LIGHTPLAN_NO_CERTIFICATE and LIGHTPLAN_OF_CERTIFICATE, and refuses a route that meets a node twice. */
#define LIGHTPLAN_VERSION 6

/* The longest files that are read. To see that a file is too long it is enough to give one byte more. */
#define LIGHTPLAN_REQUEST_BYTES 8128
#define LIGHTPLAN_PLAN_BYTES 1400

/* The most demands of a request, so that buffers of as many entries are never too short for lightplan_read, lightplan_groups and
   lightplan_check. */
#define LIGHTPLAN_DEMANDS 200

/* The most links of a request, and the most links of a route; so that buffers of as many entries are never too short for
   lightplan_read_routes: LIGHTPLAN_ENDS for ends, LIGHTPLAN_DEMANDS for hops, LIGHTPLAN_ROUTES for routes. */
#define LIGHTPLAN_LINKS 64
#define LIGHTPLAN_HOPS 32
#define LIGHTPLAN_ENDS (2 * LIGHTPLAN_LINKS)
#define LIGHTPLAN_ROUTES (LIGHTPLAN_DEMANDS * LIGHTPLAN_HOPS)

/* The most demands that are searched, so that buffers of as many entries are never too short for lightplan_search. */
#define LIGHTPLAN_SEARCHED 20

/* The most groups that demands are cut into, which is how many entries the order of a struct lightplan_grouped has. */
#define LIGHTPLAN_GROUPS 8

/* In the blockers of lightplan_search and lightplan_groups: nobody is in the way. Listing positions are below LIGHTPLAN_DEMANDS. */
#define LIGHTPLAN_NOBODY 65535

/* A stack of so many bytes is enough for any of the calls, on x86-64. Measured with the heaviest inputs: lightplan_read 56000,
   lightplan_read_routes 59456, lightplan_check 58896, lightplan_search 69616, lightplan_groups 92016, lightplan_check_starts 46224,
   lightplan_certify 60000, lightplan_frequency 48, lightplan_version 8. */
#define LIGHTPLAN_STACK 114688

/* Why there is no answer. "Offset" is the byte of the file where the faulty field begins. */
enum lightplan_refusal {
    LIGHTPLAN_ANSWERED = 0,           /* no refusal */
    LIGHTPLAN_PAST_END = 1,           /* a field runs past the end of its file; place: offset */
    LIGHTPLAN_WRONG_TAG = 2,          /* an unknown tag, or one out of its turn; place: offset. Or a request file is over before its
                                         band or its first link; place: the file's length */
    LIGHTPLAN_WRONG_LENGTH = 3,       /* a field's length is wrong for its tag; place: offset */
    LIGHTPLAN_BAND_OUTSIDE = 4,       /* a number of the band is out of its range; place: offset, in lightplan_frequency 0 */
    LIGHTPLAN_BAD_LINK = 5,           /* a link beyond the 64th, or one that leads back to its own node; place: offset */
    LIGHTPLAN_TOO_MANY_DEMANDS = 6,   /* a 201st demand; place: offset */
    LIGHTPLAN_BAD_ROUTE = 7,          /* a route that breaks, meets a node twice, or has a link that is not listed or stands in it twice;
                                         place: offset */
    LIGHTPLAN_IDENT_USED = 8,         /* an ident that an earlier demand has; place: offset */
    LIGHTPLAN_BAD_WIDTH = 9,          /* a width of 0 or above the slot count, or a rate that takes more slots than it; place: offset, in
                                         lightplan_frequency 0 */
    LIGHTPLAN_BUFFER_SHORT = 10,      /* a result buffer has too few entries; place: how many it needs */
    LIGHTPLAN_TOO_MANY_TO_SEARCH = 11, /* more than 20 demands for a search; place: K */
    LIGHTPLAN_NOT_AN_ORDER = 12,      /* of a call that is not offered to C */
    LIGHTPLAN_NO_START = 13,          /* of a call that is not offered to C */
    LIGHTPLAN_UNKNOWN_IDENT = 14,     /* a plan row with an ident that no demand has; place: offset in the plan file */
    LIGHTPLAN_IDENT_SEEN = 15,        /* a plan row with an ident that an earlier row has; place: offset in the plan file */
    LIGHTPLAN_NO_ROW = 16,            /* a demand without a start; place: the first such listing position, in lightplan_check_starts and
                                         lightplan_certify how many starts were given */
    LIGHTPLAN_END_ABOVE = 17,         /* an end above the slot count; place: offset in the plan file, in lightplan_check_starts and
                                         lightplan_certify the first such listing position, in lightplan_frequency 0 */
    LIGHTPLAN_CLASH = 18,             /* on a link that they share two demands overlap, or leave less than the guard free; place: the
                                         lowest listing position that is too near to one before it */
    LIGHTPLAN_NO_BLOCK = 19,          /* of a call that is not offered to C */
    LIGHTPLAN_FILE_TOO_LONG = 20,     /* a file above its limit; place: the limit, 8128 for a request and 1400 for a plan */
    LIGHTPLAN_UNKNOWN_RATE = 21,      /* a bit rate other than 10, 40, 100, 400 and 1000 Gbit/s; place: offset */
    LIGHTPLAN_GROUPS_OUTSIDE = 24,    /* no groups, more than 8, or more than there are demands; place: how many were asked for */
    LIGHTPLAN_NO_CERTIFICATE = 30     /* weights that are no certificate; place: K where there are not K of them or `a` is not 1 or 2; else
                                         the first listing position with a weight above `a`; else the lowest that is the first of a
                                         pair, or of three, that share no link and weigh more than `a` together */
};

/* How a search came out. A struct of zeros, and a refusal, has none of these. */
enum lightplan_outcome {
    LIGHTPLAN_FINISHED = 1,        /* a plan, proved the best: no allowed plan at all ends lower */
    LIGHTPLAN_NOTHING_FITS = 2,    /* proved: no plan is allowed */
    LIGHTPLAN_UNFINISHED = 3,      /* the steps ran out; the best plan met so far, which may not be the best there is */
    LIGHTPLAN_UNFINISHED_EMPTY = 4 /* the steps ran out before a plan was met; there may be one */
};

/* How groups came out. A struct of zeros, and a refusal, has none of these. With as many groups as demands both say what a search that
   finished says: every order of the demands was tried. With fewer groups neither says anything of plans that are made otherwise. */
enum lightplan_grouping {
    LIGHTPLAN_GROUPED = 1,      /* a plan, the best of all orders of the groups; the best there is where it ends at the bound, and where
                                   there are as many groups as demands; else that is not known */
    LIGHTPLAN_NOTHING_FOUND = 2 /* no order of the groups gives a plan; with as many groups as demands none is allowed, with fewer there
                                   may be one all the same */
};

/* What a check refuses, and what lightplan_certify does. */
enum lightplan_which {
    LIGHTPLAN_OF_NOTHING = 0,    /* nothing: the plan is accepted */
    LIGHTPLAN_OF_REQUEST = 1,    /* the request file; the place is in it */
    LIGHTPLAN_OF_PLAN = 2,       /* the plan file, or the starts; the place is in them */
    LIGHTPLAN_OF_BUFFER = 3,     /* the lent buffer is too short for the starts of a plan that is allowed; with refusal 10 alone */
    LIGHTPLAN_OF_CERTIFICATE = 4 /* the weights, or `a`, beside a plan that is allowed; with refusal 30 alone */
};

/* What a certificate proves. A struct of zeros, and a refusal, has none of these. */
enum lightplan_certainty {
    LIGHTPLAN_BEST = 1,    /* the plan is the best there is: it ends where the certificate does, and no allowed plan at all ends lower */
    LIGHTPLAN_AT_LEAST = 2 /* no allowed plan ends below the certificate's end; this one ends above it, and may be the best all the same */
};

/* What a request file holds. */
struct lightplan_request {
    uint8_t refusal; /* 0, or a number of enum lightplan_refusal */
    size_t place;    /* where the fault is; 0 without one */
    int16_t n0;      /* the band's lower edge, in steps of 6.25 GHz from 193.1 THz: -400 to 400 */
    uint16_t slots;  /* how many slots of 12.5 GHz the band has: 1 to 384 */
    uint8_t guard;   /* how many slots stay free between two neighbours on a link: 0 to 8 */
    size_t links;    /* how many links: 1 to 64 */
    size_t demands;  /* how many demands, K: 0 to 200 */
    uint32_t bound;  /* the end that no plan can be below: what the fullest link needs. Up to 78392 */
};

/* How long the lists of a request file are. */
struct lightplan_routes {
    uint8_t refusal; /* 0, or a number of enum lightplan_refusal */
    size_t place;    /* where the fault is; 0 without one */
    size_t links;    /* how many links: 1 to 64 */
    size_t demands;  /* how many demands, K: 0 to 200 */
    size_t hops;     /* how many links all routes have together: 0 to 6400 */
};

/* What a search answers. */
struct lightplan_answer {
    uint8_t refusal;  /* 0, or a number of enum lightplan_refusal */
    size_t place;     /* where the fault is; 0 without one */
    uint8_t outcome;  /* a number of enum lightplan_outcome; 0 beside a refusal */
    uint16_t end;     /* the plan's end, its largest; 0 without a plan */
    uint32_t bound;   /* the end that no plan can be below. An end that equals it is the best for that reason alone */
    uint32_t steps;   /* steps taken, never more than the limit: a step puts one demand down */
    uint64_t reached; /* orders of the demands that were placed to their end */
    uint64_t ruled;   /* orders that were ruled out without. Finished above the bound, or nothing fits: reached + ruled is K! */
};

/* What groups answer. */
struct lightplan_grouped {
    uint8_t refusal;                  /* 0, or a number of enum lightplan_refusal */
    size_t place;                     /* where the fault is; 0 without one */
    uint8_t outcome;                  /* a number of enum lightplan_grouping; 0 beside a refusal */
    uint16_t end;                     /* the plan's end, its largest; 0 without a plan */
    uint32_t bound;                   /* the end that no plan can be below. A plan whose end equals it is the best there is */
    size_t groups;                    /* how many entries `order` has: as many as there are groups; 0 without a plan */
    uint16_t order[LIGHTPLAN_GROUPS]; /* the groups' numbers, from 0, in the order that gave the plan; 0 behind the last */
};

/* What the check of a plan answers. */
struct lightplan_verdict {
    uint8_t refusal; /* 0: the plan is allowed; else a number of enum lightplan_refusal */
    size_t place;    /* where the fault is; 0 without one */
    uint8_t which;   /* a number of enum lightplan_which: what is refused */
    uint16_t end;    /* the plan's end, its largest */
    uint32_t bound;  /* the end that no plan can be below. An allowed plan whose end equals it is the best there is */
};

/* What a plan and a certificate tell. */
struct lightplan_certified {
    uint8_t refusal; /* 0: the plan is allowed, and the weights are a certificate; else a number of enum lightplan_refusal */
    size_t place;    /* where the fault is; 0 without one */
    uint8_t which;   /* a number of enum lightplan_which: what is refused */
    uint8_t outcome; /* a number of enum lightplan_certainty; 0 beside a refusal */
    uint16_t end;    /* the plan's end, its largest */
    uint32_t low;    /* the certificate's end: no plan can end below it */
};

/* Where a block of slots stands on the grid of ITU-T G.694.1. */
struct lightplan_frequency_of {
    uint8_t refusal; /* 0, or a number of enum lightplan_refusal */
    size_t place;    /* always 0 */
    int32_t n;       /* the central number: the centre is n steps of 6.25 GHz from 193.1 THz */
    uint16_t m;      /* the width number, in slots of 12.5 GHz */
    int64_t mhz;     /* the central frequency in MHz */
};

/* Reads a request file. The first K entries of `idents`, of `widths` and of `rates` get, by listing position, the demands' idents, their
   widths in slots and the bit rates that they ask for, in Gbit/s; a demand that asks for a width has the rate 0, and no other has. A rate
   of 10 or 40 takes 1 slot, 100 takes 2, 400 takes 8, 1000 takes 20. What stands behind these entries stays. Refusals: 20, then field by
   field 1 to 9 and 21, which comes after 8 and before 9; 10 last, for idents, for widths and then for rates. */
struct lightplan_request lightplan_read(const uint8_t *file, size_t file_bytes, uint16_t *idents, size_t idents_count, uint16_t *widths,
                                        size_t widths_count, uint16_t *rates, size_t rates_count);

/* Reads the links and the routes of a request file; with lightplan_read that is all that is in it. `ends` gets two entries for each link:
   the node where link k begins at 2k, and the node it leads to at 2k + 1. The first K entries of `hops` get how many links each demand's
   route has, by listing position, and `routes` the links' numbers of all routes, one route after the other in listing order. What stands
   behind these entries stays. Refusals: lightplan_read's of the file; 10 last, for ends, for hops and then for routes. */
struct lightplan_routes lightplan_read_routes(const uint8_t *file, size_t file_bytes, uint16_t *ends, size_t ends_count, uint16_t *hops,
                                              size_t hops_count, uint16_t *routes, size_t routes_count);

/* Searches a request file's demands, at most 20, for the plan with the lowest end, in at most `limit` steps. With a plan the first K
   entries of `starts` get its starts by listing position, those of `order` the listing positions in the order that gave them, and those
   of `blockers`, by listing position, who keeps each demand from starting one slot lower: the listing position of the demand that is too
   near there, of those that stand before it in the order; of several the lowest. It ends a guard below the start. A demand that starts
   at 0 has LIGHTPLAN_NOBODY there, and no other has. Without a plan, and behind K, all three buffers stay. Refusals: lightplan_read's of
   the file, then 11, then 10 for starts, for order and then for blockers. */
struct lightplan_answer lightplan_search(const uint8_t *file, size_t file_bytes, uint32_t limit, uint16_t *starts, size_t starts_count,
                                         uint16_t *order, size_t order_count, uint16_t *blockers, size_t blockers_count);

/* For lists that are too long to search: cuts a request file's demands into `groups` groups, 1 to 8, places them by first fit in every
   order of the groups, and takes the first order that gives the lowest end. The groups follow the listing: group 0 has the first demands,
   group 1 the next ones; where the demands do not come out even, the first groups have one more. In each group first fit goes by listing.
   With a plan the first K entries of `starts` get its starts by listing position, and those of `blockers` who keeps each demand from
   starting lower, as in lightplan_search. Without a plan, and behind K, both buffers stay. Refusals: lightplan_read's of the file, then 10
   for starts and then for blockers, then 24. */
struct lightplan_grouped lightplan_groups(const uint8_t *file, size_t file_bytes, size_t groups, uint16_t *starts, size_t starts_count,
                                          uint16_t *blockers, size_t blockers_count);

/* Checks a plan file against a request file. Accepts exactly the allowed plans; the first K entries of `starts` then get the plan's
   starts by listing position. Refusals: lightplan_read's of the request file; then of the plan file 20, row by row 1, 2, 3, 14, 15 and
   17, and 16, 18; 10 last. */
struct lightplan_verdict lightplan_check(const uint8_t *file, size_t file_bytes, const uint8_t *plan, size_t plan_bytes, uint16_t *starts,
                                         size_t starts_count);

/* Checks starts, by listing position, against a request file. Starts behind K are not read. Refusals: lightplan_read's of the request
   file, then 16, 17 and 18. */
struct lightplan_verdict lightplan_check_starts(const uint8_t *file, size_t file_bytes, const uint16_t *starts, size_t starts_count);

/* Holds a plan and a certificate against a request file: starts, as in lightplan_check_starts, and a weight for each demand, by listing
   position. Weights are a certificate where demands of which no two share a link never weigh more than `a` together, which is 1 or 2; who
   found them, and how, does not matter. The certificate's end is the sum of weight times (width + guard) over all demands, divided by `a`
   and rounded up, less one guard (0 where that is negative): no allowed plan ends below it. Refusals: lightplan_read's of the request file,
   then 16, 17 and 18 of the plan, then 30. */
struct lightplan_certified lightplan_certify(const uint8_t *file, size_t file_bytes, const uint16_t *starts, size_t starts_count,
                                             const uint8_t *weights, size_t weights_count, uint8_t a);

/* The frequency of the block that begins at slot `start` and is `width` slots wide, in a band of these numbers. Refusals: 4, 9, 17. */
struct lightplan_frequency_of lightplan_frequency(int16_t n0, uint16_t slots, uint8_t guard, uint16_t start, uint16_t width);

/* The library's version: LIGHTPLAN_VERSION where this header fits it. */
uint32_t lightplan_version(void);

#ifdef __cplusplus
}
#endif

#endif
