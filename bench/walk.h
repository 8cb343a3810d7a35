/* What the walks of this folder take and answer: the same numbers for each of them. */
#ifndef WALK_H
#define WALK_H
#include <stdint.h>

enum { MOST = 20 };

/* a request made ready for the search: which demands share a link, their widths, and the numbers of the band; and the same request as
   the bytes of a file */
struct task {
    int count, guard, slots, bound;
    uint32_t limit;
    int width[MOST];
    unsigned char meets[MOST][MOST];
    int length;
    unsigned char file[512];
};

/* the counts, the end of the best plan or 0, whether the steps ran out, and the best plan's starts and order */
struct answer {
    uint64_t steps, reached, ruled;
    int end, unfinished;
    int start[MOST], order[MOST];
};

void walk_plain(const struct task *task, struct answer *answer);
void walk_kept(const struct task *task, struct answer *answer);
void walk_packed(const struct task *task, struct answer *answer);
void walk_proved(const struct task *task, struct answer *answer);

#endif
