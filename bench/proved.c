/* The proved search, called as a C host calls it: with the request as the bytes of its file. Reading it is part of what is timed, and so
   is working out who is in the way, which the walks in C do not do. */
#include "../hosts/c/lightplan.h"
#include "walk.h"
#include <stdio.h>
#include <stdlib.h>

void walk_proved(const struct task *task, struct answer *answer)
{
    uint16_t starts[LIGHTPLAN_SEARCHED] = {0}, order[LIGHTPLAN_SEARCHED] = {0}, blockers[LIGHTPLAN_SEARCHED];
    struct lightplan_answer found =
        lightplan_search(task->file, (size_t)task->length, task->limit, starts, LIGHTPLAN_SEARCHED, order, LIGHTPLAN_SEARCHED, blockers,
                         LIGHTPLAN_SEARCHED);
    if (found.refusal != LIGHTPLAN_ANSWERED || found.bound != (uint32_t)task->bound) {
        printf("the proved search refuses a request, or has another bound: %u\n", found.refusal);
        exit(1);
    }
    answer->steps = found.steps;
    answer->reached = found.reached;
    answer->ruled = found.ruled;
    answer->end = found.end;
    answer->unfinished = found.outcome >= LIGHTPLAN_UNFINISHED;
    for (int k = 0; k < task->count; k++) {
        answer->start[k] = starts[k];
        answer->order[k] = order[k];
    }
}
