/* The proved call for whole groups, as a C host calls it: with the request as the bytes of its file. Reading it is part of what is timed,
   and so is working out who is in the way, which the loops in C do not do. */
#include "../hosts/c/lightplan.h"
#include "list.h"
#include <stdio.h>
#include <stdlib.h>

void groups_proved(const struct list *list, int m, struct grouped *answer)
{
    uint16_t starts[LISTED] = {0}, blockers[LISTED];
    struct lightplan_grouped found =
        lightplan_groups(list->file, (size_t)list->length, (size_t)m, starts, LISTED, blockers, LISTED);
    if (found.refusal != LIGHTPLAN_ANSWERED) {
        printf("the proved call refuses a list: %u\n", found.refusal);
        exit(1);
    }
    *answer = (struct grouped){.end = found.end};
    for (int k = 0; found.end && k < m; k++)
        answer->order[k] = found.order[k];
    for (int i = 0; i < list->count; i++)
        answer->start[i] = starts[i];
}
