/* Writes the request file of one list to standard output. */
#include "common.h"
#include "list.h"
#include <stdio.h>

int main(int count, char **words)
{
    static const char usage[] = "list_file COUNT GUARD SPREAD LIST, 91 to 182 circuits, guard 0 to 8, spread 0 (mostly low), 1 (even) or "
                                "2 (mostly high bit rates), the number of the list";
    static struct list list;
    if (count != 5) {
        fprintf(stderr, "usage: %s\n", usage);
        return 2;
    }
    int circuits = (int)number(words[1], PAIRS, 2 * PAIRS, usage);
    int guard = (int)number(words[2], 0, 8, usage);
    enum spread spread = (enum spread)number(words[3], 0, SPREADS - 1, usage);
    draw_list(&list, circuits, guard, spread, number(words[4], 0, UINT64_MAX, usage));
    return fwrite(list.file, 1, list.length, stdout) != (size_t)list.length || fflush(stdout);
}
