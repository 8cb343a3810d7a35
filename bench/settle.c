/* How many requests of each kind and count are settled: the finder's plan and certificate proved to meet. Prints a row for each count. */
#include "../hosts/c/finder.h"
#include "common.h"
#include "requests.h"
#include <stdio.h>
#include <time.h>

enum { COUNTS = 5, STEPS = 1000000 };

static const int counts[COUNTS] = {12, 20, 60, 100, 200};
static const char *const names[KINDS] = {[RINGS] = "rings", [NSFNET] = "NSFNET", [MESHES] = "meshes", [ODD_CYCLES] = "odd cycles"};

/* how many are settled within a second, within the time given, and by the search; and the seconds of the slowest that was settled */
struct share {
    int soon, late, searched;
    double slowest;
};

/* seconds of the processor, so that other work on the machine does not count */
static double spent(void) { return (double)clock() / CLOCKS_PER_SEC; }

static int is_past(void *with) { return spent() >= *(double *)with; }

/* the seconds that it took to settle a request, the proof included; less than 0 where it is not settled */
static double settle(const struct request_file *file, int count, double seconds)
{
    struct finding found;
    double began = spent(), end = began + seconds;
    struct finder_stop stop = {is_past, &end};
    if (find(file->bytes, (size_t)file->length, 1, &stop, &found) || !found.planned)
        return -1;
    struct lightplan_certified proved = lightplan_certify(file->bytes, (size_t)file->length, found.starts, (size_t)count, found.weights,
                                                          (size_t)count, found.a);
    return proved.outcome == LIGHTPLAN_BEST ? spent() - began : -1;
}

static int is_searched(const struct request_file *file)
{
    uint16_t starts[LIGHTPLAN_SEARCHED], order[LIGHTPLAN_SEARCHED], blockers[LIGHTPLAN_SEARCHED];
    struct lightplan_answer answer = lightplan_search(file->bytes, (size_t)file->length, STEPS, starts, LIGHTPLAN_SEARCHED, order,
                                                      LIGHTPLAN_SEARCHED, blockers, LIGHTPLAN_SEARCHED);
    return answer.outcome == LIGHTPLAN_FINISHED || answer.outcome == LIGHTPLAN_NOTHING_FITS;
}

static struct share measure(enum kind kind, int count, int requests, double seconds)
{
    static struct request_file file;
    struct share share = {0, 0, 0, 0};
    for (int which = 1; which <= requests; which++) {
        draw_request(&file, kind, count, (uint64_t)which);
        double took = settle(&file, count, seconds);
        share.soon += took >= 0 && took <= 1;
        share.late += took >= 0;
        share.slowest = took > share.slowest ? took : share.slowest;
        share.searched += count <= LIGHTPLAN_SEARCHED && is_searched(&file);
    }
    return share;
}

int main(int words, char **word)
{
    static const char usage[] = "settle [REQUESTS [SECONDS]], 1 to 1000 requests of each kind and count, 1 to 3600 seconds";
    int requests = words > 1 ? (int)number(word[1], 1, 1000, usage) : 40;
    double seconds = words > 2 ? (double)number(word[2], 1, 3600, usage) : 10;
    for (int kind = 0; kind < KINDS; kind++)
        for (int k = 0; k < COUNTS; k++) {
            struct share share = measure((enum kind)kind, counts[k], requests, seconds);
            printf("%s, %d circuits, of %d: %d within 1 s, %d within %.0f s, the slowest of these %.2f s", names[kind], counts[k], requests,
                   share.soon, share.late, seconds, share.slowest);
            if (counts[k] <= LIGHTPLAN_SEARCHED)
                printf("; the search %d", share.searched);
            putchar('\n');
            fflush(stdout);
        }
    return 0;
}
