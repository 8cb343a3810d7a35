/* settle: what the finder finds, and in words what is proved of it. Whatever it says of plans is the answer of a proved call. */
#define _POSIX_C_SOURCE 200809L
#include "settle.h"
#include "finder.h"
#include "refusals.h"
#include <signal.h>
#include <stdio.h>
#include <string.h>
#include <time.h>

static volatile sig_atomic_t interrupted;

static void note_interrupt(int number)
{
    (void)number;
    interrupted = 1;
}

/* An interrupt ends the search and not the program, and printing goes on. Not so before the file is read, which may never come. */
static void catch_interrupts(void)
{
    struct sigaction action = {.sa_handler = note_interrupt, .sa_flags = SA_RESTART};
    sigemptyset(&action.sa_mask);
    sigaction(SIGINT, &action, NULL);
}

static int is_past(void *with)
{
    const struct timespec *last = with;
    struct timespec now;
    clock_gettime(CLOCK_MONOTONIC, &now);
    return interrupted || now.tv_sec > last->tv_sec || (now.tv_sec == last->tv_sec && now.tv_nsec >= last->tv_nsec);
}

static uint8_t search_for(const struct desk *desk, uint32_t seconds, struct finding *found)
{
    struct timespec last;
    struct finder_stop stop = {is_past, &last};
    clock_gettime(CLOCK_MONOTONIC, &last);
    last.tv_sec += (time_t)seconds;
    return find(desk->file.bytes, desk->file.length, 1, &stop, found);
}

static struct lightplan_certified certify(const struct desk *desk, const struct finding *found)
{
    size_t count = desk->request.demands;
    return lightplan_certify(desk->file.bytes, desk->file.length, found->starts, count, found->weights, count, found->a);
}

/* What is proved of what was found. Weights that are no certificate would be a fault of the finder: the plan is not lost for them, but held
   against the certificate in which nothing weighs anything. */
static struct lightplan_certified prove(const struct desk *desk, struct finding *found)
{
    struct lightplan_certified proved = certify(desk, found);
    if (proved.refusal != LIGHTPLAN_NO_CERTIFICATE)
        return proved;
    found->a = 1;
    memset(found->weights, 0, sizeof found->weights);
    return certify(desk, found);
}

static const char *ending(size_t count) { return count == 1 ? "" : "s"; }

static size_t count_weighing(const struct desk *desk, const struct finding *found, unsigned weight)
{
    size_t count = 0;
    for (size_t k = 0; k < desk->request.demands; k++)
        count += found->weights[k] == weight;
    return count;
}

/* the idents of the demands that weigh so much, behind a colon, and the end of the line */
static void print_weighing(const struct desk *desk, const struct finding *found, unsigned weight)
{
    const char *before = ":";
    for (size_t k = 0; k < desk->request.demands; k++)
        if (found->weights[k] == weight) {
            printf("%s %u", before, desk->idents[k]);
            before = ",";
        }
    putchar('\n');
}

/* a certificate of demands that share links two by two */
static void print_sharing(const struct desk *desk, const struct finding *found, unsigned long low)
{
    size_t count = count_weighing(desk, found, 1);
    const char *guards = desk->request.guard && count > 1 ? ", the guards between them included" : "";
    if (count == 1)
        printf("This circuit needs %lu slot%s", low, ending(low));
    else
        printf("These %zu circuits share links two by two and need %lu slots%s", count, low, guards);
    print_weighing(desk, found, 1);
}

/* which circuits weigh so much, where any do */
static void print_weight(const struct desk *desk, const struct finding *found, unsigned weight)
{
    size_t count = count_weighing(desk, found, weight);
    if (!count)
        return;
    printf("%s circuit%s weigh%s %u", count == 1 ? "This" : "These", ending(count), count == 1 ? "s" : "", weight);
    print_weighing(desk, found, weight);
}

static unsigned long weighed_slots(const struct desk *desk, const struct finding *found)
{
    unsigned long sum = 0;
    for (size_t k = 0; k < desk->request.demands; k++)
        sum += found->weights[k] * ((unsigned long)desk->widths[k] + desk->request.guard);
    return sum;
}

/* a certificate of weights up to 2 */
static void print_weights(const struct desk *desk, const struct finding *found, unsigned long low)
{
    unsigned guard = desk->request.guard;
    size_t others = count_weighing(desk, found, 0);
    print_weight(desk, found, 2);
    print_weight(desk, found, 1);
    if (others)
        printf("The other circuit%s weigh%s nothing.\n", ending(others), others == 1 ? "s" : "");
    printf("Circuits of which no two share a link weigh at most 2 together, and so do those that hold any one slot%s. The slots of each "
           "circuit%s, as often as it weighs, are %lu; half of them, rounded up%s, are %lu, and no plan ends lower.\n",
           guard ? " or have it in the guard behind them" : "", guard ? ", with a guard behind them" : "", weighed_slots(desk, found),
           guard ? " and without the last guard" : "", low);
}

static enum status print_certified(const struct desk *desk, const struct finding *found, const struct lightplan_certified *proved)
{
    unsigned long low = proved->low, bound = desk->request.bound;
    int best = proved->outcome == LIGHTPLAN_BEST;
    printf("%s end %u low %lu bound %lu\n", best ? "settled" : "unsettled", proved->end, low, bound);
    print_rows(desk, found->starts);
    print_rates(desk);
    if (found->a == 2)
        print_weights(desk, found, low);
    else if (low)
        print_sharing(desk, found, low);
    if (best)
        printf("This is the best there is, proved: the plan is allowed and ends at %u, and no plan at all ends lower.\n", proved->end);
    else
        printf("Not known whether this is the best there is: the plan is allowed and ends at %u. A plan may end lower, though none below "
               "%lu.\n",
               proved->end, low);
    return YES;
}

static enum status print_no_plan(const struct desk *desk)
{
    unsigned long bound = desk->request.bound;
    printf("nothing bound %lu\n", bound);
    print_rates(desk);
    if (bound > desk->request.slots)
        print_too_full(desk, bound);
    else
        printf("No plan was found. That does not say that there is none; if there is one, it does not end below %lu.\n", bound);
    return NO;
}

static enum status print_refused(const struct desk *desk, unsigned refusal, size_t place, const char *which)
{
    print_refusal(stdout, refusal, place, which, desk->file.length);
    return NO;
}

enum status settle(const char *name, uint32_t seconds)
{
    struct desk desk;
    struct finding found;
    enum status status = open_desk(name, &desk);
    if (status != YES)
        return status;
    catch_interrupts();
    uint8_t refusal = search_for(&desk, seconds, &found);
    if (refusal)
        return print_refused(&desk, refusal, found.place, "request file");
    if (!found.planned)
        return print_no_plan(&desk);
    struct lightplan_certified proved = prove(&desk, &found);
    if (proved.refusal)
        return print_refused(&desk, proved.refusal, proved.place, "plan");
    return print_certified(&desk, &found, &proved);
}
