/* lightdesk: answers for the planner's desk, over the proved library. It prints what the library answers, and says in words whether
   this is the best there is. */
#include "desk.h"
#include "refusals.h"
#include "settle.h"
#include <errno.h>
#include <stdio.h>
#include <string.h>

static const char usage[] = "usage: lightdesk search REQUEST [LIMIT]\n"
                            "       lightdesk groups REQUEST [GROUPS]\n"
                            "       lightdesk settle REQUEST [SECONDS]\n"
                            "       lightdesk check REQUEST PLAN\n"
                            "       lightdesk --help\n";

static const char help[] =
    "\n"
    "search  looks for the plan of a request file that ends lowest, in at most LIMIT steps (0 to 4294967295; without\n"
    "        it 1000000). It takes up to 20 demands.\n"
    "groups  makes a plan for up to 200 demands: it cuts them, as they are listed, into GROUPS groups (1 to 8, and no more\n"
    "        than there are demands), and takes the best order of these. Without GROUPS it tries all these numbers.\n"
    "settle  looks for a plan of up to 200 demands and for a proof that none ends lower, for at most SECONDS seconds (0 to\n"
    "        86400; without it 10) or until Ctrl-C, and says what is known then.\n"
    "check   tests a plan file against a request file, of up to 200 demands.\n"
    "A file called - is standard input.\n"
    "\n"
    "The first line is the answer with its numbers, or `refused` with the number and the place of the fault. With a plan\n"
    "a row for each demand follows: ident, start, end, central number, central MHz. Then, with a plan or without, a line\n"
    "for each demand that asks for a bit rate says how wide that is: `circuit A is booked at R Gbit/s: W slots`. After\n"
    "these a plan that was found has a line for each demand that starts above 0, with who is in the way: `circuit A starts\n"
    "at N: circuit B ends at M, guard G`, with their idents, or without a guard `circuit A starts at N: circuit B ends\n"
    "there`. A stands there because of B, which was placed before it. Of groups it is then said which demands each has, by\n"
    "their places in the listing, counted from 0, in the order in which they were placed. Of a plan that settle found it is\n"
    "not said who is in the way, but which circuits prove that no plan ends below `low`. The last line says in words\n"
    "whether the plan is the best there is and how that is known, or what was refused and why.\n"
    "\n"
    "Exit status: 0 there is a plan, or the plan is accepted, be it the best or not; 1 there is none: nothing fits, none was\n"
    "found, or a file was refused; 2 wrong usage, or a file cannot be read or written.\n";

static const uint32_t default_limit = 1000000, default_seconds = 10;

/* a plan that was found, by listing position, and who is in the way of each demand */
struct found {
    uint16_t starts[LIGHTPLAN_DEMANDS], blockers[LIGHTPLAN_DEMANDS];
};

static enum status misused(void)
{
    fputs(usage, stderr);
    return TROUBLE;
}

static enum status helped(void)
{
    fputs(usage, stdout);
    fputs(help, stdout);
    return YES;
}

/* a line for each demand that starts above 0: who keeps it from starting lower */
static void print_blockers(const struct desk *desk, const struct found *found)
{
    for (size_t k = 0; k < desk->request.demands; k++) {
        size_t blocker = found->blockers[k];
        if (blocker == LIGHTPLAN_NOBODY)
            continue;
        unsigned end = (unsigned)found->starts[blocker] + desk->widths[blocker], guard = desk->request.guard;
        printf("circuit %u starts at %u: circuit %u ends ", desk->idents[k], found->starts[k], desk->idents[blocker]);
        if (guard)
            printf("at %u, guard %u\n", end, guard);
        else
            puts("there");
    }
}

static void print_found(const struct desk *desk, const struct found *found)
{
    print_rows(desk, found->starts);
    print_rates(desk);
    print_blockers(desk, found);
}

static void print_counts(const char *word, const struct lightplan_answer *answer)
{
    printf("%s end %u bound %lu steps %lu reached %llu ruled %llu\n", word, answer->end, (unsigned long)answer->bound,
           (unsigned long)answer->steps, (unsigned long long)answer->reached, (unsigned long long)answer->ruled);
}

static enum status print_finished(const struct desk *desk, const struct lightplan_answer *answer, const struct found *found)
{
    print_counts("finished", answer);
    print_found(desk, found);
    if (answer->end == answer->bound)
        puts("This is the best there is, proved: the plan ends at the bound, and no plan can end below it.");
    else
        puts("This is the best there is, proved: the search accounted for every order of the demands, and no plan at all ends lower.");
    return YES;
}

static enum status print_nothing_fits(const struct desk *desk, const struct lightplan_answer *answer)
{
    unsigned slots = desk->request.slots;
    print_counts("nofit", answer);
    print_rates(desk);
    if (answer->bound > slots)
        print_too_full(desk, answer->bound);
    else
        printf("Nothing fits, proved: the search accounted for every order of the demands, and no plan ends within %u slots.\n", slots);
    return NO;
}

static enum status print_unfinished(const struct desk *desk, const struct lightplan_answer *answer, const struct found *found)
{
    unsigned long steps = answer->steps;
    print_counts("unfinished", answer);
    if (answer->outcome == LIGHTPLAN_UNFINISHED_EMPTY) {
        print_rates(desk);
        printf("Not known after %lu steps whether anything fits: no plan was met, and orders are left to try.\n", steps);
        return NO;
    }
    print_found(desk, found);
    printf("Not known after %lu steps whether this is the best there is: a plan may end lower, though none below %lu.\n", steps,
           (unsigned long)answer->bound);
    return YES;
}

static enum status search(const char *name, uint32_t limit)
{
    struct desk desk;
    struct found found;
    uint16_t order[LIGHTPLAN_SEARCHED];
    enum status status = open_desk(name, &desk);
    if (status != YES)
        return status;
    struct lightplan_answer answer =
        lightplan_search(desk.file.bytes, desk.file.length, limit, found.starts, LIGHTPLAN_SEARCHED, order, LIGHTPLAN_SEARCHED,
                         found.blockers, LIGHTPLAN_SEARCHED);
    if (answer.refusal != LIGHTPLAN_ANSWERED) {
        print_refusal(stdout, answer.refusal, answer.place, "request file", desk.file.length);
        return NO;
    }
    switch (answer.outcome) {
    case LIGHTPLAN_FINISHED:
        return print_finished(&desk, &answer, &found);
    case LIGHTPLAN_NOTHING_FITS:
        return print_nothing_fits(&desk, &answer);
    default:
        return print_unfinished(&desk, &answer, &found);
    }
}

/* that a plan is the best there is, since it ends at the bound: that holds whoever made it */
static void print_at_bound(void)
{
    puts("This is the best there is, proved: the plan is allowed and ends at the bound, and no plan can end below it.");
}

/* the demands cut into so many groups, from the least number to the most; they are the same where one number was asked for */
struct cuts {
    uint32_t least, most;
};

/* a line for each group, in the order in which they were placed: the listing positions of its demands, whose first groups have one more
   where the demands do not come out even */
static void print_groups(const struct desk *desk, const struct lightplan_grouped *grouped)
{
    size_t size = desk->request.demands / grouped->groups, longer = desk->request.demands % grouped->groups;
    for (size_t turn = 0; turn < grouped->groups; turn++) {
        size_t group = grouped->order[turn], first = group * size + (group < longer ? group : longer);
        size_t last = first + size - (group < longer ? 0 : 1);
        printf("group %zu is placed %s: ", group, turn ? "next" : "first");
        if (first == last)
            printf("listing position %zu\n", first);
        else
            printf("listing positions %zu to %zu\n", first, last);
    }
}

/* whether groups of one demand each were among those tried: then every order of the demands was, as in a search that finished */
static int every_order_tried(const struct desk *desk, const struct cuts *cuts) { return cuts->most == desk->request.demands; }

static enum status print_grouped(const struct desk *desk, const struct lightplan_grouped *grouped, const struct found *found,
                                 const struct cuts *cuts)
{
    unsigned long bound = grouped->bound, above = grouped->end - bound;
    printf("grouped end %u bound %lu groups %zu\n", grouped->end, bound, grouped->groups);
    print_found(desk, found);
    print_groups(desk, grouped);
    if (cuts->least < cuts->most)
        printf("Numbers of groups from %lu to %lu were tried: %zu is the first that gives this end, the lowest.\n",
               (unsigned long)cuts->least, (unsigned long)cuts->most, grouped->groups);
    if (grouped->end == bound)
        print_at_bound();
    else if (every_order_tried(desk, cuts))
        puts("This is the best there is, proved: with a group for each demand every order of the demands was tried, and no plan at all "
             "ends lower.");
    else
        printf("The bound does not tell whether this is the best there is: it ends %lu slot%s above. A plan may end lower, "
               "though none below %lu.\n",
               above, above == 1 ? "" : "s", bound);
    return YES;
}

static enum status print_nothing_found(const struct desk *desk, const struct lightplan_grouped *grouped, const struct cuts *cuts)
{
    unsigned long bound = grouped->bound, most = cuts->most;
    unsigned slots = desk->request.slots;
    printf("nothing bound %lu groups %lu\n", bound, most);
    print_rates(desk);
    if (bound > slots)
        print_too_full(desk, bound);
    else if (every_order_tried(desk, cuts))
        printf("Nothing fits, proved: with a group for each demand every order of the demands was tried, and no plan ends within %u "
               "slots.\n",
               slots);
    else if (cuts->least < cuts->most)
        printf("Not known whether anything fits: no order of %lu to %lu groups gives a plan, and another order of the demands may.\n",
               (unsigned long)cuts->least, most);
    else
        printf("Not known whether anything fits: no order of %lu group%s gives a plan, and another order of the demands may.\n", most,
               most == 1 ? "" : "s");
    return NO;
}

static struct lightplan_grouped try_groups(const struct desk *desk, uint32_t count, struct found *found)
{
    return lightplan_groups(desk->file.bytes, desk->file.length, count, found->starts, LIGHTPLAN_DEMANDS, found->blockers,
                            LIGHTPLAN_DEMANDS);
}

/* the best of some numbers of groups: the first that gives the lowest end, or the least number where none gives a plan */
static struct lightplan_grouped best_groups(const struct desk *desk, const struct cuts *cuts, struct found *found)
{
    struct lightplan_grouped best = try_groups(desk, cuts->least, found);
    for (uint32_t count = cuts->least; count++ < cuts->most;) {
        struct found other;
        struct lightplan_grouped grouped = try_groups(desk, count, &other);
        if (grouped.outcome == LIGHTPLAN_GROUPED && (best.outcome != LIGHTPLAN_GROUPED || grouped.end < best.end)) {
            best = grouped;
            *found = other;
        }
    }
    return best;
}

/* every number of groups that the demands can be cut into; where there is no demand, one group, which is refused */
static struct cuts all_cuts(const struct desk *desk)
{
    size_t most = desk->request.demands < LIGHTPLAN_GROUPS ? desk->request.demands : LIGHTPLAN_GROUPS;
    return (struct cuts){1, most ? (uint32_t)most : 1};
}

/* groups of one number, or of every number where it is not given */
static enum status groups(const char *name, const uint32_t *count)
{
    struct desk desk;
    struct found found;
    enum status status = open_desk(name, &desk);
    if (status != YES)
        return status;
    struct cuts cuts = count ? (struct cuts){*count, *count} : all_cuts(&desk);
    struct lightplan_grouped grouped = best_groups(&desk, &cuts, &found);
    if (grouped.refusal != LIGHTPLAN_ANSWERED) {
        print_refusal(stdout, grouped.refusal, grouped.place, "request file", desk.file.length);
        return NO;
    }
    if (grouped.outcome == LIGHTPLAN_GROUPED)
        return print_grouped(&desk, &grouped, &found, &cuts);
    return print_nothing_found(&desk, &grouped, &cuts);
}

static enum status print_accepted(const struct desk *desk, const struct lightplan_verdict *verdict, const uint16_t *starts)
{
    unsigned long bound = verdict->bound;
    printf("accepted end %u bound %lu\n", verdict->end, bound);
    print_rows(desk, starts);
    print_rates(desk);
    if (verdict->end == bound)
        print_at_bound();
    else
        printf("The plan is allowed. The bound does not tell whether it is the best there is: a plan may end lower, "
               "though none below %lu.\n",
               bound);
    return YES;
}

static enum status check(const char *request_name, const char *plan_name)
{
    struct desk desk;
    struct file plan;
    uint16_t starts[LIGHTPLAN_DEMANDS];
    enum status status = open_desk(request_name, &desk);
    if (status != YES)
        return status;
    status = read_file(plan_name, LIGHTPLAN_PLAN_BYTES, &plan);
    if (status != YES)
        return status;
    struct lightplan_verdict verdict =
        lightplan_check(desk.file.bytes, desk.file.length, plan.bytes, plan.length, starts, LIGHTPLAN_DEMANDS);
    if (verdict.refusal == LIGHTPLAN_ANSWERED)
        return print_accepted(&desk, &verdict, starts);
    if (verdict.which == LIGHTPLAN_OF_REQUEST)
        print_refusal(stdout, verdict.refusal, verdict.place, "request file", desk.file.length);
    else
        print_refusal(stdout, verdict.refusal, verdict.place, "plan", plan.length);
    return NO;
}

/* a number of steps, groups or seconds, in decimal digits alone; 0 where the word is none */
static int read_number(const char *word, uint32_t *result)
{
    uint64_t number = 0;
    if (!*word)
        return 0;
    for (; *word; word++) {
        if (*word < '0' || *word > '9')
            return 0;
        number = number * 10 + (uint64_t)(*word - '0');
        if (number > UINT32_MAX)
            return 0;
    }
    *result = (uint32_t)number;
    return 1;
}

static enum status run(int count, char **words)
{
    uint32_t limit = default_limit, cut, seconds = default_seconds;
    if (count == 2 && !strcmp(words[1], "--help"))
        return helped();
    if (count == 3 && !strcmp(words[1], "search"))
        return search(words[2], limit);
    if (count == 4 && !strcmp(words[1], "search") && read_number(words[3], &limit))
        return search(words[2], limit);
    if (count == 3 && !strcmp(words[1], "groups"))
        return groups(words[2], NULL);
    if (count == 4 && !strcmp(words[1], "groups") && read_number(words[3], &cut))
        return groups(words[2], &cut);
    if (count == 3 && !strcmp(words[1], "settle"))
        return settle(words[2], seconds);
    if (count == 4 && !strcmp(words[1], "settle") && read_number(words[3], &seconds) && seconds <= SETTLE_SECONDS)
        return settle(words[2], seconds);
    if (count == 4 && !strcmp(words[1], "check") && (strcmp(words[2], "-") || strcmp(words[3], "-")))
        return check(words[2], words[3]);
    return misused();
}

int main(int count, char **words)
{
    if (lightplan_version() != LIGHTPLAN_VERSION) {
        fprintf(stderr, "lightdesk: made for version %d of the library\n", LIGHTPLAN_VERSION);
        return TROUBLE;
    }
    enum status status = run(count, words);
    int lost = ferror(stdout);
    if (fclose(stdout))
        return trouble("standard output");
    if (lost) {
        errno = EIO;
        return trouble("standard output");
    }
    return status;
}
