/* Holds the finder and lightplan_certify against brute force, on small requests by chance.
     settled SEED REQUESTS
   The first difference ends it with a non-zero status. */
#include "../../hosts/c/finder.h"
#include "brute.h"
#include <stdio.h>
#include <stdlib.h>
#include <string.h>

enum { DAMAGES = 6 };

/* how often each thing was seen that is to be seen often */
struct tally {
    long best, above_bound, twos, at_least, without, without_any, damaged, still_certificates, refused, of_sets;
};

static void expect(int holds, const char *what, const struct small *small)
{
    if (holds)
        return;
    fprintf(stderr, "settled: %s; the request, in hexadecimal digits:", what);
    for (size_t k = 0; k < small->length; k++)
        fprintf(stderr, " %02x", small->file[k]);
    fputc('\n', stderr);
    exit(1);
}

static int is_tired(void *with) { return (*(int *)with)-- <= 0; }

/* With a plan or without: the finder's weights are a certificate by all sets of circuits, and no plan whatever ends below it. Where the
   optimum is above the band there is no plan, and the certificate may end wherever it likes. */
static void compare_weights(const struct small *small, const struct finding *found, int best)
{
    expect(is_certificate(small, found->weights, (size_t)small->count, found->a), "the finder's weights are no certificate", small);
    expect(found->low == certified_low(small, found->weights, found->a), "the finder's low is another", small);
    expect((int)found->low <= best || best > small->slots, "the finder's low is above the best end of all plans", small);
}

static void compare_certified(const struct small *small, const struct finding *found, int best, struct tally *tally)
{
    struct lightplan_certified proved =
        lightplan_certify(small->file, small->length, found->starts, (size_t)small->count, found->weights, (size_t)small->count, found->a);
    struct lightplan_verdict verdict = lightplan_check_starts(small->file, small->length, found->starts, (size_t)small->count);
    int end = plan_end(small, found->starts);
    expect(!verdict.refusal && verdict.end == end, "the finder's plan is not accepted", small);
    expect(!proved.refusal && proved.which == LIGHTPLAN_OF_NOTHING, "the finder's certificate is refused", small);
    expect(proved.end == end && end >= best, "another end", small);
    expect(proved.low == certified_low(small, found->weights, found->a), "another low", small);
    expect((int)proved.low <= best, "a low above the best end of all plans", small);
    expect(proved.outcome == (proved.low == proved.end ? LIGHTPLAN_BEST : LIGHTPLAN_AT_LEAST), "another outcome", small);
    expect(proved.outcome != LIGHTPLAN_BEST || end == best, "called the best, and another plan ends lower", small);
    tally->best += proved.outcome == LIGHTPLAN_BEST;
    tally->at_least += proved.outcome == LIGHTPLAN_AT_LEAST;
    tally->above_bound += proved.outcome == LIGHTPLAN_BEST && proved.end > verdict.bound;
    tally->twos += proved.outcome == LIGHTPLAN_BEST && found->a == 2;
}

/* a certificate with one or two weights, or a, or its length changed: accepted exactly where it is one by all sets of circuits, and else
   refused at the place that they tell */
static void compare_damaged(const struct small *small, const struct finding *found, int best, struct tally *tally)
{
    uint8_t weights[MOST + 1] = {0}, a = found->a;
    size_t count = (size_t)small->count;
    memcpy(weights, found->weights, count);
    for (int changes = 1 + below(2); changes; changes--)
        weights[below(MOST)] = (uint8_t)below(4);
    a = below(3) ? a : (uint8_t)below(5);
    count = below(10) ? count : count + 1 - 2 * (size_t)below(count ? 2 : 1);
    struct lightplan_certified proved =
        lightplan_certify(small->file, small->length, found->starts, (size_t)small->count, weights, count, a);
    int is_one = is_certificate(small, weights, count, a);
    expect((proved.refusal == LIGHTPLAN_ANSWERED) == is_one, is_one ? "a certificate is refused" : "accepted, and no certificate", small);
    tally->damaged++;
    tally->still_certificates += is_one;
    tally->refused += !is_one;
    if (!is_one) {
        size_t place = fault_place(small, weights, count, a);
        expect(proved.refusal == LIGHTPLAN_NO_CERTIFICATE && proved.which == LIGHTPLAN_OF_CERTIFICATE, "refused otherwise", small);
        expect(proved.place == place, "refused at another place", small);
        tally->of_sets += place < (size_t)small->count && weights[place] <= a;
        return;
    }
    expect(proved.end == plan_end(small, found->starts), "another end", small);
    expect(proved.low == certified_low(small, weights, a) && (int)proved.low <= best, "another low", small);
    expect(proved.outcome == (proved.low == proved.end ? LIGHTPLAN_BEST : LIGHTPLAN_AT_LEAST), "another outcome", small);
}

static void compare(const struct small *small, struct tally *tally)
{
    struct finding found;
    int patience = below(3) ? 30 : 0;
    struct finder_stop stop = {is_tired, &patience};
    expect(!find(small->file, small->length, 1, &stop, &found), "the finder does not take it", small);
    int best = optimum(small);
    compare_weights(small, &found, best);
    tally->without += !found.planned;
    tally->without_any += !found.planned && best > small->slots;
    if (!found.planned)
        return;
    compare_certified(small, &found, best, tally);
    for (int k = 0; k < DAMAGES; k++)
        compare_damaged(small, &found, best, tally);
}

int main(int count, char **words)
{
    static struct small small;
    struct tally tally = {0};
    if (count != 3)
        return 2;
    draws = strtoull(words[1], NULL, 10);
    long requests = strtol(words[2], NULL, 10);
    for (long k = 0; k < requests; k++) {
        draw_small(&small);
        compare(&small, &tally);
    }
    printf("%ld requests: %ld best, %ld of them above the bound and %ld by weights up to 2; %ld at least; %ld without a plan, of which %ld "
           "have none\n",
           requests, tally.best, tally.above_bound, tally.twos, tally.at_least, tally.without, tally.without_any);
    printf("%ld damaged certificates: %ld are certificates, %ld are refused, %ld of them for circuits of which no two share a link\n",
           tally.damaged, tally.still_certificates, tally.refused, tally.of_sets);
    int seen = tally.best > requests / 2 && tally.above_bound > requests / 200 && tally.twos > requests / 5000 &&
               tally.at_least > requests / 1000 && tally.without_any && tally.still_certificates > requests && tally.refused > requests &&
               tally.of_sets > requests / 10;
    if (!seen)
        fputs("settled: too few of some of these\n", stderr);
    return !seen;
}
