/* What the library answers to request files read, searched and cut into groups, for others to hold it against.
     answers frames REQUEST..   frames for the second program, see docs/REPLAY.md: for each file its reading, and where it is accepted a
                                search with room to spare, and one with each of the three buffers short, just enough and longer, with
                                every other; groups of up to 9, of long lists up to 4, and of a number that there cannot be, with
                                room to spare, and of one number with each of the two buffers short, just enough and longer, with the
                                other
     answers lines REQUEST..    the lines that belong to these frames, from the library's answers
     answers words REQUEST      the lines that lightdesk prints of a search between the rows and the last one, from the bytes of the file,
                                the starts and the order
     answers rates REQUEST      those of them that it prints of a check too */
#include "seen.h"
#include <stdio.h>
#include <stdlib.h>
#include <string.h>

enum { LIMIT = 2000, LIMIT_OF_ROOMS = 40, LIMIT_OF_WORDS = 1000000, MOST_ROOM = LIGHTPLAN_DEMANDS + 3, ENTRY = 0xAAAA };

/* one search: its limit, and how many entries are lent for starts, order and blockers */
struct search {
    uint32_t limit;
    size_t room[3];
};

/* one call of groups: how many, and how many entries are lent for starts and blockers */
struct grouping {
    size_t groups, room[2];
};

static uint8_t file[LIGHTPLAN_REQUEST_BYTES + 1];
static size_t file_bytes;
static struct seen seen;

/* all that the two calls that read tell of a file */
static struct lightplan_request told;
static struct lightplan_routes lists;
static uint16_t idents[LIGHTPLAN_DEMANDS], widths[LIGHTPLAN_DEMANDS], rates[LIGHTPLAN_DEMANDS];
static uint16_t ends[LIGHTPLAN_ENDS], hops[LIGHTPLAN_DEMANDS], routes[LIGHTPLAN_ROUTES];

static void stop(const char *what, const char *name)
{
    fprintf(stderr, "answers: %s: %s\n", what, name);
    exit(2);
}

/* whether the file is accepted; what it says is then in `seen` */
static int read_file(const char *name)
{
    FILE *in = fopen(name, "rb");
    if (!in)
        stop("not to be read", name);
    file_bytes = fread(file, 1, sizeof file, in);
    if (ferror(in))
        stop("not to be read", name);
    fclose(in);
    told = lightplan_read(file, file_bytes, idents, LIGHTPLAN_DEMANDS, widths, LIGHTPLAN_DEMANDS, rates, LIGHTPLAN_DEMANDS);
    lists = lightplan_read_routes(file, file_bytes, ends, LIGHTPLAN_ENDS, hops, LIGHTPLAN_DEMANDS, routes, LIGHTPLAN_ROUTES);
    if (told.refusal != LIGHTPLAN_ANSWERED)
        return 0;
    see(&seen, file, file_bytes);
    return 1;
}

/* ---- frames */

static void put(int bytes, size_t number)
{
    while (bytes-- > 0)
        putchar((int)(number >> 8 * bytes & 255));
}

/* the request of the file, as it stands in a frame */
static void put_request(void)
{
    const uint16_t *link = seen.routes;
    put(2, (uint16_t)seen.n0);
    put(2, seen.slots);
    put(1, seen.guard);
    put(2, seen.links);
    for (size_t e = 0; e < 2 * seen.links; e++)
        put(1, seen.ends[e]);
    put(2, seen.demands);
    for (size_t k = 0; k < seen.demands; k++) {
        put(1, seen.rates[k] ? 5 : 3);
        put(2, seen.idents[k]);
        put(2, seen.rates[k] ? seen.rates[k] : seen.widths[k]);
        put(1, seen.hops[k]);
        for (size_t h = 0; h < seen.hops[k]; h++)
            put(1, *link++);
    }
}

/* how many bytes that takes */
static size_t request_bytes(void) { return 5 + 2 + 2 * seen.links + 2 + 6 * seen.demands + seen.all_hops; }

static void put_frame(const struct search *search)
{
    put(1, 6);
    put(4, 4 + 3 * 2 + request_bytes());
    put(4, search->limit);
    for (int b = 0; b < 3; b++)
        put(2, search->room[b]);
    put_request();
}

static void put_grouping(const struct grouping *grouping)
{
    put(1, 0x0C);
    put(4, 2 * 2 + 4 + request_bytes());
    for (int b = 0; b < 2; b++)
        put(2, grouping->room[b]);
    put(4, grouping->groups);
    put_request();
}

/* the file itself, to be read */
static void put_reading(void)
{
    put(1, 1);
    put(4, file_bytes);
    fwrite(file, 1, file_bytes, stdout);
}

/* ---- lines */

static void print_hex(int bytes, size_t number)
{
    printf("%0*zX", 2 * bytes, number);
}

/* the answer to a reading: the file written again from what the two calls tell of it, or the refusal */
static void print_reading(void)
{
    const uint16_t *link = routes;
    if (told.refusal) {
        printf("refused %u %zu\n", told.refusal, told.place);
        return;
    }
    printf("read 010005");
    print_hex(2, (uint16_t)told.n0);
    print_hex(2, told.slots);
    print_hex(1, told.guard);
    for (size_t l = 0; l < lists.links; l++) {
        printf("020002");
        print_hex(1, ends[2 * l]);
        print_hex(1, ends[2 * l + 1]);
    }
    for (size_t k = 0; k < told.demands; k++) {
        print_hex(1, rates[k] ? 5 : 3);
        print_hex(2, 4u + hops[k]);
        print_hex(2, idents[k]);
        print_hex(2, rates[k] ? rates[k] : widths[k]);
        for (size_t h = 0; h < hops[k]; h++)
            print_hex(1, *link++);
    }
    putchar('\n');
}

static void print_entries(const uint16_t *entries, size_t count)
{
    fputs(count ? " " : " -", stdout);
    for (size_t k = 0; k < count; k++)
        printf(k ? ",%u" : "%u", entries[k]);
}

static void print_line(const struct search *search)
{
    static const char *const words[] = {"refused", "finished", "nofit", "unfinished", "unfinished-empty"};
    uint16_t lent[3][MOST_ROOM];
    const size_t *room = search->room;
    for (size_t k = 0; k < MOST_ROOM; k++)
        lent[0][k] = lent[1][k] = lent[2][k] = ENTRY;
    struct lightplan_answer a =
        lightplan_search(seen.file, seen.bytes, search->limit, lent[0], room[0], lent[1], room[1], lent[2], room[2]);
    fputs(words[a.outcome], stdout);
    if (a.refusal)
        printf(" %u %zu", a.refusal, a.place);
    else
        printf(" end %u bound %lu steps %lu reached %llu ruled %llu", a.end, (unsigned long)a.bound, (unsigned long)a.steps,
               (unsigned long long)a.reached, (unsigned long long)a.ruled);
    for (int b = 0; b < 3; b++)
        print_entries(lent[b], room[b]);
    putchar('\n');
}

static void print_grouping(const struct grouping *grouping)
{
    uint16_t lent[2][MOST_ROOM];
    const size_t *room = grouping->room;
    for (size_t k = 0; k < MOST_ROOM; k++)
        lent[0][k] = lent[1][k] = ENTRY;
    struct lightplan_grouped g = lightplan_groups(seen.file, seen.bytes, grouping->groups, lent[0], room[0], lent[1], room[1]);
    if (g.refusal)
        printf("refused %u %zu", g.refusal, g.place);
    else if (g.outcome == LIGHTPLAN_NOTHING_FOUND)
        printf("nothing");
    else {
        printf("grouped %u", g.end);
        print_entries(g.order, g.groups);
    }
    for (int b = 0; b < 2; b++)
        print_entries(lent[b], room[b]);
    putchar('\n');
}

/* ---- the calls that are made of a file */

static void each_search(void (*make)(const struct search *search))
{
    size_t k = seen.demands, least = k ? k - 1 : 0, room[3] = {least, k, k + 2};
    make(&(struct search){LIMIT, {k + 3, k + 1, k + 2}});
    for (int pick = 0; pick < 27; pick++)
        make(&(struct search){LIMIT_OF_ROOMS, {room[pick / 9], room[pick / 3 % 3], room[pick % 3]}});
}

static void each_grouping(void (*make)(const struct grouping *grouping))
{
    size_t k = seen.demands, least = k ? k - 1 : 0, room[3] = {least, k, k + 2};
    /* the second program tries every order from its start, so long lists are cut into few groups */
    size_t most = k > LIGHTPLAN_SEARCHED ? 4 : LIGHTPLAN_GROUPS + 1;
    for (size_t groups = 0; groups <= most; groups++)
        make(&(struct grouping){groups, {k + 3, k + 1}});
    make(&(struct grouping){UINT32_MAX, {k, k}});
    for (int pick = 0; pick < 9; pick++)
        make(&(struct grouping){2, {room[pick / 3], room[pick % 3]}});
}

/* ---- words */

static void print_rates(void)
{
    for (size_t k = 0; k < seen.demands; k++) {
        if (seen.rates[k])
            printf("circuit %u is booked at %u Gbit/s: %u ", seen.idents[k], seen.rates[k], seen.widths[k]);
        if (seen.rates[k])
            puts(seen.widths[k] > 1 ? "slots" : "slot");
    }
}

static void print_words(void)
{
    uint16_t starts[LIGHTPLAN_SEARCHED], order[LIGHTPLAN_SEARCHED], blockers[LIGHTPLAN_SEARCHED];
    struct lightplan_answer a = lightplan_search(seen.file, seen.bytes, LIMIT_OF_WORDS, starts, LIGHTPLAN_SEARCHED, order, LIGHTPLAN_SEARCHED,
                                                 blockers, LIGHTPLAN_SEARCHED);
    if (!a.refusal)
        print_rates();
    if (a.outcome != LIGHTPLAN_FINISHED && a.outcome != LIGHTPLAN_UNFINISHED)
        return;
    blockers_of(&seen, starts, order, blockers);
    for (size_t k = 0; k < seen.demands; k++) {
        size_t blocker = blockers[k];
        if (!starts[k])
            continue;
        printf("circuit %u starts at %u: circuit %u ends ", seen.idents[k], starts[k], seen.idents[blocker]);
        if (seen.guard)
            printf("at %u, guard %u\n", starts[blocker] + seen.widths[blocker], seen.guard);
        else
            printf("there\n");
    }
}

int main(int count, char **words)
{
    const char *what = count > 2 ? words[1] : "";
    int frames = !strcmp(what, "frames"), lines = !strcmp(what, "lines"), rates_alone = !strcmp(what, "rates");
    if (!frames && !lines && !(count == 3 && (rates_alone || !strcmp(what, "words"))))
        stop("usage", "answers frames REQUEST.. | lines REQUEST.. | words REQUEST | rates REQUEST");
    for (int k = 2; k < count; k++) {
        int accepted = read_file(words[k]);
        if (frames)
            put_reading();
        else if (lines)
            print_reading();
        if (!accepted)
            continue;
        if (frames || lines) {
            each_search(frames ? put_frame : print_line);
            each_grouping(frames ? put_grouping : print_grouping);
        } else if (rates_alone)
            print_rates();
        else
            print_words();
    }
    return fflush(stdout) || ferror(stdout) ? 2 : 0;
}
