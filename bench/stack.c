/* How much stack each entry of the library needs: a stack of its own is painted, the entry is called on it with the heaviest inputs that
   there are, and the paint is looked at afterwards. */
#define _DEFAULT_SOURCE
#include "../hosts/c/lightplan.h"
#include <stdio.h>
#include <stdlib.h>
#include <string.h>
#include <ucontext.h>

enum { STACK_BYTES = 1 << 20, PAINT = 0xA5, REACH = 33 };

static unsigned char stack[STACK_BYTES];
static ucontext_t here, there;

static uint8_t file[LIGHTPLAN_REQUEST_BYTES + 1], plan[LIGHTPLAN_PLAN_BYTES + 1], weights[LIGHTPLAN_DEMANDS];
static size_t file_bytes, plan_bytes;
static uint16_t first[LIGHTPLAN_DEMANDS], second[LIGHTPLAN_DEMANDS], third[LIGHTPLAN_DEMANDS], routes[LIGHTPLAN_ROUTES];

/* what was answered last, for a look at whether the calls did what they were made for */
static unsigned refusal, end;

static void put(uint8_t *bytes, size_t *count, int length, unsigned number)
{
    while (length-- > 0)
        bytes[(*count)++] = (uint8_t)(number >> 8 * length);
}

/* a ring of 64 links and so many demands of so many links each */
static void make_request(unsigned demands, unsigned hops, unsigned guard)
{
    file_bytes = 0;
    put(file, &file_bytes, 3, 0x010005);
    put(file, &file_bytes, 5, 0);
    file[5] = 1;
    file[6] = 0x80;
    file[7] = (uint8_t)guard;
    for (unsigned l = 0; l < 64; l++) {
        put(file, &file_bytes, 3, 0x020002);
        put(file, &file_bytes, 1, l);
        put(file, &file_bytes, 1, (l + 1) % 64);
    }
    for (unsigned k = 0; k < demands; k++) {
        put(file, &file_bytes, 3, (k % 2 ? 0x050000 : 0x030000) + 4 + hops);
        put(file, &file_bytes, 2, 1000 + k);
        put(file, &file_bytes, 2, k % 2 ? 10 : 1);
        for (unsigned h = 0; h < hops; h++)
            put(file, &file_bytes, 1, k % REACH + h);
    }
}

/* a row for each demand, the last one first, each at a start of its own from `from` on */
static void make_plan(unsigned demands, unsigned from)
{
    plan_bytes = 0;
    for (unsigned k = demands; k-- > 0;) {
        put(plan, &plan_bytes, 3, 0x040004);
        put(plan, &plan_bytes, 2, 1000 + k);
        put(plan, &plan_bytes, 2, from + k);
        first[k] = (uint16_t)(from + k);
    }
}

static void call_nothing(void) {}

static void call_read(void)
{
    struct lightplan_request r =
        lightplan_read(file, file_bytes, first, LIGHTPLAN_DEMANDS, second, LIGHTPLAN_DEMANDS, third, LIGHTPLAN_DEMANDS);
    refusal = r.refusal;
}

static void call_read_routes(void)
{
    struct lightplan_routes r =
        lightplan_read_routes(file, file_bytes, first, LIGHTPLAN_ENDS, second, LIGHTPLAN_DEMANDS, routes, LIGHTPLAN_ROUTES);
    refusal = r.refusal;
    end = (unsigned)r.hops;
}

static void call_search(void)
{
    struct lightplan_answer a =
        lightplan_search(file, file_bytes, 100000, first, LIGHTPLAN_DEMANDS, second, LIGHTPLAN_DEMANDS, third, LIGHTPLAN_DEMANDS);
    refusal = a.refusal;
    end = a.end;
}

static void call_groups(void)
{
    struct lightplan_grouped g =
        lightplan_groups(file, file_bytes, LIGHTPLAN_GROUPS, first, LIGHTPLAN_DEMANDS, second, LIGHTPLAN_DEMANDS);
    refusal = g.refusal;
    end = g.end;
}

static void call_check(void)
{
    struct lightplan_verdict v = lightplan_check(file, file_bytes, plan, plan_bytes, second, LIGHTPLAN_DEMANDS);
    refusal = v.refusal;
    end = v.end;
}

static void call_check_starts(void)
{
    struct lightplan_verdict v = lightplan_check_starts(file, file_bytes, first, LIGHTPLAN_DEMANDS);
    refusal = v.refusal;
    end = v.end;
}

static void call_certify(void)
{
    struct lightplan_certified c = lightplan_certify(file, file_bytes, first, LIGHTPLAN_DEMANDS, weights, LIGHTPLAN_DEMANDS, 2);
    refusal = c.refusal;
    end = c.end;
}

static void call_version(void) { refusal = lightplan_version() != LIGHTPLAN_VERSION; }

static void call_frequency(void) { refusal = lightplan_frequency(-284, 384, 0, 141, 2).refusal; }

/* the bytes of the painted stack that a call leaves touched */
static size_t touched(void (*call)(void))
{
    size_t kept = 0;
    memset(stack, PAINT, sizeof stack);
    refusal = end = 0;
    if (getcontext(&there))
        exit(2);
    there.uc_stack.ss_sp = stack;
    there.uc_stack.ss_size = sizeof stack;
    there.uc_link = &here;
    makecontext(&there, call, 0);
    if (swapcontext(&here, &there))
        exit(2);
    while (kept < sizeof stack && stack[kept] == PAINT)
        kept++;
    return sizeof stack - kept;
}

/* prints what an entry needs beyond what a call of nothing does; sees that it answered as it was meant to, and that the header names
   enough */
static void measure(const char *what, void (*call)(void), unsigned meant_refusal, unsigned meant_end)
{
    /* a first call also binds the C library's functions, on the stack of whoever makes it: that is not the entry's own need */
    touched(call);
    size_t bytes = touched(call) - touched(call_nothing);
    touched(call);
    if (refusal != meant_refusal || end != meant_end) {
        printf("%s: answered %u, end %u\n", what, refusal, end);
        exit(1);
    }
    if (bytes > LIGHTPLAN_STACK) {
        printf("%s: %zu bytes, more than LIGHTPLAN_STACK\n", what, bytes);
        exit(1);
    }
    printf("%-64s %6zu\n", what, bytes);
}

int main(void)
{
    printf("bytes of stack\n");
    make_request(200, 32, 0);
    measure("lightplan_read, 200 demands of 32 links", call_read, 0, 0);
    measure("lightplan_read_routes, the same", call_read_routes, 0, 200 * 32);
    make_plan(200, 0);
    measure("lightplan_check, the same and a plan of 200 rows", call_check, 0, 200);
    measure("lightplan_check_starts, the same", call_check_starts, 0, 200);
    memset(weights, 1, sizeof weights);
    measure("lightplan_certify, the same and 200 weights", call_certify, 0, 200);
    make_plan(200, 185);
    measure("lightplan_check, refused at its first row", call_check, LIGHTPLAN_END_ABOVE, 0);
    measure("lightplan_check_starts, refused at its last start", call_check_starts, LIGHTPLAN_END_ABOVE, 0);
    measure("lightplan_search, refused: 200 demands", call_search, LIGHTPLAN_TOO_MANY_TO_SEARCH, 0);
    make_request(20, 32, 8);
    measure("lightplan_search, 20 demands of 32 links, all 20 levels deep", call_search, 0, 20 + 19 * 8);
    measure("lightplan_groups, the same, 8 groups deep", call_groups, 0, 20 + 19 * 8);
    file_bytes--;
    measure("lightplan_search, refused: the file is cut short", call_search, LIGHTPLAN_PAST_END, 0);
    measure("lightplan_frequency", call_frequency, 0, 0);
    measure("lightplan_version", call_version, 0, 0);
    return 0;
}
