#include "desk.h"
#include "refusals.h"
#include <errno.h>
#include <stdio.h>
#include <string.h>

enum status trouble(const char *with)
{
    fprintf(stderr, "lightdesk: %s: %s\n", with, strerror(errno));
    return TROUBLE;
}

enum status read_file(const char *name, size_t limit, struct file *file)
{
    int standard = strcmp(name, "-") == 0;
    FILE *in = standard ? stdin : fopen(name, "rb");
    if (!in)
        return trouble(name);
    file->length = fread(file->bytes, 1, limit + 1, in);
    enum status status = ferror(in) ? trouble(name) : YES;
    if (!standard)
        fclose(in);
    return status;
}

enum status open_desk(const char *name, struct desk *desk)
{
    enum status status = read_file(name, LIGHTPLAN_REQUEST_BYTES, &desk->file);
    if (status != YES)
        return status;
    desk->request = lightplan_read(desk->file.bytes, desk->file.length, desk->idents, LIGHTPLAN_DEMANDS, desk->widths, LIGHTPLAN_DEMANDS,
                                   desk->rates, LIGHTPLAN_DEMANDS);
    if (desk->request.refusal == LIGHTPLAN_ANSWERED)
        return YES;
    print_refusal(stdout, desk->request.refusal, desk->request.place, "request file", desk->file.length);
    return NO;
}

void print_rows(const struct desk *desk, const uint16_t *starts)
{
    const struct lightplan_request *request = &desk->request;
    for (size_t k = 0; k < request->demands; k++) {
        unsigned start = starts[k], width = desk->widths[k];
        struct lightplan_frequency_of centre =
            lightplan_frequency(request->n0, request->slots, request->guard, starts[k], desk->widths[k]);
        printf("%u %u %u %ld %lld\n", desk->idents[k], start, start + width, (long)centre.n, (long long)centre.mhz);
    }
}

void print_rates(const struct desk *desk)
{
    for (size_t k = 0; k < desk->request.demands; k++) {
        unsigned width = desk->widths[k];
        if (desk->rates[k])
            printf("circuit %u is booked at %u Gbit/s: %u slot%s\n", desk->idents[k], desk->rates[k], width, width == 1 ? "" : "s");
    }
}

void print_too_full(const struct desk *desk, unsigned long bound)
{
    printf("Nothing fits, proved: the fullest link needs %lu slots, and the band has %u.\n", bound, desk->request.slots);
}
