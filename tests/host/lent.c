#define _DEFAULT_SOURCE
#include "lent.h"
#include <stdio.h>
#include <stdlib.h>
#include <string.h>
#include <sys/mman.h>
#include <unistd.h>

void lent_make(struct lent *lent)
{
    size_t page = (size_t)sysconf(_SC_PAGESIZE), front = (LENT_BYTES + page - 1) / page * page;
    unsigned char *all = mmap(NULL, front + page, PROT_READ | PROT_WRITE, MAP_PRIVATE | MAP_ANONYMOUS, -1, 0);
    if (all == MAP_FAILED || mprotect(all + front, page, PROT_NONE)) {
        perror("no memory to lend");
        exit(2);
    }
    lent->first = all + front - LENT_BYTES;
    lent->bytes = 0;
}

void *lent_out(struct lent *lent, size_t bytes)
{
    memset(lent->first, FILLED, LENT_BYTES);
    lent->bytes = bytes;
    return lent->first + LENT_BYTES - bytes;
}

/* whether some bytes are as filled */
static int filled(const unsigned char *bytes, size_t count)
{
    return !count || (bytes[0] == FILLED && !memcmp(bytes, bytes + 1, count - 1));
}

int lent_kept(const struct lent *lent, size_t written)
{
    size_t given = LENT_BYTES - lent->bytes, behind = given + written;
    return filled(lent->first, given) && filled(lent->first + behind, LENT_BYTES - behind);
}
