/* Memory that shows whether it was touched. */
#ifndef LENT_H
#define LENT_H

#include <stddef.h>
#include <stdint.h>

enum { FILLED = 0xA5, LENT_BYTES = 16384 };

/* LENT_BYTES of memory with a page behind them that may not be touched. What is lent lies at their very end, so that a step beyond it
   ends the program; the bytes in front of it are filled, and are looked at after a call. */
struct lent {
    unsigned char *first;
    size_t bytes;
};

/* Makes the memory; once for each of the things that one call is lent. */
void lent_make(struct lent *lent);

/* Fills the memory and gives out its last `bytes`. */
void *lent_out(struct lent *lent, size_t bytes);

/* Whether all is as filled but for the first `written` bytes of what was given out. */
int lent_kept(const struct lent *lent, size_t written);

#endif
