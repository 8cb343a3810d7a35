/* The command settle. */
#ifndef SETTLE_H
#define SETTLE_H

#include "desk.h"

/* the most seconds that it takes */
#define SETTLE_SECONDS 86400

/* Has the finder look for a plan and a certificate, for so many seconds or until an interrupt, and prints what lightplan_certify says of
   the two. */
enum status settle(const char *name, uint32_t seconds);

#endif
