/* What the commands of lightdesk share: exit statuses, files, an accepted request, and the lines that they all print. */
#ifndef DESK_H
#define DESK_H

#include "lightplan.h"

/* the exit statuses */
enum status { YES = 0, NO = 1, TROUBLE = 2 };

/* a file as it was read: at most one byte more than its limit, which is enough for the library to refuse it as too long */
struct file {
    uint8_t bytes[LIGHTPLAN_REQUEST_BYTES + 1];
    size_t length;
};

/* a request file that was accepted, with its demands by listing position */
struct desk {
    struct file file;
    struct lightplan_request request;
    uint16_t idents[LIGHTPLAN_DEMANDS], widths[LIGHTPLAN_DEMANDS], rates[LIGHTPLAN_DEMANDS];
};

/* says on standard error what went wrong, by errno */
enum status trouble(const char *with);

/* reads a file, or standard input where it is called - */
enum status read_file(const char *name, size_t limit, struct file *file);

/* reads a request file and tests it; what is wrong with it has been said where the status is not YES */
enum status open_desk(const char *name, struct desk *desk);

/* a row for each demand: ident, start, end, central number, central MHz */
void print_rows(const struct desk *desk, const uint16_t *starts);

/* a line for each demand that asks for a bit rate: how many slots that takes */
void print_rates(const struct desk *desk);

/* the fullest link needs more than the band has, which settles that nothing fits */
void print_too_full(const struct desk *desk, unsigned long bound);

#endif
