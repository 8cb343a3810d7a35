/* Requests to settle, each made from its kind, its count of circuits and its number: the same wherever they are made. */
#ifndef REQUESTS_H
#define REQUESTS_H
#include <stdint.h>

/* rings of 8 to 16 nodes with links both ways; NSFNET; meshes of 10 nodes and 16 joined pairs; cycles of 5, 7 or 9 links one way */
enum kind { RINGS, NSFNET, MESHES, ODD_CYCLES, KINDS };

struct request_file {
    int length;
    unsigned char bytes[8128];
};

/* Makes a request: so many circuits, 1 to 200, with routes on which no node is met twice. */
void draw_request(struct request_file *file, enum kind kind, int count, uint64_t which);

#endif
