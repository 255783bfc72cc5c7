// Calls Rank once, of the library or of the plain engine, for callgrind to count its instructions:
// count SHAPE TOP K library|plain
#include "network.h"
#include "rank.h"

#include <stdio.h>
#include <stdlib.h>
#include <string.h>

static struct network net;
static uint16_t rows[VIHROLOM_ROWS_LENGTH(VIHROLOM_MOST_NODES, VIHROLOM_MOST_PATHS)];
static uint32_t costs[VIHROLOM_MOST_PATHS];
static uint32_t work[VIHROLOM_WORK_LENGTH(VIHROLOM_MOST_NODES, VIHROLOM_MOST_PATHS)];

// Callgrind counts from the entry of this function to its end.
__attribute__((noinline)) struct vihrolom_reply counted(rank_call *rank, uint32_t wanted) {
    return rank(net.image, net.image_length, 1, 1, net.n, wanted, rows, VIHROLOM_ROWS_LENGTH(net.n, wanted), costs, wanted, work, VIHROLOM_WORK_LENGTH(net.n, wanted));
}

static int wrong(const char *what) {
    fprintf(stderr, "count: %s\n", what);
    return 1;
}

int main(int argc, char **argv) {
    if (argc != 5)
        return wrong("four words are needed: SHAPE TOP K library|plain");
    unsigned shape = 0;
    while (shape < SHAPES && strcmp(shape_names[shape], argv[1]) != 0)
        shape++;
    if (shape == SHAPES)
        return wrong("no such shape");
    make_network(&net, shape, 0, 1, INDEPENDENT, (uint32_t)atoi(argv[2]));
    struct vihrolom_reply r = counted(strcmp(argv[4], "plain") == 0 ? plain_rank : vihrolom_rank, (uint32_t)atoi(argv[3]));
    return r.refusal == 0 ? 0 : wrong("Rank refuses");
}
