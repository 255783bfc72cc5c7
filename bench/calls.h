// What is asked in the benchmark, and the calls that answer it: each leaves its answer here and returns the
// processor time that it took, in microseconds of the calling thread. Other work on the machine is not in it.
#ifndef CALLS_H
#define CALLS_H

#include "network.h"

struct question {
    const struct network *net;
    uint32_t column, start, goal, wanted;
};

typedef double timed_call(const struct question *q);

// Rank's answer, with the workspace that it was lent.
struct ranked {
    uint16_t rows[VIHROLOM_ROWS_LENGTH(VIHROLOM_MOST_NODES, VIHROLOM_MOST_PATHS)];
    uint32_t costs[VIHROLOM_MOST_PATHS];
    uint32_t work[VIHROLOM_WORK_LENGTH(VIHROLOM_MOST_NODES, VIHROLOM_MOST_PATHS)];
    uint32_t count;
};

// Robust's answer, with the workspace that it was lent.
struct chosen {
    uint16_t path[VIHROLOM_MOST_NODES];
    uint32_t work[VIHROLOM_WORK_LENGTH(VIHROLOM_MOST_NODES, VIHROLOM_MOST_PATHS)];
    struct vihrolom_reply reply;
};

extern struct ranked by_library, by_plain;
extern struct chosen by_robust;

// Rank of the library, Rank of the plain engine, Robust of the library, and igraph's ranking (see yen.h).
timed_call time_rank, time_plain, time_robust, time_yen;

#endif
