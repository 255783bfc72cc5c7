// igraph's ranked loopless paths (Yen's algorithm) on a network of the benchmark.
#ifndef YEN_H
#define YEN_H

#include "network.h"

// Builds igraph's form of the network, which must stay as it is until it is closed.
void yen_open(const struct network *net);

// Ranks the first paths from start to goal in a column.
void yen_rank(uint32_t column, uint32_t start, uint32_t goal, uint32_t wanted);

// How many paths the last ranking has, and the cost in a column of the one at that place, from 0.
uint32_t yen_count(void);
uint32_t yen_cost(uint32_t place, uint32_t column);

void yen_close(void);

const char *yen_version(void);

#endif
