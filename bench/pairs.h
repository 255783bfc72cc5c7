// Rank, Robust and igraph's ranking for many pairs of start and goal in one network, in column 1.
#ifndef PAIRS_H
#define PAIRS_H

#include "network.h"

#include <stdbool.h>

enum { MOST_PAIRS = 40 };

// Between start and goal there are at least 256 paths.
struct pair {
    uint32_t start, goal;
};

// What was measured for one pair.
struct measured {
    double rank, robust, igraph;
    uint32_t counted;
    bool settled;
};

// Medians over some pairs, how many these are, and how many of them have settled answers.
struct medians {
    unsigned pairs, settled;
    double rank, robust, igraph, counted;
};

// Draws pairs, the same for all networks of one shape.
void draw_pairs(const struct network *net, struct pair *pairs, unsigned count);

// Measures each pair, and holds Rank and Robust to igraph.
void measure_pairs(const struct network *net, const struct pair *pairs, unsigned count, uint32_t wanted, struct measured *measured);

// The medians over the pairs whose answers are settled, or open, or both.
struct medians medians_of(const struct measured *measured, unsigned count, bool settled, bool open);

#endif
