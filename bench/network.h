// The networks of the benchmark: fixed shapes, with arcs and costs drawn from a seeded generator.
#ifndef NETWORK_H
#define NETWORK_H

#include "vihrolom.h"

enum shape { GRID, SPARSE, DENSE, LAYERED, LADDER, GRID_25, GRID_50, GRID_100, GRID_200, SHAPES };

extern const char *const shape_names[SHAPES];

// How the columns of a network belong together: correlated, from one base cost of each arc, times a factor
// that is drawn for each column and arc, from 0.9 to 1.1 or from 0.5 to 1.5; or each drawn for itself.
enum likeness { WITHIN_10, WITHIN_50, INDEPENDENT, LIKENESSES };

extern const char *const likeness_names[LIKENESSES];

// Base costs up to this keep costs within 1,000,000.
enum { MOST_BASE = 660000 };

// A network as lists and as an image. Nodes are 1 to n; arcs rise by tail, then head.
struct network {
    enum shape shape;
    unsigned n, m, k;
    uint16_t tail[VIHROLOM_MOST_ARCS], head[VIHROLOM_MOST_ARCS];
    uint32_t cost[VIHROLOM_MOST_COLUMNS][VIHROLOM_MOST_ARCS];
    uint8_t image[VIHROLOM_MOST_BYTES];
    size_t image_length;
};

// The network with that number among those of a shape, with k columns, and with costs or base costs from 1
// to `top`. The same arguments give the same network, and of two networks that differ in k alone the
// smaller has the first columns of the other.
void make_network(struct network *net, enum shape shape, unsigned number, unsigned k, enum likeness likeness, uint32_t top);

// The network without its closed arcs: arc i is closed if bit i % 64 of word i / 64 is set.
void leave_out(struct network *left, const struct network *whole, const uint64_t *closed);

// The generator: where it begins, and its next number below the given one.
void seed(uint32_t number);
uint32_t draw(uint32_t below);

#endif
