// Drawn networks, their images, and plain answers about them, made apart from the library.
#ifndef NETWORKS_H
#define NETWORKS_H

#include "vihrolom.h"

#include <stdbool.h>

// One more than an image can have, so that lists may be too long by one.
enum { ARC_ROOM = VIHROLOM_MOST_ARCS + 1, COST_ROOM = ARC_ROOM * VIHROLOM_MOST_COLUMNS };

struct network {
    uint32_t edition, n, m, k;
    uint16_t nodes[2 * ARC_ROOM];   // tail and head of each arc
    uint32_t costs[COST_ROOM];      // column after column
};

// A network that Build takes: mostly a small one, now and then one of any size.
void draw_network(struct network *network);

// Writes the network's image, and gives its length.
size_t write_image(const struct network *network, uint8_t *image);

// An image in `image`, which has room for one of any size and 64 bytes more, and its length. It is the network's
// own, which `sound` says, or a damaged one: with other bytes, another length, or drawn from nothing.
size_t draw_image(const struct network *network, uint8_t *image, bool *sound);

// The network of an accepted image.
void read_network(const uint8_t *image, struct network *network);

// The cost of the arc with this index in a column.
uint32_t arc_cost(const struct network *network, uint32_t column, uint32_t arc);

// The index of the arc from a node to another, or -1.
long arc_of(const struct network *network, uint32_t tail, uint32_t head);

// Whether the arc is open in a column, or for column 0 in every one.
bool is_open(const struct network *network, uint32_t column, uint32_t arc);

// Whether a path leads from start to goal, open in a column, or for column 0 in every one.
bool has_path(const struct network *network, uint32_t column, uint32_t start, uint32_t goal);

// The place of row 14 for a list of nodes, or -1 if it is a path from start to goal that is open in a column, or
// for column 0 in every one.
long list_fault(const struct network *network, uint32_t column, uint32_t start, uint32_t goal, const uint16_t *nodes, size_t length);

// What a path costs in a column in which it is open.
uint32_t path_cost(const struct network *network, uint32_t column, const uint16_t *nodes, size_t length);

#endif
