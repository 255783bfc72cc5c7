#include "network.h"

#include <string.h>

const char *const shape_names[SHAPES] = {"grid", "sparse", "dense", "layered", "ladder", "grid of 25", "grid of 50", "grid of 100", "grid of 200"};
const char *const likeness_names[LIKENESSES] = {"within 10 %", "within 50 %", "independent"};

// xorshift64*
static uint64_t state;

void seed(uint32_t number) {
    state = 88172645463325252u + number;
}

uint32_t draw(uint32_t below) {
    state ^= state >> 12;
    state ^= state << 25;
    state ^= state >> 27;
    return (uint32_t)(((state * 2685821657736338717u) >> 32) % below);
}

// Whether there is an arc from the one node to the other.
static uint8_t arc[VIHROLOM_MOST_NODES + 1][VIHROLOM_MOST_NODES + 1];

static void both_ways(unsigned a, unsigned b) {
    arc[a][b] = 1;
    arc[b][a] = 1;
}

// Nodes in rows, each joined both ways to its neighbours: m = 2 (rows (columns - 1) + columns (rows - 1)).
static unsigned lattice(unsigned rows, unsigned columns) {
    for (unsigned r = 0; r < rows; r++)
        for (unsigned c = 0; c < columns; c++) {
            unsigned v = r * columns + c + 1;
            if (c + 1 < columns)
                both_ways(v, v + 1);
            if (r + 1 < rows)
                both_ways(v, v + columns);
        }
    return rows * columns;
}

// m arcs drawn from all.
static unsigned sparse(unsigned n, unsigned m) {
    while (m > 0) {
        unsigned a = 1 + draw(n), b = 1 + draw(n);
        if (a != b && !arc[a][b]) {
            arc[a][b] = 1;
            m--;
        }
    }
    return n;
}

// All arcs.
static unsigned dense(unsigned n) {
    for (unsigned a = 1; a <= n; a++)
        for (unsigned b = 1; b <= n; b++)
            arc[a][b] = a != b;
    return n;
}

// From each node arcs to `degree` nodes of the next layer, drawn.
static unsigned layered(unsigned layers, unsigned width, unsigned degree) {
    for (unsigned v = 1; v <= (layers - 1) * width; v++) {
        unsigned next = ((v - 1) / width + 1) * width + 1, left = degree;
        while (left > 0) {
            unsigned y = next + draw(width);
            if (!arc[v][y]) {
                arc[v][y] = 1;
                left--;
            }
        }
    }
    return layers * width;
}

static void put(uint8_t *at, unsigned bytes, uint32_t x) {
    while (bytes-- > 0) {
        *at++ = (uint8_t)x;
        x >>= 8;
    }
}

static void write_image(struct network *net) {
    unsigned m = net->m, k = net->k;
    uint8_t *b = net->image;
    net->image_length = VIHROLOM_IMAGE_LENGTH(m, k);
    put(b, 2, 1);
    put(b + 2, 2, net->n);
    put(b + 4, 2, m);
    put(b + 6, 2, k);
    put(b + 8, 4, 24);
    put(b + 12, 4, 24 + 4 * m);
    put(b + 16, 4, 24 + 4 * m + 4 * m * k);
    put(b + 20, 4, 0);
    for (unsigned i = 0; i < m; i++) {
        put(b + 24 + 4 * i, 2, net->tail[i]);
        put(b + 26 + 4 * i, 2, net->head[i]);
        for (unsigned u = 0; u < k; u++)
            put(b + 24 + 4 * m + 4 * m * u + 4 * i, 4, net->cost[u][i]);
    }
}

static unsigned draw_arcs(enum shape shape) {
    memset(arc, 0, sizeof arc);
    switch (shape) {
    case GRID: return lattice(14, 14);
    case SPARSE: return sparse(200, 1000);
    case DENSE: return dense(32);
    case LAYERED: return layered(18, 11, 5);
    case LADDER: return lattice(2, 100);
    case GRID_25: return lattice(5, 5);
    case GRID_50: return lattice(5, 10);
    case GRID_100: return lattice(10, 10);
    default: return lattice(10, 20);
    }
}

static void list_arcs(struct network *net) {
    net->m = 0;
    for (unsigned a = 1; a <= net->n; a++)
        for (unsigned b = 1; b <= net->n; b++)
            if (arc[a][b]) {
                net->tail[net->m] = (uint16_t)a;
                net->head[net->m] = (uint16_t)b;
                net->m++;
            }
}

// A cost that differs from the base by at most `spread` thousandths.
static uint32_t near(uint32_t base, uint32_t spread) {
    return (uint32_t)((uint64_t)base * (1000 - spread + draw(2 * spread + 1)) / 1000);
}

static void draw_costs(struct network *net, enum likeness likeness, uint32_t top) {
    static uint32_t base[VIHROLOM_MOST_ARCS];
    if (likeness != INDEPENDENT)
        for (unsigned i = 0; i < net->m; i++)
            base[i] = 1 + draw(top);
    for (unsigned u = 0; u < net->k; u++)
        for (unsigned i = 0; i < net->m; i++)
            net->cost[u][i] = likeness == INDEPENDENT ? 1 + draw(top) : near(base[i], likeness == WITHIN_10 ? 100 : 500);
}

void make_network(struct network *net, enum shape shape, unsigned number, unsigned k, enum likeness likeness, uint32_t top) {
    seed(shape + 1000 * number);
    net->shape = shape;
    net->n = draw_arcs(shape);
    net->k = k;
    list_arcs(net);
    draw_costs(net, likeness, top);
    write_image(net);
}

void leave_out(struct network *left, const struct network *whole, const uint64_t *closed) {
    left->shape = whole->shape;
    left->n = whole->n;
    left->k = whole->k;
    left->m = 0;
    for (unsigned i = 0; i < whole->m; i++)
        if ((closed[i / 64] >> (i % 64) & 1) == 0) {
            left->tail[left->m] = whole->tail[i];
            left->head[left->m] = whole->head[i];
            for (unsigned u = 0; u < whole->k; u++)
                left->cost[u][left->m] = whole->cost[u][i];
            left->m++;
        }
    write_image(left);
}
