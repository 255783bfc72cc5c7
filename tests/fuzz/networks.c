#include "networks.h"

#include "draw.h"

#include <string.h>

// ---- drawing

static const uint32_t greatest_costs[] = {0, 1, 3, 20, 1000, VIHROLOM_MOST_COST};

static uint32_t draw_size(void) {
    uint32_t kind = draw_between(1, 1000);
    if (kind <= 850)
        return draw_between(VIHROLOM_LEAST_NODES, 9);
    if (kind <= 970)
        return draw_between(VIHROLOM_LEAST_NODES, 30);
    return draw_between(VIHROLOM_LEAST_NODES, VIHROLOM_MOST_NODES);
}

// So many pairs of nodes in a thousand become arcs, and in some networks each node also leads to the next.
static void draw_arcs(struct network *network) {
    uint32_t n = network->n, share = draw_between(0, 1000), fits = 900000 / (n * (n - 1));
    bool line = draw_chance(50);
    if (share > fits)
        share = fits;
    network->m = 0;
    for (uint32_t tail = 1; tail <= n; tail++)
        for (uint32_t head = 1; head <= n && network->m < VIHROLOM_MOST_ARCS; head++) {
            bool in = draw_between(1, 1000) <= share || (line && head == tail + 1);
            if (tail == head || !in)
                continue;
            network->nodes[2 * network->m] = (uint16_t)tail;
            network->nodes[2 * network->m + 1] = (uint16_t)head;
            network->m++;
        }
}

void draw_network(struct network *network) {
    network->edition = draw_between(1, VIHROLOM_LATEST_EDITION);
    network->n = draw_size();
    network->k = draw_chance(80) ? draw_between(1, 3) : draw_between(1, VIHROLOM_MOST_COLUMNS);
    draw_arcs(network);
    uint32_t greatest = greatest_costs[draw() % 6];
    uint32_t closed = network->edition == 2 ? draw_between(0, 3) * 15 : 0;
    for (uint32_t i = 0; i < network->m * network->k; i++)
        network->costs[i] = closed != 0 && draw_chance(closed) ? VIHROLOM_CLOSED : draw_between(0, greatest);
}

// ---- images

static void put(uint8_t *bytes, uint32_t number, int count) {
    for (int i = 0; i < count; i++)
        bytes[i] = (uint8_t)(number >> (8 * i));
}

static uint32_t got(const uint8_t *bytes, int count) {
    uint32_t number = 0;
    for (int i = 0; i < count; i++)
        number |= (uint32_t)bytes[i] << (8 * i);
    return number;
}

size_t write_image(const struct network *network, uint8_t *image) {
    uint32_t m = network->m, k = network->k, costs = 24 + 4 * m, total = costs + 4 * m * k;
    put(image, network->edition, 2);
    put(image + 2, network->n, 2);
    put(image + 4, m, 2);
    put(image + 6, k, 2);
    put(image + 8, 24, 4);
    put(image + 12, costs, 4);
    put(image + 16, total, 4);
    put(image + 20, 0, 4);
    for (uint32_t i = 0; i < 2 * m; i++)
        put(image + 24 + 2 * i, network->nodes[i], 2);
    for (uint32_t i = 0; i < m * k; i++)
        put(image + costs + 4 * i, network->costs[i], 4);
    return total;
}

// One to three bytes become others; half of them stand in the header.
static void change_bytes(uint8_t *image, size_t length) {
    for (uint32_t left = draw_between(1, 3); left > 0; left--) {
        size_t at = draw_chance(50) ? draw() % 24 : draw() % length;
        image[at] = draw_chance(50) ? (uint8_t)draw() : (uint8_t)(image[at] + 1);
    }
}

// An arc or a cost becomes another, likely one that is refused.
static void change_content(const struct network *network, uint8_t *image) {
    uint32_t m = network->m, k = network->k;
    if (m == 0)
        return;
    if (draw_chance(50))
        put(image + 24 + 2 * (draw() % (2 * m)), draw_between(0, network->n + 1), 2);
    else
        put(image + 24 + 4 * m + 4 * (draw() % (m * k)), draw_chance(50) ? VIHROLOM_CLOSED : draw_number(0, VIHROLOM_MOST_COST), 4);
}

size_t draw_image(const struct network *network, uint8_t *image, bool *sound) {
    size_t length = write_image(network, image);
    uint32_t kind = draw_between(1, 100);
    *sound = kind <= 75;
    if (*sound)
        return length;
    if (kind <= 83) {
        change_bytes(image, length);
        return length;
    }
    if (kind <= 90) {
        change_content(network, image);
        return length;
    }
    if (kind <= 94)
        return draw() % length;
    if (kind <= 96) {
        draw_bytes(image + length, 64);
        return length + draw_between(1, 64);
    }
    if (kind <= 98) {
        draw_bytes(image + 24, length - 24);
        return length;
    }
    size_t drawn = draw() % (length + 40);
    draw_bytes(image, drawn);
    return drawn;
}

void read_network(const uint8_t *image, struct network *network) {
    network->edition = got(image, 2);
    network->n = got(image + 2, 2);
    network->m = got(image + 4, 2);
    network->k = got(image + 6, 2);
    for (uint32_t i = 0; i < 2 * network->m; i++)
        network->nodes[i] = (uint16_t)got(image + 24 + 2 * i, 2);
    for (uint32_t i = 0; i < network->m * network->k; i++)
        network->costs[i] = got(image + 24 + 4 * network->m + 4 * i, 4);
}

// ---- plain answers

uint32_t arc_cost(const struct network *network, uint32_t column, uint32_t arc) {
    return network->costs[(column - 1) * network->m + arc];
}

long arc_of(const struct network *network, uint32_t tail, uint32_t head) {
    for (uint32_t arc = 0; arc < network->m; arc++)
        if (network->nodes[2 * arc] == tail && network->nodes[2 * arc + 1] == head)
            return (long)arc;
    return -1;
}

bool is_open(const struct network *network, uint32_t column, uint32_t arc) {
    if (column != 0)
        return arc_cost(network, column, arc) != VIHROLOM_CLOSED;
    for (uint32_t each = 1; each <= network->k; each++)
        if (arc_cost(network, each, arc) == VIHROLOM_CLOSED)
            return false;
    return true;
}

bool has_path(const struct network *network, uint32_t column, uint32_t start, uint32_t goal) {
    bool reached[VIHROLOM_MOST_NODES + 1] = {false};
    reached[start] = true;
    for (bool more = true; more;) {
        more = false;
        for (uint32_t arc = 0; arc < network->m; arc++) {
            uint16_t tail = network->nodes[2 * arc], head = network->nodes[2 * arc + 1];
            if (reached[tail] && !reached[head] && is_open(network, column, arc))
                reached[head] = more = true;
        }
    }
    return reached[goal];
}

static bool stood_before(const uint16_t *nodes, size_t at) {
    for (size_t i = 0; i < at; i++)
        if (nodes[i] == nodes[at])
            return true;
    return false;
}

long list_fault(const struct network *network, uint32_t column, uint32_t start, uint32_t goal, const uint16_t *nodes, size_t length) {
    if (length == 0 || nodes[0] != start)
        return 0;
    for (size_t at = 1; at < length; at++) {
        long arc = arc_of(network, nodes[at - 1], nodes[at]);
        if (stood_before(nodes, at) || arc < 0 || !is_open(network, column, (uint32_t)arc))
            return (long)at;
    }
    return nodes[length - 1] == goal ? -1 : (long)length;
}

uint32_t path_cost(const struct network *network, uint32_t column, const uint16_t *nodes, size_t length) {
    uint32_t sum = 0;
    for (size_t at = 1; at < length; at++)
        sum += arc_cost(network, column, (uint32_t)arc_of(network, nodes[at - 1], nodes[at]));
    return sum;
}
