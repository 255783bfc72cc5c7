// Update on the largest image, with lists of records drawn from a fixed seed: the median processor time of a
// call, in microseconds, and of Check alone beside it. Prints the table "Update" of docs/BENCHMARKS.md.
#include "network.h"
#include "timing.h"

#include <stdio.h>
#include <stdlib.h>

enum { NODES = VIHROLOM_MOST_NODES, ARCS = VIHROLOM_MOST_ARCS, COLUMNS = VIHROLOM_MOST_COLUMNS, MOST_RECORDS = 1000000, TURNS = 31 };

static uint16_t nodes[2 * ARCS];
static uint32_t costs[ARCS * COLUMNS], records[4 * MOST_RECORDS];
static uint8_t image[VIHROLOM_MOST_BYTES];

static void stop_if(uint32_t refusal) {
    if (refusal != 0) {
        fprintf(stderr, "updates: refused %u\n", refusal);
        exit(1);
    }
}

// The median time of a call with so many records, or of Check if there are none to write.
static double median_time(size_t count, int check_alone) {
    double times[TURNS];
    for (int turn = 0; turn < TURNS; turn++) {
        const double start = now();
        const struct vihrolom_reply reply =
            check_alone ? vihrolom_check(image, sizeof image) : vihrolom_update(image, sizeof image, records, 4 * count);
        times[turn] = now() - start;
        stop_if(reply.refusal);
    }
    return median(times, TURNS);
}

int main(void) {
    // five arcs from each node, to the lowest other nodes
    for (uint16_t arc = 0; arc < ARCS; arc++) {
        const uint16_t tail = arc / 5 + 1, head = arc % 5 + 1;
        nodes[2 * arc] = tail;
        nodes[2 * arc + 1] = head < tail ? head : head + 1;
    }
    stop_if(vihrolom_build(1, NODES, COLUMNS, nodes, 2 * ARCS, costs, ARCS * COLUMNS, image, sizeof image).refusal);
    seed(1);
    for (size_t i = 0; i < MOST_RECORDS; i++) {
        records[4 * i] = draw(ARCS);
        records[4 * i + 1] = 1 + draw(COLUMNS);
        records[4 * i + 2] = draw(VIHROLOM_MOST_COST + 1);
        records[4 * i + 3] = draw(1000);
    }
    printf("| records | Update | Check alone |\n|---|---|---|\n");
    for (size_t count = 1000; count <= MOST_RECORDS; count *= 10)
        printf("| %zu | %.0f | %.0f |\n", count, median_time(count, 0), median_time(count, 1));
    return 0;
}
