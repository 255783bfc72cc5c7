// Search where Robust ends open at K = 256: how many of these answers it settles by at most 10,000,000 arcs, how
// many arcs it tries, and how long it takes, in processor time. Prints the table "Search" of docs/BENCHMARKS.md.
// Holds each figure to Robust's answer: equal where that is settled, and not outside floor and figure where it is
// open.
#include "network.h"
#include "timing.h"

#include <stdio.h>
#include <stdlib.h>

enum { NETWORKS = 40, WANTED = VIHROLOM_MOST_PATHS, LIMIT = 10000000 };

static struct network net;
static uint16_t path[VIHROLOM_MOST_NODES];
static uint32_t work[VIHROLOM_WORK_LENGTH(VIHROLOM_MOST_NODES, WANTED)];

// What a line of the table tells: of the networks on which Robust ends open, the arcs tried and the microseconds
// of those that Search settles; and all arcs that were tried with all the time.
struct line {
    unsigned open, settled;
    double arcs[NETWORKS], times[NETWORKS];
    double all_arcs, all_time;
};

static void stop_unless(int holds, const char *what) {
    if (!holds) {
        fprintf(stderr, "searches: %s\n", what);
        exit(1);
    }
}

// Search's figure is Robust's, or lies between its floor and its figure.
static void hold(struct vihrolom_reply robust, struct vihrolom_reply found) {
    const uint32_t least = robust.v4 == VIHROLOM_SETTLED ? robust.v1 : robust.v5;
    stop_unless(least <= found.v1 && found.v1 <= robust.v1, "Search and Robust differ");
}

static void measure(struct line *line) {
    const struct vihrolom_reply robust =
        vihrolom_robust(net.image, net.image_length, 1, 1, net.n, WANTED, path, net.n, work, VIHROLOM_WORK_LENGTH(net.n, WANTED));
    if (robust.refusal == VIHROLOM_NO_PATH)
        return;
    stop_unless(robust.refusal == 0, "Robust refuses");
    const double began = now();
    const struct vihrolom_reply found = vihrolom_search(net.image, net.image_length, 1, net.n, LIMIT, path, net.n);
    const double took = now() - began;
    stop_unless(found.refusal == 0 || found.refusal == VIHROLOM_TOO_MANY_ARCS, "Search refuses");
    if (found.refusal == 0)
        hold(robust, found);
    if (robust.v4 == VIHROLOM_SETTLED)
        return;
    line->open++;
    line->all_arcs += found.refusal == 0 ? found.v3 : LIMIT;
    line->all_time += took;
    if (found.refusal == 0) {
        line->arcs[line->settled] = found.v3;
        line->times[line->settled++] = took;
    }
}

static void print_line(enum shape shape, enum likeness likeness, unsigned k) {
    static struct line line;
    line = (struct line){0};
    for (unsigned number = 0; number < NETWORKS; number++) {
        make_network(&net, shape, number, k, likeness, MOST_BASE);
        measure(&line);
    }
    if (line.open == 0)
        return;
    printf("| %s | %s | %u | %u | %u |", shape_names[shape], likeness_names[likeness], k, line.open, line.settled);
    if (line.settled == 0) {
        printf(" - | - | - | - |");
    } else {
        const double arcs = median(line.arcs, line.settled), took = median(line.times, line.settled);
        printf(" %.0f | %.0f | %.0f | %.0f |", arcs, line.arcs[line.settled - 1], took, line.times[line.settled - 1]);
    }
    printf(" %.0f |\n", line.all_arcs / line.all_time);
}

int main(void) {
    static const enum shape shapes[] = {DENSE, GRID, SPARSE, LAYERED};
    static const unsigned columns[] = {2, 4, 8};
    printf("| network | columns | k | open | settled | arcs, median | most | time, median | most | arcs a microsecond |\n"
           "|---|---|---|---|---|---|---|---|---|---|\n");
    for (unsigned s = 0; s < 4; s++)
        for (enum likeness likeness = WITHIN_10; likeness < LIKENESSES; likeness++)
            for (unsigned i = 0; i < 3; i++)
                print_line(shapes[s], likeness, columns[i]);
    return 0;
}
