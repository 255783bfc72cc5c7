// How the times of Rank and Robust grow with K, n and k, on grids.
#include "pairs.h"
#include "report.h"
#include "tables.h"

enum { PAIRS = 20, COLUMNS = 4, WANTED = 48 };

static struct medians medians_on(enum shape shape, unsigned k, enum likeness likeness, uint32_t wanted) {
    static struct network net;
    static struct pair pairs[PAIRS];
    static struct measured measured[PAIRS];
    make_network(&net, shape, 0, k, likeness, MOST_BASE);
    draw_pairs(&net, pairs, PAIRS);
    measure_pairs(&net, pairs, PAIRS, wanted, measured);
    return medians_of(measured, PAIRS, true, true);
}

static void robust_cells(struct medians m) {
    time_cell(m.robust);
    cell("%u", m.settled);
    cell("%.0f", m.counted);
}

static void row(unsigned grown, enum shape shape, unsigned k, uint32_t wanted) {
    struct medians close = medians_on(shape, k, WITHIN_50, wanted);
    struct medians apart = medians_on(shape, k, INDEPENDENT, wanted);
    cell("%u", grown);
    time_cell(close.igraph);
    time_cell(close.rank);
    robust_cells(close);
    robust_cells(apart);
    end_row();
}

#define REST " | igraph | Rank | Robust, columns within 50 % | settled | paths counted | Robust, independent columns | settled | paths counted |"

void growth_tables(void) {
    static const enum shape grids[] = {GRID_25, GRID_50, GRID_100, GRID_200};
    static const unsigned nodes[] = {25, 50, 100, 200};
    table("Growth with K", "| K" REST);
    for (uint32_t wanted = 1; wanted <= VIHROLOM_MOST_PATHS; wanted *= 2)
        row(wanted, GRID_200, COLUMNS, wanted);
    table("Growth with n", "| n" REST);
    for (unsigned i = 0; i < 4; i++)
        row(nodes[i], grids[i], COLUMNS, WANTED);
    table("Growth with k", "| k" REST);
    for (unsigned k = 1; k <= VIHROLOM_MOST_COLUMNS; k *= 2)
        row(k, GRID_200, k, WANTED);
}
