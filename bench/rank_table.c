// Rank of the library beside the plain engine, igraph and networkx: start 1, goal n, one column.
#include "compare.h"
#include "outside.h"
#include "report.h"
#include "tables.h"
#include "timing.h"
#include "yen.h"

#include <math.h>
#include <stdbool.h>

// At K = 256: at least 100 times faster than igraph, or 20 times where many arcs lead on from each node; at
// most 1.4 times the plain engine's time.
static void hold_dues(const struct question *q, uint32_t top, double faster, double slower) {
    const char *name = shape_names[q->net->shape];
    bool many_arcs = q->net->shape == SPARSE || q->net->shape == DENSE;
    if (q->wanted != VIHROLOM_MOST_PATHS)
        return;
    due(faster, many_arcs ? 20 : 100, INFINITY, "igraph / library, %s, costs to %u", name, top);
    due(slower, 0, 1.4, "library / plain C, %s, costs to %u", name, top);
}

static void row(const struct question *q, uint32_t top) {
    double engines[2], igraph;
    hold_to_plain(q);
    median_times(q, 2, (timed_call *const[]){time_rank, time_plain}, (struct effort){11, 301, 500000}, engines);
    median_times(q, 1, (timed_call *const[]){time_yen}, (struct effort){3, 9, 1000000}, &igraph);
    hold_to_yen(q);
    double faster = igraph / engines[0], slower = engines[0] / engines[1];
    cell("%s", shape_names[q->net->shape]);
    cell("%u", q->net->n);
    cell("%u", q->net->m);
    cell("%u", top);
    cell("%u", q->wanted);
    time_cell(engines[0]);
    time_cell(engines[1]);
    time_cell(igraph);
    time_cell(time_networkx(q));
    cell("%.0f", faster);
    cell("%.2f", slower);
    cell("%.0f", instructions(q, top, "library") / 1000);
    cell("%.0f", instructions(q, top, "plain") / 1000);
    end_row();
    hold_dues(q, top, faster, slower);
}

void rank_table(void) {
    static struct network net;
    static const uint32_t tops[] = {100, 1000000}, wanted[] = {48, VIHROLOM_MOST_PATHS};
    table("Rank", "| network | n | m | costs to | K | library | plain C | igraph | networkx | igraph / library | library / plain C | instructions, library | plain C |");
    for (enum shape shape = GRID; shape <= LADDER; shape++)
        for (unsigned t = 0; t < 2; t++) {
            make_network(&net, shape, 0, 1, INDEPENDENT, tops[t]);
            yen_open(&net);
            for (unsigned i = 0; i < 2; i++)
                row(&(struct question){&net, 1, 1, net.n, wanted[i]}, tops[t]);
            yen_close();
        }
}
