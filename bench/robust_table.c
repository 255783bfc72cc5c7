// Robust of the library beside one ranking of the same K by Rank, igraph and networkx: four columns.
#include "outside.h"
#include "pairs.h"
#include "report.h"
#include "tables.h"
#include "timing.h"

#include <math.h>

// networkx takes long and gets a few pairs of each kind.
enum { COLUMNS = 4, PAIRS_FOR_NETWORKX = 5 };

static struct network net;
static struct pair pairs[MOST_PAIRS];
static struct measured measured[MOST_PAIRS];

static double networkx_median(bool settled, uint32_t wanted) {
    double times[PAIRS_FOR_NETWORKX];
    unsigned count = 0;
    for (unsigned i = 0; i < MOST_PAIRS && count < PAIRS_FOR_NETWORKX; i++)
        if (measured[i].settled == settled)
            times[count++] = time_networkx(&(struct question){&net, 1, pairs[i].start, pairs[i].goal, wanted});
    return median(times, count);
}

static void row(enum likeness likeness, uint32_t wanted, bool settled) {
    struct medians m = medians_of(measured, MOST_PAIRS, settled, !settled);
    if (m.pairs == 0)
        return;
    cell("%s", shape_names[net.shape]);
    cell("%s", likeness_names[likeness]);
    cell("%u", wanted);
    cell("%s", settled ? "settled" : "open");
    cell("%u", m.pairs);
    cell("%.0f", m.counted);
    time_cell(m.robust);
    time_cell(m.rank);
    time_cell(m.igraph);
    time_cell(networkx_median(settled, wanted));
    cell("%.0f", m.igraph / m.robust);
    end_row();
    if (net.shape == GRID && likeness != INDEPENDENT && settled)
        due(m.igraph / m.robust, 20, INFINITY, "igraph / Robust, settled, grid, columns %s, K = %u", likeness_names[likeness], wanted);
}

void robust_table(void) {
    static const enum shape shapes[] = {GRID, LAYERED};
    static const uint32_t wanted[] = {48, VIHROLOM_MOST_PATHS};
    table("Robust", "| network | columns | K | answers | pairs | paths counted | Robust | Rank | igraph | networkx | igraph / Robust |");
    for (unsigned s = 0; s < 2; s++)
        for (enum likeness likeness = WITHIN_10; likeness < LIKENESSES; likeness++) {
            make_network(&net, shapes[s], 0, COLUMNS, likeness, MOST_BASE);
            draw_pairs(&net, pairs, MOST_PAIRS);
            for (unsigned i = 0; i < 2; i++) {
                measure_pairs(&net, pairs, MOST_PAIRS, wanted[i], measured);
                row(likeness, wanted[i], true);
                row(likeness, wanted[i], false);
            }
        }
}
