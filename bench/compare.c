#include "compare.h"

#include "yen.h"

#include <stdio.h>
#include <stdlib.h>
#include <string.h>

_Noreturn void fail(const struct question *q, const char *what) {
    fflush(stdout);
    fprintf(stderr, "bench: %s (%s, k = %u, column %u, from %u to %u, K = %u)\n", what, shape_names[q->net->shape], q->net->k, q->column, q->start, q->goal, q->wanted);
    exit(1);
}

static void hold_cleared(const struct question *q, const uint32_t *work) {
    for (size_t i = 0; i < VIHROLOM_WORK_LENGTH(q->net->n, q->wanted); i++)
        if (work[i] != 0)
            fail(q, "a workspace is not cleared");
}

void hold_to_plain(const struct question *q) {
    memset(&by_library, 170, sizeof by_library);
    memset(&by_plain, 85, sizeof by_plain);
    time_rank(q);
    time_plain(q);
    if (by_plain.count != q->wanted)
        fail(q, "the network has fewer paths");
    if (by_library.count != by_plain.count || memcmp(by_library.rows, by_plain.rows, 2 * VIHROLOM_ROWS_LENGTH(q->net->n, q->wanted)) != 0 || memcmp(by_library.costs, by_plain.costs, 4 * q->wanted) != 0)
        fail(q, "the library's ranked list is not that of the plain engine");
    hold_cleared(q, by_library.work);
    hold_cleared(q, by_plain.work);
}

void hold_to_yen(const struct question *q) {
    if (yen_count() != by_library.count)
        fail(q, "igraph ranks another number of paths than the library");
    for (uint32_t i = 0; i < by_library.count; i++)
        if (yen_cost(i, q->column) != by_library.costs[i])
            fail(q, "igraph's costs are not those of the library");
}

void hold_to_sum(const struct question *q, double sum) {
    for (uint32_t i = 0; i < by_library.count; i++)
        sum -= by_library.costs[i];
    if (sum != 0)
        fail(q, "networkx's costs are not those of the library");
}

// The figure of the path at that place of igraph's ranking.
static uint32_t figure_at(const struct question *q, uint32_t place, const uint32_t *best) {
    uint32_t figure = 0;
    for (unsigned u = 1; u <= q->net->k; u++) {
        uint32_t deviation = yen_cost(place, u) - best[u - 1];
        figure = deviation > figure ? deviation : figure;
    }
    return figure;
}

void hold_choice_to_yen(const struct question *q, const uint32_t *best) {
    const struct vihrolom_reply *r = &by_robust.reply;
    uint32_t count = yen_count(), counted = 1, least = figure_at(q, 0, best);
    while (counted < count && yen_cost(counted, q->column) - best[q->column - 1] < least) {
        uint32_t figure = figure_at(q, counted++, best);
        least = figure < least ? figure : least;
    }
    if (r->refusal != 0)
        fail(q, "Robust refuses");
    if (r->v1 != least)
        fail(q, "Robust's figure is not the least among igraph's paths");
    if (r->v3 != counted)
        fail(q, "Robust counts another number of paths than the stopping rule on igraph's");
    if (counted < count && r->v4 != VIHROLOM_SETTLED)
        fail(q, "Robust leaves open what the stopping rule settles on igraph's paths");
    hold_cleared(q, by_robust.work);
}
