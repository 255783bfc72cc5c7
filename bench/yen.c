#include "yen.h"

#include <igraph/igraph.h>

static const struct network *network;
static igraph_t graph;
static igraph_vector_t weights[VIHROLOM_MOST_COLUMNS];
static igraph_vector_int_list_t paths;

void yen_open(const struct network *net) {
    igraph_vector_int_t ends;
    network = net;
    igraph_vector_int_init(&ends, 2 * net->m);
    for (unsigned i = 0; i < net->m; i++) {
        VECTOR(ends)[2 * i] = net->tail[i] - 1;
        VECTOR(ends)[2 * i + 1] = net->head[i] - 1;
    }
    igraph_create(&graph, &ends, net->n, IGRAPH_DIRECTED);
    igraph_vector_int_destroy(&ends);
    for (unsigned u = 0; u < net->k; u++) {
        igraph_vector_init(&weights[u], net->m);
        for (unsigned i = 0; i < net->m; i++)
            VECTOR(weights[u])[i] = net->cost[u][i];
    }
    igraph_vector_int_list_init(&paths, 0);
}

void yen_rank(uint32_t column, uint32_t start, uint32_t goal, uint32_t wanted) {
    igraph_get_k_shortest_paths(&graph, &weights[column - 1], NULL, &paths, wanted, start - 1, goal - 1, IGRAPH_OUT);
}

uint32_t yen_count(void) {
    return (uint32_t)igraph_vector_int_list_size(&paths);
}

uint32_t yen_cost(uint32_t place, uint32_t column) {
    const igraph_vector_int_t *arcs = igraph_vector_int_list_get_ptr(&paths, place);
    uint32_t cost = 0;
    for (igraph_integer_t i = 0; i < igraph_vector_int_size(arcs); i++)
        cost += network->cost[column - 1][VECTOR(*arcs)[i]];
    return cost;
}

void yen_close(void) {
    igraph_vector_int_list_destroy(&paths);
    for (unsigned u = 0; u < network->k; u++)
        igraph_vector_destroy(&weights[u]);
    igraph_destroy(&graph);
}

const char *yen_version(void) {
    return IGRAPH_VERSION;
}
