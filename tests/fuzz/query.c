#include "query.h"

#include "draw.h"

struct query draw_query(const struct subject *subject) {
    const struct network *network = subject->check.refusal == 0 ? &subject->network : subject->drawn;
    struct query query = {.n = network->n};
    query.column = draw_number(1, network->k);
    query.start = draw_number(1, network->n);
    query.goal = draw_number(1, network->n);
    if (query.start == query.goal && !draw_chance(5))
        query.goal = query.start % network->n + 1;
    query.wanted = draw_chance(85) ? draw_number(1, 12) : draw_number(1, VIHROLOM_MOST_PATHS);
    return query;
}

size_t paths_of(struct query query) {
    return query.wanted < VIHROLOM_MOST_PATHS ? query.wanted : VIHROLOM_MOST_PATHS;
}

struct row ends_row(const struct subject *subject, struct query query) {
    bool wrong = !is_node(subject, query.start) || !is_node(subject, query.goal) || query.start == query.goal;
    return first_row(image_row(subject), row_if(wrong, VIHROLOM_WRONG_ENDS, 0));
}

struct row column_row(const struct subject *subject, struct query query) {
    return row_if(query.column < 1 || query.column > subject->network.k, VIHROLOM_WRONG_COLUMN, 0);
}

struct row ranking_row(const struct subject *subject, struct query query) {
    bool wrong = query.wanted < 1 || query.wanted > VIHROLOM_MOST_PATHS;
    struct row numbers = first_row(column_row(subject, query), row_if(wrong, VIHROLOM_WRONG_PATH_COUNT, 0));
    return first_row(ends_row(subject, query), numbers);
}

struct row last_rows(const struct subject *subject, struct query query, uint32_t column, struct row before, bool too_short) {
    struct row row = first_row(before, row_if(too_short, VIHROLOM_SLICE_TOO_SHORT, 0));
    if (row.number != 0)
        return row;
    return row_if(!has_path(&subject->network, column, query.start, query.goal), VIHROLOM_NO_PATH, 0);
}
