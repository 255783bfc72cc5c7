// What the calls of the path layer are asked, and the rows of the refusal table that they share.
#ifndef QUERY_H
#define QUERY_H

#include "subject.h"

struct query {
    uint32_t n; // of the network that the numbers were drawn for
    uint32_t column, start, goal, wanted;
};

// Numbers for the subject's network, or for the drawn one if the image was refused.
struct query draw_query(const struct subject *subject);

// The number of paths to make room for.
size_t paths_of(struct query query);

// Rows up to 10, of start and goal.
struct row ends_row(const struct subject *subject, struct query query);

// Row 11.
struct row column_row(const struct subject *subject, struct query query);

// Rows up to 12.
struct row ranking_row(const struct subject *subject, struct query query);

// The rows before, then 13, and then 15 if no path leads there in a column, or for column 0 in every one.
struct row last_rows(const struct subject *subject, struct query query, uint32_t column, struct row before, bool too_short);

// Regret of a path must give the figure and the worst column that another call gave with it, as v1 and v2, with its
// length as v0.
void expect_regret(struct subject *subject, struct query query, const uint16_t *path, struct vihrolom_reply given);

// Robust on an image whose numbers are right, with room for all: a result, or a refusal by 15. The path is written to
// `path`, if there is one.
struct vihrolom_reply robust_on(const struct list *image, struct query query, uint16_t *path);

#endif
