#include "pairs.h"

#include "compare.h"
#include "timing.h"
#include "yen.h"

void draw_pairs(const struct network *net, struct pair *pairs, unsigned count) {
    seed(SHAPES + net->shape);
    while (count > 0) {
        struct question q = {net, 1, 1 + draw(net->n), 1 + draw(net->n), VIHROLOM_MOST_PATHS};
        time_rank(&q);
        if (by_library.count == VIHROLOM_MOST_PATHS)
            pairs[--count] = (struct pair){q.start, q.goal};
    }
}

static struct measured measure(const struct question *q) {
    uint32_t best[VIHROLOM_MOST_COLUMNS];
    double library[2], igraph;
    for (unsigned u = 1; u <= q->net->k; u++) {
        yen_rank(u, q->start, q->goal, 1);
        best[u - 1] = yen_cost(0, u);
    }
    median_times(q, 1, (timed_call *const[]){time_yen}, (struct effort){1, 1, 0}, &igraph);
    median_times(q, 2, (timed_call *const[]){time_rank, time_robust}, (struct effort){5, 51, 20000}, library);
    hold_to_yen(q);
    hold_choice_to_yen(q, best);
    return (struct measured){library[0], library[1], igraph, by_robust.reply.v3, by_robust.reply.v4 == VIHROLOM_SETTLED};
}

void measure_pairs(const struct network *net, const struct pair *pairs, unsigned count, uint32_t wanted, struct measured *measured) {
    yen_open(net);
    for (unsigned i = 0; i < count; i++)
        measured[i] = measure(&(struct question){net, 1, pairs[i].start, pairs[i].goal, wanted});
    yen_close();
}

struct medians medians_of(const struct measured *measured, unsigned count, bool settled, bool open) {
    double rank[MOST_PAIRS], robust[MOST_PAIRS], igraph[MOST_PAIRS], counted[MOST_PAIRS];
    unsigned pairs = 0, all_settled = 0;
    for (unsigned i = 0; i < count; i++)
        if (measured[i].settled ? settled : open) {
            rank[pairs] = measured[i].rank;
            robust[pairs] = measured[i].robust;
            igraph[pairs] = measured[i].igraph;
            counted[pairs++] = measured[i].counted;
            all_settled += measured[i].settled;
        }
    if (pairs == 0)
        return (struct medians){0};
    return (struct medians){pairs, all_settled, median(rank, pairs), median(robust, pairs), median(igraph, pairs), median(counted, pairs)};
}
