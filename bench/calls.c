#include "calls.h"

#include "rank.h"
#include "timing.h"
#include "yen.h"

struct ranked by_library, by_plain;
struct chosen by_robust;

static double time_ranking(rank_call *rank, struct ranked *a, const struct question *q) {
    const struct network *net = q->net;
    size_t places = VIHROLOM_ROWS_LENGTH(net->n, q->wanted), words = VIHROLOM_WORK_LENGTH(net->n, q->wanted);
    double began = now();
    struct vihrolom_reply r = rank(net->image, net->image_length, q->column, q->start, q->goal, q->wanted, a->rows, places, a->costs, q->wanted, a->work, words);
    double took = now() - began;
    a->count = r.refusal == 0 ? r.v0 : 0;
    return took;
}

double time_rank(const struct question *q) {
    return time_ranking(vihrolom_rank, &by_library, q);
}

double time_plain(const struct question *q) {
    return time_ranking(plain_rank, &by_plain, q);
}

double time_robust(const struct question *q) {
    const struct network *net = q->net;
    size_t words = VIHROLOM_WORK_LENGTH(net->n, q->wanted);
    double began = now();
    by_robust.reply = vihrolom_robust(net->image, net->image_length, q->column, q->start, q->goal, q->wanted, by_robust.path, net->n, by_robust.work, words);
    return now() - began;
}

double time_yen(const struct question *q) {
    double began = now();
    yen_rank(q->column, q->start, q->goal, q->wanted);
    return now() - began;
}
