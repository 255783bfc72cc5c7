// Label, Shortest, Regret, Rank, Robust and Search.
#include "draw.h"
#include "query.h"
#include "report.h"

#include <string.h>

// ---- Label and Shortest

void call_label(struct subject *subject) {
    struct query query = draw_query(subject);
    struct list labels = list_to_write(FIRST, "labels", draw_length(query.n), 4);
    list_keeps(&labels);
    report_call(LABEL);
    struct vihrolom_reply reply = vihrolom_label(subject->image.lent, subject->image.length, query.column, query.goal, labels.lent, labels.length);
    struct row goal = first_row(image_row(subject), row_if(!is_node(subject, query.goal), VIHROLOM_WRONG_ENDS, 0));
    struct row due = first_row(goal, column_row(subject, query));
    due = first_row(due, row_if(labels.length < query.n, VIHROLOM_SLICE_TOO_SHORT, 0));
    if (expect_reply(reply, due, 0)) {
        uint32_t least[VIHROLOM_MOST_NODES];
        memcpy(least, labels.own, 4 * query.n);
        memcpy(labels.due, least, 4 * query.n);
        expect_value("the goal's label", least[query.goal - 1], 0);
        for (uint32_t node = 1; node <= query.n; node++)
            if (node != query.goal && (least[node - 1] == VIHROLOM_UNREACHED) == has_path(&subject->network, query.column, node, query.goal))
                report_wrong("the label of node %u is %u", node, least[node - 1]);
    }
    expect_list(&labels);
}

void call_shortest(struct subject *subject) {
    struct query query = draw_query(subject);
    struct list path = list_to_write(FIRST, "path", draw_length(query.n), 2);
    list_keeps(&path);
    report_call(SHORTEST);
    struct vihrolom_reply reply = vihrolom_shortest(subject->image.lent, subject->image.length, query.column, query.start, query.goal, path.lent, path.length);
    struct row rows = first_row(ends_row(subject, query), column_row(subject, query));
    if (expect_reply(reply, last_rows(subject, query, query.column, rows, path.length < query.n), 2)) {
        const uint16_t *nodes = path.lent;
        expect_path(subject, query.column, query.start, query.goal, nodes, reply.v0);
        expect_value("the cost", reply.v1, path_cost(&subject->network, query.column, nodes, reply.v0));
        memcpy(path.due, nodes, 2 * reply.v0);
    }
    expect_list(&path);
}

// ---- Regret

// A walk from the start along open arcs until it meets the goal or gets stuck, or drawn nodes; gives its length.
static size_t draw_list(const struct subject *subject, struct query query, uint16_t *nodes) {
    const struct network *network = &subject->network;
    size_t length = 0;
    if (subject->check.refusal != 0 || draw_chance(10)) {
        for (length = draw() % 8; length > 0 && !draw_chance(10); length--)
            nodes[length - 1] = (uint16_t)draw_number(1, query.n);
        return length;
    }
    nodes[length++] = (uint16_t)query.start;
    for (uint32_t tries = 0; tries < 3 * query.n && nodes[length - 1] != query.goal && network->m != 0; tries++) {
        uint32_t arc = (uint32_t)(draw() % network->m);
        for (uint32_t looked = 0; looked < network->m && network->nodes[2 * arc] != nodes[length - 1]; looked++)
            arc = (arc + 1) % network->m;
        if (network->nodes[2 * arc] == nodes[length - 1] && length <= query.n && is_open(network, 0, arc))
            nodes[length++] = network->nodes[2 * arc + 1];
    }
    if (draw_chance(10))
        nodes[draw() % length] = (uint16_t)draw_number(1, query.n);
    return length;
}

void call_regret(struct subject *subject) {
    uint16_t list[VIHROLOM_MOST_NODES + 2] = {0};
    struct query query = draw_query(subject);
    struct list nodes = list_of(FIRST, "nodes", list, draw_list(subject, query, list), 2);
    memcpy(nodes.own, list, nodes.bytes);
    list_keeps(&nodes);
    report_call(REGRET);
    struct vihrolom_reply reply = vihrolom_regret(subject->image.lent, subject->image.length, query.start, query.goal, nodes.lent, nodes.length);
    struct row due = ends_row(subject, query);
    if (due.number == 0) {
        long fault = list_fault(&subject->network, 0, query.start, query.goal, list, nodes.length);
        due = row_if(fault >= 0, VIHROLOM_NOT_A_PATH, fault >= 0 ? (uint32_t)fault : 0);
    }
    if (expect_reply(reply, due, 2) && (reply.v1 < 1 || reply.v1 > subject->network.k))
        report_wrong("the worst column is %u", reply.v1);
    expect_list(&nodes);
}

void expect_regret(struct subject *subject, struct query query, const uint16_t *path, struct vihrolom_reply given) {
    struct list nodes = list_of(SECOND, "nodes", path, given.v0, 2);
    report_call(REGRET);
    struct vihrolom_reply reply = vihrolom_regret(subject->image.lent, subject->image.length, query.start, query.goal, nodes.lent, nodes.length);
    expect_reply(reply, (struct row){0, 0}, 2);
    expect_value("the figure", reply.v0, given.v1);
    expect_value("the worst column", reply.v1, given.v2);
}

// ---- Rank and Robust

// The rows of the paths, each a path of its cost, and the costs climb.
static void expect_rows(const struct subject *subject, struct query query, uint32_t count, struct list *rows, struct list *costs) {
    const uint16_t *nodes = rows->lent;
    const uint32_t *given = costs->lent;
    if (count < 1 || count > query.wanted)
        report_wrong("%u paths", count);
    for (uint32_t i = 0; i < count; i++, nodes += query.n) {
        uint32_t length = query.n;
        while (length > 0 && nodes[length - 1] == 0)
            length--;
        expect_path(subject, query.column, query.start, query.goal, nodes, length);
        expect_value("the cost of a path", given[i], path_cost(&subject->network, query.column, nodes, length));
        if (i > 0 && given[i] < given[i - 1])
            report_wrong("the costs of paths %u and %u fall", i, i + 1);
    }
    memcpy(rows->due, rows->own, 2 * (size_t)count * query.n);
    memcpy(costs->due, costs->own, 4 * (size_t)count);
}

void call_rank(struct subject *subject) {
    struct query query = draw_query(subject);
    size_t paths = paths_of(query), rows_needed = VIHROLOM_ROWS_LENGTH(query.n, paths), work_needed = VIHROLOM_WORK_LENGTH(query.n, paths);
    struct list rows = list_to_write(FIRST, "rows", draw_length(rows_needed), 2);
    struct list costs = list_to_write(SECOND, "costs", draw_length(paths), 4);
    struct list work = list_to_write(THIRD, "work", draw_length(work_needed), 4);
    list_keeps(&rows);
    list_keeps(&costs);
    list_keeps(&work);
    report_call(RANK);
    struct vihrolom_reply reply = vihrolom_rank(subject->image.lent, subject->image.length, query.column, query.start, query.goal,
                                                query.wanted, rows.lent, rows.length, costs.lent, costs.length, work.lent, work.length);
    bool too_short = rows.length < rows_needed || costs.length < paths || work.length < work_needed;
    if (expect_reply(reply, last_rows(subject, query, query.column, ranking_row(subject, query), too_short), 1)) {
        expect_rows(subject, query, reply.v0, &rows, &costs);
        memset(work.due, 0, work.bytes);
    }
    expect_list(&rows);
    expect_list(&costs);
    expect_list(&work);
}

// Settled with no floor, or open with a floor that is no more than the figure, and K paths counted.
static void expect_state(struct query query, struct vihrolom_reply reply) {
    bool settled = reply.v4 == VIHROLOM_SETTLED && reply.v5 == 0 && reply.v3 >= 1 && reply.v3 <= query.wanted;
    bool open = reply.v4 == VIHROLOM_OPEN && reply.v5 < reply.v1 && reply.v3 == query.wanted;
    if (!settled && !open)
        report_wrong("state %u, count %u, floor %u", reply.v4, reply.v3, reply.v5);
}

void call_robust(struct subject *subject) {
    struct query query = draw_query(subject);
    size_t work_needed = VIHROLOM_WORK_LENGTH(query.n, paths_of(query));
    struct list path = list_to_write(FIRST, "path", draw_length(query.n), 2);
    struct list work = list_to_write(THIRD, "work", draw_length(work_needed), 4);
    list_keeps(&path);
    list_keeps(&work);
    report_call(ROBUST);
    struct vihrolom_reply reply = vihrolom_robust(subject->image.lent, subject->image.length, query.column, query.start, query.goal,
                                                  query.wanted, path.lent, path.length, work.lent, work.length);
    bool too_short = path.length < query.n || work.length < work_needed;
    bool result = expect_reply(reply, last_rows(subject, query, 0, ranking_row(subject, query), too_short), 6);
    if (result) {
        expect_path(subject, 0, query.start, query.goal, path.lent, reply.v0);
        expect_state(query, reply);
        memcpy(path.due, path.own, 2 * reply.v0);
        memset(work.due, 0, work.bytes);
    }
    expect_list(&path);
    expect_list(&work);
    if (result)
        expect_regret(subject, query, path.lent, reply);
}

struct vihrolom_reply robust_on(const struct list *image, struct query query, uint16_t *nodes) {
    struct list path = list_to_write(FIRST, "path", query.n, 2);
    struct list work = list_to_write(THIRD, "work", VIHROLOM_WORK_LENGTH(query.n, query.wanted), 4);
    report_call(ROBUST);
    struct vihrolom_reply reply = vihrolom_robust(image->lent, image->length, query.column, query.start, query.goal, query.wanted,
                                                  path.lent, path.length, work.lent, work.length);
    if (expect_reply(reply, row_if(reply.refusal != 0, VIHROLOM_NO_PATH, 0), 6))
        memcpy(nodes, path.own, 2 * reply.v0);
    return reply;
}

// ---- Search

// More arcs than that are not tried on networks of any size.
enum { MOST_TRIED = 20000 };

static uint32_t draw_limit(struct query query) {
    if (draw_chance(20))
        return draw_between(0, 40);
    return query.n <= 7 ? UINT32_MAX - draw_between(0, 1) : MOST_TRIED;
}

// Search with a limit, to a path that may be too short.
static struct vihrolom_reply search_within(struct subject *subject, struct query query, uint32_t limit, struct list *path) {
    list_keeps(path);
    report_call(SEARCH);
    struct vihrolom_reply reply = vihrolom_search(subject->image.lent, subject->image.length, query.start, query.goal, limit, path->lent, path->length);
    struct row rows = last_rows(subject, query, 0, ends_row(subject, query), path->length < query.n);
    bool more = reply.refusal == VIHROLOM_TOO_MANY_ARCS;
    if (expect_reply(reply, first_row(rows, row_if(more, VIHROLOM_TOO_MANY_ARCS, limit)), 4)) {
        expect_path(subject, 0, query.start, query.goal, path->lent, reply.v0);
        if (reply.v3 > limit || reply.v3 < reply.v0 - 1)
            report_wrong("%u arcs were tried", reply.v3);
        memcpy(path->due, path->own, 2 * reply.v0);
    }
    expect_list(path);
    return reply;
}

// What a settled Robust shows is the least figure, and what an open one shows lies around it.
static void expect_least(struct subject *subject, struct query query, uint32_t figure) {
    uint16_t path[VIHROLOM_MOST_NODES];
    query.column = draw_between(1, subject->network.k);
    query.wanted = draw_between(1, 40);
    struct vihrolom_reply robust = robust_on(&subject->image, query, path);
    bool settled = robust.v4 == VIHROLOM_SETTLED;
    if (figure > robust.v1 || figure < (settled ? robust.v1 : robust.v5))
        report_wrong("Robust shows the figure %u and the floor %u, Search %u", robust.v1, robust.v5, figure);
}

// The arcs that were tried are within the limit that is as many, and not within one less.
static void expect_limits(struct subject *subject, struct query query, struct vihrolom_reply given) {
    struct list path = list_to_write(FIRST, "path", query.n, 2);
    struct vihrolom_reply same = search_within(subject, query, given.v3, &path);
    expect_value("the refusal within the arcs tried", same.refusal, 0);
    expect_value("the figure within the arcs tried", same.v1, given.v1);
    expect_value("the arcs tried", same.v3, given.v3);
    struct vihrolom_reply less = search_within(subject, query, given.v3 - 1, &path);
    expect_value("the refusal within one arc less", less.refusal, VIHROLOM_TOO_MANY_ARCS);
}

void call_search(struct subject *subject) {
    struct query query = draw_query(subject);
    struct list path = list_to_write(FIRST, "path", draw_length(query.n), 2);
    struct vihrolom_reply reply = search_within(subject, query, draw_limit(query), &path);
    if (reply.refusal != 0)
        return;
    expect_regret(subject, query, path.lent, reply);
    if (draw_chance(50))
        expect_least(subject, query, reply.v1);
    else
        expect_limits(subject, query, reply);
}
