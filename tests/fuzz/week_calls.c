// Fresh and Event.
#include "draw.h"
#include "query.h"
#include "report.h"

#include <string.h>

// ---- states

static bool bit_of(const struct vihrolom_week *week, uint32_t arc) {
    return week->closed[arc / 64] >> (arc % 64) & 1;
}

static struct vihrolom_week turned(struct vihrolom_week week, uint32_t arc, bool close) {
    uint64_t bit = UINT64_C(1) << (arc % 64);
    week.closed[arc / 64] = close ? week.closed[arc / 64] | bit : week.closed[arc / 64] & ~bit;
    return week;
}

static uint32_t closed_below(const struct vihrolom_week *week, uint32_t m) {
    uint32_t count = 0;
    for (uint32_t arc = 0; arc < m; arc++)
        count += bit_of(week, arc);
    return count;
}

// A state has no bytes between its numbers.
static bool same_week(const struct vihrolom_week *is, const struct vihrolom_week *due) {
    return memcmp(is, due, sizeof *is) == 0;
}

static void expect_week(const char *what, struct vihrolom_week is, struct vihrolom_week due) {
    if (!same_week(&is, &due))
        report_wrong("%s: state %u, length %u, figure %u, worst %u, count %u, floor %u; must be %u, %u, %u, %u, %u, %u (or the map or the route is wrong)", what,
                     is.state, is.length, is.figure, is.worst, is.count, is.floor, due.state, due.length, due.figure, due.worst, due.count, due.floor);
}

// ---- Robust on the image without the closed arcs

static void leave_out(const struct network *network, const struct vihrolom_week *week, struct network *left) {
    *left = *network;
    left->m = network->m - closed_below(week, network->m);
    uint32_t at = 0;
    for (uint32_t arc = 0; arc < network->m; arc++) {
        if (bit_of(week, arc))
            continue;
        left->nodes[2 * at] = network->nodes[2 * arc];
        left->nodes[2 * at + 1] = network->nodes[2 * arc + 1];
        for (uint32_t column = 1; column <= network->k; column++)
            left->costs[(column - 1) * left->m + at] = arc_cost(network, column, arc);
        at++;
    }
}

// The state that a full run gives for the map of this one.
static struct vihrolom_week full_run(const struct subject *subject, struct query query, const struct vihrolom_week *map) {
    static struct network left;
    static uint8_t bytes[VIHROLOM_MOST_BYTES];
    leave_out(&subject->network, map, &left);
    struct list image = list_of(SECOND, "image without the closed arcs", bytes, write_image(&left, bytes), 1);
    memcpy(image.own, bytes, image.bytes);
    struct vihrolom_week week = {.state = VIHROLOM_NO_PATH};
    memcpy(week.closed, map->closed, sizeof week.closed);
    struct vihrolom_reply reply = robust_on(&image, query, week.route);
    if (reply.refusal != 0)
        return week;
    week.length = reply.v0;
    week.figure = reply.v1;
    week.worst = reply.v2;
    week.count = reply.v3;
    week.state = reply.v4;
    week.floor = reply.v5;
    return week;
}

// ---- the calls

static bool expect_week_reply(struct vihrolom_week_reply is, struct row due, uint32_t closed_roads) {
    expect_value("the refusal", is.refusal, due.number);
    expect_value("the place", is.place, due.place);
    expect_value("the closed roads", is.closed_roads, due.number == 0 ? closed_roads : 0);
    report_reply(due.number);
    return due.number == 0;
}

// Rows up to 13.
static struct row week_row(const struct subject *subject, struct query query, const struct list *work) {
    bool too_short = work->length < VIHROLOM_WORK_LENGTH(query.n, paths_of(query));
    return first_row(ranking_row(subject, query), row_if(too_short, VIHROLOM_SLICE_TOO_SHORT, 0));
}

static struct list draw_work(struct query query) {
    struct list work = list_to_write(THIRD, "work", draw_length(VIHROLOM_WORK_LENGTH(query.n, paths_of(query))), 4);
    list_keeps(&work);
    return work;
}

// A refused one is all 0.
static struct vihrolom_week_reply fresh(const struct subject *subject, struct query query) {
    struct list work = draw_work(query);
    report_call(FRESH);
    struct vihrolom_week_reply reply = vihrolom_week_fresh(subject->image.lent, subject->image.length, query.column, query.start, query.goal,
                                                           query.wanted, work.lent, work.length);
    const struct vihrolom_week none = {.state = 0};
    if (expect_week_reply(reply, week_row(subject, query, &work), 0))
        memset(work.due, 0, work.bytes);
    else
        expect_week("a refused fresh state", reply.week, none);
    expect_list(&work);
    if (reply.refusal == 0)
        expect_week("a fresh state", reply.week, full_run(subject, query, &none));
    return reply;
}

// An event, and what it says of the map. A refused one gives the state that was given.
static struct vihrolom_week_reply event(const struct subject *subject, struct query query, struct vihrolom_week given, uint32_t arc, uint32_t close) {
    struct list work = draw_work(query);
    report_call(EVENT);
    struct vihrolom_week_reply reply = vihrolom_week_event(subject->image.lent, subject->image.length, query.column, query.start, query.goal,
                                                           query.wanted, given, arc, close, work.lent, work.length);
    struct row due = first_row(week_row(subject, query, &work), row_if(arc >= subject->network.m, VIHROLOM_WRONG_EVENT_ARC, arc));
    struct vihrolom_week after = due.number == 0 ? turned(given, arc, close != 0) : given;
    if (expect_week_reply(reply, due, closed_below(&after, subject->network.m)))
        memset(work.due, 0, work.bytes);
    else
        expect_week("the state of a refused event", reply.week, given);
    expect_list(&work);
    if (memcmp(reply.week.closed, after.closed, sizeof after.closed) != 0)
        report_wrong("the map is wrong");
    return reply;
}

static uint32_t draw_arc(const struct subject *subject) {
    const struct network *network = subject->check.refusal == 0 ? &subject->network : subject->drawn;
    return network->m == 0 ? draw_number(0, 3) : draw_number(0, network->m - 1);
}

static uint32_t draw_close(void) {
    return draw_chance(90) ? draw_between(0, 1) : (uint32_t)draw();
}

// After each event the answer is that of a full run, but for the count, which may be an older one.
void call_week(struct subject *subject) {
    struct query query = draw_query(subject);
    struct vihrolom_week_reply begun = fresh(subject, query);
    if (begun.refusal != 0)
        return;
    struct vihrolom_week week = begun.week;
    for (uint32_t left = draw_between(0, 8); left > 0; left--) {
        uint32_t before = week.count;
        week = event(subject, query, week, draw_arc(subject), draw_close()).week;
        struct vihrolom_week due = full_run(subject, query, &week);
        if (week.count != due.count)
            expect_value("the count", week.count, before);
        due.count = week.count;
        expect_week("the state after an event", week, due);
    }
}

static struct vihrolom_week draw_week(const struct subject *subject) {
    static const uint32_t states[] = {0, VIHROLOM_SETTLED, VIHROLOM_SETTLED, VIHROLOM_OPEN, VIHROLOM_NO_PATH, 9, UINT32_MAX};
    struct vihrolom_week week;
    draw_bytes((uint8_t *)&week, sizeof week);
    for (int word = 0; word < 16 && draw_chance(90); word++)
        week.closed[word] &= draw() & draw();
    for (int place = 0; place < 200; place++)
        week.route[place] = (uint16_t)draw_number(0, subject->drawn->n);
    week.state = states[draw() % 7];
    week.length = draw_chance(80) ? draw_between(0, 12) : draw_number(0, 300);
    return week;
}

// An event that changes nothing gives the state back. Else a full run is made, unless a settled answer stands as it is.
void call_event(struct subject *subject) {
    struct query query = draw_query(subject);
    struct vihrolom_week given = draw_week(subject);
    uint32_t arc = draw_arc(subject), close = draw_close();
    struct vihrolom_week_reply reply = event(subject, query, given, arc, close);
    if (reply.refusal != 0)
        return;
    struct vihrolom_week standing = turned(given, arc, close != 0);
    bool changes = bit_of(&given, arc) != (close != 0), may_stand = close != 0 && given.state == VIHROLOM_SETTLED;
    if ((!changes || may_stand) && same_week(&reply.week, &standing))
        return;
    expect_week("the state after an event", reply.week, changes ? full_run(subject, query, &standing) : given);
}
