// A week in which roads close and reopen, for forty rooms: an event in which the answer stands beside one in which
// Robust runs again, beside Robust on the image without the closed roads, and beside the same answer found anew by
// igraph. Each state is held to Robust, and some to igraph. Prints the table "A week of closures" of docs/BENCHMARKS.md.
// With four numbers, for shape, likeness, K and kind, it makes the calls of one kind in `counted`, for callgrind.
#include "compare.h"
#include "outside.h"
#include "pairs.h"
#include "report.h"
#include "timing.h"
#include "yen.h"

#include <math.h>
#include <stdio.h>
#include <stdlib.h>
#include <string.h>

// Callgrind counts a shorter week; igraph takes long, and is asked on two days.
enum { ROOMS = 40, EVENTS = 100, FEW_ROOMS = 8, FEW_EVENTS = 40, BETWEEN_IGRAPH = 50, COLUMNS = 4, MOST_TIMES = ROOMS * EVENTS };

enum kind { STANDS, RUNS, ROBUST, IGRAPH, KINDS };

struct room {
    struct pair ends;
    struct vihrolom_week week;
    uint32_t best[COLUMNS];
};

struct event {
    uint32_t arc;
    bool close;
};

struct times {
    double of[KINDS][MOST_TIMES];
    unsigned count[KINDS];
};

static struct network whole, left;
static struct room rooms[ROOMS];
static uint64_t closed[16];
static uint32_t wanted, work[VIHROLOM_WORK_LENGTH(VIHROLOM_MOST_NODES, VIHROLOM_MOST_PATHS)];

static struct question asked(const struct network *net, const struct room *room) {
    return (struct question){net, 1, room->ends.start, room->ends.goal, wanted};
}

static void note(struct times *times, enum kind kind, double time) {
    times->of[kind][times->count[kind]++] = time;
}

// ---- what a call gives

static struct vihrolom_week_reply call_event(const struct room *room, struct event event) {
    size_t words = VIHROLOM_WORK_LENGTH(whole.n, wanted);
    return vihrolom_week_event(whole.image, whole.image_length, 1, room->ends.start, room->ends.goal, wanted, room->week, event.arc, event.close, work, words);
}

// The least cost in each column, over the roads that are left.
static void find_bests(const struct room *room, uint32_t *best) {
    uint16_t path[VIHROLOM_MOST_NODES];
    for (unsigned u = 1; u <= COLUMNS; u++) {
        struct vihrolom_reply r = vihrolom_shortest(left.image, left.image_length, u, room->ends.start, room->ends.goal, path, left.n);
        best[u - 1] = r.refusal == 0 ? r.v1 : UINT32_MAX;
    }
}

// Whether the answer stands, by the rule's own words: `best` has the bests after the event.
static bool stands(const struct room *room, struct event event, const uint32_t *best) {
    const struct vihrolom_week *week = &room->week;
    bool spared = event.close && week->state == VIHROLOM_SETTLED;
    for (unsigned i = 1; i < week->length; i++)
        spared = spared && (week->route[i - 1] != whole.tail[event.arc] || week->route[i] != whole.head[event.arc]);
    return spared && memcmp(room->best, best, sizeof room->best) == 0;
}

// The state after an event is Robust's last answer, on the roads that are left; its count is the old one if it stood.
static void hold_week(const struct question *q, const struct room *room, const struct vihrolom_week_reply *r, bool stood) {
    const struct vihrolom_reply *due = &by_robust.reply;
    const struct vihrolom_week *week = &r->week;
    bool none = due->refusal == VIHROLOM_NO_PATH;
    if (r->refusal != 0 || (due->refusal != 0 && !none) || week->state != (none ? VIHROLOM_NO_PATH : due->v4))
        fail(q, "an event's state is not that of Robust");
    if (week->length != due->v0 || memcmp(week->route, by_robust.path, 2 * week->length) != 0)
        fail(q, "an event's route is not that of Robust");
    if (week->figure != due->v1 || week->worst != due->v2 || week->floor != due->v5)
        fail(q, "an event's figures are not those of Robust");
    if (week->count != (stood ? room->week.count : due->v3))
        fail(q, "an event's count is not that of the last run");
    if (memcmp(week->closed, closed, sizeof closed) != 0)
        fail(q, "an event's map is another one");
}

// ---- a week

// A road closes, twice as often as one opens; it is drawn, and the network is then without it or has it again.
static struct event next_event(void) {
    struct event event;
    event.close = left.m == whole.m || draw(3) > 0;
    do
        event.arc = draw(whole.m);
    while ((closed[event.arc / 64] >> (event.arc % 64) & 1) == event.close);
    closed[event.arc / 64] ^= (uint64_t)1 << (event.arc % 64);
    leave_out(&left, &whole, closed);
    return event;
}

static void begin_week(enum shape shape, enum likeness likeness, unsigned count) {
    static struct pair pairs[ROOMS];
    size_t words = VIHROLOM_WORK_LENGTH(VIHROLOM_MOST_NODES, wanted);
    make_network(&whole, shape, 0, COLUMNS, likeness, MOST_BASE);
    draw_pairs(&whole, pairs, count);
    memset(closed, 0, sizeof closed);
    leave_out(&left, &whole, closed);
    for (unsigned i = 0; i < count; i++) {
        rooms[i].ends = pairs[i];
        rooms[i].week = vihrolom_week_fresh(whole.image, whole.image_length, 1, pairs[i].start, pairs[i].goal, wanted, work, words).week;
        find_bests(&rooms[i], rooms[i].best);
    }
}

// igraph's answer on the roads that are left: the best of each column, and one ranking, to which Robust's is held.
static void ask_igraph(const struct question *q, struct times *times) {
    uint32_t best[COLUMNS];
    double began = now();
    for (unsigned u = 1; u <= COLUMNS; u++) {
        yen_rank(u, q->start, q->goal, 1);
        best[u - 1] = yen_count() == 0 ? 0 : yen_cost(0, u);
    }
    yen_rank(q->column, q->start, q->goal, q->wanted);
    note(times, IGRAPH, now() - began);
    if (by_robust.reply.refusal == 0)
        hold_choice_to_yen(q, best);
}

// One event in one room, timed.
static void follow(struct room *room, struct event event, bool with_igraph, struct times *times) {
    struct question q = asked(&left, room);
    uint32_t best[COLUMNS];
    find_bests(room, best);
    bool stood = stands(room, event, best);
    double began = now();
    struct vihrolom_week_reply r = call_event(room, event);
    note(times, stood ? STANDS : RUNS, now() - began);
    double robust = time_robust(&q);
    if (stood)
        note(times, ROBUST, robust);
    hold_week(&q, room, &r, stood);
    if (with_igraph)
        ask_igraph(&q, times);
    room->week = r.week;
    memcpy(room->best, best, sizeof best);
}

static void measure_week(enum shape shape, enum likeness likeness, struct times *times) {
    begin_week(shape, likeness, ROOMS);
    memset(times->count, 0, sizeof times->count);
    for (unsigned i = 1; i <= EVENTS; i++) {
        struct event event = next_event();
        bool with_igraph = i % BETWEEN_IGRAPH == 0;
        if (with_igraph)
            yen_open(&left);
        for (unsigned j = 0; j < ROOMS; j++)
            follow(&rooms[j], event, with_igraph, times);
        if (with_igraph)
            yen_close();
    }
}

// ---- instructions

// Callgrind counts from the entry of this function to its end.
__attribute__((noinline)) void counted(const struct room *room, struct event event, enum kind kind) {
    struct question q = asked(&left, room);
    if (kind == ROBUST)
        time_robust(&q);
    else
        call_event(room, event);
}

// Makes the calls of one kind in a shorter week, and prints how many there were.
static int count_week(enum shape shape, enum likeness likeness, enum kind kind) {
    unsigned calls = 0;
    begin_week(shape, likeness, FEW_ROOMS);
    for (unsigned i = 0; i < FEW_EVENTS; i++) {
        struct event event = next_event();
        for (unsigned j = 0; j < FEW_ROOMS; j++) {
            uint32_t best[COLUMNS];
            find_bests(&rooms[j], best);
            if (stands(&rooms[j], event, best) == (kind != RUNS)) {
                counted(&rooms[j], event, kind);
                calls++;
            }
            rooms[j].week = call_event(&rooms[j], event).week;
            memcpy(rooms[j].best, best, sizeof best);
        }
    }
    printf("counted %u\n", calls);
    return 0;
}

// Thousands of instructions of one call of a kind; NAN if there was none.
static double thousands(enum shape shape, enum likeness likeness, enum kind kind) {
    struct question q = asked(&whole, rooms);
    char words[100];
    double calls;
    snprintf(words, sizeof words, "weeks %u %u %u %u", shape, likeness, wanted, kind);
    double all = collected(&q, words, &calls);
    return calls == 0 ? NAN : all / calls / 1000;
}

// ---- the table

static double median_of(struct times *times, enum kind kind) {
    return times->count[kind] == 0 ? NAN : median(times->of[kind], times->count[kind]);
}

static void ratio_cell(double ratio) {
    if (isnan(ratio))
        cell("-");
    else
        cell(ratio < 10 ? "%.1f" : "%.0f", ratio);
}

static void row(enum shape shape, enum likeness likeness) {
    static struct times times;
    measure_week(shape, likeness, &times);
    double standing = median_of(&times, STANDS), igraph = median_of(&times, IGRAPH);
    cell("%s", shape_names[shape]);
    cell("%s", likeness_names[likeness]);
    cell("%u", wanted);
    cell("%u", times.count[STANDS]);
    cell("%u", times.count[RUNS]);
    time_cell(standing);
    time_cell(median_of(&times, RUNS));
    double robust = median_of(&times, ROBUST);
    time_cell(robust);
    time_cell(igraph);
    ratio_cell(robust / standing);
    ratio_cell(igraph / standing);
    for (enum kind kind = STANDS; kind <= ROBUST; kind++)
        time_cell(thousands(shape, likeness, kind));
    end_row();
}

int main(int words, char **word) {
    if (words == 5) {
        wanted = (uint32_t)atoi(word[3]);
        return count_week(atoi(word[1]), atoi(word[2]), atoi(word[4]));
    }
    static const enum shape shapes[] = {GRID, LAYERED};
    static const uint32_t limits[] = {48, VIHROLOM_MOST_PATHS};
    table("A week of closures", "| network | columns | K | answers that stand | found anew | time, stands | anew | Robust | igraph | Robust / stands | igraph / stands | instructions, stands | anew | Robust |");
    for (unsigned s = 0; s < 2; s++)
        for (enum likeness likeness = WITHIN_10; likeness < LIKENESSES; likeness++)
            for (unsigned i = 0; i < 2; i++) {
                wanted = limits[i];
                row(shapes[s], likeness);
            }
    return 0;
}
