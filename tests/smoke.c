// Calls the C functions on the cases of docs/REFERENCE.md and on an example of each refusal. Every
// lent list stands at the beginning of a longer buffer that holds a pattern, and after each call the whole
// buffer is held to what it has to be: what is written, what is kept, and what lies behind the list.
// Prints the number of checks; stops at the first that fails, with exit status 1. C99, and C++ as well.
#include "vihrolom.h"

#include <stdio.h>
#include <stdlib.h>
#include <string.h>

enum { PATTERN = 165, ROOM = 4096 };

union buffer {
    uint8_t bytes[ROOM];
    uint16_t nodes[ROOM / 2];
    uint32_t numbers[ROOM / 4];
};

// A list of `length` elements, as it is and as it has to be after a call.
struct list {
    size_t length;
    union buffer is, due;
};

typedef struct vihrolom_reply reply;
typedef struct vihrolom_week week;
typedef struct vihrolom_week_reply week_reply;

static const char *running = "";
static unsigned checks;

// ---- checks

static void expect(const char *what, unsigned long is, unsigned long due) {
    if (is != due) {
        fprintf(stderr, "smoke: %s: %s is %lu, must be %lu\n", running, what, is, due);
        exit(1);
    }
    checks++;
}

static void expect_reply(reply is, reply due) {
    expect("refusal", is.refusal, due.refusal);
    expect("place", is.place, due.place);
    expect("v0", is.v0, due.v0);
    expect("v1", is.v1, due.v1);
    expect("v2", is.v2, due.v2);
    expect("v3", is.v3, due.v3);
    expect("v4", is.v4, due.v4);
    expect("v5", is.v5, due.v5);
}

// Its numbers and its state, in which there is no place between the fields.
static void expect_week(week_reply is, week_reply due) {
    expect("refusal", is.refusal, due.refusal);
    expect("place", is.place, due.place);
    expect("closed roads", is.closed_roads, due.closed_roads);
    expect("the size of a state", sizeof is.week, 8 * 16 + 2 * 200 + 4 * 6);
    expect("state", is.week.state, due.week.state);
    expect("length", is.week.length, due.week.length);
    expect("figure", is.week.figure, due.week.figure);
    expect("worst column", is.week.worst, due.week.worst);
    expect("count", is.week.count, due.week.count);
    expect("floor", is.week.floor, due.week.floor);
    expect("a difference in the map", memcmp(is.week.closed, due.week.closed, sizeof due.week.closed) != 0, 0);
    expect("a difference in the route", memcmp(is.week.route, due.week.route, sizeof due.week.route) != 0, 0);
}

static void expect_list(const char *what, const struct list *list) {
    for (size_t i = 0; i < ROOM; i++)
        if (list->is.bytes[i] != list->due.bytes[i]) {
            fprintf(stderr, "smoke: %s: byte %zu of %s is %u, must be %u\n", running, i, what, list->is.bytes[i], list->due.bytes[i]);
            exit(1);
        }
    checks++;
}

// ---- lists

// A list to write to, with so many places.
static struct list places(size_t length) {
    struct list list;
    list.length = length;
    memset(&list.is, PATTERN, ROOM);
    memset(&list.due, PATTERN, ROOM);
    return list;
}

// What a call has to write over the list's beginning; `elements` is null if it writes nothing.
static void written(struct list *list, const void *elements, size_t bytes) {
    if (elements != NULL)
        memcpy(&list->due, elements, bytes);
}

// A list to read.
static struct list elements(const void *content, size_t length, size_t width) {
    struct list list = places(length);
    memcpy(&list.is, content, length * width);
    memcpy(&list.due, content, length * width);
    return list;
}

static struct list bytes(const uint8_t *content, size_t length) {
    return elements(content, length, 1);
}

static struct list nodes(const uint16_t *content, size_t length) {
    return elements(content, length, 2);
}

static struct list numbers(const uint32_t *content, size_t length) {
    return elements(content, length, 4);
}

// A workspace, which after a result is 0.
static struct list workspace(size_t length, uint32_t refusal) {
    struct list list = places(length);
    if (refusal == 0)
        memset(&list.due, 0, 4 * length);
    return list;
}

// ---- network S

static const uint16_t S_nodes[] = {1, 2, 1, 3, 2, 3, 2, 4, 3, 4};
static const uint32_t S_costs[] = {2, 5, 1, 6, 2, 4, 1, 2, 1, 7};
static const uint8_t S_image[] = {
    1, 0, 4, 0, 5, 0, 2, 0, 24, 0, 0, 0, 44, 0, 0, 0, 84, 0, 0, 0, 0, 0, 0, 0, // edition, n, m, k, 24, 44, 84, 0
    1, 0, 2, 0, 1, 0, 3, 0, 2, 0, 3, 0, 2, 0, 4, 0, 3, 0, 4, 0,                // the arcs
    2, 0, 0, 0, 5, 0, 0, 0, 1, 0, 0, 0, 6, 0, 0, 0, 2, 0, 0, 0,                // column 1
    4, 0, 0, 0, 1, 0, 0, 0, 2, 0, 0, 0, 1, 0, 0, 0, 7, 0, 0, 0,                // column 2
};

enum { N = 4, M = 5, COLUMNS = 2 };

// The image of the cases below.
static struct list image;

// ---- one case of each call: what is given to it, and what it has to give and write

static void build_case(const char *name, uint32_t edition, uint32_t n, uint32_t k, struct list arcs, struct list costs, size_t room, reply due, const uint8_t *result) {
    running = name;
    struct list target = places(room);
    written(&target, result, due.v0);
    expect_reply(vihrolom_build(edition, n, k, arcs.is.nodes, arcs.length, costs.is.numbers, costs.length, target.is.bytes, target.length), due);
    expect_list("the nodes", &arcs);
    expect_list("the costs", &costs);
    expect_list("the image", &target);
}

static void check_case(const char *name, struct list source, reply due) {
    running = name;
    expect_reply(vihrolom_check(source.is.bytes, source.length), due);
    expect_list("the image", &source);
}

static void unpack_case(const char *name, size_t nodes_room, size_t costs_room, reply due, const uint16_t *arcs, const uint32_t *prices) {
    running = name;
    struct list ends = places(nodes_room), costs = places(costs_room);
    written(&ends, arcs, sizeof S_nodes);
    written(&costs, prices, sizeof S_costs);
    expect_reply(vihrolom_unpack(image.is.bytes, image.length, ends.is.nodes, ends.length, costs.is.numbers, costs.length), due);
    expect_list("the image", &image);
    expect_list("the nodes", &ends);
    expect_list("the costs", &costs);
}

static void label_case(const char *name, uint32_t column, uint32_t goal, size_t room, reply due, const uint32_t *result) {
    running = name;
    struct list labels = places(room);
    written(&labels, result, 4 * N);
    expect_reply(vihrolom_label(image.is.bytes, image.length, column, goal, labels.is.numbers, labels.length), due);
    expect_list("the image", &image);
    expect_list("the labels", &labels);
}

static void shortest_case(const char *name, uint32_t column, uint32_t start, uint32_t goal, size_t room, reply due, const uint16_t *result) {
    running = name;
    struct list path = places(room);
    written(&path, result, 2 * due.v0);
    expect_reply(vihrolom_shortest(image.is.bytes, image.length, column, start, goal, path.is.nodes, path.length), due);
    expect_list("the image", &image);
    expect_list("the path", &path);
}

static void regret_case(const char *name, uint32_t start, uint32_t goal, struct list path, reply due) {
    running = name;
    expect_reply(vihrolom_regret(image.is.bytes, image.length, start, goal, path.is.nodes, path.length), due);
    expect_list("the image", &image);
    expect_list("the path", &path);
}

// Rows and costs have places for `wanted` paths and some more, the workspace has `room`.
static void rank_case(const char *name, uint32_t column, uint32_t start, uint32_t goal, uint32_t wanted, size_t room, reply due, const uint16_t *paths, const uint32_t *prices) {
    running = name;
    struct list rows = places(VIHROLOM_ROWS_LENGTH(N, wanted) + 3), costs = places(wanted + 2), work = workspace(room, due.refusal);
    written(&rows, paths, 2 * VIHROLOM_ROWS_LENGTH(N, due.v0));
    written(&costs, prices, 4 * due.v0);
    expect_reply(vihrolom_rank(image.is.bytes, image.length, column, start, goal, wanted, rows.is.nodes, rows.length, costs.is.numbers, costs.length, work.is.numbers, work.length), due);
    expect_list("the image", &image);
    expect_list("the rows", &rows);
    expect_list("the costs", &costs);
    expect_list("the workspace", &work);
}

static void robust_case(const char *name, uint32_t column, uint32_t start, uint32_t goal, uint32_t wanted, size_t path_room, size_t room, reply due, const uint16_t *result) {
    running = name;
    struct list path = places(path_room), work = workspace(room, due.refusal);
    written(&path, result, 2 * due.v0);
    expect_reply(vihrolom_robust(image.is.bytes, image.length, column, start, goal, wanted, path.is.nodes, path.length, work.is.numbers, work.length), due);
    expect_list("the image", &image);
    expect_list("the path", &path);
    expect_list("the workspace", &work);
}

static void find_case(const char *name, uint32_t tail, uint32_t head, reply due) {
    running = name;
    expect_reply(vihrolom_find(image.is.bytes, image.length, tail, head), due);
    expect_list("the image", &image);
}

static void search_case(const char *name, uint32_t start, uint32_t goal, uint32_t limit, size_t room, reply due, const uint16_t *result) {
    running = name;
    struct list path = places(room);
    written(&path, result, 2 * due.v0);
    expect_reply(vihrolom_search(image.is.bytes, image.length, start, goal, limit, path.is.nodes, path.length), due);
    expect_list("the image", &image);
    expect_list("the path", &path);
}

// The image is written; `result` is null if it must stay as it is.
static void update_case(const char *name, struct list target, struct list records, reply due, const uint32_t *result) {
    running = name;
    for (size_t i = 0; result != NULL && i < M * COLUMNS; i++)
        for (size_t byte = 0; byte < 4; byte++)
            target.due.bytes[24 + 4 * M + 4 * i + byte] = (uint8_t)(result[i] >> (8 * byte));
    expect_reply(vihrolom_update(target.is.bytes, target.length, records.is.numbers, records.length), due);
    expect_list("the image", &target);
    expect_list("the records", &records);
}

static week fresh_case(const char *name, uint32_t column, uint32_t start, uint32_t goal, uint32_t wanted, size_t room, week_reply due) {
    running = name;
    struct list work = workspace(room, due.refusal);
    week_reply is = vihrolom_week_fresh(image.is.bytes, image.length, column, start, goal, wanted, work.is.numbers, work.length);
    expect_week(is, due);
    expect_list("the image", &image);
    expect_list("the workspace", &work);
    return is.week;
}

// From 1 to 4. Gives the state after the event, which is the one before it if it is refused.
static week event_case(const char *name, uint32_t column, uint32_t wanted, week before, uint32_t arc, uint32_t close, size_t room, week_reply due) {
    running = name;
    struct list work = workspace(room, due.refusal);
    week_reply is = vihrolom_week_event(image.is.bytes, image.length, column, 1, 4, wanted, before, arc, close, work.is.numbers, work.length);
    expect_week(is, due);
    expect_list("the image", &image);
    expect_list("the workspace", &work);
    return is.week;
}

// ---- replies

static reply gives(uint32_t v0, uint32_t v1, uint32_t v2) {
    reply due = {0, 0, v0, v1, v2, 0, 0, 0};
    return due;
}

// Search's: length, figure, worst column and the arcs tried.
static reply finds(uint32_t length, uint32_t figure, uint32_t worst, uint32_t tried) {
    reply due = {0, 0, length, figure, worst, tried, 0, 0};
    return due;
}

// The sizes of S, in an edition.
static reply sizes_in(uint32_t edition) {
    reply due = {0, 0, N, M, COLUMNS, edition, 0, 0};
    return due;
}

static reply refused(uint32_t row, uint32_t place) {
    reply due = {row, place, 0, 0, 0, 0, 0, 0};
    return due;
}

// ---- the cases

static void build_cases(void) {
    struct list arcs = nodes(S_nodes, 2 * M), costs = numbers(S_costs, M * COLUMNS);
    build_case("Build S", 1, N, COLUMNS, arcs, costs, sizeof S_image + 3, gives(84, 0, 0), S_image);
    build_case("Build with edition 0", 0, 1, COLUMNS, arcs, costs, sizeof S_image, refused(VIHROLOM_WRONG_EDITION, 0), NULL);
    build_case("Build with edition 3", 3, N, COLUMNS, arcs, costs, sizeof S_image, refused(VIHROLOM_WRONG_EDITION, 0), NULL);
    build_case("Build with n = 1", 1, 1, COLUMNS, arcs, costs, sizeof S_image, refused(VIHROLOM_SIZE_OUT_OF_RANGE, 0), NULL);
    build_case("Build with an odd node list", 1, N, COLUMNS, nodes(S_nodes, 2 * M - 1), costs, sizeof S_image, refused(VIHROLOM_WRONG_FIELD, 0), NULL);
    build_case("Build with a cost too few", 1, N, COLUMNS, arcs, numbers(S_costs, M * COLUMNS - 1), sizeof S_image, refused(VIHROLOM_WRONG_FIELD, 0), NULL);
    build_case("Build with n = 3", 1, 3, COLUMNS, arcs, costs, sizeof S_image, refused(VIHROLOM_ARC_OUT_OF_RANGE, 3), NULL);
    const uint32_t dear[] = {0, 1000000, 1000001};
    build_case("Build with cost 1,000,001", 1, N, 3, nodes(S_nodes, 2), numbers(dear, 3), sizeof S_image, refused(VIHROLOM_COST_TOO_LARGE, 2), NULL);
    const uint32_t marked[] = {0, VIHROLOM_CLOSED, VIHROLOM_CLOSED - 1};
    build_case("Build with the mark in edition 1", 1, N, 3, nodes(S_nodes, 2), numbers(marked, 3), sizeof S_image, refused(VIHROLOM_COST_TOO_LARGE, 1), NULL);
    build_case("Build with one less than the mark in edition 2", 2, N, 3, nodes(S_nodes, 2), numbers(marked, 3), sizeof S_image, refused(VIHROLOM_COST_TOO_LARGE, 2), NULL);
    build_case("Build into 83 bytes", 1, N, COLUMNS, arcs, costs, sizeof S_image - 1, refused(VIHROLOM_SLICE_TOO_SHORT, 0), NULL);
}

// S with one byte replaced.
static struct list damaged(size_t offset, uint8_t byte) {
    struct list source = bytes(S_image, sizeof S_image);
    source.is.bytes[offset] = source.due.bytes[offset] = byte;
    return source;
}

static void check_cases(void) {
    struct list longer = bytes(S_image, sizeof S_image);
    longer.length++;
    check_case("Check S", bytes(S_image, sizeof S_image), sizes_in(1));
    check_case("Check S in edition 2", damaged(0, 2), sizes_in(2));
    check_case("Check an empty image", bytes(S_image, 0), refused(VIHROLOM_IMAGE_TOO_SHORT, 0));
    check_case("Check edition 0", damaged(0, 0), refused(VIHROLOM_WRONG_EDITION, 0));
    check_case("Check edition 3", damaged(0, 3), refused(VIHROLOM_WRONG_EDITION, 0));
    check_case("Check edition 7", damaged(0, 7), refused(VIHROLOM_WRONG_EDITION, 0));
    check_case("Check n = 1", damaged(2, 1), refused(VIHROLOM_SIZE_OUT_OF_RANGE, 0));
    check_case("Check reserved = 1", damaged(20, 1), refused(VIHROLOM_WRONG_FIELD, 0));
    check_case("Check one byte added", longer, refused(VIHROLOM_WRONG_LENGTH, 0));
    check_case("Check arc 0 2", damaged(24, 0), refused(VIHROLOM_ARC_OUT_OF_RANGE, 0));
    check_case("Check arc 2 2", damaged(34, 2), refused(VIHROLOM_ARC_TO_ITSELF, 2));
    check_case("Check arc 1 2 twice", damaged(30, 2), refused(VIHROLOM_ARC_NOT_RISING, 1));
    check_case("Check a cost above 1,000,000", damaged(82, 16), refused(VIHROLOM_COST_TOO_LARGE, 9));
}

static void unpack_cases(void) {
    unpack_case("Unpack S", 2 * M + 1, M * COLUMNS + 1, sizes_in(1), S_nodes, S_costs);
    unpack_case("Unpack with 9 places for nodes", 2 * M - 1, M * COLUMNS, refused(VIHROLOM_SLICE_TOO_SHORT, 0), NULL, NULL);
    unpack_case("Unpack with 9 places for costs", 2 * M, M * COLUMNS - 1, refused(VIHROLOM_SLICE_TOO_SHORT, 0), NULL, NULL);
    image = damaged(0, 7);
    unpack_case("Unpack edition 7", 2 * M, M * COLUMNS, refused(VIHROLOM_WRONG_EDITION, 0), NULL, NULL);
    image = bytes(S_image, sizeof S_image);
}

static void update_cases(void) {
    struct list s = bytes(S_image, sizeof S_image), refused_image = damaged(24, 0);
    // arc, column, cost, stamp; the third and the second count
    const uint32_t told[] = {0, 1, 8, 5, 4, 2, 3, 0, 0, 1, 9, 5, 0, 1, 7, 4};
    const uint32_t after[] = {9, 5, 1, 6, 2, 4, 1, 2, 1, 3};
    update_case("Update S", s, numbers(told, 16), gives(0, 0, 0), after);
    update_case("Update S by no record", s, numbers(told, 0), gives(0, 0, 0), S_costs);
    const uint32_t shut[] = {1, 2, VIHROLOM_CLOSED, 0}, shut_costs[] = {2, 5, 1, 6, 2, 4, VIHROLOM_CLOSED, 2, 1, 7};
    update_case("Update closes an arc in edition 2", damaged(0, 2), numbers(shut, 4), gives(0, 0, 0), shut_costs);
    update_case("Update closes an arc in edition 1", s, numbers(shut, 4), refused(VIHROLOM_COST_TOO_LARGE, 0), NULL);
    const uint32_t arc[] = {0, 1, 8, 5, 5, 3, 1000001, 0}, column[] = {0, 1, 8, 5, 0, 3, 1000001, 0};
    const uint32_t cost[] = {0, 1, 8, 5, 0, 1, 8, 5, 0, 1, 1000001, 0};
    update_case("Update with arc 5", s, numbers(arc, 8), refused(VIHROLOM_WRONG_RECORD_ARC, 1), NULL);
    update_case("Update with column 3", s, numbers(column, 8), refused(VIHROLOM_WRONG_RECORD_COLUMN, 1), NULL);
    update_case("Update with a cost above 1,000,000 that loses", s, numbers(cost, 12), refused(VIHROLOM_COST_TOO_LARGE, 2), NULL);
    update_case("Update by seven numbers", s, numbers(arc, 7), refused(VIHROLOM_WRONG_FIELD, 0), NULL);
    update_case("Update an image with arc 0 2 by seven numbers", refused_image, numbers(arc, 7), refused(VIHROLOM_WRONG_FIELD, 0), NULL);
    update_case("Update an image with arc 0 2", refused_image, numbers(arc, 8), refused(VIHROLOM_ARC_OUT_OF_RANGE, 0), NULL);
    update_case("Update edition 7 by seven numbers", damaged(0, 7), numbers(arc, 7), refused(VIHROLOM_WRONG_EDITION, 0), NULL);
}

static void label_cases(void) {
    const uint32_t first[] = {5, 3, 2, 0}, second[] = {5, 1, 7, 0}, apart[] = {0, VIHROLOM_UNREACHED, VIHROLOM_UNREACHED, VIHROLOM_UNREACHED};
    label_case("Label column 1, goal 4", 1, 4, N + 2, gives(0, 0, 0), first);
    label_case("Label column 2, goal 4", 2, 4, N, gives(0, 0, 0), second);
    label_case("Label column 1, goal 1", 1, 1, N, gives(0, 0, 0), apart);
    label_case("Label with goal 5", 1, 5, N, refused(VIHROLOM_WRONG_ENDS, 0), NULL);
    label_case("Label with column 0", 0, 4, N, refused(VIHROLOM_WRONG_COLUMN, 0), NULL);
    label_case("Label into 3 places", 1, 4, N - 1, refused(VIHROLOM_SLICE_TOO_SHORT, 0), NULL);
}

static const uint16_t by_2_and_3[] = {1, 2, 3, 4}, by_3[] = {1, 3, 4}, by_2[] = {1, 2, 4};

static void shortest_cases(void) {
    shortest_case("Shortest column 1", 1, 1, 4, N + 2, gives(4, 5, 0), by_2_and_3);
    shortest_case("Shortest column 2", 2, 1, 4, N, gives(3, 5, 0), by_2);
    shortest_case("Shortest from 1 to 1", 1, 1, 1, N, refused(VIHROLOM_WRONG_ENDS, 0), NULL);
    shortest_case("Shortest in column 3", 3, 1, 4, N, refused(VIHROLOM_WRONG_COLUMN, 0), NULL);
    shortest_case("Shortest into 3 places", 1, 1, 4, N - 1, refused(VIHROLOM_SLICE_TOO_SHORT, 0), NULL);
    shortest_case("Shortest from 4 to 1", 1, 4, 1, N, refused(VIHROLOM_NO_PATH, 0), NULL);
}

static void regret_cases(void) {
    const uint16_t none[] = {1, 4}, back[] = {1, 2, 1};
    regret_case("Regret of 1 2 4", 1, 4, nodes(by_2, 3), gives(3, 1, 0));
    regret_case("Regret of 1 3 4", 1, 4, nodes(by_3, 3), gives(3, 2, 0));
    regret_case("Regret of 1 2 3 4", 1, 4, nodes(by_2_and_3, 4), gives(8, 2, 0));
    regret_case("Regret with goal 5", 1, 5, nodes(by_2, 3), refused(VIHROLOM_WRONG_ENDS, 0));
    regret_case("Regret of an empty list", 1, 4, nodes(by_2, 0), refused(VIHROLOM_NOT_A_PATH, 0));
    regret_case("Regret of 1 2", 1, 4, nodes(by_2, 2), refused(VIHROLOM_NOT_A_PATH, 2));
    regret_case("Regret of 1 4", 1, 4, nodes(none, 2), refused(VIHROLOM_NOT_A_PATH, 1));
    regret_case("Regret of 1 2 1", 1, 4, nodes(back, 3), refused(VIHROLOM_NOT_A_PATH, 2));
}

static void rank_cases(void) {
    const uint16_t first[] = {1, 2, 3, 4, 1, 3, 4, 0, 1, 2, 4, 0}, second[] = {1, 2, 4, 0, 1, 3, 4, 0, 1, 2, 3, 4};
    const uint32_t first_costs[] = {5, 7, 8}, second_costs[] = {5, 8, 13};
    const size_t work = VIHROLOM_WORK_LENGTH(N, 5);
    rank_case("Rank column 1, K = 5", 1, 1, 4, 5, work + 2, gives(3, 0, 0), first, first_costs);
    rank_case("Rank column 1, K = 2", 1, 1, 4, 2, VIHROLOM_WORK_LENGTH(N, 2), gives(2, 0, 0), first, first_costs);
    rank_case("Rank column 2, K = 5", 2, 1, 4, 5, work, gives(3, 0, 0), second, second_costs);
    rank_case("Rank with start 0", 1, 0, 4, 5, work, refused(VIHROLOM_WRONG_ENDS, 0), NULL, NULL);
    rank_case("Rank with K = 0", 1, 1, 4, 0, work, refused(VIHROLOM_WRONG_PATH_COUNT, 0), NULL, NULL);
    rank_case("Rank with K = 257", 1, 1, 4, 257, work, refused(VIHROLOM_WRONG_PATH_COUNT, 0), NULL, NULL);
    rank_case("Rank with an empty workspace", 1, 1, 4, 5, 0, refused(VIHROLOM_SLICE_TOO_SHORT, 0), NULL, NULL);
    rank_case("Rank with a place too few in the workspace", 1, 1, 4, 5, work - 1, refused(VIHROLOM_SLICE_TOO_SHORT, 0), NULL, NULL);
    rank_case("Rank from 4 to 1", 1, 4, 1, 5, work, refused(VIHROLOM_NO_PATH, 0), NULL, NULL);
}

static void robust_cases(void) {
    // length, figure, worst column, count, state, floor
    const reply settled = {0, 0, 3, 3, 2, 2, VIHROLOM_SETTLED, 0};
    const reply unsettled = {0, 0, 4, 8, 2, 1, VIHROLOM_OPEN, 2};
    const reply at_once = {0, 0, 3, 3, 1, 1, VIHROLOM_SETTLED, 0};
    const size_t one = VIHROLOM_WORK_LENGTH(N, 1), two = VIHROLOM_WORK_LENGTH(N, 2);
    robust_case("Robust column 1, K = 2", 1, 1, 4, 2, N + 2, two + 2, settled, by_3);
    robust_case("Robust column 1, K = 1", 1, 1, 4, 1, N, one, unsettled, by_2_and_3);
    robust_case("Robust column 2, K = 1", 2, 1, 4, 1, N, one, at_once, by_2);
    robust_case("Robust in column 3", 3, 1, 4, 2, N, two, refused(VIHROLOM_WRONG_COLUMN, 0), NULL);
    robust_case("Robust with K = 257", 1, 1, 4, 257, N, two, refused(VIHROLOM_WRONG_PATH_COUNT, 0), NULL);
    robust_case("Robust into 3 places", 1, 1, 4, 2, N - 1, two, refused(VIHROLOM_SLICE_TOO_SHORT, 0), NULL);
    robust_case("Robust with a place too few in the workspace", 1, 1, 4, 2, N, two - 1, refused(VIHROLOM_SLICE_TOO_SHORT, 0), NULL);
    robust_case("Robust from 4 to 1", 1, 4, 1, 2, N, two, refused(VIHROLOM_NO_PATH, 0), NULL);
}

static void find_cases(void) {
    find_case("Find 2 3", 2, 3, gives(1, 2, 1));
    find_case("Find 1 2", 1, 2, gives(1, 0, 2));
    find_case("Find 3 4", 3, 4, gives(1, 4, 3));
    find_case("Find 4 1", 4, 1, gives(0, 0, 3));
    find_case("Find 0 0", 0, 0, gives(0, 0, 2));
    find_case("Find 1 65538", 1, 65538, gives(0, 0, 3));
    find_case("Find 4294967295 2", UINT32_MAX, 2, gives(0, 0, 3));
    image = damaged(0, 7);
    find_case("Find in edition 7", 2, 3, refused(VIHROLOM_WRONG_EDITION, 0));
    image = bytes(S_image, sizeof S_image);
}

static void search_cases(void) {
    search_case("Search with limit 5", 1, 4, 5, N + 2, finds(3, 3, 1, 5), by_2);
    search_case("Search with the largest limit", 1, 4, UINT32_MAX, N, finds(3, 3, 1, 5), by_2);
    search_case("Search from 2", 2, 4, 3, N, finds(2, 3, 1, 3), by_2 + 1);
    search_case("Search with limit 4", 1, 4, 4, N + 2, refused(VIHROLOM_TOO_MANY_ARCS, 4), NULL);
    search_case("Search with limit 0", 1, 4, 0, N, refused(VIHROLOM_TOO_MANY_ARCS, 0), NULL);
    search_case("Search from 1 to 1", 1, 1, 5, N, refused(VIHROLOM_WRONG_ENDS, 0), NULL);
    search_case("Search to 5", 1, 5, 5, 0, refused(VIHROLOM_WRONG_ENDS, 0), NULL);
    search_case("Search into 3 places", 1, 4, 0, N - 1, refused(VIHROLOM_SLICE_TOO_SHORT, 0), NULL);
    search_case("Search from 4 to 1 with limit 0", 4, 1, 0, N, refused(VIHROLOM_NO_PATH, 0), NULL);
    image = damaged(0, 7);
    search_case("Search in edition 7", 0, 0, 0, 0, refused(VIHROLOM_WRONG_EDITION, 0), NULL);
    image = bytes(S_image, sizeof S_image);
}

// The image that Build makes of a network with one column.
static struct list built(uint32_t n, struct list arcs, struct list costs) {
    struct list made = places(VIHROLOM_IMAGE_LENGTH(costs.length, 1));
    expect_reply(vihrolom_build(1, n, 1, arcs.is.nodes, arcs.length, costs.is.numbers, costs.length, made.is.bytes, made.length), gives((uint32_t)made.length, 0, 0));
    written(&made, &made.is, made.length);
    expect_list("the image", &made);
    return bytes(made.is.bytes, made.length);
}

// The three cases of REFERENCE, section 8, that are not on S.
static void other_networks(void) {
    const uint16_t ring[] = {1, 3, 2, 3, 2, 4, 3, 2, 3, 4}, ranked[] = {1, 3, 2, 4, 1, 3, 4, 0};
    const uint32_t nothing[] = {0, 0, 0, 0, 0};
    running = "Build with all costs 0";
    image = built(N, nodes(ring, 10), numbers(nothing, 5));
    rank_case("Rank with all costs 0, K = 5", 1, 1, 4, 5, VIHROLOM_WORK_LENGTH(N, 5), gives(2, 0, 0), ranked, nothing);
    search_case("Search with all costs 0", 1, 4, 4, N, finds(4, 0, 1, 4), ranked);

    running = "Build with n = 2, m = 0, k = 1";
    image = built(2, nodes(ring, 0), numbers(nothing, 0));
    expect("the length", image.length, 24);
    find_case("Find with n = 2, m = 0, k = 1", 1, 2, gives(0, 0, 0));
    robust_case("Robust with n = 2, m = 0, k = 1", 1, 1, 2, 1, 2, VIHROLOM_WORK_LENGTH(2, 1), refused(VIHROLOM_NO_PATH, 0), NULL);
    search_case("Search with n = 2, m = 0, k = 1", 1, 2, 0, 2, refused(VIHROLOM_NO_PATH, 0), NULL);

    uint16_t line[2 * 199], path[200];
    uint32_t dear[199];
    for (unsigned i = 0; i < 199; i++) {
        line[2 * i] = (uint16_t)(i + 1);
        line[2 * i + 1] = (uint16_t)(i + 2);
        dear[i] = VIHROLOM_MOST_COST;
    }
    for (unsigned i = 0; i < 200; i++)
        path[i] = (uint16_t)(i + 1);
    running = "Build 200 nodes in a line";
    image = built(200, nodes(line, 2 * 199), numbers(dear, 199));
    shortest_case("Shortest on 200 nodes in a line", 1, 1, 200, 200, gives(200, 199000000, 0), path);
    search_case("Search on 200 nodes in a line", 1, 200, 199, 200, finds(200, 0, 1, 199), path);
    search_case("Search on 200 nodes in a line with limit 198", 1, 200, 198, 200, refused(VIHROLOM_TOO_MANY_ARCS, 198), NULL);
}

// S in edition 2, with the arc 3 4 closed in column 2. There 1 2 4 alone is left, and it alone is open in both columns;
// in column 1 all three paths are.
static void closed_arc(void) {
    uint32_t closed[M * COLUMNS];
    memcpy(closed, S_costs, sizeof S_costs);
    closed[9] = VIHROLOM_CLOSED;
    struct list made = damaged(0, 2);
    memset(made.is.bytes + 80, 255, 4);
    memset(made.due.bytes + 80, 255, 4);
    build_case("Build with a closed arc", 2, N, COLUMNS, nodes(S_nodes, 2 * M), numbers(closed, M * COLUMNS), sizeof S_image, gives(84, 0, 0), made.is.bytes);
    check_case("Check with a closed arc", made, sizes_in(2));
    image = made;
    unpack_case("Unpack with a closed arc", 2 * M, M * COLUMNS, sizes_in(2), S_nodes, closed);

    const uint32_t first[] = {5, 3, 2, 0}, second[] = {5, 1, VIHROLOM_UNREACHED, 0};
    label_case("Label column 1 with a closed arc", 1, 4, N, gives(0, 0, 0), first);
    label_case("Label column 2 with a closed arc", 2, 4, N, gives(0, 0, 0), second);
    shortest_case("Shortest column 1 with a closed arc", 1, 3, 4, N, gives(2, 2, 0), by_3 + 1);
    shortest_case("Shortest column 2 with a closed arc", 2, 3, 4, N, refused(VIHROLOM_NO_PATH, 0), NULL);

    const uint16_t ranked[] = {1, 2, 3, 4, 1, 3, 4, 0, 1, 2, 4, 0}, left[] = {1, 2, 4, 0};
    const uint32_t ranked_costs[] = {5, 7, 8}, left_costs[] = {5};
    const size_t work = VIHROLOM_WORK_LENGTH(N, 5);
    rank_case("Rank column 1 with a closed arc", 1, 1, 4, 5, work, gives(3, 0, 0), ranked, ranked_costs);
    rank_case("Rank column 2 with a closed arc", 2, 1, 4, 5, work, gives(1, 0, 0), left, left_costs);
    regret_case("Regret of 1 2 4 with a closed arc", 1, 4, nodes(by_2, 3), gives(3, 1, 0));
    regret_case("Regret of 1 3 4 with a closed arc", 1, 4, nodes(by_3, 3), refused(VIHROLOM_NOT_A_PATH, 2));
    const reply settled = {0, 0, 3, 3, 1, 1, VIHROLOM_SETTLED, 0};
    robust_case("Robust column 1 with a closed arc", 1, 1, 4, 5, N, work, settled, by_2);
    robust_case("Robust column 1, from 3 to 4 with a closed arc", 1, 3, 4, 5, N, work, refused(VIHROLOM_NO_PATH, 0), NULL);
    search_case("Search with a closed arc", 1, 4, 4, N, finds(3, 3, 1, 4), by_2);
    search_case("Search from 3 to 4 with a closed arc", 3, 4, 4, N, refused(VIHROLOM_NO_PATH, 0), NULL);
}

// ---- weeks

// A state: the first word of its map, a settled answer with a route of so many nodes, its figure, worst column and count.
static week settled_week(uint64_t closed, const uint16_t *route, uint32_t length, uint32_t figure, uint32_t worst, uint32_t count) {
    week due;
    memset(&due, 0, sizeof due);
    due.closed[0] = closed;
    memcpy(due.route, route, 2 * length);
    due.state = VIHROLOM_SETTLED;
    due.length = length;
    due.figure = figure;
    due.worst = worst;
    due.count = count;
    return due;
}

// A state in which no path is left.
static week no_path(uint64_t closed) {
    week due = settled_week(closed, by_2, 0, 0, 0, 0);
    due.state = VIHROLOM_NO_PATH;
    return due;
}

static week_reply current(week state, uint32_t closed_roads) {
    week_reply due;
    due.refusal = due.place = 0;
    due.closed_roads = closed_roads;
    due.week = state;
    return due;
}

static week_reply refused_week(uint32_t row, uint32_t place, week state) {
    week_reply due = current(state, 0);
    due.refusal = row;
    due.place = place;
    return due;
}

// Roads of S that close and reopen, ranked in column 2: first 1 2 4 with the figure 3 in column 1.
static void week_events(void) {
    const size_t work = VIHROLOM_WORK_LENGTH(N, 5);
    const week first = settled_week(0, by_2, 3, 3, 1, 1), second = settled_week(2, by_2, 3, 3, 1, 1);
    week is = fresh_case("Fresh", 2, 1, 4, 5, work + 1, current(first, 0));
    event_case("open an open arc", 2, 5, is, 3, 0, work, current(first, 0));
    event_case("close an arc that a best takes", 2, 5, is, 2, 1, work, current(settled_week(4, by_2, 3, 1, 1, 1), 1));
    is = event_case("close an arc beside the answer", 2, 5, is, 1, 1, work, current(second, 1));
    event_case("close a closed arc", 2, 5, is, 1, 7, work, current(second, 1));
    event_case("close arc 5 of 5", 2, 5, is, 5, 1, work, refused_week(VIHROLOM_WRONG_EVENT_ARC, 5, second));
    event_case("open the arc of the largest index", 2, 5, is, UINT32_MAX, 0, work, refused_week(VIHROLOM_WRONG_EVENT_ARC, UINT32_MAX, second));
    event_case("an event with K = 257", 2, 257, is, 5, 1, work, refused_week(VIHROLOM_WRONG_PATH_COUNT, 0, second));
    event_case("an event in a short workspace", 2, 5, is, 5, 1, work - 1, refused_week(VIHROLOM_SLICE_TOO_SHORT, 0, second));
    is = event_case("close an arc of the route", 2, 5, is, 3, 2, work, current(settled_week(2 + 8, by_2_and_3, 4, 0, 1, 1), 2));
    is = event_case("close the last arc", 2, 5, is, 4, UINT32_MAX, work, current(no_path(2 + 8 + 16), 3));
    is = event_case("close another one then", 2, 5, is, 0, 1, work, current(no_path(1 + 2 + 8 + 16), 4));
    is = event_case("open it again", 2, 5, is, 0, 0, work, current(no_path(2 + 8 + 16), 3));
    is = event_case("open an arc", 2, 5, is, 3, 0, work, current(settled_week(2 + 16, by_2, 3, 0, 1, 1), 2));
    is = event_case("open the next", 2, 5, is, 4, 0, work, current(second, 1));
    event_case("open the last", 2, 5, is, 1, 0, work, current(first, 0));
}

// An answer that is open is always found anew.
static void open_weeks(void) {
    const size_t work = VIHROLOM_WORK_LENGTH(N, 1);
    week due = settled_week(0, by_2_and_3, 4, 8, 2, 1);
    due.state = VIHROLOM_OPEN;
    due.floor = 2;
    const week first = fresh_case("Fresh with K = 1", 1, 1, 4, 1, work, current(due, 0));
    due.closed[0] = 8;
    due.figure = 5;
    event_case("close an arc beside an open answer", 1, 1, first, 3, 1, work, current(due, 1));
}

static void refused_weeks(void) {
    const size_t work = VIHROLOM_WORK_LENGTH(N, 5);
    week nothing = no_path(0);
    fresh_case("Fresh with no path", 1, 4, 1, 5, work, current(nothing, 0));
    nothing.state = 0;
    fresh_case("Fresh from 1 to 1", 0, 1, 1, 0, work, refused_week(VIHROLOM_WRONG_ENDS, 0, nothing));
    fresh_case("Fresh in column 3", 3, 1, 4, 0, work, refused_week(VIHROLOM_WRONG_COLUMN, 0, nothing));
    fresh_case("Fresh with K = 0", 1, 1, 4, 0, work, refused_week(VIHROLOM_WRONG_PATH_COUNT, 0, nothing));
    fresh_case("Fresh in a short workspace", 1, 4, 1, 5, work - 1, refused_week(VIHROLOM_SLICE_TOO_SHORT, 0, nothing));
    image = damaged(0, 7);
    fresh_case("Fresh in edition 7", 1, 1, 4, 5, work, refused_week(VIHROLOM_WRONG_EDITION, 0, nothing));
    event_case("an event in edition 7", 1, 5, nothing, 5, 1, work, refused_week(VIHROLOM_WRONG_EDITION, 0, nothing));
    image = bytes(S_image, sizeof S_image);
}

// States that no call has made: read as they are. Bits from m on close nothing, and stay; a length is capped only to be read.
static void weeks_made_otherwise(void) {
    const size_t work = VIHROLOM_WORK_LENGTH(N, 5);
    const uint64_t beyond = ~(uint64_t)31;
    week odd = settled_week(beyond, by_2, 3, 77, 9, 1000), due;
    memset(odd.route, 255, sizeof odd.route);
    memset(odd.closed + 1, 255, 8 * 15);
    odd.length = 300;
    odd.floor = 5;
    due = odd;
    due.closed[0] |= 2;
    event_case("a state of length 300 that stands", 2, 5, odd, 1, 1, work, current(due, 1));
    odd.route[198] = 1;
    odd.route[199] = 3;
    due = settled_week(beyond + 2, by_2, 3, 3, 1, 1);
    memset(due.closed + 1, 255, 8 * 15);
    event_case("a state whose last places are the arc", 2, 5, odd, 1, 1, work, current(due, 1));
    odd.state = 9;
    event_case("a state with the number 9", 2, 5, odd, 1, 1, work, current(due, 1));
    event_case("such a state that nothing changes", 2, 5, odd, 1, 0, work, current(odd, 0));
    event_case("such a state and a refusal", 2, 5, odd, 999, 0, work, refused_week(VIHROLOM_WRONG_EVENT_ARC, 999, odd));
}

int main(void) {
    image = bytes(S_image, sizeof S_image);
    build_cases();
    check_cases();
    unpack_cases();
    update_cases();
    label_cases();
    shortest_cases();
    regret_cases();
    rank_cases();
    robust_cases();
    week_events();
    open_weeks();
    refused_weeks();
    weeks_made_otherwise();
    closed_arc();
    find_cases();
    search_cases();
    other_networks();
    printf("smoke: %u checks\n", checks);
    return 0;
}
