// Check, Build, Unpack, Update and Find.
#include "draw.h"
#include "report.h"
#include "subject.h"

#include <string.h>

// ---- Check

static uint32_t header_field(const struct subject *subject, size_t at) {
    return (uint32_t)subject->image.own[at] + 256 * (uint32_t)subject->image.own[at + 1];
}

// Rows 1 to 5 name no place; 6, 7 and 8 an arc, and 9 a cost.
static void expect_image_row(const struct subject *subject, struct row row) {
    if (row.number > VIHROLOM_COST_TOO_LARGE || subject->sound)
        report_wrong("an image is refused by %u", row.number);
    if (row.number <= VIHROLOM_WRONG_LENGTH) {
        expect_value("the place", row.place, 0);
        return;
    }
    uint32_t m = header_field(subject, 4), k = header_field(subject, 6);
    if (row.place >= (row.number == VIHROLOM_COST_TOO_LARGE ? m * k : m))
        report_wrong("row %u has the place %u", row.number, row.place);
}

void call_check(struct subject *subject) {
    list_keeps(&subject->image);
    report_call(CHECK);
    subject->check = vihrolom_check(subject->image.lent, subject->image.length);
    if (subject->check.refusal != 0)
        expect_image_row(subject, image_row(subject));
    expect_list(&subject->image);
    if (!expect_reply(subject->check, image_row(subject), 4))
        return;
    expect_value("n", subject->check.v0, header_field(subject, 2));
    expect_value("m", subject->check.v1, header_field(subject, 4));
    expect_value("k", subject->check.v2, header_field(subject, 6));
    expect_value("the edition", subject->check.v3, header_field(subject, 0));
    read_network(subject->image.own, &subject->network);
}

// ---- Build

// What is given to Build.
struct lists {
    struct network network; // with numbers and elements that may be wrong
    size_t nodes_length, costs_length;
};

// The network's own lists, or lists with something wrong.
static void draw_lists(const struct subject *subject, struct lists *lists) {
    struct network *network = &lists->network;
    *network = *subject->drawn;
    lists->nodes_length = 2 * (size_t)network->m;
    lists->costs_length = (size_t)network->m * network->k;
    uint32_t costs = network->m * network->k;
    switch (draw() % 12) {
    case 0:
        network->edition = draw_number(1, VIHROLOM_LATEST_EDITION);
        break;
    case 1:
        network->n = draw_number(VIHROLOM_LEAST_NODES, VIHROLOM_MOST_NODES);
        break;
    case 2:
        network->k = draw_number(1, VIHROLOM_MOST_COLUMNS);
        break;
    case 3:
        lists->nodes_length = draw() % (2 * ARC_ROOM + 1);
        break;
    case 4:
        lists->costs_length = draw() % (costs + 9 < COST_ROOM ? costs + 9 : COST_ROOM);
        break;
    case 5:
        if (network->m != 0)
            network->nodes[draw() % (2 * network->m)] = (uint16_t)draw_number(0, network->n + 1);
        break;
    case 6:
        if (costs != 0)
            network->costs[draw() % costs] = draw_chance(50) ? VIHROLOM_CLOSED : draw_number(0, VIHROLOM_MOST_COST);
        break;
    default:
        break;
    }
}

static bool in_range(uint32_t number, uint32_t low, uint32_t high) {
    return low <= number && number <= high;
}

// Rows 2, 3 and 4.
static struct row sizes_row(const struct lists *lists) {
    const struct network *network = &lists->network;
    uint32_t m = (uint32_t)(lists->nodes_length / 2);
    bool wrong = !in_range(network->n, VIHROLOM_LEAST_NODES, VIHROLOM_MOST_NODES) || m > VIHROLOM_MOST_ARCS ||
                 !in_range(network->k, 1, VIHROLOM_MOST_COLUMNS);
    bool ragged = lists->nodes_length % 2 == 1 || lists->costs_length != (size_t)m * network->k;
    struct row fields = row_if(ragged, VIHROLOM_WRONG_FIELD, 0);
    struct row sizes = first_row(row_if(wrong, VIHROLOM_SIZE_OUT_OF_RANGE, 0), fields);
    return first_row(row_if(!in_range(network->edition, 1, VIHROLOM_LATEST_EDITION), VIHROLOM_WRONG_EDITION, 0), sizes);
}

// Rows 6 to 8, of the first arc in error.
static struct row arcs_row(const struct network *network, uint32_t m) {
    for (uint32_t arc = 0; arc < m; arc++) {
        uint32_t tail = network->nodes[2 * arc], head = network->nodes[2 * arc + 1];
        if (!in_range(tail, 1, network->n) || !in_range(head, 1, network->n))
            return (struct row){VIHROLOM_ARC_OUT_OF_RANGE, arc};
        if (tail == head)
            return (struct row){VIHROLOM_ARC_TO_ITSELF, arc};
        if (arc == 0)
            continue;
        uint32_t tail_before = network->nodes[2 * arc - 2], head_before = network->nodes[2 * arc - 1];
        if (tail < tail_before || (tail == tail_before && head <= head_before))
            return (struct row){VIHROLOM_ARC_NOT_RISING, arc};
    }
    return (struct row){0, 0};
}

static bool is_cost(uint32_t edition, uint32_t cost) {
    return cost <= VIHROLOM_MOST_COST || (edition == 2 && cost == VIHROLOM_CLOSED);
}

// Row 9.
static struct row costs_row(const struct network *network, uint32_t count) {
    for (uint32_t i = 0; i < count; i++)
        if (!is_cost(network->edition, network->costs[i]))
            return (struct row){VIHROLOM_COST_TOO_LARGE, i};
    return (struct row){0, 0};
}

static struct row lists_row(const struct lists *lists, size_t room) {
    struct row sizes = sizes_row(lists);
    if (sizes.number != 0)
        return sizes;
    uint32_t m = (uint32_t)(lists->nodes_length / 2), k = lists->network.k;
    struct row content = first_row(arcs_row(&lists->network, m), costs_row(&lists->network, m * k));
    return first_row(content, row_if(room < VIHROLOM_IMAGE_LENGTH(m, k), VIHROLOM_SLICE_TOO_SHORT, 0));
}

void call_build(struct subject *subject) {
    static struct lists lists;
    draw_lists(subject, &lists);
    struct network *network = &lists.network;
    struct list nodes = list_of(FIRST, "nodes", network->nodes, lists.nodes_length, 2);
    struct list costs = list_of(SECOND, "costs", network->costs, lists.costs_length, 4);
    size_t room = draw_length(VIHROLOM_IMAGE_LENGTH(subject->drawn->m, subject->drawn->k));
    struct list image = list_to_write(THIRD, "image", room, 1);
    list_keeps(&nodes);
    list_keeps(&costs);
    list_keeps(&image);
    report_call(BUILD);
    struct vihrolom_reply reply = vihrolom_build(network->edition, network->n, network->k, nodes.lent, nodes.length, costs.lent,
                                                 costs.length, image.lent, image.length);
    if (expect_reply(reply, lists_row(&lists, room), 1)) {
        network->m = (uint32_t)(lists.nodes_length / 2);
        expect_value("the length", reply.v0, (uint32_t)write_image(network, image.due));
    }
    expect_list(&nodes);
    expect_list(&costs);
    expect_list(&image);
}

// ---- Unpack

void call_unpack(struct subject *subject) {
    const struct network *network = subject->check.refusal == 0 ? &subject->network : subject->drawn;
    size_t nodes_needed = 2 * (size_t)network->m, costs_needed = (size_t)network->m * network->k;
    struct list nodes = list_to_write(FIRST, "nodes", draw_length(nodes_needed), 2);
    struct list costs = list_to_write(SECOND, "costs", draw_length(costs_needed), 4);
    list_keeps(&nodes);
    list_keeps(&costs);
    report_call(UNPACK);
    struct vihrolom_reply reply = vihrolom_unpack(subject->image.lent, subject->image.length, nodes.lent, nodes.length, costs.lent, costs.length);
    bool too_short = nodes.length < nodes_needed || costs.length < costs_needed;
    if (expect_reply(reply, first_row(image_row(subject), row_if(too_short, VIHROLOM_SLICE_TOO_SHORT, 0)), 4)) {
        expect_value("n", reply.v0, network->n);
        expect_value("m", reply.v1, network->m);
        expect_value("k", reply.v2, network->k);
        expect_value("the edition", reply.v3, network->edition);
        memcpy(nodes.due, network->nodes, 2 * nodes_needed);
        memcpy(costs.due, network->costs, 4 * costs_needed);
    }
    expect_list(&nodes);
    expect_list(&costs);
}

// ---- Update

enum { RECORDS_ROOM = 120 };

// Records of the network's arcs and columns, a few with something wrong; gives how many numbers there are.
static size_t draw_records(const struct subject *subject, uint32_t *records) {
    const struct network *network = subject->check.refusal == 0 ? &subject->network : subject->drawn;
    size_t count = draw() % (RECORDS_ROOM / 4);
    bool wrong = draw_chance(20);
    for (size_t i = 0; i < count; i++) {
        uint32_t *record = records + 4 * i;
        record[0] = network->m == 0 ? 0 : draw_between(0, network->m - 1);
        record[1] = draw_between(1, network->k);
        record[2] = network->edition == 2 && draw_chance(20) ? VIHROLOM_CLOSED : draw_between(0, VIHROLOM_MOST_COST);
        record[3] = draw_chance(90) ? draw_between(0, 3) : (uint32_t)draw();
        if (wrong && draw_chance(10))
            record[draw() % 3] = draw_number(0, VIHROLOM_MOST_COST + 1);
    }
    return 4 * count + (draw_chance(5) ? draw_between(1, 3) : 0);
}

// Rows 17, 18 and 9, of the first record in error.
static struct row records_row(const struct network *network, const uint32_t *records, size_t count) {
    for (uint32_t i = 0; i < count; i++) {
        const uint32_t *record = records + 4 * i;
        if (record[0] >= network->m)
            return (struct row){VIHROLOM_WRONG_RECORD_ARC, i};
        if (!in_range(record[1], 1, network->k))
            return (struct row){VIHROLOM_WRONG_RECORD_COLUMN, i};
        if (!is_cost(network->edition, record[2]))
            return (struct row){VIHROLOM_COST_TOO_LARGE, i};
    }
    return (struct row){0, 0};
}

// Row 4 of the list stands among the image's own by its number.
static struct row update_row(const struct subject *subject, const uint32_t *records, size_t length) {
    struct row image = image_row(subject);
    if (length % 4 != 0 && (image.number == 0 || image.number > VIHROLOM_WRONG_FIELD))
        return (struct row){VIHROLOM_WRONG_FIELD, 0};
    if (image.number != 0)
        return image;
    return records_row(&subject->network, records, length / 4);
}

// Of the records for one arc and column the one with the greatest stamp counts, and of equal ones the last.
static void write_records(const struct network *network, const uint32_t *records, size_t count, uint8_t *image) {
    static struct network after;
    static uint32_t stamps[COST_ROOM];
    after = *network;
    memset(stamps, 0, sizeof stamps);
    for (size_t i = 0; i < count; i++) {
        const uint32_t *record = records + 4 * i;
        uint32_t cell = (record[1] - 1) * network->m + record[0];
        if (record[3] < stamps[cell])
            continue;
        stamps[cell] = record[3];
        after.costs[cell] = record[2];
    }
    write_image(&after, image);
}

void call_update(struct subject *subject) {
    uint32_t numbers[RECORDS_ROOM] = {0};
    size_t length = draw_records(subject, numbers);
    struct list image = list_to_write(FIRST, "image", subject->image.length, 1);
    struct list records = list_of(SECOND, "records", numbers, length, 4);
    memcpy(image.own, subject->image.own, subject->image.bytes);
    list_keeps(&image);
    list_keeps(&records);
    report_call(UPDATE);
    struct vihrolom_reply reply = vihrolom_update(image.lent, image.length, records.lent, records.length);
    if (expect_reply(reply, update_row(subject, numbers, length), 0))
        write_records(&subject->network, numbers, length / 4, image.due);
    expect_list(&image);
    expect_list(&records);
}

// ---- Find

void call_find(struct subject *subject) {
    const struct network *network = subject->check.refusal == 0 ? &subject->network : subject->drawn;
    uint32_t tail = draw_number(1, network->n), head = draw_number(1, network->n);
    report_call(FIND);
    struct vihrolom_reply reply = vihrolom_find(subject->image.lent, subject->image.length, tail, head);
    if (!expect_reply(reply, image_row(subject), 3))
        return;
    long arc = arc_of(network, tail, head);
    expect_value("found", reply.v0, arc >= 0);
    expect_value("the index", reply.v1, arc >= 0 ? (uint32_t)arc : 0);
    if (reply.v2 > 10 || (reply.v2 == 0) != (network->m == 0))
        report_wrong("%u looks", reply.v2);
}
