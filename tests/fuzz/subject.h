// What the calls of a round are made on, and what holds of the answers of all calls.
#ifndef SUBJECT_H
#define SUBJECT_H

#include "lists.h"
#include "networks.h"

struct subject {
    const struct network *drawn; // a network that Build takes
    struct list image;           // to read: its image, or a damaged one
    bool sound;                  // whether the image is its own
    struct vihrolom_reply check; // what Check gave for the image
    struct network network;      // the network of the image, if it was accepted
};

// A row of the refusal table with its place; number 0 for a result.
struct row {
    uint32_t number, place;
};

// The image's own row, as Check gave it.
struct row image_row(const struct subject *subject);

// The first of two rows, unless it is none.
struct row first_row(struct row first, struct row second);

// The row if it applies, else none.
struct row row_if(bool applies, uint32_t number, uint32_t place);

// Whether the number is a node of the subject's network.
bool is_node(const struct subject *subject, uint32_t number);

// The answer must be a refusal by this row, or a result with so many values if the row is none: then true. What a
// call does not use is 0.
bool expect_reply(struct vihrolom_reply is, struct row due, unsigned values);

// A value of a result.
void expect_value(const char *what, uint32_t is, uint32_t due);

// A path that was written to the beginning of a list, open in a column or for column 0 in every one.
void expect_path(const struct subject *subject, uint32_t column, uint32_t start, uint32_t goal, const uint16_t *nodes, uint32_t length);

// The calls, each with drawn numbers and lists. Check also fills in `check` and `network`.
void call_check(struct subject *subject);
void call_build(struct subject *subject);
void call_unpack(struct subject *subject);
void call_update(struct subject *subject);
void call_label(struct subject *subject);
void call_shortest(struct subject *subject);
void call_regret(struct subject *subject);
void call_rank(struct subject *subject);
void call_robust(struct subject *subject);
void call_search(struct subject *subject);
void call_find(struct subject *subject);

// A week from its beginning, through some events.
void call_week(struct subject *subject);

// One event in a state that was made otherwise.
void call_event(struct subject *subject);

#endif
