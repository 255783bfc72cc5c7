// Vihrolom: cheapest, ranked and least-regret routes over a network of time columns. C99 and C++.
// docs/REFERENCE.md states all rules.
//
// Every call has an answer for every input: its result, or one numbered refusal of the table below. A
// refusal changes no lent list. A result writes only what the call names; other places keep their content.
//
// A list is lent as a pointer and a length in elements, and may be longer than the call needs. The pointer
// must not be null, not even where the length is 0, and the list must have that many elements. A list that
// is written must not overlap another list of the same call. Nothing is kept after a call, and threads may
// call at the same time with lists of their own.
//
// Nodes are 1 to n and columns 1 to k. In an image of edition 2 an arc may be closed in a column: no path of
// that column uses it. A path is the list of its nodes, and no node repeats. Its deviation in a column is its
// cost there less the least cost of any path there; its figure, or greatest regret, is its largest deviation,
// and its worst column the lowest-numbered one that has it. Only a path that is open in every column has a
// figure.
// The ranking order in a column is by cost, then by node list: the first differing place decides, and the
// smaller node comes first.
#ifndef VIHROLOM_H
#define VIHROLOM_H

#include <stddef.h>
#include <stdint.h>

#ifdef __cplusplus
extern "C" {
#endif

// ---- the version

// The version that this header belongs to. A program that loads the library may compare VIHROLOM_VERSION_NUMBER
// with vihrolom_version(), which is the library's own.
#define VIHROLOM_VERSION_MAJOR 0
#define VIHROLOM_VERSION_MINOR 7
#define VIHROLOM_VERSION_PATCH 0
#define VIHROLOM_VERSION "0.7.0"
#define VIHROLOM_VERSION_NUMBER \
    (VIHROLOM_VERSION_MAJOR * UINT32_C(1000000) + VIHROLOM_VERSION_MINOR * UINT32_C(1000) + VIHROLOM_VERSION_PATCH)

// The library's version: major times 1,000,000, plus minor times 1,000, plus patch.
uint32_t vihrolom_version(void);

// ---- answers

// What every call returns, but for those on a week. Numbers that a call does not use are 0.
struct vihrolom_reply {
    uint32_t refusal;                // 0 for a result, else a number of the refusal table
    uint32_t place;                  // the place of the refusal, 0 where its row names none
    uint32_t v0, v1, v2, v3, v4, v5; // the values of a result, as each call says
};

// The refusal table. Of the rows that apply, a call gives the one with the lowest number, except that arcs
// are examined in their order, each by rows 6, 7 and 8, and records in theirs, each by 17, 18 and 9. A call
// skips rows about things that it has not got.
enum vihrolom_refusal {
    VIHROLOM_IMAGE_TOO_SHORT = 1,   // image under 24 bytes
    VIHROLOM_WRONG_EDITION = 2,     // edition isn't 1 or 2
    VIHROLOM_SIZE_OUT_OF_RANGE = 3, // n, m or k outside its range
    VIHROLOM_WRONG_FIELD = 4,       // an offset, total or reserved field is wrong; in Build, odd node list or costs not mk;
                                    // in Update, a list that isn't of fours
    VIHROLOM_WRONG_LENGTH = 5,      // image length isn't the total
    VIHROLOM_ARC_OUT_OF_RANGE = 6,  // tail or head outside 1..n; place: arc index
    VIHROLOM_ARC_TO_ITSELF = 7,     // tail equals head; place: arc index
    VIHROLOM_ARC_NOT_RISING = 8,    // arc not above the one before; place: arc index
    VIHROLOM_COST_TOO_LARGE = 9,    // cost above 1,000,000 that isn't VIHROLOM_CLOSED in edition 2; place: its index, from 0;
                                    // in Update, the record's
    VIHROLOM_WRONG_ENDS = 10,       // start or goal outside 1..n, or equal
    VIHROLOM_WRONG_COLUMN = 11,     // column outside 1..k
    VIHROLOM_WRONG_PATH_COUNT = 12, // K outside 1..256
    VIHROLOM_SLICE_TOO_SHORT = 13,  // a lent slice is too short
    VIHROLOM_NOT_A_PATH = 14,       // the node list is no path; place: see vihrolom_regret
    VIHROLOM_NO_PATH = 15,          // no path exists: in the column (Shortest, Rank), or open in every column (Robust, Search)
    // 16 is not given
    VIHROLOM_WRONG_RECORD_ARC = 17, // a record's arc index is m or more; place: the record's index
    VIHROLOM_WRONG_RECORD_COLUMN = 18, // a record's column is outside 1..k; place: the record's index
    VIHROLOM_TOO_MANY_ARCS = 19,       // Search's rule tries more arcs than the limit; place: the limit
    VIHROLOM_WRONG_EVENT_ARC = 20      // an event's arc index is m or more; place: that index
};

// The state of Robust's answer.
enum vihrolom_state {
    VIHROLOM_SETTLED = 1, // no path has a smaller figure
    VIHROLOM_OPEN = 2     // more than K paths would have to be counted to tell
};

// The state of a week in which roads close and reopen: which are closed, and Robust's answer without them. It
// belongs to one image, column, start, goal and K, and is passed and returned by value; save it and load it as
// its numbers. What an answer has not got is 0.
struct vihrolom_week {
    uint64_t closed[16]; // arc i is closed if bit i % 64 of word i / 64 is set; bits from m on close nothing
    uint16_t route[200]; // the nodes of the route, then 0
    uint32_t state;      // VIHROLOM_SETTLED, VIHROLOM_OPEN, or VIHROLOM_NO_PATH if no path is left
    uint32_t length;     // the route's length in nodes
    uint32_t figure;     // its figure
    uint32_t worst;      // its worst column
    uint32_t count;      // how many paths the last full run counted
    uint32_t floor;      // if open: the least figure of all paths lies between the floor and the figure
};

// What the calls on a week return.
struct vihrolom_week_reply {
    uint32_t refusal;          // 0 for a result, else a number of the refusal table
    uint32_t place;            // the place of the refusal, 0 where its row names none
    uint32_t closed_roads;     // how many of the m arcs the map closes; 0 beside a refusal
    struct vihrolom_week week; // the state after the call
};

// ---- limits and lengths

enum vihrolom_limit {
    VIHROLOM_LATEST_EDITION = 2,  // an image's edition, from 1
    VIHROLOM_LEAST_NODES = 2,     // n
    VIHROLOM_MOST_NODES = 200,    // n
    VIHROLOM_MOST_ARCS = 1000,    // m, from 0
    VIHROLOM_MOST_COLUMNS = 8,    // k, from 1
    VIHROLOM_MOST_COST = 1000000, // a cost, from 0
    VIHROLOM_MOST_PATHS = 256,    // K, from 1
    VIHROLOM_MOST_BYTES = 36024   // an image with the most arcs and columns
};

// In the place of a cost, in edition 2 only: the arc is closed in that column. It's no number to add or compare.
#define VIHROLOM_CLOSED UINT32_C(4294967295)

// The label of a node from which the goal can't be reached.
#define VIHROLOM_UNREACHED UINT32_C(4294967295)

// The bytes of an image with m arcs and k columns.
#define VIHROLOM_IMAGE_LENGTH(m, k) (24 + 4 * (size_t)(m) + 4 * (size_t)(m) * (size_t)(k))

// The places of Rank's rows for n nodes and K paths.
#define VIHROLOM_ROWS_LENGTH(n, K) ((size_t)(K) * (size_t)(n))

// The places of the workspace of Rank, Robust, Fresh and Event for n nodes and K paths.
#define VIHROLOM_WORK_LENGTH(n, K) (((size_t)(K) + 1) * ((size_t)(n) + 16) + 16 * (size_t)(n) + 64)

// ---- the image layer

// Check: whether the bytes are an image, and its sizes. Every other call with an image checks it first.
//   v0: n   v1: arc count m   v2: column count k   v3: the edition, 1 or 2
// Refuses by rows 1 to 9.
struct vihrolom_reply vihrolom_check(const uint8_t *image, size_t image_length);

// Build: writes an image of an edition, of n nodes and k columns, from lists.
//   edition: 1, or 2 so that costs may be VIHROLOM_CLOSED
//   nodes: 2m node numbers, tail and head of each arc, strictly rising by tail, then head; m is half the
//          length rounded down
//   costs: mk costs, one column after the other, each in arc order
//   image: at least VIHROLOM_IMAGE_LENGTH(m, k) bytes, of which so many are written
//   v0: the image's length in bytes
// Refuses by rows 2, 3, 4, 6 to 9 and 13.
struct vihrolom_reply vihrolom_build(uint32_t edition, uint32_t n, uint32_t k, const uint16_t *nodes,
                                     size_t nodes_length, const uint32_t *costs, size_t costs_length,
                                     uint8_t *image, size_t image_length);

// Unpack: writes the lists from which Build, told the same edition, makes the same image.
//   nodes: at least 2m places, of which 2m are written
//   costs: at least mk places, of which mk are written
//   v0: n   v1: m   v2: k   v3: the edition
// Refuses by rows 1 to 9 and 13.
struct vihrolom_reply vihrolom_unpack(const uint8_t *image, size_t image_length, uint16_t *nodes,
                                      size_t nodes_length, uint32_t *costs, size_t costs_length);

// Update: writes the costs of a list of records over those of an image. For one arc and column the record with
// the greatest stamp counts, and of equal stamps the later in the list; the others have no effect, but each is
// examined. Costs without a record stay.
//   image:   the image; its costs are written
//   records: four numbers each: arc index from 0, column, cost (in edition 2 also VIHROLOM_CLOSED), stamp
//   no values
// Refuses by rows 1 to 9, of which 4 is also for a list whose length isn't a multiple of four; then by the first
// record in error, by 17, 18 or 9.
struct vihrolom_reply vihrolom_update(uint8_t *image, size_t image_length, const uint32_t *records,
                                      size_t records_length);

// ---- the path layer

// Label: for each node, the least cost to the goal in a column, or VIHROLOM_UNREACHED.
//   labels: at least n places, of which n are written; place i is node i + 1
//   no values
// Refuses by rows 1 to 9, 10 (goal only), 11 and 13.
struct vihrolom_reply vihrolom_label(const uint8_t *image, size_t image_length, uint32_t column, uint32_t goal,
                                     uint32_t *labels, size_t labels_length);

// Shortest: the first path of the ranking order in a column.
//   path: at least n places, of which as many are written as the path has nodes
//   v0: the path's length in nodes   v1: its cost
// Refuses by rows 1 to 9, 10, 11, 13 and 15.
struct vihrolom_reply vihrolom_shortest(const uint8_t *image, size_t image_length, uint32_t column,
                                        uint32_t start, uint32_t goal, uint16_t *path, size_t path_length);

// Regret: the figure of a path that is open in every column.
//   nodes: the path, of any length
//   v0: the figure   v1: the worst column
// Refuses by rows 1 to 9, 10 and 14. The place of 14 is 0 if the list is empty or doesn't begin with
// start; else the first position, from 0, whose node repeats or has no arc from the node before that is open
// in every column; else the length, if the last node isn't the goal.
struct vihrolom_reply vihrolom_regret(const uint8_t *image, size_t image_length, uint32_t start, uint32_t goal,
                                      const uint16_t *nodes, size_t nodes_length);

// Rank: the first K paths of the ranking order in a column, or all if there are fewer; K is `wanted`.
//   rows:  at least VIHROLOM_ROWS_LENGTH(n, K) places; each path is written to a row of n, filled up with 0
//   costs: at least K places; the path's cost in the column is written for each path
//   work:  at least VIHROLOM_WORK_LENGTH(n, K) places, whatever they hold; after a result all of it is 0
//   v0: the number of paths; later rows and costs keep their content
// Refuses by rows 1 to 9, 10 to 13 and 15.
struct vihrolom_reply vihrolom_rank(const uint8_t *image, size_t image_length, uint32_t column, uint32_t start,
                                    uint32_t goal, uint32_t wanted, uint16_t *rows, size_t rows_length,
                                    uint32_t *costs, size_t costs_length, uint32_t *work, size_t work_length);

// Robust: the path of least figure. Paths that are open in every column are counted in the ranking order in
// one, until no later one can have a smaller figure (settled), or until K are counted (open); K is `wanted`.
//   path: at least n places; the earliest path with the least figure among those counted is written, in as
//         many places as it has nodes
//   work: as in vihrolom_rank
//   v0: the path's length in nodes   v1: its figure   v2: its worst column   v3: how many paths were counted
//   v4: VIHROLOM_SETTLED or VIHROLOM_OPEN
//   v5: 0 if settled; if open the floor: the least figure of all paths lies between the floor and v1
// Refuses by rows 1 to 9, 10 to 13 and 15.
struct vihrolom_reply vihrolom_robust(const uint8_t *image, size_t image_length, uint32_t column,
                                      uint32_t start, uint32_t goal, uint32_t wanted, uint16_t *path,
                                      size_t path_length, uint32_t *work, size_t work_length);

// Find: the arc from a node to another, by halving the range of the arcs: of what is left the middle arc
// is looked at, of two the first, and then the side that may hold the arc is left.
//   v0: 1 if there is such an arc, 0 if not; a number outside 1..n has none   v1: its index, 0 if there is none
//   v2: how many arcs were looked at, at most 10
// Refuses by rows 1 to 9.
struct vihrolom_reply vihrolom_find(const uint8_t *image, size_t image_length, uint32_t tail, uint32_t head);

// Search: the path of least figure, found depth first; of paths with equal figures the first by node list. The
// partial route is lengthened by its unused heads, the smallest node first, and never past the goal. A head is
// dropped if an arc is closed or the goal out of reach from it in some column; or if the largest, over the columns,
// of cost so far, arc and label of the head, less the column's best, is no smaller than the least figure so far. An
// arc is tried each time its unused head comes up, dropped or not.
//   limit: how many arcs may be tried
//   path:  at least n places, of which as many are written as the path has nodes; no workspace is needed
//   v0: the path's length in nodes   v1: its figure, which a settled Robust shows too   v2: its worst column
//   v3: how many arcs were tried
// Refuses by rows 1 to 9, 10, 13, 15 and 19.
struct vihrolom_reply vihrolom_search(const uint8_t *image, size_t image_length, uint32_t start, uint32_t goal,
                                      uint32_t limit, uint16_t *path, size_t path_length);

// ---- a week in which roads close and reopen

// Fresh: the state of a week in which every road is open yet, with Robust's answer, no path included.
//   work: as in vihrolom_rank
//   the week is that state, and closed_roads is 0; beside a refusal all of it is 0
// Refuses by rows 1 to 9 and 10 to 13.
struct vihrolom_week_reply vihrolom_week_fresh(const uint8_t *image, size_t image_length, uint32_t column,
                                               uint32_t start, uint32_t goal, uint32_t wanted, uint32_t *work,
                                               size_t work_length);

// Event: an arc is closed or opened, in every column. To close a closed arc or to open an open one changes
// nothing. A settled answer stands if an arc is closed that its route does not take and without which the best of
// each column is the same; otherwise Robust is run again, on the image without the closed arcs. With the same image,
// column, start, goal and K all week, whatever the events from a fresh state on, the state, route, length, figure,
// worst column and floor are those of Robust on the image without the closed arcs.
//   week:  the state before it; one that was made otherwise is read as it is, its length as at most 200
//   arc:   the arc's index, from 0
//   close: 0 opens the arc, any other number closes it
//   work:  as in vihrolom_rank
//   the week is the state after it; beside a refusal it is the state that was given
// Refuses by rows 1 to 9, 10 to 13 and 20.
struct vihrolom_week_reply vihrolom_week_event(const uint8_t *image, size_t image_length, uint32_t column,
                                               uint32_t start, uint32_t goal, uint32_t wanted,
                                               struct vihrolom_week week, uint32_t arc, uint32_t close,
                                               uint32_t *work, size_t work_length);

#ifdef __cplusplus
}
#endif

#endif
