// Rank in plain C, by the same design as the library: labels of the whole network once; each path that
// is ranked splits its branch; the first path of a part is found by a walk along those labels, else along
// labels that a search outwards sharpens, else along labels with its beginning barred, else step by step;
// candidates stand in slots of the workspace in the ranking order; a part is passed over where all slots
// are taken and its bound is above the last cost. It takes images of edition 1, in which no arc is closed.
#include "rank.h"

#include <stdbool.h>
#include <string.h>

enum { NODES = 200, ARCS = 1000, TAIL = 4, RING = 256, PATIENCE = 1000 };

static const uint32_t FAR = UINT32_MAX;

struct engine {
    uint32_t n, m, start, goal;
    uint16_t tails[ARCS], heads[ARCS], next_in[ARCS];
    uint32_t weights[ARCS];
    uint16_t first_out[NODES + 2], first_in[NODES + 1];
    uint32_t overall[NODES + 1], labels[NODES + 1], keys[NODES + 1];
    uint8_t used[NODES + 1], barred[NODES + 1], dirty[NODES + 1];
    uint16_t ring[RING], path[NODES], scratch[NODES];
    // The nodes that a search met, and before the others those that it took; and what the tail of a path
    // may cost at the most.
    uint16_t nodes[NODES + 1];
    uint32_t met, taken, most;
    // The slot at each place, and the slots: cost, shared, parent, length of the tail, and the tail.
    uint32_t *order, *entries;
    uint32_t slots, count;
};

static uint32_t read16(const uint8_t *b) {
    return b[0] + 256u * b[1];
}

static uint32_t read32(const uint8_t *b) {
    return read16(b) + 65536u * read16(b + 2);
}

// ---- the rows of the refusal table

static struct vihrolom_reply refused(uint32_t row, uint32_t place) {
    return (struct vihrolom_reply){.refusal = row, .place = place};
}

static struct vihrolom_reply check_arcs(const uint8_t *image, uint32_t n, uint32_t m) {
    uint32_t last_tail = 0, last_head = 0;
    for (uint32_t i = 0; i < m; i++) {
        uint32_t tail = read16(image + 24 + 4 * i), head = read16(image + 26 + 4 * i);
        if (tail < 1 || tail > n || head < 1 || head > n)
            return refused(6, i);
        if (tail == head)
            return refused(7, i);
        if (tail < last_tail || (tail == last_tail && head <= last_head))
            return refused(8, i);
        last_tail = tail;
        last_head = head;
    }
    return refused(0, 0);
}

static struct vihrolom_reply check(const uint8_t *image, size_t length) {
    if (length < 24)
        return refused(1, 0);
    if (read16(image) != 1)
        return refused(2, 0);
    uint32_t n = read16(image + 2), m = read16(image + 4), k = read16(image + 6);
    if (n < 2 || n > NODES || m > ARCS || k < 1 || k > 8)
        return refused(3, 0);
    uint32_t total = 24 + 4 * m + 4 * m * k;
    if (read32(image + 8) != 24 || read32(image + 12) != 24 + 4 * m || read32(image + 16) != total || read32(image + 20) != 0)
        return refused(4, 0);
    if (length != total)
        return refused(5, 0);
    struct vihrolom_reply arcs = check_arcs(image, n, m);
    if (arcs.refusal != 0)
        return arcs;
    for (uint32_t i = 0; i < m * k; i++)
        if (read32(image + 24 + 4 * m + 4 * i) > 1000000)
            return refused(9, i);
    return (struct vihrolom_reply){.v0 = n, .v1 = m, .v2 = k};
}

// ---- labels

// Takes the first of the dirty nodes, which stand in a ring; after many turns the one with the smallest
// label, so that no node is taken more than once from then on.
static uint32_t take(struct engine *e, uint32_t first, uint32_t count, uint32_t turns, const uint32_t *labels) {
    uint32_t place = first;
    for (uint32_t k = 1; turns >= PATIENCE && k < count; k++)
        if (labels[e->ring[(first + k) % RING]] < labels[e->ring[place]])
            place = (first + k) % RING;
    uint32_t h = e->ring[place];
    e->ring[place] = e->ring[first];
    e->dirty[h] = 0;
    return h;
}

// Least costs to the goal by nodes that are not barred. A node whose label falls below that of the first
// dirty one is the next to be taken.
static void least(struct engine *e, const uint8_t *barred, uint32_t *labels) {
    memset(labels, 255, (e->n + 1) * sizeof *labels);
    memset(e->dirty, 0, e->n + 1);
    labels[e->goal] = 0;
    e->dirty[e->goal] = 1;
    e->ring[0] = (uint16_t)e->goal;
    uint32_t first = 0, count = 1;
    for (uint32_t turns = 0; count > 0; turns++) {
        uint32_t h = take(e, first, count, turns, labels), rest = labels[h];
        first = (first + 1) % RING;
        count--;
        for (uint32_t link = e->first_in[h]; link != 0; link = e->next_in[link - 1]) {
            uint32_t t = e->tails[link - 1], sum = e->weights[link - 1] + rest;
            if (barred[t] || sum >= labels[t])
                continue;
            labels[t] = sum;
            if (e->dirty[t])
                continue;
            e->dirty[t] = 1;
            if (count > 0 && sum < labels[e->ring[first]]) {
                first = (first + RING - 1) % RING;
                e->ring[first] = (uint16_t)t;
            } else
                e->ring[(first + count) % RING] = (uint16_t)t;
            count++;
        }
    }
}

static void load(struct engine *e, const uint8_t *image, uint32_t column) {
    const uint8_t *arcs = image + 24, *costs = arcs + 4 * e->m * column;
    memset(e->first_in, 0, sizeof e->first_in);
    uint32_t v = 0;
    for (uint32_t i = 0; i < e->m; i++) {
        uint32_t tail = read16(arcs + 4 * i), head = read16(arcs + 4 * i + 2);
        e->tails[i] = (uint16_t)tail;
        e->heads[i] = (uint16_t)head;
        e->weights[i] = read32(costs + 4 * i);
        while (v <= tail)
            e->first_out[v++] = (uint16_t)i;
        e->next_in[i] = e->first_in[head];
        e->first_in[head] = (uint16_t)(i + 1);
    }
    while (v <= e->n + 1)
        e->first_out[v++] = (uint16_t)e->m;
    least(e, e->barred, e->overall);
}

// ---- the first path of a branch

// The smallest exit of v with the least weight and label, or 0.
static uint32_t least_exit(const struct engine *e, uint32_t v, const uint32_t *labels, const uint8_t *barred, uint32_t *l) {
    uint32_t best = FAR, node = 0;
    for (uint32_t i = e->first_out[v]; i < e->first_out[v + 1]; i++) {
        uint32_t y = e->heads[i];
        if (labels[y] >= best)
            continue;
        uint32_t sum = e->weights[i] + labels[y];
        if (sum >= best || e->used[y] || barred[y])
            continue;
        best = sum;
        node = y;
    }
    *l = best;
    return node;
}

// The smallest unused node to which an arc goes from x along the labels, or 0.
static uint32_t tight_exit(const struct engine *e, uint32_t x, const uint32_t *labels) {
    for (uint32_t i = e->first_out[x]; i < e->first_out[x + 1]; i++) {
        uint32_t y = e->heads[i];
        if (labels[y] != FAR && e->weights[i] + labels[y] == labels[x] && !e->used[y])
            return y;
    }
    return 0;
}

static void unmark(struct engine *e, uint32_t from, uint32_t to) {
    while (from < to)
        e->used[e->path[from++]] = 0;
}

// The walk along the labels from path[..d] on with y: its length, or 0 if it is stuck.
static uint32_t attempt(struct engine *e, const uint32_t *labels, uint32_t d, uint32_t y) {
    uint32_t len = d;
    while (y != 0) {
        e->path[len++] = (uint16_t)y;
        e->used[y] = 1;
        if (y == e->goal)
            break;
        y = tight_exit(e, y, labels);
    }
    unmark(e, d, len);
    return y == 0 ? 0 : len;
}

static uint32_t by_steps(struct engine *e, uint32_t d, uint32_t y) {
    uint32_t len = d, l;
    for (;;) {
        e->path[len++] = (uint16_t)y;
        e->used[y] = 1;
        if (y == e->goal)
            break;
        least(e, e->used, e->labels);
        y = least_exit(e, y, e->labels, e->used, &l);
    }
    unmark(e, d, len);
    return len;
}

// The first path of the branch of path[..d] by labels with path[..d] barred.
static uint32_t exact_path(struct engine *e, uint32_t d, uint32_t *l) {
    least(e, e->used, e->labels);
    uint32_t y = least_exit(e, e->path[d - 1], e->labels, e->barred, l);
    if (y == 0)
        return 0;
    uint32_t len = attempt(e, e->labels, d, y);
    return len != 0 ? len : by_steps(e, d, y);
}

// ---- sharper labels: a search outwards from the end of the beginning, guided by the labels of the whole
// network. A node's key is the least cost of a path through it by these labels.

// Follows the arcs from x. A node with the key of x is the next to be taken: none has a smaller one.
static void spread(struct engine *e, uint32_t x, uint32_t key, const uint8_t *barred) {
    uint32_t own = e->overall[x];
    for (uint32_t i = e->first_out[x]; i < e->first_out[x + 1]; i++) {
        uint32_t y = e->heads[i];
        if (e->used[y] || barred[y] || e->overall[y] == FAR)
            continue;
        uint32_t more = e->weights[i] + e->overall[y] - own, old = e->keys[y];
        if (old <= key + more || e->most < key + more)
            continue;
        e->keys[y] = key + more;
        if (old != FAR)
            continue;
        if (more == 0) {
            e->nodes[e->met] = e->nodes[e->taken];
            e->nodes[e->taken] = (uint16_t)y;
        } else
            e->nodes[e->met] = (uint16_t)y;
        e->met++;
    }
}

// The place of a node with the least key among those that are not taken; `floor` is the least there can be.
static uint32_t pick(const struct engine *e, uint32_t floor) {
    uint32_t best = e->taken, least = e->keys[e->nodes[best]];
    if (least <= floor)
        return best;
    for (uint32_t i = best + 1; i < e->met; i++) {
        uint32_t key = e->keys[e->nodes[i]];
        if (key < least) {
            best = i;
            least = key;
        }
    }
    return best;
}

// Whether a walk along the labels leads from x to the goal and meets no node that is used or was taken.
static bool leads(const struct engine *e, uint32_t x, uint32_t key, uint32_t most) {
    while (x != e->goal) {
        if (most-- == 0)
            return false;
        x = tight_exit(e, x, e->overall);
        if (x == 0 || e->keys[x] <= key)
            return false;
    }
    return true;
}

// Takes node after node until the goal is reached, or a walk leads there, or all keys are above the most.
// Gives what a tail costs at least.
static uint32_t search(struct engine *e, uint32_t v) {
    e->met = e->taken = 0;
    memset(e->keys, 255, (e->n + 1) * sizeof *e->keys);
    spread(e, v, e->overall[v], e->barred);
    for (uint32_t floor = 0; e->taken < e->met;) {
        uint32_t place = pick(e, floor), x = e->nodes[place], key = e->keys[x];
        if (leads(e, x, key, e->taken > 0 && key > floor ? e->n : 0))
            return key;
        e->nodes[place] = e->nodes[e->taken];
        e->nodes[e->taken++] = (uint16_t)x;
        floor = key;
        spread(e, x, key, e->used);
    }
    return e->most == FAR ? FAR : e->most + 1;
}

// Raises the labels of the nodes that the search took, and then each to what its exits allow, from the
// last to the first. Says whether the labels can be relied on.
static bool sharpen(struct engine *e, uint32_t v) {
    uint32_t level = search(e, v);
    memcpy(e->labels, e->overall, (e->n + 1) * sizeof *e->labels);
    for (uint32_t i = 0; i < e->taken; i++) {
        uint32_t x = e->nodes[i];
        e->labels[x] = level == FAR ? FAR : e->labels[x] + (level - e->keys[x]);
    }
    for (uint32_t i = e->taken; i-- > 0;) {
        uint32_t x = e->nodes[i], l;
        least_exit(e, x, e->labels, e->used, &l);
        if (l < e->labels[x])
            return false;
        e->labels[x] = l;
    }
    return true;
}

// The length of the first path of the branch of path[..d], or 0 if it is empty or no path is wanted; y and l
// are the least exit by the labels of the whole network, and l is then what the tail costs.
static uint32_t first_path(struct engine *e, uint32_t d, uint32_t y, uint32_t *l) {
    uint32_t len = attempt(e, e->overall, d, y);
    if (len != 0)
        return len;
    if (!sharpen(e, e->path[d - 1]))
        return exact_path(e, d, l);
    y = least_exit(e, e->path[d - 1], e->labels, e->barred, l);
    if (y == 0 || *l > e->most)
        return 0;
    len = attempt(e, e->labels, d, y);
    return len != 0 ? len : exact_path(e, d, l);
}

// ---- candidates

static uint32_t *entry_at(const struct engine *e, uint32_t place) {
    return e->entries + (size_t)e->order[place] * (e->n + 15);
}

static void lay_out(const struct engine *e, uint32_t place, uint32_t count, uint16_t *path) {
    const uint32_t *entry = entry_at(e, place);
    uint32_t shared = entry[1], parent = entry[2];
    if (parent == 0)
        path[0] = (uint16_t)e->start;
    else
        lay_out(e, parent - 1, shared < count ? shared : count, path);
    for (uint32_t i = shared; i < count; i++)
        path[i] = (uint16_t)entry[TAIL + i - shared];
}

static bool nodes_before(const uint16_t *p, uint32_t count, const uint16_t *q, uint32_t length) {
    for (uint32_t i = 0; i < count; i++) {
        if (length <= i)
            return false;
        if (p[i] != q[i])
            return p[i] < q[i];
    }
    return count < length;
}

static bool entry_before(struct engine *e, uint32_t place, uint32_t cost, uint32_t len) {
    const uint32_t *entry = entry_at(e, place);
    if (entry[0] != cost)
        return entry[0] < cost;
    uint32_t count = entry[1] + entry[3];
    lay_out(e, place, count, e->scratch);
    return nodes_before(e->scratch, count, e->path, len);
}

static uint32_t place_for(struct engine *e, uint32_t from, uint32_t cost, uint32_t len) {
    uint32_t low = from, high = e->count;
    while (low < high) {
        uint32_t middle = low + (high - low) / 2;
        if (entry_before(e, middle, cost, len))
            low = middle + 1;
        else
            high = middle;
    }
    return low;
}

static void insert(struct engine *e, uint32_t place, uint32_t cost, uint32_t shared, uint32_t parent, uint32_t len) {
    uint32_t last = e->count < e->slots ? e->count++ : e->count - 1;
    uint32_t slot = e->order[last];
    memmove(e->order + place + 1, e->order + place, (last - place) * sizeof *e->order);
    e->order[place] = slot;
    uint32_t *entry = entry_at(e, place);
    entry[0] = cost;
    entry[1] = shared;
    entry[2] = parent;
    entry[3] = len - shared;
    for (uint32_t i = shared; i < len; i++)
        entry[TAIL + i - shared] = e->path[i];
}

// ---- the ranked list

// Looks into the branch of path[..d], which costs `before`; its first path is put in its place from
// `from` on.
static void consider(struct engine *e, uint32_t from, uint32_t parent, uint32_t d, uint32_t before) {
    uint32_t l, y = least_exit(e, e->path[d - 1], e->overall, e->barred, &l);
    if (y == 0)
        return;
    e->most = FAR;
    if (e->count == e->slots) {
        uint32_t dearest = entry_at(e, e->count - 1)[0];
        if (dearest < before + l)
            return;
        e->most = dearest - before;
    }
    uint32_t len = first_path(e, d, y, &l);
    if (len == 0)
        return;
    uint32_t place = place_for(e, from, before + l, len);
    if (place < e->slots)
        insert(e, place, before + l, d, parent, len);
}

static void set_bars(struct engine *e, uint32_t place, uint32_t at, uint8_t value) {
    for (;;) {
        const uint32_t *entry = entry_at(e, place);
        e->barred[entry[TAIL + at - entry[1]]] = value;
        if (at != entry[1] || entry[2] == 0)
            return;
        place = entry[2] - 1;
    }
}

static uint32_t arc_weight(const struct engine *e, uint32_t v, uint32_t y) {
    uint32_t i = e->first_out[v];
    while (e->heads[i] != y)
        i++;
    return e->weights[i];
}

// The path with that rank leaves the first paths of the parts of its branch as candidates.
static void split(struct engine *e, uint32_t rank) {
    const uint32_t *entry = entry_at(e, rank);
    uint32_t before = entry[0], shared = entry[1], len = entry[1] + entry[3];
    lay_out(e, rank, len, e->path);
    for (uint32_t i = 0; i < len; i++)
        e->used[e->path[i]] = 1;
    for (uint32_t d = len - 1; shared <= d; d--) {
        e->used[e->path[d]] = 0;
        before -= arc_weight(e, e->path[d - 1], e->path[d]);
        set_bars(e, rank, d, 1);
        consider(e, rank + 1, rank + 1, d, before);
        set_bars(e, rank, d, 0);
    }
    unmark(e, 0, shared);
}

static void rank_paths(struct engine *e) {
    for (uint32_t p = 0; p < e->slots; p++)
        e->order[p] = p;
    e->path[0] = (uint16_t)e->start;
    e->used[e->start] = 1;
    consider(e, 0, 0, 1, 0);
    e->used[e->start] = 0;
    for (uint32_t j = 0; j < e->count && j + 1 < e->slots; j++)
        split(e, j);
}

struct vihrolom_reply plain_rank(const uint8_t *image, size_t image_length, uint32_t column, uint32_t start, uint32_t goal, uint32_t wanted, uint16_t *rows, size_t rows_length, uint32_t *costs, size_t costs_length, uint32_t *work, size_t work_length) {
    struct vihrolom_reply sizes = check(image, image_length);
    if (sizes.refusal != 0)
        return sizes;
    uint32_t n = sizes.v0;
    if (start < 1 || start > n || goal < 1 || goal > n || start == goal)
        return refused(10, 0);
    if (column < 1 || column > sizes.v2)
        return refused(11, 0);
    if (wanted < 1 || wanted > 256)
        return refused(12, 0);
    if (rows_length < (size_t)wanted * n || costs_length < wanted || work_length < (size_t)(wanted + 1) * (n + 16) + 16 * n + 64)
        return refused(13, 0);
    struct engine e = {.n = n, .m = sizes.v1, .start = start, .goal = goal, .order = work, .entries = work + wanted, .slots = wanted};
    load(&e, image, column);
    if (e.overall[start] == FAR)
        return refused(15, 0);
    rank_paths(&e);
    for (uint32_t i = 0; i < e.count; i++) {
        const uint32_t *entry = entry_at(&e, i);
        uint32_t len = entry[1] + entry[3];
        uint16_t *row = rows + (size_t)i * n;
        lay_out(&e, i, len, row);
        memset(row + len, 0, (n - len) * sizeof *row);
        costs[i] = entry[0];
    }
    memset(work, 0, work_length * sizeof *work);
    return (struct vihrolom_reply){.v0 = e.count};
}
