"""Writes the example images, and for each the sheet that the program has to print for it; and the
images and sheets that the test program `test_sheets` is held to.

    python3 examples/make.py

S is network S of docs/REFERENCE.md. Two more examples are grids of 10 times 10 nodes with arcs between
neighbours, both ways, and 4 columns of costs. In `close` the columns differ little, and the
stopping rule needs few paths; in `apart` they differ much, and 48 paths are not enough.

The sheets are computed here in the plainest way, apart from the library: paths are ranked by
Yen's method with labels made anew for each search. All costs are above 0; None is that of an arc which
is closed in the column, and an image that has one is of edition 2.
"""
import heapq
import os
import struct

EXAMPLES = os.path.dirname(os.path.abspath(__file__))
TESTS = os.path.join(os.path.dirname(EXAMPLES), "crates", "test_sheets")

# in the place of a cost: the arc is closed in that column
CLOSED = 2**32 - 1


def image(n, arcs, columns):
    """The bytes of an image: of edition 2 if an arc is closed in a column, else of edition 1."""
    m, k = len(arcs), len(columns)
    costs = [cost for column in columns for cost in column]
    edition = 2 if None in costs else 1
    parts = [struct.pack("<HHHHIIII", edition, n, m, k, 24, 24 + 4 * m, 24 + 4 * m + 4 * m * k, 0)]
    parts += [struct.pack("<HH", tail, head) for tail, head in arcs]
    parts += [struct.pack("<I", CLOSED if cost is None else cost) for cost in costs]
    return b"".join(parts)


def labels(n, costs, goal, barred):
    """The least cost from each node to the goal by ways that meet no barred node."""
    into = {v: [] for v in range(1, n + 1)}
    for (tail, head), cost in costs.items():
        into[head].append((tail, cost))
    least, queue = {}, [(0, goal)]
    while queue:
        cost, v = heapq.heappop(queue)
        if v in least or v in barred:
            continue
        least[v] = cost
        for tail, weight in into[v]:
            heapq.heappush(queue, (cost + weight, tail))
    return least


def first(n, costs, goal, begin, shut):
    """The first path that goes on from `begin`, but not to a node of `shut` next; or None."""
    path, least = list(begin), labels(n, costs, goal, set(begin))
    while path[-1] != goal:
        v = path[-1]
        steps = [
            (weight + least[head], head)
            for (tail, head), weight in costs.items()
            if tail == v and head in least and not (len(path) == len(begin) and head in shut)
        ]
        if not steps:
            return None
        path.append(min(steps)[1])
    return path


def price(costs, path):
    return sum(costs[arc] for arc in zip(path, path[1:]))


def ranked(n, costs, start, goal, count):
    """The first paths in the ranking order: by cost, then node list."""
    found, waiting = [], []
    path = first(n, costs, goal, [start], set())
    while path and len(found) < count:
        found.append(path)
        for i in range(len(path) - 1):
            begin = path[: i + 1]
            shut = {p[i + 1] for p in found if p[: i + 1] == begin}
            other = first(n, costs, goal, begin, shut)
            if other and (price(costs, other), other) not in waiting:
                waiting.append((price(costs, other), other))
        waiting.sort()
        path = waiting.pop(0)[1] if waiting else None
    return found


def refused(number, place):
    """The sheet of a refusal."""
    return f"refused {number} at {place}\n"


def sheet(n, arcs, columns, most=48):
    """The sheet, as text: Robust with column 1, start 1, goal n.

    The ranked paths are those that are open in every column; each column's best is that of all paths
    that are open in it.
    """
    costs = [
        {arc: cost for arc, cost in zip(arcs, column) if cost is not None} for column in columns
    ]
    common = {arc: costs[0][arc] for arc in arcs if all(arc in column for column in costs)}
    paths = ranked(n, common, 1, n, most + 1)
    if not paths:
        return refused(15, 0)
    best = [labels(n, column, n, set())[1] for column in costs]

    def deviations(path):
        return [price(column, path) - b for column, b in zip(costs, best)]

    figures = [max(deviations(path)) for path in paths]
    count, state = most, f"open floor {deviations(paths[-1])[0]}"
    for j in range(1, min(most, len(paths)) + 1):
        if j == len(paths) or deviations(paths[j])[0] >= min(figures[:j]):
            count, state = j, "settled"
            break
    at = figures.index(min(figures[:count]))
    worst = deviations(paths[at]).index(figures[at]) + 1
    route = " ".join(str(v) for v in paths[at])
    return f"route {route}\nregret {figures[at]} column {worst}\nranked {count} {state}\n"


def drawer(seed):
    """A function that draws numbers below a limit."""
    state = seed

    def draw(below):
        nonlocal state
        state = (state * 1103515245 + 12345) % 2**31
        return (state >> 8) % below

    return draw


def grid(side, spread, seed):
    """A grid, with costs of 1,000 to 1,999 in column 1, and up to `spread` more in each other."""
    draw = drawer(seed)
    arcs = []
    for v in range(side * side):
        x, y = v % side, v // side
        for dx, dy in [(0, -1), (-1, 0), (1, 0), (0, 1)]:
            if 0 <= x + dx < side and 0 <= y + dy < side:
                arcs.append((v + 1, (y + dy) * side + x + dx + 1))
    base = [1000 + draw(1000) for _ in arcs]
    columns = [base] + [[cost + draw(spread) for cost in base] for _ in range(3)]
    return side * side, arcs, columns


def with_ferries(network, share, seed):
    """The network with so many of 100 costs replaced by None: the arc is closed in that column."""
    n, arcs, columns = network
    draw = drawer(seed)
    return n, arcs, [[None if draw(100) < share else cost for cost in column] for column in columns]


def line(n):
    """The nodes in a line, with arcs of the largest cost. For 200 nodes no route is longer."""
    return n, [(v, v + 1) for v in range(1, n)], [[1000000] * (n - 1)]


def fan(count):
    """So many paths, each from 1 by one more node to n, and the stopping rule needs them all.

    In column 1 each costs 1 more than the one before; in column 2 the last is cheapest by far.
    """
    n, between = count + 2, range(2, count + 2)
    arcs = [(1, v) for v in between] + [(v, n) for v in between]
    rising = list(between) + [1] * count
    last_cheap = [1000] * (count - 1) + [1] + [1] * count
    return n, arcs, [rising, last_cheap]


S = (
    4,
    [(1, 2), (1, 3), (2, 3), (2, 4), (3, 4)],
    [[2, 5, 1, 6, 2], [4, 1, 2, 1, 7]],
)
S_BACKWARD = (4, [(2, 1), (3, 1), (3, 2), (4, 2), (4, 3)], S[2])
NO_ARCS = (2, [], [[]])
# 1 4 is cheapest in column 1, and closed in column 2: deviations in column 1 are held against its cost.
FERRY = (
    4,
    [(1, 2), (1, 3), (1, 4), (2, 4), (3, 4)],
    [[2, 3, 1, 3, 3], [4, 1, None, 8, 1]],
)
# Each column has a path, and none is open in both.
PARTED = (4, [(1, 2), (1, 3), (2, 4), (3, 4)], [[1, None, 2, 5], [None, 3, 4, 1]])
# All arcs into the goal are closed in the last column.
GOAL_CLOSED = (3, [(1, 2), (1, 3), (2, 3)], [[1, 4, 1], [1, 4, 1], [1, None, None]])


def solved(network):
    """The image of a network, and its sheet."""
    return image(*network), sheet(*network)


def s_with(offset, width, number):
    """The image of S with another number, of so many bytes, at an offset."""
    whole = image(*S)
    return whole[:offset] + number.to_bytes(width, "little") + whole[offset + width :]


def s_with_head(arc, head):
    return s_with(24 + 4 * arc + 2, 2, head)


def s_with_cost(index, cost):
    return s_with(24 + 4 * len(S[1]) + 4 * index, 4, cost)


def in_edition(edition, whole):
    """An image with another edition in its header."""
    return edition.to_bytes(2, "little") + whole[2:]


# Each image with its sheet, in the order of the test program. A refusal's number and place are
# those of the table (REFERENCE, section 6.2).
CASES = {
    # settled
    "S": solved(S),
    "close": solved(grid(10, 300, 3)),
    "line": solved(line(200)),
    "fan48": solved(fan(48)),
    # open
    "apart": solved(grid(10, 1000, 1)),
    "fan49": solved(fan(49)),
    # refused
    "empty": (b"", refused(1, 0)),
    "header_cut": (image(*S)[:23], refused(1, 0)),
    "edition": (s_with(0, 2, 7), refused(2, 0)),
    "one_node": (s_with(2, 2, 1), refused(3, 0)),
    "reserved": (s_with(20, 4, 1), refused(4, 0)),
    "byte_added": (image(*S) + b"\0", refused(5, 0)),
    "head_outside": (s_with_head(3, 5), refused(6, 3)),
    "arc_to_itself": (s_with_head(4, 3), refused(7, 4)),
    "arc_twice": (s_with_head(1, 2), refused(8, 1)),
    "cost_too_large": (s_with_cost(7, 1000001), refused(9, 7)),
    "no_arcs": solved(NO_ARCS),
    "backward": solved(S_BACKWARD),
    # edition 2, settled
    "S_in_edition_2": (in_edition(2, image(*S)), sheet(*S)),
    "ferry": solved(FERRY),
    "close_with_ferries": solved(with_ferries(grid(10, 300, 3), 4, 1)),
    # edition 2, open
    "apart_with_ferries": solved(with_ferries(grid(10, 1000, 1), 4, 7)),
    # edition 2, refused
    "parted": solved(PARTED),
    "goal_closed": solved(GOAL_CLOSED),
    "below_the_mark": (in_edition(2, s_with_cost(7, CLOSED - 1)), refused(9, 7)),
    # the mark in edition 1, and an edition that there is not
    "mark_in_edition_1": (s_with_cost(7, CLOSED), refused(9, 7)),
    "edition_3": (in_edition(3, image(*S)), refused(2, 0)),
}

# The test program lends the places that a sheet needs, and then fewer for the sheet of S.
PLACES = 1024
FEWER = [1023, 0]


def trial_text():
    """What the test program has to print."""
    parts = [f"{name}.image in {PLACES} places\n{text}" for name, (_, text) in CASES.items()]
    parts += [f"S.image in {places} places\ntoo short\n" for places in FEWER]
    return "".join(parts)


def write(folder, name, content):
    os.makedirs(folder, exist_ok=True)
    with open(os.path.join(folder, name), "wb") as out:
        out.write(content)


for name in ["S", "close", "apart"]:
    write(EXAMPLES, name + ".image", CASES[name][0])
    write(EXAMPLES, name + ".sheet", CASES[name][1].encode())
for name in CASES:
    write(os.path.join(TESTS, "data"), name + ".image", CASES[name][0])
write(TESTS, "stdout", trial_text().encode())
