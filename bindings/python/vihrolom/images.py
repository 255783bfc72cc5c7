"""Routes whose worst disappointment is smallest: the calls on network images.

docs/REFERENCE.md says what each call gives. Each function takes the bytes of a network image and
passes them to the proved core in a shared library. The core examines every image, list and number
itself; the functions here only size the slices that it writes to. A call gives its result or raises
`Refusal`.

The library's file is named by the environment variable VIHROLOM_LIBRARY; if that is not set, it is
libvihrolom.so beside this file, where the installed package has it, or else in target/sharedlib of
the repository, where tools/build-library writes it. It is loaded by the first call.

An image of edition 2 may have arcs that are closed in a column: in lists of costs they have None.
A path of a column uses arcs that are open in it. `regret`, `robust` and `search` are about paths that
are open in every column, and hold them in each against the best path of that column.

A `Week` keeps Robust's answer current while roads close and reopen.

Numbers may be any whole numbers. One that does not fit the 32 bits of its parameter, or the 16 bits
of a node in a list, is never cut down to them: it is refused by the refusal table, since it is
no edition, outside 1..n, 1..k or 1..256 or above 1,000,000; Find, which refuses no number, finds no
arc, and a limit on the arcs that Search tries becomes the nearest that fits. The table has no row for
a negative cost, nor for a stamp that does not fit 32 bits; these raise ValueError. What is no whole
number raises TypeError.
"""
from __future__ import annotations

import ctypes
import functools
import operator
import os
from dataclasses import dataclass
from typing import Iterable, List, NamedTuple, Optional, Tuple

from ._version import __version__

_FOLDER = os.path.dirname(os.path.abspath(__file__))
_INSTALLED = os.path.join(_FOLDER, "libvihrolom.so")
_BUILT = os.path.join(_FOLDER, "..", "..", "..", "target", "sharedlib", "libvihrolom.so")

_GREATEST_16 = 2**16 - 1
_GREATEST_32 = 2**32 - 1
# in the place of a cost: the arc is closed; in the place of a label: the goal cannot be reached
_MARK = _GREATEST_32
_MOST_PATHS = 256
# the states of an answer
_SETTLED, _OPEN = 1, 2
_SHEET_PATHS = 48

# The rows of the refusal table (REFERENCE, section 6.2) by their numbers, without their places. None has 16.
_ROWS = {
    1: "image under 24 bytes",
    2: "edition isn't 1 or 2",
    3: "n, m or k outside its range",
    4: "an offset, total or reserved field is wrong; in Build, odd node list or costs not mk; in Update, a list that isn't of fours",
    5: "image length isn't the total",
    6: "tail or head outside 1..n",
    7: "tail equals head",
    8: "arc not above the one before",
    9: "cost above 1,000,000, or an arc closed in edition 1",
    10: "start or goal outside 1..n, or equal",
    11: "column outside 1..k",
    12: "K outside 1..256",
    13: "a lent slice is too short",
    14: "the node list is no path",
    15: "no path exists",
    17: "a record's arc index is m or more",
    18: "a record's column is outside 1..k",
    19: "Search's rule tries more arcs than the limit",
    20: "an event's arc index is m or more",
}


class Refusal(Exception):
    """A refusal: the number of its row, its place (0 if it names none), and its words."""

    def __init__(self, number: int, place: int) -> None:
        super().__init__(number, place)
        self.number = number
        self.place = place
        self.words = _ROWS[number]

    def __str__(self) -> str:
        return f"refused {self.number} at {self.place}: {self.words}"


class LibraryMissing(OSError):
    """The shared library is not there, or is not the one that this module calls."""


@dataclass(frozen=True)
class Sizes:
    """How many nodes, arcs and columns a network has, and the edition of its image."""

    nodes: int
    arcs: int
    columns: int
    edition: int


@dataclass(frozen=True)
class Lists:
    """What an image holds: tail and head of each arc in turn, and the costs, column after column.

    The cost is None where the arc is closed.
    """

    sizes: Sizes
    ends: Tuple[int, ...]
    costs: Tuple[Optional[int], ...]


@dataclass(frozen=True)
class Path:
    """A path and its cost in the column asked for."""

    nodes: Tuple[int, ...]
    cost: int


@dataclass(frozen=True)
class Regret:
    """The greatest regret of a path, and the lowest-numbered column that has it."""

    figure: int
    worst: int


@dataclass(frozen=True)
class Choice:
    """Robust's answer.

    `path` has the least greatest regret of the `count` paths that were counted: `figure`, in column
    `worst`. If `settled`, no path at all has less, and `floor` is None. Otherwise the least greatest
    regret of all paths lies between `floor` and `figure`.
    """

    path: Tuple[int, ...]
    figure: int
    worst: int
    count: int
    settled: bool
    floor: Optional[int]


@dataclass(frozen=True)
class Search:
    """What a search of all paths found.

    `path` has the least greatest regret of all paths that are open in every column: `figure`, in
    column `worst`. Of paths with equal figures it is the first by node list. `tried` arcs were tried.
    """

    path: Tuple[int, ...]
    figure: int
    worst: int
    tried: int


@dataclass(frozen=True)
class Found:
    """What a search for an arc found: its index, None if there is no such arc, and the arcs looked at."""

    index: Optional[int]
    looks: int


class Record(NamedTuple):
    """What a van tells of one arc in one column.

    `arc` is the arc's index, from 0, and `cost` is None if the arc is closed in the column.
    """

    arc: int
    column: int
    cost: Optional[int]
    stamp: int


class Week:
    """A week in which roads close and reopen: Robust's answer on the image without the closed arcs.

    It begins with every road open, for one image, column, start, goal and limit. An arc is named by its
    index in the image, from 0, which `find` gives. An event that is refused changes nothing.
    """

    def __init__(self, image: bytes, column: int, start: int, goal: int, limit: int) -> None:
        sizes = check(image)
        self._image, self._arcs = _image(image), sizes.arcs
        self._asked = _number(column), _number(start), _number(goal), _number(limit)
        self._work = _workspace(_room(limit), sizes.nodes)
        self._take(_call("week_fresh", self._image, *self._asked, self._work))

    @classmethod
    def from_bytes(
        cls, state: bytes, image: bytes, column: int, start: int, goal: int, limit: int
    ) -> Week:
        """The week with a state that `to_bytes` gave, for the same image, column, start, goal and limit.

        Any bytes of that length are a state, and are read as they are: the answer of one that was made
        otherwise, or for another question, is as it says until an event has Robust run again.
        """
        content = memoryview(state).tobytes()
        if len(content) != ctypes.sizeof(_State):
            raise ValueError(f"a state has {ctypes.sizeof(_State)} bytes, and not {len(content)}")
        week = cls(image, column, start, goal, limit)
        week._state = _State.from_buffer_copy(content)
        if week._arcs > 0:
            # an event that changes nothing: it tells how many roads are closed
            week._event(0, week.is_closed(0))
        return week

    def to_bytes(self) -> bytes:
        """The state, to be saved: the 552 bytes of the C struct."""
        return bytes(self._state)

    def close(self, arc: int) -> None:
        """Closes the arc with this index in every column."""
        self._event(arc, True)

    def reopen(self, arc: int) -> None:
        """Opens the arc with this index."""
        self._event(arc, False)

    @property
    def answer(self) -> Optional[Choice]:
        """Robust's answer now, or None if no path is left.

        Its `count` is that of the last full run; an answer that an event leaves as it is, is not found anew.
        """
        state = self._state
        if state.state not in (_SETTLED, _OPEN):
            return None
        path, settled = tuple(state.route[: state.length]), state.state == _SETTLED
        floor = None if settled else state.floor
        return Choice(path, state.figure, state.worst, state.count, settled, floor)

    @property
    def closed_roads(self) -> int:
        """How many roads are closed."""
        return self._closed_roads

    def is_closed(self, arc: int) -> bool:
        """Whether the arc with this index is closed."""
        word, bit = divmod(operator.index(arc), 64)
        return 0 <= arc < self._arcs and self._state.closed[word] >> bit & 1 == 1

    def _event(self, arc: int, close: bool) -> None:
        event = _index(arc), int(close)
        self._take(_call("week_event", self._image, *self._asked, self._state, *event, self._work))

    def _take(self, reply: _WeekReply) -> None:
        """Takes in what a call gave: a state of its own, and not a part of the reply."""
        self._state = _State.from_buffer_copy(reply.week)
        self._closed_roads = reply.closed_roads


def build(
    edition: int,
    nodes: int,
    columns: int,
    ends: Iterable[int],
    costs: Iterable[Optional[int]],
) -> bytes:
    """The image of a network, of edition 1 or 2.

    `ends` has tail and head of each arc in turn, rising by tail, then head; `costs` has the costs of
    all arcs in column 1, then those in column 2, and so on. In edition 2 a cost may be None: the arc
    is closed in that column.
    """
    arc_ends, arc_costs = _node_list(ends), _cost_list(costs)
    image = (ctypes.c_uint8 * (24 + 2 * len(arc_ends) + 4 * len(arc_costs)))()
    sizes = _number(nodes), _number(columns)
    reply = _call("build", _number(edition), *sizes, arc_ends, arc_costs, image)
    return bytes(image[: reply.v0])


def check(image: bytes) -> Sizes:
    """The sizes of an image's network and its edition, if the image is sound."""
    reply = _call("check", _image(image))
    return Sizes(reply.v0, reply.v1, reply.v2, reply.v3)


def unpack(image: bytes) -> Lists:
    """The lists that an image was built from."""
    sizes = check(image)
    ends = (ctypes.c_uint16 * (2 * sizes.arcs))()
    costs = (ctypes.c_uint32 * (sizes.arcs * sizes.columns))()
    _call("unpack", _image(image), ends, costs)
    return Lists(sizes, tuple(ends), tuple(_unmarked(costs)))


def update(image: bytes, records: Iterable[Record]) -> bytes:
    """The image after a list of records, each of arc index, column, cost and stamp.

    For one arc and column the record with the greatest stamp counts, and of equal stamps the later
    in the list. Costs without a record stay. In edition 2 a cost may be None: it closes the arc.
    """
    listed = list(records)
    costs = _cost_list(record[2] for record in listed)
    numbers = []
    for index, (arc, column, _, stamp) in enumerate(listed):
        if not 0 <= operator.index(stamp) <= _GREATEST_32:
            raise ValueError(f"the stamp at index {index} does not fit 32 bits: {stamp}")
        numbers += [_index(arc), _number(column), costs[index], operator.index(stamp)]
    after = _image(image)
    _call("update", after, (ctypes.c_uint32 * len(numbers))(*numbers))
    return bytes(after)


def label(image: bytes, column: int, goal: int) -> List[Optional[int]]:
    """For each node, from 1 on, its least cost to the goal; None if it cannot reach the goal."""
    labels = (ctypes.c_uint32 * check(image).nodes)()
    _call("label", _image(image), _number(column), _number(goal), labels)
    return _unmarked(labels)


def shortest(image: bytes, column: int, start: int, goal: int) -> Path:
    """The first path of the ranking order: the cheapest, and of equal ones the first by node list."""
    path = (ctypes.c_uint16 * check(image).nodes)()
    reply = _call("shortest", _image(image), _number(column), _number(start), _number(goal), path)
    return Path(tuple(path[: reply.v0]), reply.v1)


def regret(image: bytes, start: int, goal: int, nodes: Iterable[int]) -> Regret:
    """The greatest regret of the path with these nodes, which must be open in every column."""
    reply = _call("regret", _image(image), _number(start), _number(goal), _node_list(nodes))
    return Regret(reply.v0, reply.v1)


def rank(image: bytes, column: int, start: int, goal: int, limit: int) -> List[Path]:
    """The first `limit` paths of the ranking order, or all if there are fewer; `limit` is 1 to 256."""
    width, rows = check(image).nodes, _room(limit)
    nodes = (ctypes.c_uint16 * (rows * width))()
    costs = (ctypes.c_uint32 * rows)()
    ends = _number(start), _number(goal)
    work = _workspace(rows, width)
    reply = _call("rank", _image(image), _number(column), *ends, _number(limit), nodes, costs, work)
    return [Path(_row(nodes, width, i), costs[i]) for i in range(reply.v0)]


def robust(image: bytes, column: int, start: int, goal: int, limit: int) -> Choice:
    """The path of least greatest regret, sought among the first `limit` paths ranked in `column`.

    Ranked are the paths that are open in every column. `limit` is 1 to 256. The answer is settled as
    soon as no later path can have less regret.
    """
    width = check(image).nodes
    path = (ctypes.c_uint16 * width)()
    work = _workspace(_room(limit), width)
    ends = _number(start), _number(goal)
    reply = _call("robust", _image(image), _number(column), *ends, _number(limit), path, work)
    length, figure, worst, count = reply.v0, reply.v1, reply.v2, reply.v3
    settled = reply.v4 == _SETTLED
    floor = None if settled else reply.v5
    return Choice(tuple(path[:length]), figure, worst, count, settled, floor)


def search(image: bytes, start: int, goal: int, limit: int) -> Search:
    """The path of least greatest regret of all that are open in every column, sought depth first.

    It is settled, or refused if more than `limit` arcs would have to be tried.
    """
    path = (ctypes.c_uint16 * check(image).nodes)()
    ends = _number(start), _number(goal)
    reply = _call("search", _image(image), *ends, _nearest(limit), path)
    return Search(tuple(path[: reply.v0]), reply.v1, reply.v2, reply.v3)


def find(image: bytes, tail: int, head: int) -> Found:
    """The arc from `tail` to `head`, looked for by halving the range of the arcs.

    A number outside 1..n has no arc, whatever its size.
    """
    reply = _call("find", _image(image), _nearest(tail), _nearest(head))
    return Found(reply.v1 if reply.v0 == 1 else None, reply.v2)


def sheet(image: bytes) -> str:
    """The sheet that the program prints for an image, refused ones included.

    It tells Robust's answer in column 1, from node 1 to the last node, over at most 48 paths.
    """
    try:
        choice = robust(image, 1, 1, check(image).nodes, _SHEET_PATHS)
    except Refusal as refusal:
        return f"refused {refusal.number} at {refusal.place}\n"
    return answer_text(choice, " ".join(map(str, choice.path)), str(choice.worst))


def answer_text(choice: Choice, route: str, worst: str) -> str:
    """The sheet of Robust's answer, with its route and its worst column in the words given."""
    state = "settled" if choice.settled else f"open floor {choice.floor}"
    return (
        f"route {route}\n"
        f"regret {choice.figure} column {worst}\n"
        f"ranked {choice.count} {state}\n"
    )


def _unmarked(numbers: ctypes.Array) -> List[Optional[int]]:
    """Costs or labels, with None for the mark."""
    return [None if number == _MARK else number for number in numbers]


def _row(nodes: ctypes.Array, width: int, index: int) -> Tuple[int, ...]:
    """The path in one row of `width` places. The row is filled up with 0, which is no node."""
    return tuple(node for node in nodes[index * width : (index + 1) * width] if node != 0)


def _room(limit: int) -> int:
    """For how many paths to make room. A limit outside 1..256 is refused before room is asked for."""
    return max(0, min(operator.index(limit), _MOST_PATHS))


def _workspace(rows: int, nodes: int) -> ctypes.Array:
    """The workspace that Rank, Robust and the calls on a week borrow."""
    return (ctypes.c_uint32 * ((rows + 1) * (nodes + 16) + 16 * nodes + 64))()


def _image(image: bytes) -> ctypes.Array:
    """A copy of the image's bytes, which nothing can change during the call."""
    content = memoryview(image).tobytes()
    return (ctypes.c_uint8 * len(content)).from_buffer_copy(content)


def _number(number: int) -> int:
    """The number, or 0 if it does not fit 32 bits: 0 is outside every range that numbers have."""
    number = operator.index(number)
    return number if 0 <= number <= _GREATEST_32 else 0


def _index(number: int) -> int:
    """The number, or the greatest of 32 bits, which is the index of no arc, if it does not fit them."""
    number = operator.index(number)
    return number if 0 <= number <= _GREATEST_32 else _GREATEST_32


def _nearest(number: int) -> int:
    """The number, or the nearest that fits 32 bits: it is above or below as many nodes or counts."""
    return max(0, min(operator.index(number), _GREATEST_32))


def _node_list(nodes: Iterable[int]) -> ctypes.Array:
    """The nodes of a list; 0, which is no node, stands for one that does not fit 16 bits."""
    places = [operator.index(node) for node in nodes]
    places = [node if 0 <= node <= _GREATEST_16 else 0 for node in places]
    return (ctypes.c_uint16 * len(places))(*places)


def _cost_list(costs: Iterable[Optional[int]]) -> ctypes.Array:
    """The costs of a list, with the mark for None.

    No number closes an arc: the one below the mark, too large for a cost, stands for a greater one.
    """
    places = [_MARK if cost is None else min(operator.index(cost), _MARK - 1) for cost in costs]
    for index, cost in enumerate(places):
        if cost < 0:
            raise ValueError(f"the cost at index {index} is negative: {cost}")
    return (ctypes.c_uint32 * len(places))(*places)


class _State(ctypes.Structure):
    """The state of a week, which passes by value."""

    _fields_ = [
        ("closed", ctypes.c_uint64 * 16),
        ("route", ctypes.c_uint16 * 200),
        *((name, ctypes.c_uint32) for name in ("state", "length", "figure", "worst", "count", "floor")),
    ]


class _WeekReply(ctypes.Structure):
    """What the C functions on a week return."""

    _fields_ = [
        *((name, ctypes.c_uint32) for name in ("refusal", "place", "closed_roads")),
        ("week", _State),
    ]


class _Reply(ctypes.Structure):
    """What the other C functions return. `refusal` is 0 for a result, and v0 to v5 are then its values."""

    _fields_ = [
        (name, ctypes.c_uint32)
        for name in ("refusal", "place", "v0", "v1", "v2", "v3", "v4", "v5")
    ]


# How a parameter of a C function passes: a number as it is, a slice as pointer and length in elements.
_NUMBER = (ctypes.c_uint32,)
_BYTES = (ctypes.POINTER(ctypes.c_uint8), ctypes.c_size_t)
_NODES = (ctypes.POINTER(ctypes.c_uint16), ctypes.c_size_t)
_WORDS = (ctypes.POINTER(ctypes.c_uint32), ctypes.c_size_t)
_WEEK = (_State,)

_FUNCTIONS = {
    "build": (_NUMBER, _NUMBER, _NUMBER, _NODES, _WORDS, _BYTES),
    "check": (_BYTES,),
    "unpack": (_BYTES, _NODES, _WORDS),
    "label": (_BYTES, _NUMBER, _NUMBER, _WORDS),
    "shortest": (_BYTES, _NUMBER, _NUMBER, _NUMBER, _NODES),
    "regret": (_BYTES, _NUMBER, _NUMBER, _NODES),
    "rank": (_BYTES, _NUMBER, _NUMBER, _NUMBER, _NUMBER, _NODES, _WORDS, _WORDS),
    "robust": (_BYTES, _NUMBER, _NUMBER, _NUMBER, _NUMBER, _NODES, _WORDS),
    "find": (_BYTES, _NUMBER, _NUMBER),
    "search": (_BYTES, _NUMBER, _NUMBER, _NUMBER, _NODES),
    "update": (_BYTES, _WORDS),
    "week_fresh": (_BYTES, _NUMBER, _NUMBER, _NUMBER, _NUMBER, _WORDS),
    "week_event": (_BYTES, _NUMBER, _NUMBER, _NUMBER, _NUMBER, _WEEK, _NUMBER, _NUMBER, _WORDS),
}


def _check_version(path: str, library: ctypes.CDLL) -> None:
    """The library must have the package's version: to another one parameters may pass otherwise."""
    library.vihrolom_version.argtypes, library.vihrolom_version.restype = [], ctypes.c_uint32
    thousands, patch = divmod(library.vihrolom_version(), 1000)
    version = f"{thousands // 1000}.{thousands % 1000}.{patch}"
    if version != __version__:
        raise OSError(f"{path}: its version is {version}, and the package's is {__version__}")


@functools.lru_cache(maxsize=None)
def _library() -> ctypes.CDLL:
    """The shared library, with the parameters of its functions declared."""
    there = _INSTALLED if os.path.exists(_INSTALLED) else _BUILT
    path = os.path.abspath(os.environ.get("VIHROLOM_LIBRARY") or there)
    try:
        library = ctypes.CDLL(path)
        _check_version(path, library)
        for name, parameters in _FUNCTIONS.items():
            function = getattr(library, "vihrolom_" + name)
            function.argtypes = [kind for parameter in parameters for kind in parameter]
            function.restype = _WeekReply if name.startswith("week_") else _Reply
    except (OSError, AttributeError) as error:
        advice = "run tools/build-library, or name the library's file in VIHROLOM_LIBRARY"
        raise LibraryMissing(f"cannot load the library ({error}); {advice}") from None
    return library


def _call(name: str, *arguments) -> ctypes.Structure:
    """The reply of a C function to numbers, slices and states, if it gives a result.

    An empty slice passes with a pointer to a place that it does not have: no pointer is null.
    """
    passed = []
    for argument in arguments:
        if isinstance(argument, ctypes.Array):
            passed += [argument or (argument._type_ * 1)(), len(argument)]
        else:
            passed.append(argument)
    reply = getattr(_library(), "vihrolom_" + name)(*passed)
    if reply.refusal != 0:
        raise Refusal(reply.refusal, reply.place)
    return reply
