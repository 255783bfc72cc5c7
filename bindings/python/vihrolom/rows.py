"""Roads as they come in, row by row, each held to the rules of a network and to the rows before it."""
from __future__ import annotations

import operator
from typing import Dict, Iterable, Optional, Sequence, Tuple

from .errors import NetworkError
from .results import Name

MOST_PLACES = 200
MOST_ROADS = 1000
MOST_COLUMNS = 8
MOST_TIME = 1_000_000

# a road by the numbers of its two places, and its time in each column
Arc = Tuple[int, int]
Times = Tuple[Optional[int], ...]


class Rows:
    """The roads so far. Places and columns are numbered from 1, in order of appearance."""

    def __init__(self, columns: Iterable[Name], places: Iterable[Name] = ()) -> None:
        """No roads yet, and the places that are named before any road is."""
        self.columns = numbered(columns, "column", MOST_COLUMNS)
        self.places = numbered(places, "place", MOST_PLACES)
        self.times: Dict[Arc, Times] = {}
        self._seen: Dict[Arc, str] = {}
        if not self.columns:
            raise NetworkError("a network has at least one column")

    def add(self, where: str, row: Sequence[object]) -> None:
        """Takes in a road: the place it leaves, the place it leads to, and its time in each column.

        `where` tells where the row stands, in case that another one names the same road.
        """
        check_fields(row, 2 + len(self.columns))
        start, goal, *fields = row
        road = f"the road from {start!r} to {goal!r}"
        times = tuple(travel_time(time, road, name) for time, name in zip(fields, self.columns))
        arc = self._number(start), self._number(goal)
        if arc[0] == arc[1]:
            raise NetworkError(f"a road from {start!r} to itself")
        if arc in self._seen:
            raise NetworkError(f"{road} stands in {self._seen[arc]} already")
        if len(self.times) == MOST_ROADS:
            raise NetworkError(f"more than {MOST_ROADS} roads")
        self.times[arc], self._seen[arc] = times, where

    def _number(self, place: Name) -> int:
        """The number of a place, which gets the next one if it is new."""
        if place not in self.places:
            add_name(self.places, place, "place", MOST_PLACES)
        return self.places[place]


def numbered(names: Iterable[Name], kind: str, most: int) -> Dict[Name, int]:
    """The numbers of different names, from 1 on."""
    if isinstance(names, str):
        raise NetworkError(f"the {kind}s must be a list of names, and are {names!r}")
    numbers: Dict[Name, int] = {}
    for name in names:
        if name in numbers:
            raise NetworkError(f"the {kind} {name!r} stands there twice")
        add_name(numbers, name, kind, most)
    return numbers


def check_fields(row: Sequence[object], count: int) -> None:
    """A row must have as many fields as this."""
    if len(row) != count:
        raise NetworkError(f"{len(row)} fields in place of {count}")


def check_name(name: Name) -> None:
    """A name is not None; text has at least one character, and none that would break a line."""
    if name is None or isinstance(name, str) and not (name and name.isprintable()):
        raise NetworkError(f"{name!r} is no name")


def add_name(numbers: Dict[Name, int], name: Name, kind: str, most: int) -> None:
    """Gives the next number to a name."""
    check_name(name)
    if len(numbers) == most:
        raise NetworkError(f"more than {most} {kind}s")
    numbers[name] = len(numbers) + 1


def travel_time(time: object, road: str, column: Name) -> Optional[int]:
    """A time of a road in a column, or None where the road is closed."""
    return None if time is None else whole(time, f"the time of {road} in {column!r}", MOST_TIME)


def whole(number: object, what: str, most: int) -> int:
    """A whole number from 0 to the most; `what` says of what."""
    try:
        value = operator.index(number)
    except TypeError:
        raise NetworkError(f"{what} is no whole number: {number!r}") from None
    if value < 0:
        raise NetworkError(f"{what} is negative: {value}")
    if value > most:
        raise NetworkError(f"{what} is above {most}: {value}")
    return value
