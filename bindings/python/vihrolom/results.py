"""What the calls of a network give: routes and roads by the names of places and columns."""
from __future__ import annotations

from dataclasses import dataclass
from typing import Dict, Hashable, Iterable, Optional, Sequence, Tuple

from .images import Choice, answer_text

# the name of a place or a column: most often text
Name = Hashable


def in_line(places: Iterable[Name]) -> str:
    """A route as it is printed."""
    return " > ".join(map(str, places))


@dataclass(frozen=True)
class Road:
    """A road in one direction, with its travel time in each column; None where it is closed."""

    start: Name
    goal: Name
    times: Dict[Name, Optional[int]]


@dataclass(frozen=True)
class Route:
    """A route and its travel time in the column asked for."""

    places: Tuple[Name, ...]
    column: Name
    time: int

    def __str__(self) -> str:
        return f"{in_line(self.places)}: {self.time} in {self.column}"


@dataclass(frozen=True)
class RouteRegret:
    """A route's greatest regret: how far it is above the best, at most, and the first column where it is."""

    places: Tuple[Name, ...]
    figure: int
    worst: Name

    def __str__(self) -> str:
        return f"{in_line(self.places)}: regret {self.figure} in {self.worst}"


@dataclass(frozen=True)
class RobustRoute:
    """The route of least greatest regret among the `count` routes that were counted.

    Its greatest regret is `figure`, in the column `worst`. If `settled`, no route at all has less, and
    `floor` is None. Otherwise the least greatest regret of all routes lies between `floor` and `figure`.
    """

    places: Tuple[Name, ...]
    figure: int
    worst: Name
    count: int
    settled: bool
    floor: Optional[int]

    @classmethod
    def of(cls, choice: Choice, places: Sequence[Name], columns: Sequence[Name]) -> RobustRoute:
        """Robust's answer with the names of nodes and columns."""
        route = tuple(places[node - 1] for node in choice.path)
        worst = columns[choice.worst - 1]
        return cls(route, choice.figure, worst, choice.count, choice.settled, choice.floor)

    def __str__(self) -> str:
        numbers = Choice((), self.figure, 0, self.count, self.settled, self.floor)
        return answer_text(numbers, in_line(self.places), str(self.worst)).rstrip("\n")


@dataclass(frozen=True)
class SearchedRoute:
    """The first route, by the order of places, of all that have the least greatest regret.

    It is `figure`, in the column `worst`. `tried` roads were tried to find it.
    """

    places: Tuple[Name, ...]
    figure: int
    worst: Name
    tried: int

    def __str__(self) -> str:
        return f"{in_line(self.places)}: regret {self.figure} in {self.worst}, settled by {self.tried} roads tried"
