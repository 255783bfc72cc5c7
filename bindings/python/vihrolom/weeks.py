"""A week of a network by name: roads close and reopen, and the route is kept current."""
from __future__ import annotations

from typing import TYPE_CHECKING, Optional

from . import images
from .results import Name, RobustRoute

if TYPE_CHECKING:
    from .network import Network


class RouteWeek:
    """The route of least greatest regret through a week in which roads close and reopen.

    `Network.week` makes it. After each event `answer` is that of `Network.robust` on the roads that are
    open then. A road is closed in every column, and in the direction that is named.
    """

    def __init__(self, network: Network, week: images.Week) -> None:
        self._network, self._week = network, week

    def close(self, start: Name, goal: Name) -> None:
        """Closes the road from one place to another."""
        self._week.close(self._network.index(start, goal))

    def reopen(self, start: Name, goal: Name) -> None:
        """Opens the road from one place to another."""
        self._week.reopen(self._network.index(start, goal))

    def is_closed(self, start: Name, goal: Name) -> bool:
        """Whether the road from one place to another is closed."""
        return self._week.is_closed(self._network.index(start, goal))

    @property
    def closed_roads(self) -> int:
        """How many roads are closed."""
        return self._week.closed_roads

    @property
    def answer(self) -> Optional[RobustRoute]:
        """The answer now, or None if no route is left. Its `count` is that of the last time it was sought."""
        choice = self._week.answer
        return None if choice is None else RobustRoute.of(choice, self._network.places, self._network.columns)

    def to_bytes(self) -> bytes:
        """The state, to be saved; `Network.week` goes on with it."""
        return self._week.to_bytes()

    def __repr__(self) -> str:
        return f"<RouteWeek with {self.closed_roads} roads closed: {self.answer!r}>"
