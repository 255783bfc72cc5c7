"""A network by name: places, roads and columns of travel time, and the calls with their answers in names."""
from __future__ import annotations

import functools
from contextlib import contextmanager
from typing import Any, Dict, Iterable, Iterator, List, Optional, Sequence, Tuple

from . import images, tables
from .errors import LimitReached, NetworkError, NoRoute, UnknownName, naming
from .results import Name, Road, RobustRoute, Route, RouteRegret, SearchedRoute
from .rows import Arc, Rows, Times, check_fields, travel_time, whole
from .weeks import RouteWeek

MOST_STAMP = 2**32 - 1
MOST_RANKED = 256


class Network:
    """Places, columns and roads by name.

    A road leads from one place to another, in one direction. In each column it has a travel time, a
    whole number from 0 to 1,000,000 in any unit, or None where it is closed. There are 2 to 200 places,
    1 to 8 columns and at most 1,000 roads. A name is any text, number or other hashable value.

    Places stand in the order in which they are first named. Of routes that are equal otherwise the one
    comes first whose places come first in this order. A network never changes: `update` gives another.
    """

    def __init__(
        self,
        columns: Iterable[Name],
        roads: Iterable[Sequence[object]] = (),
        places: Iterable[Name] = (),
    ) -> None:
        """The network of these columns and roads.

        A road is a row: from, to, and its time in each column. `places` may name some before the roads do.
        """
        rows = Rows(columns, places)
        for number, row in enumerate(roads, 1):
            with naming(f"row {number}"):
                rows.add(f"row {number}", row)
        self._set(rows.columns, rows.places, rows.times)

    @classmethod
    def from_csv(cls, file: tables.File) -> Network:
        """The network of a file of CSV text in UTF-8, like examples/roads.csv.

        Its first line is `from,to` and the names of the columns. Each other line is a road: from, to, and
        its time in each column, or `-` or nothing where it is closed.
        """
        rows = tables.read_roads(file)
        return cls._made(rows.columns, rows.places, rows.times)

    @classmethod
    def from_networkx(cls, graph: Any, columns: Iterable[Name]) -> Network:
        """The network of a networkx graph, whose edges have attributes with the names of the columns.

        Where an edge has no such attribute, or None, the road is closed. An edge of an undirected graph is
        a road in each direction.
        """
        try:
            import networkx
        except ImportError:
            raise NetworkError("networkx is not installed") from None
        if not isinstance(graph, networkx.Graph):
            raise NetworkError(f"{graph!r} is no graph of networkx")
        rows = Rows(columns, graph.nodes)
        for start, goal, attributes in graph.edges(data=True):
            times = [attributes.get(column) for column in rows.columns]
            rows.add("the graph", [start, goal, *times])
            if not graph.is_directed():
                rows.add("the graph", [goal, start, *times])
        return cls._made(rows.columns, rows.places, rows.times)

    @classmethod
    def from_image(
        cls,
        image: bytes,
        places: Optional[Iterable[Name]] = None,
        columns: Optional[Iterable[Name]] = None,
    ) -> Network:
        """The network of an image. Its nodes and columns have the names given, or else their numbers."""
        lists = images.unpack(image)
        rows = Rows(
            _names_for(columns, lists.sizes.columns, "column"),
            _names_for(places, lists.sizes.nodes, "place"),
        )
        arcs = list(zip(lists.ends[::2], lists.ends[1::2]))
        return cls._made(rows.columns, rows.places, _times(arcs, lists.costs))

    @classmethod
    def _made(cls, columns: Dict[Name, int], places: Dict[Name, int], times: Dict[Arc, Times]) -> Network:
        """The network of numbered names and of times that are known to be right."""
        network = cls.__new__(cls)
        network._set(columns, places, times)
        return network

    def _set(self, columns: Dict[Name, int], places: Dict[Name, int], times: Dict[Arc, Times]) -> None:
        if len(places) < 2:
            raise NetworkError("a network has at least two places")
        self._columns, self._places = columns, places
        # in the order of the arcs of an image
        self._times = dict(sorted(times.items()))
        self._names = tuple(places)

    @property
    def places(self) -> Tuple[Name, ...]:
        """The names of the places, in order."""
        return self._names

    @property
    def columns(self) -> Tuple[Name, ...]:
        """The names of the columns, in order."""
        return tuple(self._columns)

    @property
    def roads(self) -> List[Road]:
        """The roads, in the order of their places."""
        return [self._road(arc) for arc in self._times]

    def __repr__(self) -> str:
        columns = ", ".join(map(repr, self._columns))
        return f"<Network of {len(self._places)} places, {len(self._times)} roads and the columns {columns}>"

    def __eq__(self, other: object) -> bool:
        """Networks are equal if they have the same places and columns, in the same order, and the same roads."""
        if not isinstance(other, Network):
            return NotImplemented
        return (self.places, self.columns, self._times) == (other.places, other.columns, other._times)

    __hash__ = None  # type: ignore[assignment]

    def to_image(self, edition: Optional[int] = None) -> bytes:
        """The network's image, in which places and columns are numbered in order.

        It has the edition asked for, or else 2 if a road is closed in a column, and 1 if none is.
        """
        closed = self._some_closed()
        if edition == 1 and closed is not None:
            raise NetworkError(f"{_closed(closed)}, which edition 1 cannot say")
        ends = [node for arc in self._times for node in arc]
        costs = [time for column in zip(*self._times.values()) for time in column]
        if edition is None:
            edition = 1 if closed is None else 2
        return images.build(edition, len(self._places), len(self._columns), ends, costs)

    def ranking_column(self, column: Optional[Name] = None) -> Name:
        """The column of this name, or the first if none is named."""
        return self.columns[0] if column is None else self.columns[self._column(column) - 1]

    def index(self, start: Name, goal: Name) -> int:
        """The index of a road in the network's image, from 0."""
        arc = self._places.get(start), self._places.get(goal)
        if arc not in self._indices:
            raise _no_road(start, goal)
        return self._indices[arc]

    def find(self, start: Name, goal: Name) -> Optional[Road]:
        """The road from one place to another, or None if there is none."""
        arc = self._ends(start, goal)
        return None if images.find(self._image, *arc).index is None else self._road(arc)

    def times(self, route: Iterable[Name]) -> Dict[Name, Optional[int]]:
        """The time in each column of a route, given by its places; None where one of its roads is closed."""
        nodes = [self._place(place) for place in route]
        roads = [self._times[self._known(arc)] for arc in zip(nodes, nodes[1:])]
        times = zip(*roads) if roads else [()] * len(self._columns)
        return {name: None if None in time else sum(time) for name, time in zip(self._columns, times)}

    def shortest(self, start: Name, goal: Name, column: Name) -> Route:
        """The quickest route in a column, by roads that are open in it."""
        ends, u = self._ends(start, goal), self._column(column)
        with self._told_in_names(start, goal, column=column):
            path = images.shortest(self._image, u, *ends)
        return Route(self._named(path.nodes), column, path.cost)

    def rank(self, start: Name, goal: Name, column: Name, limit: int) -> List[Route]:
        """The first `limit` routes in a column, 1 to 256, the quickest first; or all if there are fewer."""
        ends, u = self._ends(start, goal), self._column(column)
        with self._told_in_names(start, goal, limit, column):
            paths = images.rank(self._image, u, *ends, limit)
        return [Route(self._named(path.nodes), column, path.cost) for path in paths]

    def regret(self, route: Iterable[Name]) -> RouteRegret:
        """The greatest regret of a route, given by its places; it must be open in every column."""
        places = tuple(route)
        nodes = [self._place(place) for place in places]
        if len(nodes) < 2:
            raise NetworkError("a route has at least two places")
        with self._told_in_names(places[0], places[-1], route=places):
            regret = images.regret(self._image, nodes[0], nodes[-1], nodes)
        return RouteRegret(places, regret.figure, self.columns[regret.worst - 1])

    def robust(
        self, start: Name, goal: Name, column: Optional[Name] = None, limit: int = MOST_RANKED
    ) -> RobustRoute:
        """The route of least greatest regret among those that are open in every column.

        At most `limit` routes are ranked, 1 to 256, in the column named, or else in the first. The answer
        is settled if no later route can have less regret.
        """
        ends, u = self._ends(start, goal), self._column(self.ranking_column(column))
        with self._told_in_names(start, goal, limit):
            choice = images.robust(self._image, u, *ends, limit)
        return RobustRoute.of(choice, self.places, self.columns)

    def week(
        self,
        start: Name,
        goal: Name,
        column: Optional[Name] = None,
        limit: int = MOST_RANKED,
        state: Optional[bytes] = None,
    ) -> RouteWeek:
        """The route of least greatest regret through a week in which roads close and reopen.

        It is asked for as in `robust`. The week begins with every road open, or with a state that `to_bytes`
        of a week gave, for the same network and the same question.
        """
        asked = self._column(self.ranking_column(column)), *self._ends(start, goal), limit
        with self._told_in_names(start, goal, limit):
            if state is None:
                return RouteWeek(self, images.Week(self._image, *asked))
            week = images.Week.from_bytes(state, self._image, *asked)
        if week.answer is not None and not self._has(week.answer):
            raise NetworkError("the state is not that of a week of this network")
        return RouteWeek(self, week)

    def search(self, start: Name, goal: Name, limit: int) -> SearchedRoute:
        """The route of least greatest regret of all that are open in every column, sought depth first.

        It is settled; if more than `limit` roads would have to be tried, `LimitReached` is raised.
        """
        ends = self._ends(start, goal)
        with self._told_in_names(start, goal, limit):
            found = images.search(self._image, *ends, limit)
        worst = self.columns[found.worst - 1]
        return SearchedRoute(self._named(found.path), found.figure, worst, found.tried)

    def update(self, records: Iterable[Sequence[object]]) -> Network:
        """The network after records, each of from, to, column, time and stamp.

        For one road and column the record with the greatest stamp counts, and of equal stamps the last. A
        time of None closes the road in the column. A stamp is 0 to 4,294,967,295.
        """
        taken = []
        for number, record in enumerate(records, 1):
            with naming(f"record {number}"):
                taken.append(self._record(record))
        return self._updated(taken)

    def update_from_csv(self, file: tables.File) -> Network:
        """The network after the records of a file of CSV text in UTF-8, like examples/vans.csv."""
        return self._updated(tables.read_records(file, self._record))

    def open_roads(self) -> Network:
        """The network of the same places with the roads alone that are open in every column."""
        times = {arc: times for arc, times in self._times.items() if None not in times}
        return self._made(self._columns, self._places, times)

    def _record(self, fields: Sequence[object]) -> images.Record:
        """A record with numbers for the names."""
        check_fields(fields, len(tables.RECORD_HEADER))
        start, goal, column, time, stamp = fields
        index, u, road = self.index(start, goal), self._column(column), f"the road from {start!r} to {goal!r}"
        cost = travel_time(time, road, column)
        counted = whole(stamp, f"the stamp of {road} in {column!r}", MOST_STAMP)
        return images.Record(index, u, cost, counted)

    def _updated(self, records: Iterable[images.Record]) -> Network:
        """The network after records of numbers."""
        lists = images.unpack(images.update(self.to_image(2), records))
        return self._made(self._columns, self._places, _times(list(self._times), lists.costs))

    @functools.cached_property
    def _image(self) -> bytes:
        """The image that the calls are asked about."""
        return self.to_image()

    @functools.cached_property
    def _indices(self) -> Dict[Arc, int]:
        """The index of each road in the image."""
        return {arc: index for index, arc in enumerate(self._times)}

    def _place(self, name: Name) -> int:
        return _number(self._places, name, "place")

    def _column(self, name: Name) -> int:
        return _number(self._columns, name, "column")

    def _ends(self, start: Name, goal: Name) -> Arc:
        """The numbers of start and goal."""
        return self._place(start), self._place(goal)

    def _named(self, nodes: Iterable[int]) -> Tuple[Name, ...]:
        """The names of nodes."""
        return tuple(self._names[node - 1] for node in nodes)

    def _has(self, choice: images.Choice) -> bool:
        """Whether the nodes and the column of an answer are places and a column of this network."""
        nodes, columns = range(1, len(self._places) + 1), range(1, len(self._columns) + 1)
        return choice.worst in columns and all(node in nodes for node in choice.path)

    def _road(self, arc: Arc) -> Road:
        return Road(*self._named(arc), dict(zip(self._columns, self._times[arc])))

    def _known(self, arc: Arc) -> Arc:
        """The arc, if it is a road."""
        if arc not in self._times:
            raise _no_road(*self._named(arc))
        return arc

    def _some_closed(self) -> Optional[Road]:
        """The first road that is closed in a column."""
        closed = (self._road(arc) for arc, times in self._times.items() if None in times)
        return next(closed, None)

    @contextmanager
    def _told_in_names(
        self,
        start: Name,
        goal: Name,
        limit: Optional[int] = None,
        column: Optional[Name] = None,
        route: Sequence[Name] = (),
    ) -> Iterator[None]:
        """Tells a refusal in the names of what was asked. It is the cause of the error that is raised."""
        try:
            yield
        except images.Refusal as refusal:
            if refusal.number == 10:
                raise NetworkError(f"the route begins and ends at {start!r}") from refusal
            if refusal.number == 12:
                most = f"the number of paths to rank must be 1 to {MOST_RANKED}"
                raise NetworkError(f"{most}, and is {limit}") from refusal
            if refusal.number == 14:
                raise self._no_route(route, refusal.place) from refusal
            if refusal.number == 15:
                where = "every column" if column is None else repr(column)
                kind = "path" if self._some_closed() is None else f"path that is open in {where}"
                raise NoRoute(f"no {kind} leads from {start!r} to {goal!r}") from refusal
            if refusal.number == 19:
                search = f"the search from {start!r} to {goal!r}"
                raise LimitReached(f"{search} would try more than {limit} roads") from refusal
            raise

    def _no_route(self, route: Sequence[Name], place: int) -> NetworkError:
        """Why places are no route that is open in every column: the first error is at this place."""
        if route[place] in route[:place]:
            return NetworkError(f"the place {route[place]!r} stands twice in the route")
        road = self.find(route[place - 1], route[place])
        return _no_road(route[place - 1], route[place]) if road is None else NetworkError(_closed(road))


def _times(arcs: Sequence[Arc], costs: Times) -> Dict[Arc, Times]:
    """The times of each arc, from the list of all costs, column after column."""
    return {arc: costs[index :: len(arcs)] for index, arc in enumerate(arcs)}


def _names_for(names: Optional[Iterable[Name]], count: int, kind: str) -> Sequence[Name]:
    """The names given, as many as there must be, or else the numbers from 1 on."""
    if names is None:
        return range(1, count + 1)
    listed = names if isinstance(names, str) else list(names)
    if len(listed) != count:
        raise NetworkError(f"the image has {count} {kind}s, and {len(listed)} names are given")
    return listed


def _number(numbers: Dict[Name, int], name: Name, kind: str) -> int:
    """The number of a name."""
    if name not in numbers:
        raise UnknownName(f"there is no {kind} {name!r}")
    return numbers[name]


def _no_road(start: Name, goal: Name) -> UnknownName:
    return UnknownName(f"there is no road from {start!r} to {goal!r}")


def _closed(road: Road) -> str:
    """That a road is closed in the first column in which it is."""
    column = next(name for name, time in road.times.items() if time is None)
    return f"the road from {road.start!r} to {road.goal!r} is closed in {column!r}"
