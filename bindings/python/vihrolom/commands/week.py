"""Keeps the routes of many rooms current while roads close and reopen.

    python3 -m vihrolom week examples/roads.csv examples/rooms.csv examples/events.csv

All files are CSV text in UTF-8. The roads are those of the command roads. The rooms' first line is
`room,from,to`, and each other line names a room, and the places where its route begins and ends. The
events' first line is `day,from,to,event`, and each other line names a day, a road by its places, and what
becomes of it: `close`, `open`, `close both` or `open both`; both means the road that leads back as well.
A road is closed in every column.

After each event the rooms are told whose route or regret it changed, as it was and as it is now. Room by
room the sheets that hold at the end follow. Each is that of the roads that are open then.
"""
from __future__ import annotations

import argparse
from dataclasses import dataclass
from typing import Iterator, List, Optional, Sequence, Set, Tuple

from ..errors import NetworkError
from ..network import Network
from ..progress import Progress
from ..results import Name, RobustRoute, in_line
from ..rows import check_name
from ..tables import read_table
from ..weeks import RouteWeek
from .shell import Parser, add_ranking, run

ROOM_HEADER = ["room", "from", "to"]
EVENT_HEADER = ["day", "from", "to", "event"]
DONE = {"close": "closed", "open": "reopened"}


@dataclass
class Room:
    """A room, and the week of its route."""

    name: str
    start: str
    goal: str
    week: RouteWeek


@dataclass
class Event:
    """What becomes of a road on a day: it closes or not, and so may the road that leads back."""

    day: str
    words: str
    roads: List[Tuple[str, str]]
    close: bool


def read_rooms(path: str, network: Network, column: Name, paths: int) -> List[Room]:
    """The rooms of a file, each with a week in which every road is open yet."""
    names: Set[str] = set()

    def room(fields: Sequence[str]) -> Room:
        name, start, goal = fields
        check_name(name)
        if name in names:
            raise NetworkError(f"the room {name!r} stands there twice")
        names.add(name)
        progress.step(name)
        return Room(name, start, goal, network.week(start, goal, column, paths))

    with Progress("rooms") as progress:
        rooms = read_table(path, ROOM_HEADER, room)
    if not rooms:
        raise NetworkError(f"{path} has no room")
    return rooms


def read_events(path: str, network: Network) -> List[Event]:
    """The events of a file, in their order."""

    def event(fields: Sequence[str]) -> Event:
        day, start, goal, what = fields
        check_name(day)
        verb, _, both = what.partition(" ")
        if verb not in DONE or both not in ("", "both"):
            raise NetworkError(f"{what!r} is none of close, open, close both and open both")
        roads = [(start, goal), (goal, start)] if both else [(start, goal)]
        for road in roads:
            network.index(*road)
        words = f"{start} > {goal} and back" if both else f"{start} > {goal}"
        return Event(day, f"{words} {DONE[verb]}", roads, verb == "close")

    return read_table(path, EVENT_HEADER, event)


def line(answer: Optional[RobustRoute]) -> str:
    """An answer in one line, without the number of paths that were counted for it."""
    if answer is None:
        return "no route"
    state = "" if answer.settled else f", open floor {answer.floor}"
    return f"{in_line(answer.places)}, regret {answer.figure} column {answer.worst}{state}"


def follow(rooms: Sequence[Room], event: Event) -> str:
    """Has the event happen in every room, and tells which routes it changed."""
    told = ""
    for room in rooms:
        before = line(room.week.answer)
        for road in event.roads:
            if event.close:
                room.week.close(*road)
            else:
                room.week.reopen(*road)
        after = line(room.week.answer)
        if after != before:
            told += f"  {room.name}\n    was {before}\n    now {after}\n"
    closed = rooms[0].week.closed_roads
    count = "1 road is closed" if closed == 1 else f"{closed} roads are closed"
    return f"{event.day}: {event.words}; {count}\n" + (told or "  no route changed\n")


def sheet(room: Room) -> str:
    """The sheet of a room as it is now."""
    answer = room.week.answer
    return f"{room.name}, from {room.start} to {room.goal}\n{'no route' if answer is None else answer}\n"


def report(options: argparse.Namespace) -> Iterator[str]:
    """What happens in the week, event by event, and then the sheets."""
    network = Network.from_csv(options.roads)
    rooms = read_rooms(options.rooms, network, network.ranking_column(options.column), options.paths)
    events = read_events(options.events, network)
    with Progress("events", len(events)) as progress:
        for event in events:
            progress.step(f"{event.day}: {event.words}")
            told = follow(rooms, event)
            progress.make_way()
            yield told
    for room in rooms:
        yield "\n" + sheet(room)


def parse(arguments: Sequence[str]) -> argparse.Namespace:
    parser = Parser(prog="week", description=__doc__, formatter_class=argparse.RawDescriptionHelpFormatter)
    parser.add_argument("roads", help="the roads")
    parser.add_argument("rooms", help="the rooms")
    parser.add_argument("events", help="the events, in their order")
    add_ranking(parser, paths=48)
    return parser.parse_args(arguments)


def main(arguments: Sequence[str]) -> int:
    """Runs the command, and returns its status."""
    return run("week", 2, lambda: report(parse(arguments)))
