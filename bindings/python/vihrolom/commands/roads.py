"""Prints the route of least greatest regret between two places, and the ranked routes beside it.

    python3 -m vihrolom roads examples/roads.csv --from Lab --to "Ridge Clinic"

The file is CSV text in UTF-8. Its first line is `from,to` and the names of 1 to 8 columns, the
pictures of traffic. Each other line is a road in one direction: the place it leaves, the place it
leads to, and its travel time in each column, a whole number from 0 to 1,000,000 in any unit; or `-`,
or nothing, where the road is closed in that column, like a ferry that does not sail. The route leads
from the first place of the file to the last if no others are named. It is open in every column, and
in each it is held against the best route of that column.

With --records a second file of CSV text tells new travel times. Its first line is
`from,to,column,time,stamp`, and each other line names a road and a column, and gives the time, `-` or
nothing where the road is closed, and a stamp, a whole number from 0 to 4,294,967,295. Of several lines
for one road and column the one with the greatest stamp counts, and of equal stamps the last.

Where the answer is open, so many routes lie close together that --paths of them did not tell which is
best. With --search a search of all routes then settles it, or says that its limit was reached.
"""
from __future__ import annotations

import argparse
from typing import Sequence

from ..errors import LimitReached
from ..network import Network
from ..results import Name, RobustRoute, Route, in_line
from .shell import Parser, add_ranking, number, run

MOST_TRIED = 2**32 - 1


def table(network: Network, routes: Sequence[Route], chosen: RobustRoute) -> str:
    """The ranked routes, one a line, with their times in all columns; the chosen one has a star.

    Above them stands the best time of each column, over all routes that are open in it.
    """
    start, goal = chosen.places[0], chosen.places[-1]
    bests = {column: network.shortest(start, goal, column).time for column in network.columns}
    rows = [
        ["", *network.columns, "deviation", "figure", "worst", "route"],
        ["best", *bests.values(), "", "", "", ""],
    ]
    for rank, route in enumerate(routes, 1):
        regret = network.regret(route.places)
        star = "*" if route.places == chosen.places else ""
        deviation = route.time - bests[route.column]
        times = network.times(route.places).values()
        rows.append([f"{star}{rank}", *times, deviation, regret.figure, regret.worst, in_line(route.places)])
    return aligned(rows)


def aligned(rows: Sequence[Sequence[object]]) -> str:
    """Rows as lines of text: all columns set to the right, but the last one to the left."""
    widths = [max(len(str(field)) for field in column) for column in zip(*rows)]
    lines = []
    for row in rows:
        fields = [str(field).rjust(width) for field, width in zip(row[:-1], widths)]
        lines.append("  ".join([*fields, str(row[-1])]).rstrip() + "\n")
    return "".join(lines)


def searched(network: Network, start: Name, goal: Name, limit: int) -> str:
    """What a search of all routes finds, in a line."""
    try:
        found = network.search(start, goal, limit)
    except LimitReached:
        return f"search not settled by {limit} roads tried"
    regret = f"regret {found.figure} column {found.worst}"
    return f"search settled by {found.tried} roads tried: {regret} route {in_line(found.places)}"


def report(options: argparse.Namespace) -> str:
    """The sheet with the names of places and columns, and the ranked routes."""
    network = Network.from_csv(options.file)
    if options.records is not None:
        network = network.update_from_csv(options.records)
    start = network.places[0] if options.start is None else options.start
    goal = network.places[-1] if options.goal is None else options.goal
    column = network.ranking_column(options.column)
    answer = network.robust(start, goal, column, options.paths)
    sheet, marked = str(answer), "route above"
    if options.search is not None and not answer.settled:
        sheet += "\n" + searched(network, start, goal, options.search)
        marked = "first route above"
    always_open = network.open_roads()
    routes = always_open.rank(start, goal, column, options.paths)
    which = "" if always_open == network else " among the routes open in every column"
    heading = f"ranked by {column}{which}, with the deviation there; * marks the {marked}"
    return f"{sheet}\n\n{heading}\n{table(network, routes, answer)}"


def parse(arguments: Sequence[str]) -> argparse.Namespace:
    parser = Parser(prog="roads", description=__doc__, formatter_class=argparse.RawDescriptionHelpFormatter)
    parser.add_argument("file", help="the roads")
    parser.add_argument("--from", dest="start", metavar="PLACE", help="where the route begins")
    parser.add_argument("--to", dest="goal", metavar="PLACE", help="where the route ends")
    parser.add_argument("--records", metavar="FILE", help="new travel times")
    add_ranking(parser, paths=8)
    words = "how many roads to try where the answer is open"
    parser.add_argument("--search", type=number(0, MOST_TRIED), metavar="LIMIT", help=words)
    return parser.parse_args(arguments)


def main(arguments: Sequence[str]) -> int:
    """Runs the command, and returns its status."""
    return run("roads", 1, lambda: [report(parse(arguments))])
