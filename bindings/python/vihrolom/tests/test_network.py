"""Holds `Network` to the calls on images, and its errors to the names that the user wrote."""
import os
import random
import tempfile
import unittest

import vihrolom
from vihrolom import (
    LimitReached,
    Network,
    NetworkError,
    NoRoute,
    Refusal,
    Road,
    RobustRoute,
    Route,
    RouteRegret,
    SearchedRoute,
    UnknownName,
)
from vihrolom.tests import EXAMPLES
from vihrolom.tests.test_images import draw_network, outcome

try:
    import networkx
except ImportError:
    networkx = None

# network S of REFERENCE, section 8.1
COLUMNS = ["calm", "rush"]
ROADS = [
    ("A", "B", 2, 4),
    ("A", "C", 5, 1),
    ("B", "C", 1, 2),
    ("B", "D", 6, 1),
    ("C", "D", 2, 7),
]
S = Network(COLUMNS, ROADS)
# the same with the road from C to D closed in rush
CLOSED = Network(COLUMNS, [*ROADS[:-1], ("C", "D", 2, None)])


class Complaining(unittest.TestCase):
    def complains(self, complaint, call, *arguments, kind=NetworkError):
        """The call raises this very error, with this one sentence."""
        with self.assertRaises(NetworkError) as caught:
            call(*arguments)
        self.assertEqual((type(caught.exception), str(caught.exception)), (kind, complaint))
        return caught.exception


class Making(Complaining):
    def test_names_and_roads(self):
        self.assertEqual((S.places, S.columns), (("A", "B", "C", "D"), ("calm", "rush")))
        self.assertEqual(S.roads[0], Road("A", "B", {"calm": 2, "rush": 4}))
        self.assertEqual([(road.start, road.goal, *road.times.values()) for road in S.roads], ROADS)
        self.assertEqual(repr(S), "<Network of 4 places, 5 roads and the columns 'calm', 'rush'>")

    def test_equal(self):
        self.assertEqual(S, Network(COLUMNS, reversed(ROADS), list("ABCD")))
        self.assertNotEqual(S, Network(COLUMNS, reversed(ROADS)))
        self.assertNotEqual(S, Network(["calm", "rain"], ROADS))
        self.assertNotEqual(S, CLOSED)
        self.assertNotEqual(S, "S")
        self.assertRaises(TypeError, hash, S)

    def test_places_without_roads(self):
        network = Network(["calm"], places=["Here", "There"])
        self.assertEqual((network.places, network.roads), (("Here", "There"), []))
        self.complains("no path leads from 'Here' to 'There'", network.robust, "Here", "There", kind=NoRoute)
        self.complains("a network has at least two places", Network, ["calm"])
        self.complains("a network has at least two places", Network, ["calm"], [], ["Here"])

    def test_names_of_any_kind(self):
        network = Network([8, (17, 30)], [(1, ("x", 2), 5, 6), (("x", 2), 3.5, 1, 1)])
        self.assertEqual(network.shortest(1, ("x", 2), (17, 30)), Route((1, ("x", 2)), (17, 30), 6))

    def test_images(self):
        ends, costs = [1, 2, 1, 3, 2, 3, 2, 4, 3, 4], [2, 5, 1, 6, 2, 4, 1, 2, 1, 7]
        self.assertEqual(S.to_image(), vihrolom.build(1, 4, 2, ends, costs))
        self.assertEqual([vihrolom.check(image).edition for image in (S.to_image(), CLOSED.to_image())], [1, 2])
        self.assertEqual([vihrolom.check(network.to_image(2)).edition for network in (S, CLOSED)], [2, 2])
        closed = "the road from 'C' to 'D' is closed in 'rush', which edition 1 cannot say"
        self.complains(closed, CLOSED.to_image, 1)
        self.assertRaises(Refusal, S.to_image, 3)
        self.assertEqual(vihrolom.check(CLOSED.open_roads().to_image()), vihrolom.Sizes(4, 4, 2, 1))

    def test_from_image(self):
        for network in (S, CLOSED):
            image = network.to_image()
            self.assertEqual(Network.from_image(image, "A B C D".split(), COLUMNS), network)
            numbered = Network.from_image(image)
            self.assertEqual((numbered.places, numbered.columns), ((1, 2, 3, 4), (1, 2)))
            self.assertEqual(numbered.to_image(), image)
            self.assertEqual(numbered.shortest(1, 4, 1), Route((1, 2, 3, 4), 1, 5))
        self.assertRaises(Refusal, Network.from_image, b"")
        self.complains("the image has 4 places, and 3 names are given", Network.from_image, image, "A B C".split())
        self.complains("the image has 2 columns, and 1 names are given", Network.from_image, image, None, ["calm"])
        self.complains("the place 'A' stands there twice", Network.from_image, image, "A B A D".split())

    def test_from_csv(self):
        ferry = Network.from_csv(os.path.join(EXAMPLES, "ferry.csv"))
        self.assertEqual(ferry.places, ("Lab", "Quay", "Landing", "Bridge", "Hill Road", "Clinic"))
        self.assertEqual(ferry.find("Quay", "Landing"), Road("Quay", "Landing", {"calm": 12, "fog": 15, "storm": None}))
        later = ferry.update_from_csv(os.path.join(EXAMPLES, "vans.csv"))
        self.assertEqual(later.find("Quay", "Landing").times["storm"], 17)
        self.assertIsNone(later.find("Hill Road", "Clinic").times["storm"])
        self.assertEqual(later.find("Lab", "Hill Road").times["fog"], 26)

    def test_from_csv_path(self):
        with tempfile.TemporaryDirectory() as folder:
            missing = os.path.join(folder, "missing.csv")
            self.complains(f"{missing}: No such file or directory", Network.from_csv, missing)
            for text, edition in [("A,B,1,2", 1), ("A,B,1,-", 2), ("A,B,,2", 2)]:
                with open(os.path.join(folder, "roads.csv"), "w", encoding="utf-8") as file:
                    file.write(f"from,to,calm,rush\n{text}\nB,A,0,0\n")
                network = Network.from_csv(os.path.join(folder, "roads.csv"))
                self.assertEqual(vihrolom.check(network.to_image()).edition, edition)


class Wrong(Complaining):
    """Rows that are no roads."""

    def complains_of(self, complaint, *rows):
        self.complains(complaint, Network, COLUMNS, rows)

    def test_columns(self):
        self.complains("a network has at least one column", Network, [])
        self.complains("the columns must be a list of names, and are 'calm'", Network, "calm")
        self.complains("more than 8 columns", Network, range(9))
        self.complains("the column 'b' stands there twice", Network, ["b", "b"])
        for wrong in ("", "a\nb", None):
            self.complains(f"{wrong!r} is no name", Network, [wrong])

    def test_rows(self):
        self.complains_of("row 2: 3 fields in place of 4", ROADS[0], ("B", "C", 1))
        self.complains_of("row 1: a road from 'A' to itself", ("A", "A", 1, 1))
        self.complains_of("row 3: the road from 'A' to 'B' stands in row 1 already", *ROADS[:2], ("A", "B", 0, 0))
        self.complains_of("row 1: '' is no name", ("", "A", 1, 1))
        self.complains("the place 'A' stands there twice", Network, COLUMNS, ROADS, ["A", "A"])

    def test_times(self):
        for time, complaint in [
            (-1, "negative: -1"),
            (1_000_001, "above 1000000: 1000001"),
            (2**64, f"above 1000000: {2**64}"),
            (1.5, "no whole number: 1.5"),
            ("7", "no whole number: '7'"),
        ]:
            wanted = f"row 2: the time of the road from 'A' to 'C' in 'rush' is {complaint}"
            self.complains_of(wanted, ROADS[0], ("A", "C", 1, time))

    def test_limits(self):
        line = [(place, place + 1, 1) for place in range(1, 201)]
        self.complains("row 200: more than 200 places", Network, ["calm"], line)
        self.assertEqual(len(Network(["calm"], line[:199]).places), 200)
        pairs = [(a, b, 1) for a in range(33) for b in range(33) if a != b]
        self.complains("row 1001: more than 1000 roads", Network, ["calm"], pairs)
        self.assertEqual(len(Network(["calm"], pairs[:1000]).roads), 1000)


@unittest.skipIf(networkx is None, "networkx is not there")
class FromNetworkx(Complaining):
    def graph(self, kind):
        graph = kind()
        graph.add_node("Nowhere")
        for start, goal, calm, rush in ROADS:
            graph.add_edge(start, goal, calm=calm, rush=rush, length=1.5)
        return graph

    def test_directed(self):
        network = Network.from_networkx(self.graph(networkx.DiGraph), COLUMNS)
        self.assertEqual(network, Network(COLUMNS, ROADS, ["Nowhere"]))
        self.assertEqual(network, Network.from_networkx(self.graph(networkx.MultiDiGraph), iter(COLUMNS)))

    def test_undirected(self):
        both = ROADS + [(goal, start, calm, rush) for start, goal, calm, rush in ROADS]
        for kind in (networkx.Graph, networkx.MultiGraph):
            network = Network.from_networkx(self.graph(kind), COLUMNS)
            self.assertEqual(network, Network(COLUMNS, both, ["Nowhere", *"ABCD"]))

    def test_closed(self):
        graph = self.graph(networkx.DiGraph)
        graph.edges["C", "D"]["rush"] = None
        del graph.edges["B", "D"]["calm"]
        roads = [*ROADS[:3], ("B", "D", None, 1), ("C", "D", 2, None)]
        self.assertEqual(Network.from_networkx(graph, COLUMNS), Network(COLUMNS, roads, ["Nowhere"]))

    def test_complaints(self):
        graph = self.graph(networkx.MultiDiGraph)
        whole = "the time of the road from 'A' to 'B' in 'length' is no whole number: 1.5"
        self.complains(whole, Network.from_networkx, graph, ["length"])
        graph.add_edge("A", "B", calm=1)
        twice = "the road from 'A' to 'B' stands in the graph already"
        self.complains(twice, Network.from_networkx, graph, COLUMNS)
        graph = self.graph(networkx.Graph)
        graph.add_edge("A", "A", calm=1)
        self.complains("a road from 'A' to itself", Network.from_networkx, graph, COLUMNS)
        self.complains("'S' is no graph of networkx", Network.from_networkx, "S", COLUMNS)


class Calls(Complaining):
    """The starred cases of REFERENCE, section 8, and what a closed road changes."""

    def test_shortest_and_rank(self):
        first = [
            Route(("A", "B", "C", "D"), "calm", 5),
            Route(("A", "C", "D"), "calm", 7),
            Route(("A", "B", "D"), "calm", 8),
        ]
        self.assertEqual(S.shortest("A", "D", "calm"), first[0])
        self.assertEqual(S.rank("A", "D", "calm", 256), first)
        self.assertEqual(S.rank("A", "D", "calm", 2), first[:2])
        self.assertEqual(str(first[1]), "A > C > D: 7 in calm")
        self.assertEqual(CLOSED.rank("A", "D", "rush", 5), [Route(("A", "B", "D"), "rush", 5)])

    def test_regret_and_times(self):
        regret = S.regret(["A", "C", "D"])
        self.assertEqual(regret, RouteRegret(("A", "C", "D"), 3, "rush"))
        self.assertEqual(str(regret), "A > C > D: regret 3 in rush")
        self.assertEqual(S.times(iter("ACD")), {"calm": 7, "rush": 8})
        self.assertEqual(CLOSED.times("ACD"), {"calm": 7, "rush": None})
        self.assertEqual(S.times("A"), {"calm": 0, "rush": 0})
        no_road = "there is no road from 'A' to 'D'"
        self.complains(no_road, S.times, "AD", kind=UnknownName)

    def test_robust(self):
        settled = RobustRoute(("A", "C", "D"), 3, "rush", 2, True, None)
        self.assertEqual(S.robust("A", "D"), settled)
        self.assertEqual(str(settled), "route A > C > D\nregret 3 column rush\nranked 2 settled")
        still_open = RobustRoute(("A", "B", "C", "D"), 8, "rush", 1, False, 2)
        self.assertEqual(S.robust("A", "D", "calm", 1), still_open)
        self.assertEqual(str(still_open).splitlines()[-1], "ranked 1 open floor 2")
        self.assertEqual(S.robust("A", "D", "rush"), RobustRoute(("A", "B", "D"), 3, "calm", 1, True, None))
        self.assertEqual(CLOSED.robust("A", "D").places, ("A", "B", "D"))
        figures = "RobustRoute(places=('A', 'C', 'D'), figure=3, worst='rush', count=2, settled=True, floor=None)"
        self.assertEqual(repr(settled), figures)

    def test_search(self):
        found = SearchedRoute(("A", "B", "D"), 3, "calm", 5)
        self.assertEqual(S.search("A", "D", 5), found)
        self.assertEqual(str(found), "A > B > D: regret 3 in calm, settled by 5 roads tried")
        self.assertEqual(CLOSED.search("A", "D", 100).places, ("A", "B", "D"))

    def test_find(self):
        self.assertEqual(S.find("B", "D"), Road("B", "D", {"calm": 6, "rush": 1}))
        self.assertEqual(CLOSED.find("C", "D"), Road("C", "D", {"calm": 2, "rush": None}))
        self.assertIsNone(S.find("D", "B"))
        self.assertIsNone(S.find("A", "A"))

    def test_update(self):
        records = [("C", "D", "rush", 8, 3), ("C", "D", "rush", None, 3), ("C", "D", "rush", 1, 2)]
        self.assertEqual(S.update(records), CLOSED)
        self.assertEqual(CLOSED.update([("C", "D", "rush", 7, 0)]), S)
        self.assertEqual(S.update([]), S)
        self.assertEqual(S, Network(COLUMNS, ROADS))

    def test_calls_agree_with_images(self):
        draw = random.Random(21)
        for _ in range(200):
            plain = draw_network(draw)
            image, names = plain.image(), [f"P{node}" for node in range(1, plain.nodes + 1)]
            columns = [f"c{u}" for u in plain.every]
            network = Network.from_image(image, names, columns)
            self.assertEqual(network.to_image(plain.edition), image)
            start, goal = draw.sample(range(1, plain.nodes + 1), 2)
            column, limit = draw.choice(columns), draw.randint(1, 12)
            ends, u = (f"P{start}", f"P{goal}"), columns.index(column) + 1
            due = outcome(vihrolom.robust, image, u, start, goal, limit)
            if due == (15, 0):
                self.assertRaises(NoRoute, network.robust, *ends, column, limit)
            else:
                places = tuple(names[node - 1] for node in due.path)
                answer = RobustRoute(places, due.figure, columns[due.worst - 1], due.count, due.settled, due.floor)
                self.assertEqual(network.robust(*ends, column, limit), answer)
                found = network.search(*ends, 10**6)
                self.assertEqual(found.figure, network.regret(found.places).figure)
                self.assertTrue(found.figure == due.figure or not due.settled and due.floor <= found.figure < due.figure)
                self.assertEqual(network.regret(places), RouteRegret(places, due.figure, columns[due.worst - 1]))
            due = outcome(vihrolom.rank, image, u, start, goal, limit)
            if due == (15, 0):
                self.assertRaises(NoRoute, network.rank, *ends, column, limit)
                self.assertRaises(NoRoute, network.shortest, *ends, column)
            else:
                routes = [Route(tuple(names[node - 1] for node in path.nodes), column, path.cost) for path in due]
                self.assertEqual(network.rank(*ends, column, limit), routes)
                self.assertEqual(network.shortest(*ends, column), routes[0])
                self.assertEqual([network.times(route.places)[column] for route in routes], [path.cost for path in due])


class Weeks(Complaining):
    """Roads of S that close and reopen, ranked by rush."""

    FIRST = RobustRoute(("A", "B", "D"), 3, "calm", 1, True, None)

    def test_roads_close_and_reopen(self):
        week = S.week("A", "D", "rush")
        self.assertEqual((week.answer, week.closed_roads), (self.FIRST, 0))
        week.close("B", "D")
        week.close("B", "D")
        self.assertEqual((week.answer, week.closed_roads), (RobustRoute(("A", "C", "D"), 2, "calm", 1, True, None), 1))
        self.assertTrue(week.is_closed("B", "D"))
        week.close("C", "D")
        self.assertEqual(repr(week), "<RouteWeek with 2 roads closed: None>")
        week.reopen("B", "D")
        week.reopen("C", "D")
        self.assertEqual((week.answer, week.closed_roads), (self.FIRST, 0))
        self.assertFalse(week.is_closed("B", "D"))

    def test_as_the_network_without_the_roads(self):
        draw = random.Random(22)
        for _ in range(20):
            week, closed = S.week("A", "D", "calm", 1), set()
            for _ in range(10):
                row, close = draw.choice(ROADS), draw.random() < 0.5
                (week.close if close else week.reopen)(*row[:2])
                closed = closed | {row} if close else closed - {row}
                left = Network(COLUMNS, [road for road in ROADS if road not in closed], "A B C D".split())
                try:
                    due = left.robust("A", "D", "calm", 1)
                except NoRoute:
                    due = None
                self.assertEqual((week.answer, week.closed_roads), (due, len(closed)))

    def test_state(self):
        week = S.week("A", "D", "rush")
        week.close("B", "D")
        again = S.week("A", "D", "rush", state=week.to_bytes())
        self.assertEqual((again.answer, again.closed_roads), (week.answer, 1))
        other = Network(["calm"], [("A", "B", 1)]).week
        self.complains("the state is not that of a week of this network", other, "A", "B", None, 256, week.to_bytes())
        with self.assertRaisesRegex(ValueError, "552 bytes"):
            S.week("A", "D", state=b"")

    def test_complaints(self):
        week = S.week("A", "D")
        for call in (week.close, week.reopen, week.is_closed, S.index):
            self.complains("there is no road from 'D' to 'A'", call, "D", "A", kind=UnknownName)
            self.complains("there is no road from 'A' to 'Moon'", call, "A", "Moon", kind=UnknownName)
        self.complains("the route begins and ends at 'A'", S.week, "A", "A")
        self.complains("there is no place 'Moon'", S.week, "A", "Moon", kind=UnknownName)
        self.complains("there is no column 'noon'", S.week, "A", "D", "noon", kind=UnknownName)
        self.complains("the number of paths to rank must be 1 to 256, and is 0", S.week, "A", "D", "calm", 0)
        # that no route is left is an answer, and no error
        self.assertIsNone(S.week("D", "A").answer)


class Refused(Complaining):
    """A refusal is told in the names of what was asked, and is the cause of the error."""

    def refused(self, number, kind, complaint, call, *arguments):
        error = self.complains(complaint, call, *arguments, kind=kind)
        self.assertEqual(error.__cause__.number, number)

    def test_unknown_names(self):
        for call in (S.shortest, S.robust):
            self.complains("there is no place 'X'", call, "X", "D", "calm", kind=UnknownName)
            self.complains("there is no place 'd'", call, "A", "d", "calm", kind=UnknownName)
            self.complains("there is no column 'noon'", call, "A", "D", "noon", kind=UnknownName)
        self.complains("there is no column 'noon'", S.rank, "A", "D", "noon", 1, kind=UnknownName)
        self.complains("there is no place 'X'", S.find, "A", "X", kind=UnknownName)
        self.complains("there is no place 'X'", S.regret, ["A", "X", "D"], kind=UnknownName)
        self.complains("there is no place 4", S.find, "A", 4, kind=UnknownName)

    def test_ends(self):
        self.refused(10, NetworkError, "the route begins and ends at 'A'", S.shortest, "A", "A", "calm")
        self.refused(10, NetworkError, "the route begins and ends at 'A'", S.robust, "A", "A")
        self.refused(10, NetworkError, "the route begins and ends at 'A'", S.regret, "ABA")
        for route in ("", "A"):
            self.complains("a route has at least two places", S.regret, route)

    def test_limit(self):
        for limit in (0, 257, -1, 2**32 + 1):
            complaint = f"the number of paths to rank must be 1 to 256, and is {limit}"
            self.refused(12, NetworkError, complaint, S.rank, "A", "D", "calm", limit)
            self.refused(12, NetworkError, complaint, S.robust, "A", "D", "calm", limit)

    def test_search(self):
        complaint = "the search from 'A' to 'D' would try more than 4 roads"
        self.refused(19, LimitReached, complaint, S.search, "A", "D", 4)
        self.refused(15, NoRoute, "no path leads from 'D' to 'A'", S.search, "D", "A", 4)
        self.refused(10, NetworkError, "the route begins and ends at 'A'", S.search, "A", "A", 4)

    def test_routes(self):
        self.refused(14, UnknownName, "there is no road from 'A' to 'D'", S.regret, "AD")
        self.refused(14, UnknownName, "there is no road from 'C' to 'B'", S.regret, "ACBD")
        self.refused(14, NetworkError, "the place 'B' stands twice in the route", S.regret, "ABBD")
        self.refused(14, NetworkError, "the road from 'C' to 'D' is closed in 'rush'", CLOSED.regret, "ACD")

    def test_no_route(self):
        self.refused(15, NoRoute, "no path leads from 'D' to 'A'", S.robust, "D", "A")
        self.refused(15, NoRoute, "no path leads from 'D' to 'A'", S.rank, "D", "A", "calm", 1)
        closed = "no path that is open in 'rush' leads from 'C' to 'D'"
        self.refused(15, NoRoute, closed, CLOSED.shortest, "C", "D", "rush")
        common = "no path that is open in every column leads from 'C' to 'D'"
        self.refused(15, NoRoute, common, CLOSED.robust, "C", "D")

    def test_records(self):
        road = "the road from 'C' to 'D' in 'rush'"
        for record, kind, complaint in [
            (("C", "D", "rush", 1), NetworkError, "4 fields in place of 5"),
            (("D", "C", "rush", 1, 1), UnknownName, "there is no road from 'D' to 'C'"),
            (("C", "X", "rush", 1, 1), UnknownName, "there is no road from 'C' to 'X'"),
            (("C", "D", "noon", 1, 1), UnknownName, "there is no column 'noon'"),
            (("C", "D", "rush", -1, 1), NetworkError, f"the time of {road} is negative: -1"),
            (("C", "D", "rush", 1, 2**32), NetworkError, f"the stamp of {road} is above 4294967295: 4294967296"),
            (("C", "D", "rush", 1, None), NetworkError, f"the stamp of {road} is no whole number: None"),
        ]:
            self.complains(f"record 2: {complaint}", S.update, [("A", "B", "calm", 1, 1), record], kind=kind)


if __name__ == "__main__":
    unittest.main()
