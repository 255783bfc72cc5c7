"""Holds the module to the cases of docs/REFERENCE.md and to a plain enumeration of all loopless paths.

One row of the refusal table is not reached: 13, since the module sizes every slice.
"""
import ctypes
import glob
import os
import pickle
import random
import struct
import subprocess
import sys
import unittest
from unittest import mock

import _ctypes
import vihrolom
from vihrolom import Choice, Found, Lists, Path, Refusal, Regret, Search, Sizes, Week
from vihrolom.tests import EXAMPLES, counted, with_package

S_ENDS = (1, 2, 1, 3, 2, 3, 2, 4, 3, 4)
S_COSTS = (2, 5, 1, 6, 2, 4, 1, 2, 1, 7)
S = struct.pack("<4H4I10H10I", 1, 4, 5, 2, 24, 44, 84, 0, *S_ENDS, *S_COSTS)

# S in edition 2, with the arc 3→4 closed in column 2
CLOSED_COSTS = S_COSTS[:-1] + (None,)
CLOSED = b"\2" + S[1:-4] + b"\xff" * 4

# numbers that do not fit 32 bits; ctypes would cut three of them to 1
BEYOND = (2**32, 2**32 + 1, 2**64 + 1, -1, 1 - 2**32)


def outcome(call, *arguments):
    """What a call gives: its result, or number and place of its refusal."""
    try:
        return call(*arguments)
    except Refusal as refusal:
        return refusal.number, refusal.place


def by_rank(path):
    """The ranking order: by cost, then node list."""
    return path.cost, path.nodes


def read(name):
    with open(os.path.join(EXAMPLES, name), "rb") as file:
        return file.read()


class Cases(unittest.TestCase):
    """The cases of REFERENCE, section 8; start 1, goal 4 on network S unless stated."""

    def test_build_and_unpack(self):
        self.assertEqual(len(S), 84)
        self.assertEqual(vihrolom.build(1, 4, 2, S_ENDS, S_COSTS), S)
        self.assertEqual(vihrolom.check(S), Sizes(nodes=4, arcs=5, columns=2, edition=1))
        self.assertEqual(vihrolom.unpack(S), Lists(Sizes(4, 5, 2, 1), S_ENDS, S_COSTS))

    def test_rank(self):
        first = [Path((1, 2, 3, 4), 5), Path((1, 3, 4), 7), Path((1, 2, 4), 8)]
        second = [Path((1, 2, 4), 5), Path((1, 3, 4), 8), Path((1, 2, 3, 4), 13)]
        self.assertEqual(vihrolom.rank(S, 1, 1, 4, 5), first)
        self.assertEqual(vihrolom.rank(S, 2, 1, 4, 5), second)
        self.assertEqual(vihrolom.rank(S, 1, 1, 4, 2), first[:2])

    def test_label(self):
        self.assertEqual(vihrolom.label(S, 1, 4), [5, 3, 2, 0])
        self.assertEqual(vihrolom.label(S, 1, 2), [2, 0, None, None])

    def test_shortest(self):
        self.assertEqual(vihrolom.shortest(S, 1, 1, 4), Path((1, 2, 3, 4), 5))
        self.assertEqual(vihrolom.shortest(S, 2, 1, 4), Path((1, 2, 4), 5))

    def test_regret(self):
        self.assertEqual(vihrolom.regret(S, 1, 4, [1, 2, 4]), Regret(3, 1))
        self.assertEqual(vihrolom.regret(S, 1, 4, [1, 3, 4]), Regret(3, 2))
        self.assertEqual(vihrolom.regret(S, 1, 4, [1, 2, 3, 4]), Regret(8, 2))

    def test_robust(self):
        settled = Choice((1, 3, 4), figure=3, worst=2, count=2, settled=True, floor=None)
        self.assertEqual(vihrolom.robust(S, 1, 1, 4, 2), settled)
        still_open = Choice((1, 2, 3, 4), figure=8, worst=2, count=1, settled=False, floor=2)
        self.assertEqual(vihrolom.robust(S, 1, 1, 4, 1), still_open)
        at_once = Choice((1, 2, 4), figure=3, worst=1, count=1, settled=True, floor=None)
        self.assertEqual(vihrolom.robust(S, 2, 1, 4, 1), at_once)

    def test_search(self):
        found = Search((1, 2, 4), figure=3, worst=1, tried=5)
        self.assertEqual(vihrolom.search(S, 1, 4, 5), found)
        self.assertEqual(vihrolom.search(S, 1, 4, 2**32 - 1), found)
        self.assertEqual(vihrolom.search(S, 2, 4, 3), Search((2, 4), figure=3, worst=1, tried=3))
        self.assertEqual(outcome(vihrolom.search, S, 1, 4, 4), (19, 4))
        self.assertEqual(outcome(vihrolom.search, S, 1, 4, 0), (19, 0))
        self.assertEqual(outcome(vihrolom.search, S, 4, 1, 0), (15, 0))
        # a closed arc, and one to a node that cannot reach the goal in some column, is tried and dropped
        self.assertEqual(vihrolom.search(CLOSED, 1, 4, 4), Search((1, 2, 4), figure=3, worst=1, tried=4))
        self.assertEqual(outcome(vihrolom.search, CLOSED, 3, 4, 4), (15, 0))

    def test_search_of_an_example_that_is_open(self):
        image = read("apart.image")
        goal = vihrolom.check(image).nodes
        choice = vihrolom.robust(image, 1, 1, goal, 256)
        self.assertFalse(choice.settled)
        found = vihrolom.search(image, 1, goal, 10**7)
        self.assertTrue(choice.floor <= found.figure <= choice.figure)
        self.assertEqual(vihrolom.regret(image, 1, goal, found.path), Regret(found.figure, found.worst))
        self.assertEqual(vihrolom.search(image, 1, goal, found.tried), found)
        self.assertEqual(outcome(vihrolom.search, image, 1, goal, found.tried - 1), (19, found.tried - 1))

    def test_arc_closed_in_one_column(self):
        self.assertEqual(vihrolom.build(2, 4, 2, S_ENDS, CLOSED_COSTS), CLOSED)
        self.assertEqual(vihrolom.unpack(CLOSED), Lists(Sizes(4, 5, 2, 2), S_ENDS, CLOSED_COSTS))
        # in column 1 all is as it was
        self.assertEqual(vihrolom.label(CLOSED, 1, 4), [5, 3, 2, 0])
        self.assertEqual(vihrolom.rank(CLOSED, 1, 1, 4, 5), vihrolom.rank(S, 1, 1, 4, 5))
        self.assertEqual(vihrolom.shortest(CLOSED, 1, 3, 4), Path((3, 4), 2))
        # in column 2 the arc is not there
        self.assertEqual(vihrolom.label(CLOSED, 2, 4), [5, 1, None, 0])
        self.assertEqual(vihrolom.rank(CLOSED, 2, 1, 4, 5), [Path((1, 2, 4), 5)])
        self.assertEqual(outcome(vihrolom.shortest, CLOSED, 2, 3, 4), (15, 0))
        # a route must be open in both, and is held against the best path of each
        self.assertEqual(vihrolom.regret(CLOSED, 1, 4, [1, 2, 4]), Regret(3, 1))
        self.assertEqual(outcome(vihrolom.regret, CLOSED, 1, 4, [1, 3, 4]), (14, 2))
        self.assertEqual(vihrolom.robust(CLOSED, 1, 1, 4, 5), Choice((1, 2, 4), 3, 1, 1, True, None))
        self.assertEqual(outcome(vihrolom.robust, CLOSED, 1, 3, 4, 5), (15, 0))
        self.assertEqual(vihrolom.sheet(CLOSED), "route 1 2 4\nregret 3 column 1\nranked 1 settled\n")

    def test_update(self):
        lists = vihrolom.unpack(S)
        records = [(0, 1, 8, 5), (4, 2, 3, 0), vihrolom.Record(0, 1, 9, 5), (0, 1, 7, 4)]
        costs = list(lists.costs)
        costs[0], costs[9] = 9, 3
        after = vihrolom.update(S, records)
        self.assertEqual(after, vihrolom.build(1, 4, 2, lists.ends, costs))
        self.assertEqual(vihrolom.update(S, []), S)
        # each record is examined, and the first in error is given
        self.assertEqual(outcome(vihrolom.update, S, [(0, 1, 8, 5), (5, 3, None, 0)]), (17, 1))
        self.assertEqual(outcome(vihrolom.update, S, [(-1, 1, 8, 5)]), (17, 0))
        self.assertEqual(outcome(vihrolom.update, S, [(2**32, 1, 8, 5)]), (17, 0))
        self.assertEqual(outcome(vihrolom.update, S, [(0, 3, None, 0), (5, 1, 0, 0)]), (18, 0))
        self.assertEqual(outcome(vihrolom.update, S, [(0, 2**32 + 1, 0, 0)]), (18, 0))
        self.assertEqual(outcome(vihrolom.update, S, [(0, 1, 8, 5), (0, 1, 8, 5), (0, 1, None, 0)]), (9, 2))
        for stamp in (-1, 2**32):
            with self.assertRaises(ValueError):
                vihrolom.update(S, [(0, 1, 8, stamp)])
        # in edition 2 a record closes an arc, and another opens it again
        edition_2 = vihrolom.build(2, 4, 2, lists.ends, lists.costs)
        closed = vihrolom.update(edition_2, [(1, 2, None, 7)])
        self.assertIsNone(vihrolom.unpack(closed).costs[6])
        self.assertEqual(vihrolom.update(closed, [(1, 2, 1, 0)]), edition_2)

    def test_find(self):
        self.assertEqual(vihrolom.find(S, 2, 3), Found(2, 1))
        self.assertEqual(vihrolom.find(S, 1, 2), Found(0, 2))
        self.assertEqual(vihrolom.find(S, 3, 4), Found(4, 3))
        self.assertEqual(vihrolom.find(S, 4, 1), Found(None, 3))
        self.assertEqual(vihrolom.find(S, 0, 0), Found(None, 2))

    def test_find_in_1000_arcs(self):
        arcs = [(tail, head) for tail in range(1, 201) for head in range(1, 7) if head != tail]
        arcs = arcs[:1000]
        image = vihrolom.build(1, 200, 1, [node for arc in arcs for node in arc], [1] * 1000)
        for index, (tail, head) in enumerate(arcs):
            self.assertEqual(vihrolom.find(image, tail, head).index, index)
        self.assertEqual(vihrolom.find(image, *arcs[999]), Found(999, 10))
        self.assertEqual(vihrolom.find(image, *arcs[499]), Found(499, 1))
        self.assertEqual(vihrolom.find(image, 200, 200), Found(None, 10))

    def test_ring_of_zero_costs(self):
        image = vihrolom.build(1, 4, 1, [1, 3, 2, 3, 2, 4, 3, 2, 3, 4], [0] * 5)
        self.assertEqual(vihrolom.rank(image, 1, 1, 4, 5), [Path((1, 3, 2, 4), 0), Path((1, 3, 4), 0)])

    def test_network_without_arcs(self):
        image = vihrolom.build(1, 2, 1, [], [])
        self.assertEqual(len(image), 24)
        self.assertEqual(vihrolom.unpack(image), Lists(Sizes(2, 0, 1, 1), (), ()))
        self.assertEqual(vihrolom.label(image, 1, 2), [None, 0])
        self.assertEqual(vihrolom.find(image, 1, 2), Found(None, 0))
        self.assertEqual(outcome(vihrolom.robust, image, 1, 1, 2, 1), (15, 0))
        self.assertEqual(outcome(vihrolom.search, image, 1, 2, 0), (15, 0))

    def test_line_of_200_nodes(self):
        ends = [node for tail in range(1, 200) for node in (tail, tail + 1)]
        image = vihrolom.build(1, 200, 1, ends, [1_000_000] * 199)
        line = Path(tuple(range(1, 201)), 199_000_000)
        self.assertEqual(vihrolom.shortest(image, 1, 1, 200), line)
        self.assertEqual(vihrolom.rank(image, 1, 1, 200, 256), [line])
        self.assertEqual(vihrolom.robust(image, 1, 1, 200, 256), Choice(line.nodes, 0, 1, 1, True, None))
        self.assertEqual(vihrolom.search(image, 1, 200, 199), Search(line.nodes, 0, 1, 199))

    def test_most_paths(self):
        image = read("apart.image")
        paths = vihrolom.rank(image, 1, 1, 100, 256)
        self.assertEqual(len({path.nodes for path in paths}), 256)
        self.assertEqual(paths, sorted(paths, key=by_rank))
        self.assertEqual(vihrolom.rank(image, 1, 1, 100, 48), paths[:48])

    def test_sheets_of_the_examples(self):
        names = [os.path.basename(file) for file in glob.glob(os.path.join(EXAMPLES, "*.image"))]
        self.assertLessEqual({"S.image", "close.image", "apart.image"}, set(names))
        for name in names:
            with self.subTest(name):
                text = vihrolom.sheet(read(name)).encode()
                self.assertEqual(text, read(name.replace(".image", ".sheet")))

    def test_sheet_of_a_refusal(self):
        self.assertEqual(vihrolom.sheet(b""), "refused 1 at 0\n")
        self.assertEqual(vihrolom.sheet(vihrolom.build(1, 2, 1, [], [])), "refused 15 at 0\n")
        self.assertEqual(vihrolom.sheet(S[:32] + S[28:32] + S[36:]), "refused 8 at 2\n")


class Weeks(unittest.TestCase):
    """Roads of S that close and reopen; start 1, goal 4, ranked in column 2 unless stated."""

    FIRST = Choice((1, 2, 4), figure=3, worst=1, count=1, settled=True, floor=None)

    def holds(self, week, answer, *closed):
        """The week has this answer, and these roads of its five are closed."""
        self.assertEqual(week.answer, answer)
        self.assertEqual([arc for arc in range(5) if week.is_closed(arc)], list(closed))
        self.assertEqual(week.closed_roads, len(closed))

    def test_roads_close_and_reopen(self):
        week = Week(S, 2, 1, 4, 5)
        self.holds(week, self.FIRST)
        week.close(1)  # beside the route, and no best changes
        self.holds(week, self.FIRST, 1)
        week.close(1)
        self.holds(week, self.FIRST, 1)
        week.close(3)  # on the route
        self.holds(week, Choice((1, 2, 3, 4), 0, 1, 1, True, None), 1, 3)
        week.close(4)
        self.holds(week, None, 1, 3, 4)
        week.reopen(3)
        self.holds(week, Choice((1, 2, 4), 0, 1, 1, True, None), 1, 4)
        for arc in (4, 1, 0):
            week.reopen(arc)
        self.holds(week, self.FIRST)
        week.close(2)  # beside the route, and the best of column 1 changes
        self.holds(week, Choice((1, 2, 4), 1, 1, 1, True, None), 2)

    def test_open_answer(self):
        week = Week(S, 1, 1, 4, 1)
        self.holds(week, Choice((1, 2, 3, 4), 8, 2, 1, False, 2))
        week.close(3)
        self.holds(week, Choice((1, 2, 3, 4), 5, 2, 1, False, 2), 3)

    def test_no_path(self):
        week = Week(S, 1, 4, 1, 5)
        self.holds(week, None)
        week.close(0)
        self.holds(week, None, 0)
        week = Week(vihrolom.build(1, 2, 1, [], []), 1, 1, 2, 1)
        self.holds(week, None)
        self.assertEqual(outcome(week.close, 0), (20, 0))
        self.assertEqual(Week.from_bytes(week.to_bytes(), vihrolom.build(1, 2, 1, [], []), 1, 1, 2, 1).closed_roads, 0)

    def test_refused_events(self):
        week = Week(S, 2, 1, 4, 5)
        week.close(1)
        state = week.to_bytes()
        for arc in (5, 1000, 2**32 - 1):
            self.assertEqual(outcome(week.close, arc), (20, arc))
            self.assertEqual(outcome(week.reopen, arc), (20, arc))
        # what does not fit 32 bits is no index either
        for arc in BEYOND:
            self.assertEqual(outcome(week.close, arc), (20, 2**32 - 1))
            self.assertFalse(week.is_closed(arc))
        self.assertEqual(str(Refusal(20, 5)), "refused 20 at 5: an event's arc index is m or more")
        for wrong in (1.0, "1", None):
            self.assertRaises(TypeError, week.close, wrong)
            self.assertRaises(TypeError, week.is_closed, wrong)
        self.assertEqual(week.to_bytes(), state)
        self.holds(week, self.FIRST, 1)

    def test_refused_questions(self):
        state = Week(S, 2, 1, 4, 5).to_bytes()
        for row, asked in [
            (1, (b"", 2, 1, 4, 5)),
            (10, (S, 0, 1, 1, 0)),
            (11, (S, 3, 4, 1, 0)),
            (12, (S, 2, 4, 1, 0)),
            (12, (S, 2, 1, 4, 257)),
            *((12, (S, 2, 1, 4, number)) for number in BEYOND),
        ]:
            self.assertEqual(outcome(Week, *asked), (row, 0))
            self.assertEqual(outcome(Week.from_bytes, state, *asked), (row, 0))

    def test_bytes(self):
        asked = S, 2, 1, 4, 5
        week = Week(*asked)
        self.assertEqual(week.to_bytes(), struct.pack("<16Q200H6I", *[0] * 16, 1, 2, 4, *[0] * 197, 1, 3, 3, 1, 1, 0))
        week.close(1)
        for state in (week.to_bytes(), bytearray(week.to_bytes()), memoryview(week.to_bytes()).cast("I")):
            again = Week.from_bytes(state, *asked)
            self.holds(again, self.FIRST, 1)
            again.close(3)
            self.assertEqual(again.closed_roads, 2)
        self.holds(week, self.FIRST, 1)
        for wrong in (b"", week.to_bytes()[1:], week.to_bytes() + b"\0"):
            with self.assertRaisesRegex(ValueError, "552 bytes"):
                Week.from_bytes(wrong, *asked)

    def test_state_made_otherwise(self):
        """It is read as it is: its length as at most 200, and bits from m on close nothing."""
        beyond = 2**64 - 32
        numbers = [beyond + 1, *[2**64 - 1] * 15, *[7] * 200, 1, 300, 77, 9, 1000, 5]
        week = Week.from_bytes(struct.pack("<16Q200H6I", *numbers), S, 2, 1, 4, 5)
        odd = Choice((7,) * 200, 77, 9, 1000, True, None)
        self.holds(week, odd, 0)
        week.close(0)
        self.holds(week, odd, 0)
        self.assertFalse(week.is_closed(5))
        week.reopen(0)
        self.holds(week, self.FIRST)
        self.assertEqual(struct.unpack_from("<16Q", week.to_bytes()), (beyond, *[2**64 - 1] * 15))
        for state in (0, 9, 2**32 - 1):
            numbers[216] = state
            self.holds(Week.from_bytes(struct.pack("<16Q200H6I", *numbers), S, 2, 1, 4, 5), None, 0)


class Refusing(unittest.TestCase):
    def refused(self, number, place, call, *arguments):
        self.assertEqual(outcome(call, *arguments), (number, place), (call.__name__, arguments))


class Refusals(Refusing):
    """The rows of the refusal table."""

    def refused_image(self, number, place, image):
        """Every call with an image checks it first."""
        self.refused(number, place, vihrolom.check, image)
        self.refused(number, place, vihrolom.unpack, image)
        self.refused(number, place, vihrolom.label, image, 1, 4)
        self.refused(number, place, vihrolom.shortest, image, 1, 1, 4)
        self.refused(number, place, vihrolom.regret, image, 1, 4, [1, 3, 4])
        self.refused(number, place, vihrolom.rank, image, 1, 1, 4, 1)
        self.refused(number, place, vihrolom.robust, image, 1, 1, 4, 1)
        self.refused(number, place, vihrolom.find, image, 1, 2)
        self.refused(number, place, vihrolom.search, image, 1, 4, 0)
        self.refused(number, place, vihrolom.update, image, [(9, 9, None, 0)])
        self.assertEqual(vihrolom.sheet(image), f"refused {number} at {place}\n")

    def refused_field(self, number, place, offset, form, value):
        """Network S with one number of its image changed."""
        image = bytearray(S)
        struct.pack_into(form, image, offset, value)
        self.refused_image(number, place, bytes(image))

    def test_length(self):
        self.refused_image(1, 0, b"")
        self.refused_image(1, 0, S[:23])
        self.refused_image(5, 0, S + b"\0")
        self.refused_image(5, 0, S[:-1])

    def test_header(self):
        for edition in (0, 3, 7, 257, 512):
            self.refused_field(2, 0, 0, "<H", edition)
        for offset, value in [(2, 0), (2, 1), (2, 201), (2, 65535), (4, 1001), (6, 0), (6, 9)]:
            self.refused_field(3, 0, offset, "<H", value)
        for offset, value in [(8, 25), (12, 40), (16, 85), (20, 1)]:
            self.refused_field(4, 0, offset, "<I", value)

    def test_arcs_of_an_image(self):
        self.refused_field(6, 0, 24, "<H", 0)
        self.refused_field(6, 4, 42, "<H", 5)
        self.refused_field(7, 2, 34, "<H", 2)
        self.refused_field(8, 1, 30, "<H", 2)

    def test_costs_of_an_image(self):
        self.refused_field(9, 0, 44, "<I", 1_000_001)
        self.refused_field(9, 9, 80, "<I", 2**32 - 1)

    def test_build(self):
        build = vihrolom.build
        for edition in (0, 3, 7):
            self.refused(2, 0, build, edition, 1, 9, S_ENDS, S_COSTS)
        for nodes in (0, 1, 201):
            self.refused(3, 0, build, 1, nodes, 2, S_ENDS, S_COSTS)
        for columns in (0, 9):
            self.refused(3, 0, build, 1, 4, columns, S_ENDS, S_COSTS)
        self.refused(3, 0, build, 1, 4, 1, [1, 2] * 1001, [1] * 1001)
        self.refused(4, 0, build, 1, 4, 2, S_ENDS + (1,), S_COSTS)
        self.refused(4, 0, build, 1, 4, 2, S_ENDS, S_COSTS[:-1])
        self.refused(6, 0, build, 1, 4, 2, (0,) + S_ENDS[1:], S_COSTS)
        self.refused(6, 4, build, 1, 4, 2, S_ENDS[:-1] + (5,), S_COSTS)
        self.refused(7, 2, build, 1, 4, 2, S_ENDS[:4] + (2, 2) + S_ENDS[6:], S_COSTS)
        self.refused(8, 1, build, 1, 4, 2, (1, 2, 1, 2) + S_ENDS[4:], S_COSTS)
        self.refused(9, 9, build, 1, 4, 2, S_ENDS, S_COSTS[:-1] + (1_000_001,))
        self.refused(9, 9, build, 1, 4, 2, S_ENDS, CLOSED_COSTS)

    def test_start_and_goal(self):
        for start, goal in [(1, 1), (0, 4), (5, 4), (1, 0), (1, 5)]:
            self.refused(10, 0, vihrolom.shortest, S, 1, start, goal)
            self.refused(10, 0, vihrolom.regret, S, start, goal, [1, 3, 4])
            self.refused(10, 0, vihrolom.rank, S, 1, start, goal, 1)
            self.refused(10, 0, vihrolom.robust, S, 1, start, goal, 1)
            self.refused(10, 0, vihrolom.search, S, start, goal, 0)
        for goal in (0, 5):
            self.refused(10, 0, vihrolom.label, S, 1, goal)

    def test_column(self):
        for column in (0, 3):
            self.refused(11, 0, vihrolom.label, S, column, 4)
            self.refused(11, 0, vihrolom.shortest, S, column, 1, 4)
            self.refused(11, 0, vihrolom.rank, S, column, 1, 4, 1)
            self.refused(11, 0, vihrolom.robust, S, column, 1, 4, 1)

    def test_limit(self):
        for limit in (0, 257, 2**32 - 1):
            self.refused(12, 0, vihrolom.rank, S, 1, 1, 4, limit)
            self.refused(12, 0, vihrolom.robust, S, 1, 1, 4, limit)

    def test_lowest_number_first(self):
        self.refused(10, 0, vihrolom.robust, S, 0, 1, 1, 0)
        self.refused(11, 0, vihrolom.robust, S, 0, 4, 1, 0)
        self.refused(12, 0, vihrolom.robust, S, 1, 4, 1, 0)

    def test_list_that_is_no_path(self):
        for place, nodes in [
            (0, []),
            (0, [2, 4]),
            (0, [0, 1, 3, 4]),
            (1, [1, 4]),
            (1, [1, 1]),
            (1, [1, 5]),
            (2, [1, 2]),
            (2, [1, 2, 1]),
            (3, [1, 3, 4, 4]),
            (1, [1]),
        ]:
            self.refused(14, place, vihrolom.regret, S, 1, 4, nodes)

    def test_no_path(self):
        self.refused(15, 0, vihrolom.shortest, S, 1, 4, 1)
        self.refused(15, 0, vihrolom.rank, S, 1, 4, 1, 5)
        self.refused(15, 0, vihrolom.robust, S, 1, 4, 1, 5)

    def test_words(self):
        refusal = Refusal(11, 0)
        self.assertEqual(str(refusal), "refused 11 at 0: column outside 1..k")
        self.assertEqual(Refusal(1, 0).words, "image under 24 bytes")
        rows = [*range(1, 16), *range(17, 21)]
        self.assertEqual(len({Refusal(number, 0).words for number in rows}), len(rows))
        with self.assertRaises(KeyError):
            Refusal(16, 0)
        self.assertEqual(str(Refusal(19, 4)), "refused 19 at 4: Search's rule tries more arcs than the limit")
        self.assertEqual(str(pickle.loads(pickle.dumps(refusal))), str(refusal))


class Numbers(Refusing):
    """Numbers that do not fit the parameters of the C functions, and things that are no numbers."""

    def test_numbers_beyond_32_bits(self):
        for number in BEYOND:
            self.refused(2, 0, vihrolom.build, number, 4, 2, S_ENDS, S_COSTS)
            self.refused(3, 0, vihrolom.build, 1, number, 2, S_ENDS, S_COSTS)
            self.refused(3, 0, vihrolom.build, 1, 4, number, S_ENDS, S_COSTS)
            self.refused(10, 0, vihrolom.label, S, 1, number)
            self.refused(11, 0, vihrolom.label, S, number, 4)
            self.refused(12, 0, vihrolom.rank, S, 1, 1, 4, number)
            self.refused(12, 0, vihrolom.robust, S, 1, 1, 4, number)
            for call, more in [(vihrolom.shortest, ()), (vihrolom.rank, (5,)), (vihrolom.robust, (5,))]:
                self.refused(11, 0, call, S, number, 1, 4, *more)
                self.refused(10, 0, call, S, 1, number, 4, *more)
                self.refused(10, 0, call, S, 1, 1, number, *more)
            self.refused(10, 0, vihrolom.regret, S, number, 4, [1, 3, 4])
            self.refused(10, 0, vihrolom.regret, S, 1, number, [1, 3, 4])
            self.assertIsNone(vihrolom.find(S, 1, number).index)
            self.assertIsNone(vihrolom.find(S, number, 2).index)
            self.refused(10, 0, vihrolom.search, S, number, 4, 5)
            self.refused(10, 0, vihrolom.search, S, 1, number, 5)
        self.assertEqual(vihrolom.search(S, 1, 4, 2**32 + 1), vihrolom.search(S, 1, 4, 5))
        self.refused(19, 0, vihrolom.search, S, 1, 4, -1)
        self.refused(19, 0, vihrolom.search, S, 1, 4, 5 - 2**32)
        self.assertEqual(vihrolom.find(S, 2**32 + 1, 2), Found(None, 3))
        self.assertEqual(vihrolom.find(S, -1, 2), Found(None, 2))

    def test_nodes_beyond_16_bits(self):
        for node in (2**16, 2**16 + 3, *BEYOND):
            self.refused(6, 1, vihrolom.build, 1, 4, 2, S_ENDS[:3] + (node,) + S_ENDS[4:], S_COSTS)
            self.refused(14, 1, vihrolom.regret, S, 1, 4, [1, node, 4])
            self.refused(14, 0, vihrolom.regret, S, 1, 4, [node, 3, 4])

    def test_costs(self):
        for cost in (1_000_001, 2**32 - 2, 2**32 - 1, 2**32, 2**32 + 1, 2**64 + 1):
            for edition in (1, 2):
                costs = S_COSTS[:3] + (cost,) + S_COSTS[4:]
                self.refused(9, 3, vihrolom.build, edition, 4, 2, S_ENDS, costs)
        for cost in (-1, 1 - 2**32, -(2**64)):
            with self.assertRaisesRegex(ValueError, "index 3"):
                vihrolom.build(1, 4, 2, S_ENDS, S_COSTS[:3] + (cost,) + S_COSTS[4:])
        greatest = vihrolom.build(1, 2, 1, [1, 2], [1_000_000])
        self.assertEqual(vihrolom.shortest(greatest, 1, 1, 2), Path((1, 2), 1_000_000))

    def test_no_whole_numbers(self):
        for wrong in (1.0, "1", None):
            for call, arguments in [
                (vihrolom.build, (wrong, 2, 1, [1, 2], [1])),
                (vihrolom.build, (1, wrong, 1, [1, 2], [1])),
                (vihrolom.build, (1, 2, 1, [1, wrong], [1])),
                (vihrolom.label, (S, wrong, 4)),
                (vihrolom.regret, (S, 1, 4, [1, wrong, 4])),
                (vihrolom.rank, (S, 1, 1, 4, wrong)),
                (vihrolom.robust, (S, 1, 1, wrong, 5)),
                (vihrolom.find, (S, 1, wrong)),
                (vihrolom.search, (S, 1, 4, wrong)),
            ]:
                self.assertRaises(TypeError, call, *arguments)
        for wrong in (1.0, "1"):
            self.assertRaises(TypeError, vihrolom.build, 2, 2, 1, [1, 2], [wrong])

    def test_images_that_are_no_bytes(self):
        for wrong in (84, "S", None, [1, 0]):
            self.assertRaises(TypeError, vihrolom.check, wrong)
        for image in (bytearray(S), memoryview(S), memoryview(S).cast("I")):
            self.assertEqual(vihrolom.check(image), Sizes(4, 5, 2, 1))


class Plain:
    """A network whose answers are found by looking at all loopless paths. A closed arc costs None."""

    def __init__(self, edition, nodes, arcs, columns):
        self.edition = edition
        self.nodes = nodes
        self.arcs = arcs
        self.columns = columns
        self.every = range(1, len(columns) + 1)
        self.costs = [dict(zip(arcs, column)) for column in columns]

    def image(self):
        m, k = len(self.arcs), len(self.columns)
        ends = [node for arc in self.arcs for node in arc]
        costs = [2**32 - 1 if cost is None else cost for column in self.columns for cost in column]
        form = f"<4H4I{2 * m}H{m * k}I"
        header = (self.edition, self.nodes, m, k, 24, 24 + 4 * m, 24 + 4 * m + 4 * m * k, 0)
        return struct.pack(form, *header, *ends, *costs)

    def is_open(self, u, arc):
        return arc in self.arcs and self.costs[u - 1][arc] is not None

    def paths(self, columns, start, goal, used=()):
        """The paths that are open in these columns."""
        used = (*used, start)
        if start == goal:
            return [used]
        heads = [head for tail, head in self.arcs if tail == start and head not in used]
        heads = [head for head in heads if all(self.is_open(u, (start, head)) for u in columns)]
        return [path for head in heads for path in self.paths(columns, head, goal, used)]

    def cost(self, u, path):
        return sum(self.costs[u - 1][arc] for arc in zip(path, path[1:]))

    def least(self, u, start, goal):
        return min((self.cost(u, path) for path in self.paths([u], start, goal)), default=None)

    def find(self, tail, head):
        left, looks = self.arcs, 0
        while left:
            middle = (len(left) - 1) // 2
            looks += 1
            if left[middle] == (tail, head):
                break
            left = left[middle + 1 :] if left[middle] < (tail, head) else left[:middle]
        return Found(self.arcs.index((tail, head)) if (tail, head) in self.arcs else None, looks)

    def label(self, u, goal):
        return [self.least(u, node, goal) for node in range(1, self.nodes + 1)]

    def ranked(self, columns, u, start, goal):
        """The paths that are open in these columns, in the ranking order in u."""
        paths = [Path(path, self.cost(u, path)) for path in self.paths(columns, start, goal)]
        return sorted(paths, key=by_rank)

    def rank(self, u, start, goal, limit):
        return self.ranked([u], u, start, goal)[:limit] or (15, 0)

    def shortest(self, u, start, goal):
        ranked = self.ranked([u], u, start, goal)
        return ranked[0] if ranked else (15, 0)

    def deviations(self, start, goal, paths):
        """For each path, which is open in every column, its deviation in each."""
        bests = [self.least(u, start, goal) for u in self.every]
        return [[self.cost(u, path) - best for u, best in zip(self.every, bests)] for path in paths]

    def regret(self, start, goal, nodes):
        if not nodes or nodes[0] != start:
            return 14, 0
        for i in range(1, len(nodes)):
            arc = nodes[i - 1], nodes[i]
            if nodes[i] in nodes[:i] or not all(self.is_open(u, arc) for u in self.every):
                return 14, i
        if nodes[-1] != goal:
            return 14, len(nodes)
        (row,) = self.deviations(start, goal, [tuple(nodes)])
        return Regret(max(row), row.index(max(row)) + 1)

    def robust(self, u, start, goal, limit):
        paths = [path.nodes for path in self.ranked(self.every, u, start, goal)]
        if not paths:
            return 15, 0
        rows = self.deviations(start, goal, paths)
        figures = [max(row) for row in rows]
        needed = 1
        while needed < len(paths) and rows[needed][u - 1] < min(figures[:needed]):
            needed += 1
        settled = needed <= limit
        count = needed if settled else limit
        floor = None if settled else rows[limit][u - 1]
        figure = min(figures[:count])
        at = figures.index(figure)
        return Choice(paths[at], figure, rows[at].index(figure) + 1, count, settled, floor)

    def outlook(self, route, labels):
        """The largest, over the columns, of cost and label of the last node, less the column's best.

        None if in some column an arc is closed or the goal cannot be reached.
        """
        largest = 0
        for u, column in zip(self.every, labels):
            if column[route[-1] - 1] is None or not all(self.is_open(u, arc) for arc in zip(route, route[1:])):
                return None
            largest = max(largest, self.cost(u, route) + column[route[-1] - 1] - column[route[0] - 1])
        return largest

    def descend(self, route, goal, labels, best, tried):
        """The rule of Search from a partial route on: the best figure with its path, and the arcs tried."""
        for tail, head in self.arcs:
            if tail != route[-1] or head in route:
                continue
            tried += 1
            longer = (*route, head)
            figure = self.outlook(longer, labels)
            if figure is None or best is not None and figure >= best[0]:
                continue
            if head == goal:
                best = figure, longer
            else:
                best, tried = self.descend(longer, goal, labels, best, tried)
        return best, tried

    def search(self, start, goal, limit):
        if not self.paths(self.every, start, goal):
            return 15, 0
        labels = [self.label(u, goal) for u in self.every]
        (figure, path), tried = self.descend((start,), goal, labels, None, 0)
        (row,) = self.deviations(start, goal, [path])
        return Search(path, figure, row.index(figure) + 1, tried) if tried <= limit else (19, limit)


class PlainWeek:
    """A network's week: the answer found anew at each event that the rule does not let it stand at."""

    def __init__(self, plain, *asked):
        self.plain, self.asked, self.closed = plain, asked, set()
        self.answer = self.find_anew()

    def left(self):
        """The network without the closed roads."""
        kept = [i for i in range(len(self.plain.arcs)) if i not in self.closed]
        columns = [[column[i] for i in kept] for column in self.plain.columns]
        return Plain(self.plain.edition, self.plain.nodes, [self.plain.arcs[i] for i in kept], columns)

    def find_anew(self):
        answer = self.left().robust(*self.asked)
        return None if answer == (15, 0) else answer

    def bests(self):
        left, (_, start, goal, _) = self.left(), self.asked
        return [left.least(u, start, goal) for u in left.every]

    def event(self, arc, close):
        """Whether the answer stands."""
        if (arc in self.closed) == close:
            return True
        bests = self.bests()
        self.closed ^= {arc}
        path = self.answer.path if self.answer else ()
        touched = self.plain.arcs[arc] in zip(path, path[1:])
        if close and self.answer and self.answer.settled and not touched and self.bests() == bests:
            return True
        self.answer = self.find_anew()
        return False


def draw_network(draw):
    """A network of 2 to 7 nodes, sparse or dense, with few or many equal costs and closed arcs."""
    nodes = draw.randint(2, 7)
    share = draw.choice((0.3, 0.5, 0.7, 1.0))
    pairs = [(tail, head) for tail in range(1, nodes + 1) for head in range(1, nodes + 1) if tail != head]
    arcs = [pair for pair in pairs if draw.random() < share]
    top = draw.choice((0, 1, 3, 20, 1_000_000))
    edition = draw.choice((1, 2))
    closed = draw.choice((0, 0.05, 0.3)) if edition == 2 else 0

    def cost():
        return None if draw.random() < closed else draw.randint(0, top)

    columns = [[cost() for _ in arcs] for _ in range(draw.randint(1, 4))]
    return Plain(edition, nodes, arcs, columns)


class AgainstEnumeration(unittest.TestCase):
    NETWORKS = 2400

    def agree(self, plain, call, *arguments):
        """The call on the network's image gives what the enumeration gives."""
        expected = getattr(plain, call.__name__)(*arguments)
        given = outcome(call, plain.image(), *arguments)
        self.assertEqual(given, expected, (call.__name__, plain.arcs, plain.columns, arguments))
        self.compared[call.__name__] = self.compared.get(call.__name__, 0) + 1

    def agree_on_lists(self, plain):
        image = plain.image()
        sizes = Sizes(plain.nodes, len(plain.arcs), len(plain.columns), plain.edition)
        ends = tuple(node for arc in plain.arcs for node in arc)
        costs = tuple(cost for column in plain.columns for cost in column)
        given = vihrolom.build(sizes.edition, sizes.nodes, sizes.columns, ends, costs)
        self.assertEqual(given, image)
        self.assertEqual(vihrolom.unpack(image), Lists(sizes, ends, costs))

    def agree_on_paths(self, plain, draw):
        column = draw.randint(1, len(plain.columns))
        start, goal = draw.sample(range(1, plain.nodes + 1), 2)
        self.agree(plain, vihrolom.label, column, goal)
        self.agree(plain, vihrolom.shortest, column, start, goal)
        for limit in (draw.randint(1, 12), 256):
            self.agree(plain, vihrolom.rank, column, start, goal, limit)
        for limit in (1, draw.randint(2, 12), 256):
            self.agree(plain, vihrolom.robust, column, start, goal, limit)
        tried = getattr(plain.search(start, goal, 2**32 - 1), "tried", 1)
        for limit in (tried - 1, tried):
            self.agree(plain, vihrolom.search, start, goal, limit)
        for tail, head in [(start, goal), (goal, draw.randint(0, plain.nodes + 1))]:
            self.agree(plain, vihrolom.find, tail, head)
        paths = plain.paths([], start, goal)
        for path in draw.sample(paths, min(3, len(paths))):
            self.agree(plain, vihrolom.regret, start, goal, path)
            self.agree(plain, vihrolom.regret, start, goal, path[:-1])
        drawn = [start] + [draw.randint(0, plain.nodes + 1) for _ in range(draw.randint(0, 4))]
        self.agree(plain, vihrolom.regret, start, goal, drawn)

    def test_random_networks(self):
        draw = random.Random(20)
        self.compared = {}
        for _ in counted(self.NETWORKS, "random networks"):
            plain = draw_network(draw)
            self.agree_on_lists(plain)
            self.agree_on_paths(plain, draw)
        self.assertEqual(set(self.compared), {"label", "shortest", "rank", "robust", "regret", "find", "search"})
        self.assertGreaterEqual(min(self.compared.values()), self.NETWORKS)
        self.assertGreaterEqual(sum(self.compared.values()), 14 * self.NETWORKS)


class WeeksAgainstEnumeration(unittest.TestCase):
    NETWORKS = 500

    def test_random_weeks(self):
        draw = random.Random(7)
        stood = ran = 0
        for _ in counted(self.NETWORKS, "random weeks"):
            plain = draw_network(draw)
            image, arcs = plain.image(), len(plain.arcs)
            asked = draw.randint(1, len(plain.columns)), *draw.sample(range(1, plain.nodes + 1), 2), draw.choice((1, 2, 5, 256))
            week, due = Week(image, *asked), PlainWeek(plain, *asked)
            for _ in range(draw.randint(0, 12)):
                arc, close = draw.randint(0, arcs), draw.random() < 0.7
                if arc == arcs:
                    self.assertEqual(outcome(week.close if close else week.reopen, arc), (20, arc))
                    continue
                (week.close if close else week.reopen)(arc)
                stands = due.event(arc, close)
                stood, ran = stood + stands, ran + (not stands)
                if draw.random() < 0.2:
                    week = Week.from_bytes(week.to_bytes(), image, *asked)
                about = plain.arcs, plain.columns, asked, due.closed
                self.assertEqual((week.answer, week.closed_roads), (due.answer, len(due.closed)), about)
        self.assertGreaterEqual(min(stood, ran), 500)


class Passing(unittest.TestCase):
    """How the module finds the library, and what it passes to it."""

    def test_no_slice_is_null(self):
        seen = []

        def function(*arguments):
            seen.extend(argument for argument in arguments if isinstance(argument, ctypes.Array))
            return mock.Mock(refusal=15, place=0)

        library = mock.Mock(vihrolom_build=function, vihrolom_check=function, vihrolom_regret=function)
        with mock.patch.object(vihrolom.images, "_library", return_value=library):
            outcome(vihrolom.build, 1, 2, 1, [], [])
            outcome(vihrolom.check, b"")
            outcome(vihrolom.regret, b"", 1, 2, [])
        self.assertEqual(len(seen), 6)
        for slice in seen:
            self.assertGreaterEqual(len(slice), 1)
            self.assertNotEqual(ctypes.addressof(slice), 0)

    def test_library_of_another_version(self):
        for number, version in [(6_999, "0.6.999"), (1_002_003, "1.2.3"), (0, "0.0.0")]:
            library = mock.Mock(vihrolom_version=mock.Mock(return_value=number))
            with mock.patch.object(vihrolom.images.ctypes, "CDLL", return_value=library):
                with self.assertRaises(vihrolom.LibraryMissing) as caught:
                    vihrolom.images._library.__wrapped__()
            words = f"its version is {version}, and the package's is {vihrolom.__version__}"
            self.assertIn(words, str(caught.exception))

    def test_library_that_cannot_be_loaded(self):
        program = (
            "import vihrolom\n"
            "print('imported')\n"
            "try: vihrolom.check(b'')\n"
            "except vihrolom.LibraryMissing as error: print(error)\n"
        )
        # no file, a file that is no library, and a library without the functions
        for file in ("/nowhere/libvihrolom.so", __file__, _ctypes.__file__):
            command = [sys.executable, "-c", program]
            environment = with_package(VIHROLOM_LIBRARY=file)
            run = subprocess.run(command, env=environment, capture_output=True, text=True)
            self.assertEqual((run.returncode, run.stderr), (0, ""))
            imported, complaint = run.stdout.splitlines()
            self.assertEqual(imported, "imported")
            self.assertIn(file, complaint)
            self.assertIn("tools/build-library", complaint)


if __name__ == "__main__":
    unittest.main()
