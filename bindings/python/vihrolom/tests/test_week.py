"""Holds the command week to its output, to Robust on the roads that are open, and to its complaints."""
import os
import random
import subprocess
import sys
import unittest

from vihrolom import Network, NoRoute
from vihrolom.commands import week
from vihrolom.tables import read_lines
from vihrolom.tests import EXAMPLES, test_roads, with_package
from vihrolom.tests.test_roads import EXAMPLE, FERRY, S

ROOMS = os.path.join(EXAMPLES, "rooms.csv")
EVENTS = os.path.join(EXAMPLES, "events.csv")


class Commands(test_roads.Commands):
    COMMAND, FAILURE = week, 2

    def setUp(self):
        super().setUp()
        self.write(S)
        self.rooms, self.events = (os.path.join(self.folder, name) for name in ("rooms.csv", "events.csv"))
        self.files = self.file, self.rooms, self.events

    def fill(self, path, *lines):
        with open(path, "w", encoding="utf-8") as file:
            file.write("\n".join(lines) + "\n" if lines else "")


class Output(Commands):
    def test_network_s(self):
        self.fill(self.rooms, "room,from,to", "North,A,D", "South,B,D", "", "Back,D,A")
        self.fill(
            self.events,
            "day,from,to,event",
            "Mon,A,C,close",
            "Mon,A,C,close",
            "Tue,B,D,close",
            "Wed, C, D, close",
            "Thu,B,D,open",
            "",
            "Thu,C,D,open",
            "Fri,A,C,open",
        )
        expected = (
            "Mon: A > C closed; 1 road is closed\n"
            "  no route changed\n"
            "Mon: A > C closed; 1 road is closed\n"
            "  no route changed\n"
            "Tue: B > D closed; 2 roads are closed\n"
            "  North\n"
            "    was A > B > D, regret 3 column calm\n"
            "    now A > B > C > D, regret 0 column calm\n"
            "  South\n"
            "    was B > D, regret 3 column calm\n"
            "    now B > C > D, regret 0 column calm\n"
            "Wed: C > D closed; 3 roads are closed\n"
            "  North\n"
            "    was A > B > C > D, regret 0 column calm\n"
            "    now no route\n"
            "  South\n"
            "    was B > C > D, regret 0 column calm\n"
            "    now no route\n"
            "Thu: B > D reopened; 2 roads are closed\n"
            "  North\n"
            "    was no route\n"
            "    now A > B > D, regret 0 column calm\n"
            "  South\n"
            "    was no route\n"
            "    now B > D, regret 0 column calm\n"
            "Thu: C > D reopened; 1 road is closed\n"
            "  North\n"
            "    was A > B > D, regret 0 column calm\n"
            "    now A > B > D, regret 3 column calm\n"
            "  South\n"
            "    was B > D, regret 0 column calm\n"
            "    now B > D, regret 3 column calm\n"
            "Fri: A > C reopened; 0 roads are closed\n"
            "  no route changed\n"
            "\n"
            "North, from A to D\n"
            "route A > B > D\n"
            "regret 3 column calm\n"
            "ranked 1 settled\n"
            "\n"
            "South, from B to D\n"
            "route B > D\n"
            "regret 3 column calm\n"
            "ranked 1 settled\n"
            "\n"
            "Back, from D to A\n"
            "no route\n"
        )
        self.assertEqual(self.run_main(*self.files, "--column", "rush"), (0, expected, ""))

    def test_open_answer(self):
        self.fill(self.rooms, "room,from,to", "North,A,D")
        self.fill(self.events, "day,from,to,event", "Mon,B,D,close")
        expected = (
            "Mon: B > D closed; 1 road is closed\n"
            "  North\n"
            "    was A > B > C > D, regret 8 column rush, open floor 2\n"
            "    now A > B > C > D, regret 5 column rush, open floor 2\n"
            "\n"
            "North, from A to D\n"
            "route A > B > C > D\n"
            "regret 5 column rush\n"
            "ranked 1 open floor 2\n"
        )
        self.assertEqual(self.run_main(*self.files, "--paths", "1"), (0, expected, ""))

    def test_both_directions(self):
        self.write("from,to,calm\nA,B,1\nB,A,2\nA,C,5\nC,B,5\n")
        self.fill(self.rooms, "room,from,to", "There,A,B", "Back,B,A")
        self.fill(self.events, "day,from,to,event", "Mon,A,B,close both", "Tue,B,A,open", "Wed,B,A,open both")
        expected = (
            "Mon: A > B and back closed; 2 roads are closed\n"
            "  There\n"
            "    was A > B, regret 0 column calm\n"
            "    now A > C > B, regret 0 column calm\n"
            "  Back\n"
            "    was B > A, regret 0 column calm\n"
            "    now no route\n"
            "Tue: B > A reopened; 1 road is closed\n"
            "  Back\n"
            "    was no route\n"
            "    now B > A, regret 0 column calm\n"
            "Wed: B > A and back reopened; 0 roads are closed\n"
            "  There\n"
            "    was A > C > B, regret 0 column calm\n"
            "    now A > B, regret 0 column calm\n"
        )
        status, text, _ = self.run_main(*self.files)
        self.assertEqual((status, text.split("\n\n")[0]), (0, expected.rstrip("\n")))

    def test_no_events(self):
        self.fill(self.rooms, "room,from,to", "North,Lab,Clinic")
        self.fill(self.events, "day,from,to,event")
        expected = (
            "\nNorth, from Lab to Clinic\nroute Lab > Hill Road > Clinic\nregret 15 column calm\nranked 2 settled\n"
        )
        self.assertEqual(self.run_main(FERRY, self.rooms, self.events), (0, expected, ""))


class AgainstRobust(Commands):
    """What is told after each event, and at the end, held to Robust on the roads that are open."""

    def answers(self, network, rooms, closed):
        """For each room its answer in one line."""
        kept = [road for road in network.roads if (road.start, road.goal) not in closed]
        rows = [(road.start, road.goal, *road.times.values()) for road in kept]
        left, lines = Network(network.columns, rows, network.places), []
        for _, start, goal in rooms:
            try:
                lines.append(week.line(left.robust(start, goal, limit=48)))
            except NoRoute:
                lines.append("no route")
        return lines

    def sheets(self, text):
        """The sheets at the end, each in one line as above."""
        lines = []
        for part in text.split("\n\n")[1:]:
            _, route, *more = part.splitlines()
            if more:
                regret, ranked = more
                floor = ", " + ranked.split(" ", 2)[2] if "open" in ranked else ""
                route = f"{route[len('route '):]}, {regret}{floor}"
            lines.append(route)
        return lines

    def hold(self, file, rooms, events):
        network = Network.from_csv(file)
        closed, before = set(), self.answers(network, rooms, set())
        due = ""
        for day, start, goal, what in events:
            verb, *both = what.split()
            for road in [(start, goal), (goal, start)] if both else [(start, goal)]:
                (closed.add if verb == "close" else closed.discard)(road)
            after = self.answers(network, rooms, closed)
            due += f"{len(closed)} closed\n"
            for room, was, now in zip(rooms, before, after):
                if was != now:
                    due += f"  {room[0]}\n    was {was}\n    now {now}\n"
            before = after
        self.fill(self.rooms, "room,from,to", *(",".join(room) for room in rooms))
        self.fill(self.events, "day,from,to,event", *(",".join(event) for event in events))
        status, text, complaint = self.run_main(file, self.rooms, self.events)
        self.assertEqual((status, complaint), (0, ""))
        told = ""
        for line in text.split("\n\n")[0].splitlines():
            if not line.startswith(" "):
                told += f"{line.split('; ')[1].split()[0]} closed\n"
            elif line != "  no route changed":
                told += f"{line}\n"
        self.assertEqual(told, due)
        self.assertEqual(self.sheets(text), before)

    def test_example(self):
        read = [[fields for _, fields in read_lines(file)][1:] for file in (ROOMS, EVENTS)]
        self.assertEqual(len(read[0]), 40)
        self.hold(EXAMPLE, *read)

    def test_drawn_weeks(self):
        draw = random.Random(3)
        for file, length in [(EXAMPLE, 60), (FERRY, 40)]:
            network = Network.from_csv(file)
            rooms = [(f"Room {i}", *draw.sample(network.places, 2)) for i in range(12)]
            events = []
            for i in range(length):
                road = draw.choice(network.roads)
                both = " both" if network.find(road.goal, road.start) and draw.random() < 0.3 else ""
                what = draw.choice(("close", "close", "open")) + both
                events.append((f"Day {i}", road.start, road.goal, what))
            self.hold(file, rooms, events)


class Complaints(Commands):
    ROOM, EVENT = ("room,from,to", "North,A,D"), ("day,from,to,event", "Mon,A,B,close")

    def setUp(self):
        super().setUp()
        self.fill(self.rooms, *self.ROOM)
        self.fill(self.events, *self.EVENT)

    def test_roads(self):
        time = "the time of the road from 'B' to 'A' in 'calm'"
        wanted = f", line 3: {time} is no whole number: 'x'"
        self.complains_of(self.file, wanted, "from,to,calm", "A,B,1", "B,A,x")
        self.complains_of(self.file, " has no road", "from,to,calm")

    def complains_of(self, file, complaint, *lines):
        self.fill(file, *lines)
        self.complains(f"{file}{complaint}", *self.files)

    def test_rooms(self):
        header, first = self.ROOM
        wanted = ", line 1: the first line must be room,from,to"
        self.complains_of(self.rooms, " is empty")
        self.complains_of(self.rooms, wanted, "North,A,D")
        self.complains_of(self.rooms, " has no room", header)
        for line, complaint in [
            ("South,A", "2 fields in place of 3"),
            (",A,D", "'' is no name"),
            ("North,B,D", "the room 'North' stands there twice"),
            ("South,A,Moon", "there is no place 'Moon'"),
            ("South,d,A", "there is no place 'd'"),
            ("South,A,A", "the route begins and ends at 'A'"),
        ]:
            self.complains_of(self.rooms, f", line 4: {complaint}", header, first, "", line)

    def test_events(self):
        header, first = self.EVENT
        self.complains_of(self.events, " is empty")
        self.complains_of(self.events, ", line 1: the first line must be day,from,to,event", "day,from,to")
        for line, complaint in [
            ("Mon,A,B", "3 fields in place of 4"),
            (",A,B,close", "'' is no name"),
            ("Mon,A,D,close", "there is no road from 'A' to 'D'"),
            ("Mon,A,Moon,open", "there is no road from 'A' to 'Moon'"),
            ("Mon,A,B,close both", "there is no road from 'B' to 'A'"),
            ("Mon,A,B,shut", "'shut' is none of close, open, close both and open both"),
            ("Mon,A,B,", "'' is none of close, open, close both and open both"),
            ("Mon,A,B,close twice", "'close twice' is none of close, open, close both and open both"),
        ]:
            self.complains_of(self.events, f", line 3: {complaint}", header, first, line)

    def test_files_that_cannot_be_read(self):
        missing = os.path.join(self.folder, "missing.csv")
        for at in range(3):
            files = [*self.files]
            files[at] = missing
            self.complains(f"{missing}: No such file or directory", *files)

    def test_options(self):
        self.complains("the following arguments are required: rooms, events", self.file)
        self.complains("there is no column 'rain'", *self.files, "--column", "rain")
        for paths in ("0", "257", "-1", "4294967297", "many"):
            self.complains(f"argument --paths: must be 1 to 256, and is {paths}", *self.files, f"--paths={paths}")


class Process(unittest.TestCase):
    """The command as a process, on the examples."""

    def run_command(self, output, errors=subprocess.PIPE, **environment):
        files = [os.path.join(EXAMPLES, f"{name}.csv") for name in ("roads", "rooms", "events")]
        command = [sys.executable, "-m", "vihrolom", "week", *files]
        return subprocess.run(command, env=with_package(**environment), stdout=output, stderr=errors, text=True)

    def test_example(self):
        run = self.run_command(subprocess.PIPE)
        self.assertEqual((run.returncode, run.stderr), (0, ""))
        events, *sheets = run.stdout.split("\n\n")
        self.assertTrue(events.startswith("Monday: Lakeside > Sawmill closed; 1 road is closed\n  Room 1\n    was Lab > "))
        self.assertEqual(len(sheets), 40)
        self.assertEqual(sheets[0].splitlines()[0], "Room 1, from Lab to Ridge Clinic")

    @unittest.skipUnless(hasattr(os, "openpty"), "there are no terminals to be had")
    def test_terminal(self):
        """How far it is stands on a terminal, and nowhere else."""
        terminal, its_end = os.openpty()
        run = self.run_command(subprocess.PIPE, its_end)
        os.close(its_end)
        said = os.read(terminal, 10_000).decode()
        os.close(terminal)
        self.assertEqual((run.returncode, run.stdout), (0, self.run_command(subprocess.PIPE).stdout))
        self.assertTrue(said.startswith("\rrooms: 1  Room 1"), said)
        self.assertIn("\revents: 1 of 17  Monday: Lakeside > Sawmill closed", said)
        self.assertTrue(said.endswith(" \r"), said)

    def test_output_that_cannot_be_written(self):
        reader, writer = os.pipe()
        os.close(reader)
        self.addCleanup(os.close, writer)
        run = self.run_command(writer)
        self.assertEqual((run.returncode, run.stderr), (2, "week: cannot write: Broken pipe\n"))

    def test_missing_library(self):
        run = self.run_command(subprocess.PIPE, VIHROLOM_LIBRARY="/nowhere")
        self.assertEqual((run.returncode, run.stdout, run.stderr.count("\n")), (2, "", 1))
        self.assertIn("run tools/build-library", run.stderr)


if __name__ == "__main__":
    unittest.main()
