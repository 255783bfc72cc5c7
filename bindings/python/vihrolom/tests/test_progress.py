"""What long work says on a terminal, and that it says nothing elsewhere."""
import io
import os
import unittest
from unittest import mock

from vihrolom import progress, tests

WIPED = ""


class Terminal(io.StringIO):
    def isatty(self):
        return True

    def lines(self):
        """The lines that were written, each over the one before; each is as long as the terminal allows."""
        told = self.getvalue().split("\r")[1::2]
        assert all(len(line) == 39 for line in told)
        return [line.rstrip() for line in told]


@mock.patch.dict(os.environ, COLUMNS="40")
class Said(unittest.TestCase):
    def work(self, stream, steps=3, seconds=1.0):
        """Does work of some steps, each of which takes some seconds."""
        times = iter(step * seconds for step in range(1000))
        with mock.patch.object(progress.time, "monotonic", lambda: next(times)):
            with progress.Progress("work", steps, stream) as work:
                for step in range(steps):
                    work.step(f"part {step}")
        return stream

    def test_terminal(self):
        lines = ["work: 1 of 3  part 0", "work: 2 of 3  part 1", "work: 3 of 3  part 2", WIPED]
        self.assertEqual(self.work(Terminal()).lines(), lines)

    def test_lines_come_seldom(self):
        self.assertEqual(self.work(Terminal(), 300, 0.0001).lines(), ["work: 1 of 300  part 0", WIPED])

    def test_long_line(self):
        stream = Terminal()
        progress.Progress("work", 9, stream).step("x" * 100)
        self.assertEqual(stream.lines(), ["work: 1 of 9  " + "x" * 25])

    def test_unknown_total(self):
        stream = Terminal()
        with progress.Progress("work", stream=stream) as work:
            work.step()
        self.assertEqual(stream.lines(), ["work: 1", WIPED])

    def test_line_makes_way_on_a_terminal_alone(self):
        for output, wiped in [(Terminal(), [WIPED]), (io.StringIO(), []), (None, [])]:
            stream = Terminal()
            work = progress.Progress("work", stream=stream)
            work.step()
            with mock.patch.object(progress.sys, "stdout", output):
                work.make_way()
                work.make_way()
            self.assertEqual(stream.lines(), ["work: 1", *wiped])

    def test_no_terminal(self):
        self.assertEqual(self.work(io.StringIO()).getvalue(), "")

    def test_no_standard_error(self):
        with mock.patch.object(progress.sys, "stderr", None):
            with progress.Progress("work", 1) as work:
                work.step()

    def test_long_tests(self):
        for telling, lines in [(True, ["numbers: 1 of 3", WIPED]), (False, [])]:
            stream = Terminal()
            with mock.patch.object(tests, "telling", telling), mock.patch.object(progress.sys, "stderr", stream):
                self.assertEqual(list(tests.counted(3, "numbers")), [0, 1, 2])
            self.assertEqual(stream.lines(), lines)


if __name__ == "__main__":
    unittest.main()
