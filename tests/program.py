"""The program `vihrolom` on whole inputs: each must print the sheet that examples/make.py computes apart.

    (cd crates/vihrolom && rt run <stdin) && python3 tests/program.py

The longest inputs pin how much the program reads: an image has at most 36,024 bytes, and one byte more
must be seen to be there.
"""
import os
import subprocess
import sys
import unittest

ROOT = os.path.dirname(os.path.dirname(os.path.abspath(__file__)))
sys.path.insert(0, os.path.join(ROOT, "examples"))
import make  # noqa: E402

PROGRAM = os.path.join(ROOT, "crates", "vihrolom", "out", "vihrolom")


def largest():
    """A network of 200 nodes, 1,000 arcs and 8 columns: each node leads to the next five, or to fewer."""
    arcs = [(v, w) for v in range(1, 201) for w in range(v + 1, min(v + 5, 200) + 1)]
    arcs += [(v, 1) for v in range(186, 201)]
    arcs.sort()
    columns = [[1000 + (7919 * (i + 1) * u) % 9973 for i in range(len(arcs))] for u in range(1, 9)]
    return 200, arcs, columns


def closed(network, every, u):
    """The network with every so-manyth arc closed in column u."""
    n, arcs, columns = network
    columns = list(columns)
    columns[u - 1] = [None if i % every == 0 else cost for i, cost in enumerate(columns[u - 1])]
    return n, arcs, columns


class Sheets(unittest.TestCase):
    def prints(self, given, sheet):
        done = subprocess.run([PROGRAM], input=given, capture_output=True, check=True)
        self.assertEqual(done.stdout.decode(), sheet)
        self.assertEqual(done.stderr, b"")

    def test_cases(self):
        for name, (given, sheet) in make.CASES.items():
            with self.subTest(name):
                self.prints(given, sheet)

    def test_closed_arcs(self):
        given = [(make.grid(10, spread, 3), every) for spread in (300, 1000) for every in (2, 5, 7, 50)]
        given += [(make.S, every) for every in (1, 2, 3, 5)] + [(largest(), 9)]
        for network, every in given:
            for u in (1, len(network[2])):
                with self.subTest(every=every, u=u):
                    some_closed = closed(network, every, u)
                    self.prints(make.image(*some_closed), make.sheet(*some_closed))

    def test_largest_image(self):
        network = largest()
        given = make.image(*network)
        self.assertEqual(len(given), 36024)
        self.prints(given, make.sheet(*network))

    def test_one_byte_more(self):
        self.prints(make.image(*largest()) + b"\0", make.refused(5, 0))

    def test_much_more(self):
        self.prints(make.image(*largest()) + bytes(100000), make.refused(5, 0))

    def test_nothing(self):
        self.prints(b"", make.refused(1, 0))


if __name__ == "__main__":
    unittest.main()
