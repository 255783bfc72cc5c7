"""Times networkx's ranked loopless paths on a network image.

    python3 bench/networkx_rank.py IMAGE COLUMN START GOAL K

Prints the processor time in microseconds, and the sum of the costs of the first K paths.
"""
import struct
import sys
import time
from itertools import islice

import networkx


def read(name, column):
    """The network of an image with the costs of one column."""
    with open(name, "rb") as file:
        image = file.read()
    (m,) = struct.unpack_from("<H", image, 4)
    ends = struct.unpack_from(f"<{2 * m}H", image, 24)
    costs = struct.unpack_from(f"<{m}I", image, 24 + 4 * m * column)
    graph = networkx.DiGraph()
    graph.add_weighted_edges_from(zip(ends[::2], ends[1::2], costs))
    return graph


def main(name, *numbers):
    column, start, goal, wanted = map(int, numbers)
    graph = read(name, column)
    began = time.thread_time()
    paths = list(islice(networkx.shortest_simple_paths(graph, start, goal, "weight"), wanted))
    took = time.thread_time() - began
    print(1e6 * took, sum(networkx.path_weight(graph, path, "weight") for path in paths))


try:
    if len(sys.argv) != 6:
        raise ValueError("five words are needed: IMAGE COLUMN START GOAL K")
    main(*sys.argv[1:])
except (OSError, ValueError, struct.error, networkx.NetworkXException) as wrong:
    sys.exit(f"networkx_rank: {wrong}")
