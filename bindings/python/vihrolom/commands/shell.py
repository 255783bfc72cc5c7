"""What the commands share: wrong words, the output, and the status."""
from __future__ import annotations

import argparse
import os
import sys
from typing import Callable, Iterable, NoReturn

from ..errors import NetworkError
from ..images import LibraryMissing
from ..network import MOST_RANKED
from ..tables import number_of


class Complaint(Exception):
    """What is wrong with the command or its output, in one line."""


class Parser(argparse.ArgumentParser):
    """Complains of a wrong command as of a wrong file."""

    def error(self, message: str) -> NoReturn:
        raise Complaint(message)


def write(text: str) -> None:
    """Writes to standard output, which may be closed, or a pipe that nobody reads, or a full disk."""
    if sys.stdout is None:
        raise Complaint("standard output is closed")
    try:
        sys.stdout.reconfigure(errors="backslashreplace")
        sys.stdout.write(text)
        sys.stdout.flush()
    except OSError as error:
        # what is left in the buffer must not be tried again at the end
        os.dup2(os.open(os.devnull, os.O_WRONLY), sys.stdout.fileno())
        raise Complaint(f"cannot write: {error.strerror}") from None


def number(least: int, most: int) -> Callable[[str], int]:
    """How an option is read that is a whole number from the least to the most."""

    def read(text: str) -> int:
        value = number_of(text)
        if isinstance(value, str) or not least <= value <= most:
            raise argparse.ArgumentTypeError(f"must be {least} to {most}, and is {text}")
        return value

    return read


def add_ranking(parser: argparse.ArgumentParser, paths: int) -> None:
    """The options that tell how to rank, with the number of paths if none is given."""
    parser.add_argument("--column", help="the column to rank by; the first, if none is named")
    kind, words = number(1, MOST_RANKED), f"how many paths to rank, 1 to {MOST_RANKED}"
    parser.add_argument("--paths", type=kind, default=paths, metavar="K", help=words)


def run(name: str, failure: int, parts: Callable[[], Iterable[str]]) -> int:
    """Prints the parts that a command gives, and returns its status: 0, or that of a failure, told in one line."""
    try:
        for part in parts():
            write(part)
    except (Complaint, NetworkError, LibraryMissing) as error:
        print(f"{name}: {error}", file=sys.stderr)
        return failure
    return 0
