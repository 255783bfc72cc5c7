"""Runs a command of the package: `python3 -m vihrolom roads ..` or `python3 -m vihrolom week ..`."""
import sys
from typing import Sequence

from .commands import roads, week

COMMANDS = {"roads": roads.main, "week": week.main}


def main(arguments: Sequence[str]) -> int:
    """Runs the command that the first word names, and returns its status."""
    if arguments and arguments[0] in COMMANDS:
        return COMMANDS[arguments[0]](arguments[1:])
    asked = list(arguments) in (["-h"], ["--help"])
    commands = " or ".join(f"python3 -m vihrolom {name} .." for name in COMMANDS)
    print(f"usage: {commands}; --help behind the command tells more", file=sys.stdout if asked else sys.stderr)
    return 0 if asked else 2


if __name__ == "__main__":
    sys.exit(main(sys.argv[1:]))
