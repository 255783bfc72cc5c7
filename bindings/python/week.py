"""The command `python3 -m vihrolom week` from the repository: python3 bindings/python/week.py ROADS ROOMS EVENTS"""
import sys

from vihrolom.commands.week import main

if __name__ == "__main__":
    sys.exit(main(sys.argv[1:]))
