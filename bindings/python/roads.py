"""The command `python3 -m vihrolom roads` from the repository: python3 bindings/python/roads.py examples/roads.csv"""
import sys

from vihrolom.commands.roads import main

if __name__ == "__main__":
    sys.exit(main(sys.argv[1:]))
