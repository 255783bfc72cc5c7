"""The version of the package, which the file VERSION tells.

In an installed package the file stands beside this one, in the repository at its root.
"""
import os

_FOLDER = os.path.dirname(os.path.abspath(__file__))


def _read() -> str:
    """The version in the first of the two places that has the file."""
    for folder in (_FOLDER, os.path.join(_FOLDER, "..", "..", "..")):
        path = os.path.join(folder, "VERSION")
        if os.path.exists(path):
            with open(path, encoding="ascii") as file:
                return file.read().strip()
    raise ImportError("the file VERSION of the package vihrolom is not there")


__version__ = _read()
