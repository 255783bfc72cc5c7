"""What can be wrong with a network, its names and its files, told in one sentence with the user's own names."""
from __future__ import annotations

from contextlib import contextmanager
from typing import Iterator


class NetworkError(ValueError):
    """A network, a road, a name, a number or a file is not as it must be."""


class UnknownName(NetworkError):
    """There is no place, road or column of this name."""


class NoRoute(NetworkError):
    """No route of the kind that was asked for leads from the one place to the other."""


class LimitReached(NetworkError):
    """A search would try more roads than its limit."""


@contextmanager
def naming(where: str) -> Iterator[None]:
    """Puts in front of what goes wrong where it stands, as the line of a file."""
    try:
        yield
    except NetworkError as error:
        raise type(error)(f"{where}: {error}") from None
