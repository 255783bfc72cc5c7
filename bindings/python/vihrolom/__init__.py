"""Routes whose worst disappointment is smallest.

`Network` has places, roads and columns of travel time by name, and answers with names. Below it stand
the calls of docs/REFERENCE.md as functions on the bytes of a network image, in which nodes, arcs and
columns are numbers: `build`, `check`, `robust` and the others of `vihrolom.images`.
"""
from ._version import __version__
from .errors import LimitReached, NetworkError, NoRoute, UnknownName
from .images import (
    Choice,
    Found,
    LibraryMissing,
    Lists,
    Path,
    Record,
    Refusal,
    Regret,
    Search,
    Sizes,
    Week,
    answer_text,
    build,
    check,
    find,
    label,
    rank,
    regret,
    robust,
    search,
    sheet,
    shortest,
    unpack,
    update,
)
from .network import Network
from .results import Road, RobustRoute, Route, RouteRegret, SearchedRoute
from .weeks import RouteWeek

__all__ = [
    "Choice",
    "Found",
    "LibraryMissing",
    "LimitReached",
    "Lists",
    "Network",
    "NetworkError",
    "NoRoute",
    "Path",
    "Record",
    "Refusal",
    "Regret",
    "Road",
    "RobustRoute",
    "Route",
    "RouteRegret",
    "RouteWeek",
    "Search",
    "SearchedRoute",
    "Sizes",
    "UnknownName",
    "Week",
    "__version__",
    "answer_text",
    "build",
    "check",
    "find",
    "label",
    "rank",
    "regret",
    "robust",
    "search",
    "sheet",
    "shortest",
    "unpack",
    "update",
]
