"""The tests that go with the package: `python3 -m vihrolom.selftest` runs them."""
import os

from vihrolom.progress import Progress

PACKAGE = os.path.dirname(os.path.dirname(os.path.abspath(__file__)))
_INSTALLED = os.path.join(PACKAGE, "examples")
# the example files: an installed package has copies of them
EXAMPLES = _INSTALLED if os.path.isdir(_INSTALLED) else os.path.join(PACKAGE, "..", "..", "..", "examples")

# whether long tests say on a terminal how far they are
telling = False


def counted(total, work):
    """The numbers below the total, as a long test goes through them."""
    if not telling:
        yield from range(total)
        return
    with Progress(work, total) as progress:
        for number in range(total):
            progress.step()
            yield number


def with_package(**more):
    """The environment of a process that imports this very package, with more variables."""
    return dict(os.environ, PYTHONPATH=os.path.dirname(PACKAGE), **more)
