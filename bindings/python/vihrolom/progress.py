"""Says how far long work is, to somebody who sits before a terminal."""
from __future__ import annotations

import shutil
import sys
import time
from typing import Optional, TextIO

# the least time between two lines, in seconds
_PAUSE = 0.1


class Progress:
    """One line on standard error, written over as the work goes on and wiped out at its end.

    It writes nothing where standard error is no terminal, as in a pipe or a file.
    """

    def __init__(self, work: str, total: Optional[int] = None, stream: Optional[TextIO] = None) -> None:
        """Work of `total` steps, if it is known how many, of which none has begun."""
        self._work, self._begun = work, 0
        self._of_total = "" if total is None else f" of {total}"
        self._stream = sys.stderr if stream is None else stream
        self._terminal = self._stream is not None and self._stream.isatty()
        # whether a line stands there, and when the next may follow
        self._stands, self._next = False, time.monotonic()

    def __enter__(self) -> Progress:
        return self

    def __exit__(self, *_: object) -> None:
        self.wipe()

    def step(self, doing: str = "") -> None:
        """The next step begins; `doing` says what it is."""
        self._begun += 1
        if self._terminal and time.monotonic() >= self._next:
            self._next = time.monotonic() + _PAUSE
            self._write(f"{self._work}: {self._begun}{self._of_total}  {doing}")
            self._stands = True

    def wipe(self) -> None:
        """Wipes the line out, if one stands there."""
        if self._stands:
            self._write("")
            self._stands = False

    def make_way(self) -> None:
        """Wipes the line out if what is printed next goes to a terminal too."""
        if sys.stdout is not None and sys.stdout.isatty():
            self.wipe()

    def _write(self, line: str) -> None:
        """Writes over whatever line stands there, and goes back to its beginning."""
        width = shutil.get_terminal_size().columns - 1
        self._stream.write("\r" + line[:width].ljust(width) + "\r")
        self._stream.flush()
