"""How the tools show that they go on."""
from __future__ import annotations

import sys
import time


def say(line: str) -> None:
    """Puts a line in the place of the last one, where standard error is a terminal; an empty one wipes it out."""
    if sys.stderr.isatty():
        print(f"\r\033[K{line}", end="", file=sys.stderr, flush=True)


class Progress:
    """A bar on standard error, where that is a terminal and the work takes longer than a second."""

    WIDTH = 40

    def __init__(self, whole: int, what: str) -> None:
        self.whole, self.what, self.done = max(whole, 1), what, 0
        self.begun = time.monotonic()
        self.is_shown = False

    def step(self) -> None:
        """One more is done."""
        self.done += 1
        if time.monotonic() - self.begun > 1:
            filled = self.WIDTH * self.done // self.whole
            say(f"[{'#' * filled}{'.' * (self.WIDTH - filled)}] {self.done} of {self.whole} {self.what}")
            self.is_shown = True

    def end(self) -> None:
        """Wipes the bar out."""
        if self.is_shown:
            say("")
