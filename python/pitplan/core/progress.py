"""What a run is doing, on standard error: one line a step, with the seconds it took."""

from __future__ import annotations

import sys
import time
import warnings
from contextlib import contextmanager, suppress
from typing import Iterable, Iterator, Optional, TextIO

from pitplan.errors import WARNING, PlanWarning, on_one_line


class Progress:
    """Prints each step when it begins and when it ends; without a stream it prints nothing. The line of a step that has others within it is ended
    by the first of these, and printed again at its end."""

    def __init__(self, stream: Optional[TextIO] = None) -> None:
        self.stream = stream
        self.is_open = False

    @contextmanager
    def step(self, what: str) -> Iterator[None]:
        began, what = time.perf_counter(), on_one_line(what)
        self.say(("\n" if self.is_open else "") + f"{what} ..", end="")
        self.is_open = True
        try:
            yield
        except BaseException:
            self.say("", end="\n" if self.is_open else "")
            self.is_open = False
            raise
        self.say(("" if self.is_open else f"{what} ..") + f" {time.perf_counter() - began:.1f} s")
        self.is_open = False

    def lines(self, lines: Iterable[str]) -> None:
        for line in lines:
            self.say(on_one_line(line))

    def say(self, words: str, end: str = "\n") -> None:
        if self.stream is not None:
            # Who does not listen any more loses the words, and not the run.
            with suppress(OSError):
                print(words, end=end, file=self.stream, flush=True)


silent = Progress()


def on_standard_error() -> Progress:
    return Progress(sys.stderr)


# The modules whose lines a warning does not name: those of this package, and the one by which it enters a context.
PACKAGE, PASSED = "pitplan", ("contextlib", "dataclasses")


def warn(notes: Iterable[str], category: type[PlanWarning]) -> None:
    """Issues a warning of the category for each note that warns, at the line that called this package."""
    for note in notes:
        if note.startswith(WARNING):
            warnings.warn(note.removeprefix(WARNING), category, stacklevel=caller())


def caller() -> int:
    """How many calls up from `warn` the package was called."""
    level, frame = 1, sys._getframe(1)
    while frame.f_back is not None:
        module = str(frame.f_globals.get("__name__", ""))
        if module.split(".")[0] != PACKAGE and module not in PASSED:
            break
        level, frame = level + 1, frame.f_back
    return level
