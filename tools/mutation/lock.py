"""mutants.lock: a line for each mutant, with the state in which it was refused (tools/mutation/states.py) and by what."""

import fcntl
from typing import NamedTuple

from crates import TOP
from mutation import edits

LOCK = TOP / "mutants.lock"


class Line(NamedTuple):
    state: str
    verdict: str


def read_lock() -> dict[str, Line]:
    """The lines by the mutants' names."""
    lines = LOCK.read_text().splitlines() if LOCK.is_file() else []
    fields = [line.split(" ", 2) for line in lines if line]
    return {name: Line(state, verdict) for name, state, verdict in fields}


def write_lock(lines: dict[str, Line]) -> None:
    """Writes the lines of the mutants that there are."""
    names = [f"{path.parent.parent.name}/{path.stem}" for path in edits.paths()]
    LOCK.write_text("".join(f"{name} {lines[name].state} {lines[name].verdict}\n" for name in names if name in lines))


def record(found: dict[str, Line]) -> None:
    """Writes these lines, and the others again as they stand in the file, also those of mutants that came since this process began;
    another process that records waits meanwhile."""
    with open(__file__) as held:
        fcntl.flock(held, fcntl.LOCK_EX)
        edits.paths.cache_clear()
        write_lock(read_lock() | found)
