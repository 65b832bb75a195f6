"""Programmes solved in processes of their own, so that a run that is interrupted goes on with what it has."""

from __future__ import annotations

import atexit
import json
import os
import subprocess
import sys
import tempfile
from collections.abc import Callable, Iterable
from concurrent.futures import ThreadPoolExecutor
from contextlib import suppress
from multiprocessing.connection import wait
from pathlib import Path
from typing import Any, Optional, TypeVar

import numpy as np

from pitplan.config.schedule import Effort
from pitplan.errors import PlanError

from . import highs
from .highs import Optimum, Programme

# A linear programme of so few unknowns is solved before a process has begun.
FEW = 2_000
# A process ends after a programme of more unknowns, since it would keep some of its memory.
MANY = 100_000
# The most programmes that are solved at the same time, since each takes memory.
MOST_AT_A_TIME = 2
Case = TypeVar("Case")
Found = TypeVar("Found")


class Solver:
    """A process that solves programmes one after the other. To start it takes longer than most programmes."""

    def __init__(self) -> None:
        read, write = os.pipe()
        self.answers, self.errors = open(read, "rb", buffering=0), tempfile.TemporaryFile()
        # With -P the program's own folder is not the first in which it seeks modules: this package's has names that others may have.
        # In a session of its own an interruption from the keyboard reaches this process alone, which ends the other.
        self.process = subprocess.Popen(
            [sys.executable, "-P", str(highs.__file__)],
            stdin=subprocess.PIPE,
            stdout=write,
            stderr=self.errors,
            start_new_session=True,
            text=True,
        )
        os.close(write)

    def solve(self, folder: Path, patience: Optional[float]) -> bool:
        """Solves the programme in a folder; returns whether that was done in the seconds of patience. Raises PlanError if the process ends."""
        # One that has ended says why in its last words.
        with suppress(OSError):
            print(folder, file=self.process.stdin, flush=True)
        if not wait([self.answers.fileno()], patience):
            return False
        if not self.answers.readline():
            status = self.process.wait()
            self.errors.seek(0)
            last = self.errors.read().decode(errors="replace").strip().splitlines()[-1:]
            raise PlanError(f"HiGHS found no schedule: {' '.join(last) or f'ended with status {status}'}")
        return True

    def end(self) -> None:
        self.process.kill()
        self.process.communicate()
        self.answers.close()
        self.errors.close()


# Solvers that wait for a programme. A fork has none: those are not its children.
IDLE: list[Solver] = []
os.register_at_fork(after_in_child=IDLE.clear)


@atexit.register
def end_all() -> None:
    while IDLE:
        IDLE.pop().end()


def solve(
    programme: Programme, effort: Effort = Effort(), patience: Optional[float] = None, nodes: Optional[int] = None
) -> Optimum:
    """The optimum, in a process of its own unless it is a linear programme that takes no time; of an integer programme the best within the nodes.
    After this many seconds of `patience` that process is ended, with nothing found, since HiGHS may go on for long when its own time is up.

    Raises PlanError where HiGHS finds nothing although its time is not up, and KeyboardInterrupt, with that process ended, where the run
    is interrupted.
    """
    if len(programme.gain) <= FEW and not programme.whole.any():
        return here(programme, effort)
    with tempfile.TemporaryDirectory(prefix="pitplan-") as name:
        folder = Path(name)
        programme.save(folder)
        limits = {"gap": effort.gap, "seconds": effort.seconds, "nodes": nodes}
        (folder / highs.EFFORT).write_text(json.dumps(limits), encoding="ascii")
        if not is_solved(folder, patience, is_kept=len(programme.gain) <= MANY):
            return Optimum(None, np.inf)
        with np.load(folder / highs.OPTIMUM) as found:
            unknowns, prices = found["unknowns"], found["prices"]
            return Optimum(unknowns if len(unknowns) else None, float(found["bound"]), prices if len(prices) else None)


def is_solved(folder: Path, patience: Optional[float], is_kept: bool) -> bool:
    """Solves the programme in a folder by a process that waits for one, otherwise by a new one. That process is kept for another programme if this one
    is solved in the seconds of patience, which is returned."""
    try:
        solver = IDLE.pop()
    except IndexError:
        solver = Solver()
    is_done = False
    try:
        is_done = solver.solve(folder, patience)
    finally:
        if is_done and is_kept:
            IDLE.append(solver)
        else:
            solver.end()
    return is_done


def at_a_time(solve_case: Callable[[Case], Found], cases: Iterable[Case]) -> list[Found]:
    """What a function finds in each case, as many at a time as there are processors, up to MOST_AT_A_TIME, since programmes are solved in processes of
    their own. If the run is interrupted, no further case begins."""
    with ThreadPoolExecutor(min(MOST_AT_A_TIME, os.cpu_count() or 1)) as pool:
        try:
            return [it.result() for it in [pool.submit(solve_case, case) for case in cases]]
        except BaseException:
            pool.shutdown(wait=False, cancel_futures=True)
            raise


def demand_solved(answer: Any, what: str) -> Any:
    """Returns what scipy says of a linear programme. Raises PlanError, with the status of HiGHS, if it found no optimum."""
    if answer.status != highs.DONE:
        raise PlanError(f"HiGHS found no {what}: status {answer.status}: {answer.message}")
    return answer


def here(programme: Programme, effort: Effort = Effort()) -> Optimum:
    """The optimum, in this process. Raises PlanError where HiGHS finds nothing although its time is not up."""
    try:
        return highs.optimum_of(programme, effort.gap, effort.seconds)
    except RuntimeError as error:
        raise PlanError(f"HiGHS found no schedule: {error}") from error
