"""The proved library in this process. Arrays are passed without a copy; its refusals are raised as those of the program."""

from __future__ import annotations

import threading
from concurrent.futures import Future
from decimal import Decimal
from functools import lru_cache
from types import ModuleType
from typing import Any, Callable, Optional

import numpy as np
import pandas as pd

from pitplan.core.atomic_files import hash_of
from pitplan.core.libraries import LIBRARY, is_of
from pitplan.core.revenue_factors import per_mille
from pitplan.errors import ProgramError
from pitplan.precedences import PrecedenceRows

from .program import Solution, ended

# The exit status of the program when it refuses.
REFUSED = 1


@lru_cache(maxsize=1)
def package() -> Optional[ModuleType]:
    """The package `pitshell`; None if it, or its libpitshell.so, is not there. Raises ProgramError if it cannot load what it finds, and
    ImportError if another module is missing."""
    try:
        import pitshell
    except ImportError as error:
        if not is_of(error, LIBRARY):
            raise
        return None
    except OSError as error:
        raise ProgramError(f"libpitshell.so cannot be loaded: {error}; --solver program does without") from error
    return pitshell


def loaded() -> ModuleType:
    """Returns the package `pitshell`. Raises ProgramError if there is no library."""
    found = package()
    if found is None:
        raise ProgramError(
            "there is no libpitshell.so: install the package or the wheel that has it, build it by make library, or name it by PITSHELL_LIBRARY"
        )
    return found


@lru_cache(maxsize=1)
def identity() -> dict[str, str]:
    """Returns the version of the package and the SHA-256 of the library, which is loaded. Raises ProgramError if none exists."""
    pitshell = loaded()
    return {"version": f"libpitshell {pitshell.__version__}", "sha256": hash_of(pitshell.LIBRARY)}


def shells(nodes: tuple[np.ndarray, np.ndarray], rows: PrecedenceRows, factors: tuple[float, ...]) -> Solution:
    """Returns the nested shells at revenue factors, rising. `nodes` has revenue and cost of each node in millionths, int64 arrays of shape (nodes,).
    Raises ProgramError if the library refuses."""
    revenue, cost = nodes
    solved = [per_mille(factor) for factor in factors]
    found = called("shells", revenue, cost, (rows.starts, rows.precedences), solved, millionths=True)
    inside = np.bincount(found.first, minlength=len(factors) + 1)
    return Solution(
        worth=pd.Series(found.worths, index=factors, dtype=object),
        nodes=pd.Series(np.cumsum(inside)[:-1], index=factors),
        entry=np.array([*factors, 0.0])[found.first],
    )


def pit(values: np.ndarray, rows: PrecedenceRows, fixed: np.ndarray, factor: float) -> Solution:
    """Returns the pit of one revenue factor. `values` has the value of each node in billionths, int64; `fixed` is 1 for must-mine, 2 for excluded and
    otherwise 0, uint8; both have shape (nodes,). Raises ProgramError if the library refuses, for example because a must-mine block depends on an
    excluded one."""
    found = called("solve", values, (rows.starts, rows.precedences), fixed, millionths=True)
    nodes = pd.Series([int(np.count_nonzero(found.in_pit))], index=[factor])
    # From text, so that the decimal context does not round it.
    worth = pd.Series([Decimal(f"{found.worth}E-3")], index=[factor], dtype=object)
    return Solution(worth, nodes, np.where(found.in_pit, factor, 0.0))


def called(name: str, *arrays: Any, **options: Any) -> Any:
    """Returns the result of a function of the package. Raises ProgramError with the status and text of the program if it refuses."""
    pitshell = loaded()
    try:
        return interruptible(lambda: getattr(pitshell, name)(*arrays, **options))
    except (pitshell.Refusal, pitshell.NoMemory) as error:
        raise ended(name, REFUSED, str(error)) from error


def interruptible(call: Callable[[], Any]) -> Any:
    """Returns the result of a call that cannot be interrupted. It runs in a thread, so that an interruption ends the run at once; the call
    itself ends with the process.
    """
    found: Future[Any] = Future()

    def run() -> None:
        try:
            found.set_result(call())
        except BaseException as error:
            found.set_exception(error)

    threading.Thread(target=run, name="libpitshell", daemon=True).start()
    return found.result()
