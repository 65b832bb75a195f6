"""The proved program as a subprocess: its exit statuses as errors, its texts as arrays."""

from __future__ import annotations

import io
import subprocess
from dataclasses import dataclass
from decimal import Decimal
from pathlib import Path
from typing import TYPE_CHECKING, Optional, Union

import numpy as np
import pandas as pd

from pitplan.core.atomic_files import hash_of
from pitplan.core.paths import program
from pitplan.core.revenue_factors import PER_MILLE, of_per_mille, per_mille
from pitplan.errors import BudgetUsedUp, ProgramError

if TYPE_CHECKING:
    from .choice import Solver


@dataclass(frozen=True)
class Solution:
    """The nested shells of a plan; see `pitplan.solver.problem.solve`.

    Attributes
    ----------
    worth : Series of Decimal, by revenue factor
        The exact value of each whole shell at the prices of its revenue factor.
    nodes : Series of int, by revenue factor
        The number of nodes of each shell, processing nodes included.
    entry : array of float, shape (nodes,)
        For each node the least revenue factor whose shell holds it; 0 if none does.
    answer : bytes, optional
        The text of the program; None if the library solved.
    of : str
        The key of the plan that was solved; "" if it is not known.
    solver : Solver, optional
        Which solver found it; None if it is not known.
    """

    worth: pd.Series
    nodes: pd.Series
    entry: np.ndarray
    answer: Optional[bytes] = None
    of: str = ""
    solver: Optional[Solver] = None


def call(*arguments: Union[str, Path], fine: tuple[int, ...] = (0,)) -> bytes:
    """Returns the standard output of the program. Raises BudgetUsedUp at status 3, and ProgramError at others not in `fine`."""
    ran = subprocess.run([str(program()), *map(str, arguments)], capture_output=True, check=False)
    if ran.returncode in fine:
        return ran.stdout
    raise ended(str(arguments[0]), ran.returncode, ran.stderr.decode(errors="replace").strip())


def ended(command: str, status: int, said: str) -> ProgramError:
    """Returns the error of a command that ended with a status (below 0: by a signal) and this text on standard error."""
    if status == 3:
        return BudgetUsedUp(f"pitshell {command}: {said}", status)
    how = f"was ended by signal {-status}" if status < 0 else f"ended with status {status}"
    return ProgramError(f"pitshell {command} {how}" + (f": {said}" if said else ""), status)


def identity() -> dict[str, str]:
    """Returns version and SHA-256 of the program. Raises ProgramError if none exists."""
    return {"version": call("--version").decode().strip(), "sha256": hash_of(program())}


def solve_files(blocks: Path, prec: Path, factors: tuple[float, ...]) -> Solution:
    """Returns the shells of a block model; column 0 is revenue, column 1 cost."""
    listed = ",".join(str(per_mille(factor)) for factor in factors)
    options = ("--blocks", blocks, "--prec", prec, "--revenue", "0", "--cost", "1", "--factors", listed)
    return read_answer(call("shells", *options))


def solve_pit(model: Path, prec: Path, fixed: Path, factor: float) -> Solution:
    """Returns the pit of a model whose values are those of a revenue factor, times 1,000; `prec` and `fixed` are files of precedences and of
    must-mine and excluded blocks. Raises ProgramError if the program refuses, for example because a must-mine block depends on an excluded one.
    """
    answer = call("solve", "--model", model, "--prec", prec, "--fixed", fixed)
    lines = answer.decode().split("\n")
    nodes, count, worth = (lines[k].split()[1] for k in (1, 2, 3))
    entry = np.zeros(int(nodes))
    entry[np.array(lines[4:-1], dtype=np.int64)] = factor
    worths = pd.Series([Decimal(worth) / 1000], index=[factor], dtype=object)
    return Solution(worths, pd.Series([int(count)], index=[factor]), entry, answer)


def read_answer(answer: bytes) -> Solution:
    """Returns the shells of the program's text."""
    head = answer.split(b"\n", 3)
    nodes, count = int(head[1].split()[1]), int(head[2].split()[1])
    *rows, rest = head[3].split(b"\n", count)
    fields = [row.decode().split() for row in rows[:count]]
    factors = [of_per_mille(int(row[0])) for row in fields]
    entry = np.zeros(nodes)
    if rest.strip():
        lines = pd.read_csv(io.BytesIO(rest), sep=" ", header=None, dtype=np.int64).to_numpy()
        entry[lines[:, 0]] = lines[:, 1] / PER_MILLE
    return Solution(
        worth=pd.Series([Decimal(row[2]) for row in fields], index=factors, dtype=object),
        nodes=pd.Series([int(row[1]) for row in fields], index=factors),
        entry=entry,
        answer=answer,
    )
