"""Linear and integer programmes by HiGHS, which scipy has. As a program of its own it solves what `highs_process` writes into folders: it reads the
name of each from standard input, and answers with a line when that one is solved.

    echo FOLDER | python -P highs.py

So it needs nothing else of this package, whose libraries take longer to be read than most programmes to be solved.
"""

from __future__ import annotations

import json
import os
import sys
from dataclasses import dataclass
from pathlib import Path
from typing import Any, Optional

import numpy as np
from scipy.optimize import Bounds, LinearConstraint, linprog, milp
from scipy.sparse import csr_matrix, load_npz, save_npz

PROGRAMME, MATRIX, EFFORT, OPTIMUM = "programme.npz", "matrix.npz", "effort.json", "optimum.npz"
# What scipy says of a run: done, and ended by its limit of time.
DONE, OUT_OF_TIME = 0, 1


@dataclass(frozen=True)
class Programme:
    """Most of `gain @ x` with `matrix @ x <= most` and `0 <= x <= upper`; x is whole where `whole` is true."""

    gain: np.ndarray
    matrix: csr_matrix
    most: np.ndarray
    upper: np.ndarray
    whole: np.ndarray

    def save(self, folder: Path) -> None:
        np.savez(folder / PROGRAMME, gain=self.gain, most=self.most, upper=self.upper, whole=self.whole)
        # Uncompressed, since it is read once.
        save_npz(folder / MATRIX, self.matrix, compressed=False)

    def reduced(self) -> tuple[Programme, np.ndarray, np.ndarray]:
        """The programme without unknowns that must be 0 and rows that then hold, and masks of the unknowns and rows that are left."""
        # HiGHS takes no programme without unknowns.
        unknowns = (self.upper > 0) | ~(self.upper > 0).any()
        matrix = self.matrix.tocsc()[:, unknowns].tocsr()
        rows = (np.diff(matrix.indptr) > 0) | (self.most < 0)
        kept = Programme(self.gain[unknowns], matrix[rows], self.most[rows], self.upper[unknowns], self.whole[unknowns])
        return kept, unknowns, rows

    @staticmethod
    def load(folder: Path) -> Programme:
        with np.load(folder / PROGRAMME) as kept:
            return Programme(kept["gain"], load_npz(folder / MATRIX), kept["most"], kept["upper"], kept["whole"])


@dataclass(frozen=True)
class Optimum:
    """What was found: the unknowns, or None where the time was up before any were; a bound that no unknowns exceed; and of a linear programme
    the dual value of each row, 0 or more."""

    unknowns: Optional[np.ndarray]
    bound: float
    prices: Optional[np.ndarray] = None


def optimum_of(programme: Programme, gap: float, seconds: Optional[float], nodes: Optional[int] = None) -> Optimum:
    """The optimum; of an integer programme what is within the gap, a share of its bound, or has been found in the seconds or nodes of the
    search.

    Raises RuntimeError where HiGHS finds nothing although its time is not up.
    """
    answer: Any
    if not programme.whole.any():
        bounds = np.column_stack([np.zeros(len(programme.upper)), programme.upper])
        answer = linprog(-programme.gain, A_ub=programme.matrix, b_ub=programme.most, bounds=bounds, method="highs-ds")
        if answer.status != DONE:
            raise RuntimeError(f"the linear programme: status {answer.status}: {answer.message}")
        return Optimum(answer.x, -float(answer.fun), np.maximum(-answer.ineqlin.marginals, 0.0))
    # With its presolve HiGHS finds some programmes infeasible that have a solution, and of others an optimum and a bound that are too low.
    options: dict[str, Any] = {"mip_rel_gap": gap, "presolve": False, "time_limit": seconds, "node_limit": nodes}
    answer = milp(
        -programme.gain,
        integrality=programme.whole.astype(int),
        bounds=Bounds(0, programme.upper),
        constraints=LinearConstraint(programme.matrix, -np.inf, programme.most),
        options={name: it for name, it in options.items() if it is not None},
    )
    if answer.status not in (DONE, OUT_OF_TIME):
        raise RuntimeError(f"the integer programme: status {answer.status}: {answer.message}")
    bound = answer.mip_dual_bound
    return Optimum(answer.x, np.inf if bound is None else -float(bound))


def solve(folder: Path) -> None:
    """Solves the programme in a folder, and writes its optimum there. Raises as `optimum_of` does."""
    found = optimum_of(Programme.load(folder), **json.loads((folder / EFFORT).read_text(encoding="ascii")))
    unknowns = np.zeros(0) if found.unknowns is None else found.unknowns
    prices = np.zeros(0) if found.prices is None else found.prices
    np.savez(folder / OPTIMUM, unknowns=unknowns, bound=found.bound, prices=prices)


def main() -> None:
    # What HiGHS itself prints on standard output would be read as an answer.
    with os.fdopen(os.dup(1), "w") as answers:
        os.dup2(2, 1)
        for line in sys.stdin:
            solve(Path(line.removesuffix("\n")))
            print("solved", file=answers, flush=True)


if __name__ == "__main__":
    main()
