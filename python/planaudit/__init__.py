"""Independent verification: recomputes the numbers of an output folder from the project, its table and the written files.

It imports nothing of `pitplan`, whose results it checks, and reads projects, tables and survey files itself. The proof of the solver covers that
each shell is optimal for the values and precedences that it was given. The audit checks that these follow from the project, and the results from
these:

- **Blocks**: each block of the table is in its own cell with the fields of the table. If the project defines missing blocks, each cell without a
  row, up to the highest row of its column, is such a block, and no other is. Blocks that were removed because no shell can reach them neither pay
  nor are must-mine blocks, and no shell depends on them. With reblocking each block holds the rows that lie in it.
- **Topography**: the tonnes of blocks lie below it, exactly in 200 columns, and to a tenth of a block in 2,000.
- **As-mined surface**: tonnes lie below it and below the original ground, in as many columns. Without an original ground blocks are tested by
  their centroids. Over a column without points the surface is then a Delaunay triangle, and of several, as on a regular grid, the highest.
- **Slopes**: no shell leaves a block, or unknown ground, in the whole cone above a block that it mines, by the slope domain of that block and up
  to its precedence benches. If the project does not set their number, no slope error exceeds half a degree.
- **Constraints**: must-mine blocks are in every shell, and excluded blocks in none.
- **Money**: each cost and revenue is the product of numbers of the table and the project to the last decimal: by floats, and by exact decimals
  where these do not decide the rounding. Haul distances are right to a millimetre, by geometry.
- **Resource classes**: no block of a class that is waste has a revenue, and mineralised waste is what of it would pay as ore.
- **Shells**: tables add up, and the solver's value of each shell is that of its blocks, to the last digit of blocks.csv.
- **Years**: no year exceeds a capacity, years add up to their shell, and both NPVs follow from its benches.
- **pit**: all this holds for both rows of pits.csv, and the pit without constraints has no smaller value.
- **Pushbacks**: they keep the whole cones, hold must-mine blocks in pushback 1 and excluded blocks in none, add up, and have the minimum mining
  width, which is recounted by sums over squares.
- **Cash flow**: each line of a schedule follows from blocks, prices and costs, and the lines sum to the cash flow of its years. Tax,
  NPVs, internal rates of return and payback are recomputed.
- **Price paths**: each follows from its random numbers by the mean and variance between its times, and cash flows, NPVs and quantiles from it.
- **Inventory**: its rows are the sums of flows, by block of the shares of blocks. No ore is of a class that is no basis of reserves, and the
  shares of blocks are those of their lots.
- **Grade-tonnage curves**: tonnes and metal above each cut-off are those of the blocks, and marked cut-offs earn their costs.
- **Schedules by block**: no block is mined before its whole cone, no year exceeds a limit, and the NPV does not exceed its bound, which is
  recomputed from its Lagrange multipliers by one maximum closure. For scenarios
  this holds for the schedule of each, and for the common schedule, whose years process the best ore of each scenario.
"""

from __future__ import annotations

from importlib import import_module
from typing import TYPE_CHECKING, Any

from planaudit.errors import AuditError, PackageError
from planaudit.rules import Rule

if TYPE_CHECKING:
    from planaudit.folders import demand, read_ahead, verify, verify_folder, verify_scenarios, verify_sensitivity
else:

    def __getattr__(name: str) -> Any:
        """Imports the functions on first use, since they take the time of scipy and matplotlib."""
        if name not in __all__:
            raise AttributeError(f"module {__name__!r} has no attribute {name!r}")
        return getattr(import_module("planaudit.folders"), name)


# What is not recalculated, in words.
NOT_VERIFIED = (
    "that each shell is optimal, which the proof of the solver covers",
    "the upper bounds of scenarios, and the cut-offs of schedules",
    "figures, workbooks, 3D views and exported files",
    "whether grades, densities, prices, costs and slope angles are right",
)

__all__ = [
    "NOT_VERIFIED",
    "AuditError",
    "PackageError",
    "Rule",
    "demand",
    "read_ahead",
    "verify",
    "verify_folder",
    "verify_scenarios",
    "verify_sensitivity",
]
