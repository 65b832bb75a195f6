"""`python3 -m pitplan.scheduling.blocks NAME.cpit NAME.prec`: the bound of a published problem, and a schedule of it; `.pcpsp` likewise."""

from __future__ import annotations

import argparse
import sys
from pathlib import Path
from typing import Optional, Sequence

import numpy as np
import pandas as pd

from minelib import MinelibError
from minelib.ending import INTERRUPTED, ended
from minelib.schedule_models import SECONDS
from pitplan.config.schedule import Effort
from pitplan.core import paths
from pitplan.core.atomic_files import staged_file
from pitplan.core.progress import on_standard_error, silent
from pitplan.errors import PlanError, ProgramError
from pitplan.scheduling import certificate

from .from_minelib import of_minelib
from .problem import BlockProblem
from .scheduler import Scheduled, solve
from .tables import of_schedule


def parser() -> argparse.ArgumentParser:
    top = argparse.ArgumentParser(
        prog="python3 -m pitplan.scheduling.blocks", description="Bound and schedule of a MineLib .cpit or .pcpsp."
    )
    top.add_argument("model", type=Path, help="NAME.cpit or NAME.pcpsp")
    top.add_argument("prec", type=Path, help="NAME.prec")
    top.add_argument(
        "--out",
        type=Path,
        help="a table of each block's period (.csv), -1 where it is not dug, and shares by destination",
    )
    top.add_argument(
        "--certificate",
        type=Path,
        metavar="FOLDER",
        help="write problem, schedule and multipliers into FOLDER/certificate; pitschedule checks them and bounds the NPV of any schedule",
    )
    top.add_argument(
        "--behind-block", choices=SECONDS, help="what stands behind the block where a .pcpsp tells what it takes"
    )
    top.add_argument("--seconds", type=float, help="integer programmes make the schedule better for so long")
    top.add_argument("--gap", type=float, default=0.0, help="or until it is within this share of the bound (default 0)")
    top.add_argument("--quiet", action="store_true", help="tell no progress on standard error")
    return top


def main(arguments: Optional[Sequence[str]] = None) -> int:
    """0 where there is a bound and a schedule, 1 where the files are refused, with a sentence on standard error, 130 where it was
    interrupted, with the best so far if there is a bound."""
    return ended("pitplan", lambda: run(parser().parse_args(arguments)), (PlanError, ProgramError, MinelibError))


def run(options: argparse.Namespace) -> int:
    for read in (options.model, options.prec):
        if options.out is not None and options.out.exists() and read.exists() and options.out.samefile(read):
            raise PlanError(f"{read}: would be written over: name another file by --out")
    effort = None if options.seconds is None else Effort(options.gap, options.seconds)
    problem = of_minelib(options.model, options.prec, options.behind_block)
    found = solve(problem, effort, silent if options.quiet else on_standard_error())
    print(f"BOUND: {found.bound:.6f}\nVALUE: {found.value:.6f}\nGAP: {100 * found.gap:.4f} %")
    if options.certificate is not None:
        print(certified(problem, found, options.certificate))
    if options.out is not None:
        write(options.out, found, problem.years)
    return INTERRUPTED if found.interrupted else 0


def certified(problem: BlockProblem, found: Scheduled, folder: Path) -> str:
    """Writes the certificate of a schedule, and returns what is proved of it."""
    k = np.unravel_index(np.abs(problem.values[:, :, 0]).argmax(), problem.values.shape[:2])
    discounts = problem.values[k] / problem.values[k][0]
    made = of_schedule(problem, found.schedule, found.multipliers, discounts)
    certificate.write(made, range(problem.blocks), folder)
    return certificate.checked(folder, paths.schedule_program()).note


def write(path: Path, found: Scheduled, periods: int) -> None:
    year = found.schedule.year
    table = pd.DataFrame({"block": np.arange(len(year)), "period": np.where(year < periods, year, -1)})
    if found.schedule.share.shape[1] > 1:
        table = table.assign(**{f"share_{number}": share for number, share in enumerate(found.schedule.share.T)})
    with staged_file(path) as place:
        table.to_csv(place, index=False)


if __name__ == "__main__":
    sys.exit(main())
