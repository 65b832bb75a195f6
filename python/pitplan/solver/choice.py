"""Choice of the solver: the proved library on arrays, in this process, or the proved program on files, in a process of its own.

Both give the same shells. Every result records the solver with its version and SHA-256. A study that one solver has begun cannot be
continued with another.
"""

from __future__ import annotations

import os
import re
from dataclasses import dataclass
from pathlib import Path
from typing import Optional

from pitplan.core import paths
from pitplan.errors import PlanError, ProgramError

from . import library, program

LIBRARY, PROGRAM = "library", "program"
# A line of a record of the build, as tools/build.py writes it.
RECORDED = re.compile(r"^sha256 ([0-9a-f]{64})$", re.MULTILINE)
BY = (LIBRARY, PROGRAM)


@dataclass(frozen=True)
class Solver:
    """The solver that is used.

    Attributes
    ----------
    by : str
        `library` or `program`.
    sha256 : str
        Of its file.
    proved : bool
        Whether the build of this installation recorded this SHA-256, as it does for the files that it proved.
    """

    by: str
    version: str
    sha256: str
    proved: bool = False


def chosen(by: Optional[str] = None) -> Solver:
    """Returns the solver of this name. Default: the one that PITSHELL_LIBRARY or, after it, PITSHELL names; otherwise the library if it is installed,
    otherwise the program. Raises ProgramError if there is no such solver, and PlanError if the name is unknown."""
    by = by or preferred()
    if by not in BY:
        raise PlanError(f"solver: found {by}, expected one of {', '.join(BY)}")
    identity = library.identity() if by == LIBRARY else program.identity()
    return Solver(by, **identity, proved=is_proved(identity["sha256"]))


def is_proved(sha256: str) -> bool:
    """Returns whether the build recorded this SHA-256 as that of a file that it proved."""
    return any(sha256 in RECORDED.findall(file.read_text(encoding="utf-8")) for file in paths.build_records())


def preferred() -> str:
    named = [by for by, name in ((LIBRARY, "PITSHELL_LIBRARY"), (PROGRAM, "PITSHELL")) if os.environ.get(name)]
    return named[0] if named else PROGRAM if library.package() is None else LIBRARY


def place_of(solver: Solver) -> tuple[str, Path]:
    """Returns the variable that names a solver, and the file that is used here. Raises ProgramError if none exists."""
    return ("PITSHELL_LIBRARY", library.loaded().LIBRARY) if solver.by == LIBRARY else ("PITSHELL", paths.program())


def demand_same(begun: Solver) -> None:
    """Raises ProgramError if the solver here is not the one that began a study, or is missing."""
    here = chosen(begun.by)
    if here.sha256 != begun.sha256:
        raise ProgramError(
            f"the {begun.by} here ({here.version}, SHA-256 {here.sha256[:12]}..) differs from the one that began this "
            f"({begun.version}, {begun.sha256[:12]}..): install the same on each machine"
        )
