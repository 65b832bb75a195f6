"""`pitplan doctor`: the versions of what an installation has, and what is missing or broken, with the remedy.

It imports third-party libraries in its functions only, so that the report lists one that is missing.
"""

from __future__ import annotations

import importlib
import os
import platform
import re
import shutil
import subprocess
import tempfile
from dataclasses import asdict, dataclass
from importlib import metadata
from pathlib import Path
from typing import Any, Callable

from pitplan.core import paths, processes
from pitplan.core.atomic_files import hash_of
from pitplan.core.libraries import LIBRARIES, THREE, Library
from pitplan.errors import PlanError, on_one_line

LEAST_PYTHON = (3, 11)
FONT = "DejaVu Sans"
GIB = 1 << 30
REINSTALL = "install the package pitshell, or make and make library"
REQUIRED, OPTIONAL = "Missing or broken:", "Missing, and needed only by the commands in brackets:"


@dataclass(frozen=True)
class Finding:
    """One part of an installation.

    Attributes
    ----------
    found : str
        Its version or place; empty if it is missing or cannot be used.
    is_required : bool
        Whether every command needs it.
    purpose : str
        What needs it; empty: every command.
    remedy : str
        What is wrong and what to do; empty if nothing is.
    """

    part: str
    found: str
    is_required: bool = True
    purpose: str = ""
    remedy: str = ""

    @property
    def is_wrong(self) -> bool:
        return self.is_required and bool(self.remedy)


def findings(version: str) -> list[Finding]:
    """Returns what an installation of this version of pitplan has, and what it lacks. Each library is imported, and the solver solves a mine of
    two blocks."""
    return [
        Finding("pitplan", f"{version} in {paths.PACKAGES}"),
        python(),
        *solvers(),
        schedule_program(),
        *map(of_library, LIBRARIES),
        font(),
        three(),
        machine(),
        free_space(),
    ]


def python() -> Finding:
    found, least = platform.python_version(), ".".join(map(str, LEAST_PYTHON))
    is_old = tuple(map(int, platform.python_version_tuple()[:2])) < LEAST_PYTHON
    return Finding("Python", found, remedy=f"found {found}, expected {least} or later: install it" if is_old else "")


def solvers() -> list[Finding]:
    """Returns the library and the program. pitplan needs one of them."""
    found = [solver("libpitshell.so", solved_by_library), solver("program pitshell", solved_by_program)]
    if all(it.remedy for it in found):
        return found
    return [
        Finding(it.part, it.found, False, "the other solver serves" if it.remedy else "", it.remedy) for it in found
    ]


def solver(part: str, solve: Callable[[], str]) -> Finding:
    try:
        return Finding(part, solve())
    except (PlanError, OSError, ImportError) as error:
        return Finding(part, "", remedy=on_one_line(str(error)))


def solved_by_library() -> str:
    """Returns the version and place of the library. Raises ProgramError if it is missing, or does not solve two blocks."""
    from pitplan.solver import library

    package = library.loaded()
    demand_worth(str(package.solve([-3, 5], [[1, 0]]).worth))
    return f"{package.__version__} in {package.LIBRARY}, {digest_of(library.identity()['sha256'])}"


def solved_by_program() -> str:
    """Returns the version and place of the program. Raises ProgramError if it is missing, or does not solve two blocks."""
    from pitplan.solver import program

    identity = program.identity()
    with tempfile.TemporaryDirectory(prefix="pitplan-doctor-") as name:
        model, prec = Path(name) / "two.upit", Path(name) / "two.prec"
        model.write_text("NAME: two\nTYPE: UPIT\nNBLOCKS: 2\nOBJECTIVE_FUNCTION:\n0 -3\n1 5\n", encoding="ascii")
        prec.write_text("1 1 0\n", encoding="ascii")
        text = program.call("solve", "--model", model, "--prec", prec).decode()
    found = re.search(r"^WORTH: (\S+)$", text, re.MULTILINE)
    demand_worth(found[1] if found else text[:40])
    return f"{identity['version'].split()[-1]} in {paths.program()}, {digest_of(identity['sha256'])}"


def digest_of(sha256: str) -> str:
    """Returns the SHA-256 of a solver in short, and whether the build recorded it as proved."""
    from pitplan.solver import choice

    return f"SHA-256 {sha256[:12]}, {'proved' if choice.is_proved(sha256) else 'not known to be proved: no build recorded it'}"


def demand_worth(found: str) -> None:
    if found != "2.000000":
        raise PlanError(f"solved two blocks: found the value {found!r}, expected 2.000000: {REINSTALL}")


def schedule_program() -> Finding:
    place, purpose = paths.schedule_program(), "schedule --certificate"
    if place is None:
        return Finding("program pitschedule", "", False, purpose, f"not found: {REINSTALL}")
    try:
        said = subprocess.run([place, "--version"], capture_output=True, text=True, check=True).stdout
    except (OSError, subprocess.CalledProcessError) as error:
        return Finding("program pitschedule", "", False, purpose, f"{on_one_line(str(error))}: {REINSTALL}")
    found = f"{said.split()[-1]} in {place}, {digest_of(hash_of(place))}"
    return Finding("program pitschedule", found, False, purpose)


def of_library(wanted: Library) -> Finding:
    part, is_required = wanted.module, not wanted.purpose
    try:
        module = importlib.import_module(wanted.module)
    except Exception as error:
        is_there = not isinstance(error, ModuleNotFoundError)
        how = f"cannot be imported: {on_one_line(str(error))}" if is_there else "not installed"
        return Finding(part, "", is_required, wanted.purpose, f"{how}: {wanted.remedy}")
    found = version_of(module, wanted.module)
    is_old = wanted.least and numbers(found) < numbers(wanted.least)
    remedy = f"found {found}, expected {wanted.least} or later: {wanted.remedy}" if is_old else ""
    return Finding(part, found, is_required, wanted.purpose, remedy)


def version_of(module: Any, name: str) -> str:
    found = getattr(module, "__version__", None) or getattr(module, "VTK_VERSION", None)
    if isinstance(found, str):
        return found
    try:
        return metadata.version(name.partition(".")[0])
    except metadata.PackageNotFoundError:
        return "unknown version"


def numbers(version: str) -> tuple[int, ...]:
    return tuple(int(it) for it in re.findall(r"\d+", version)[:3])


def font() -> Finding:
    try:
        from matplotlib.font_manager import findfont

        return Finding("font", f"{FONT} in {findfont(FONT, fallback_to_default=False)}")
    except (ImportError, ValueError):
        return Finding("font", "", False, "figures", f"{FONT} not found: apt-get install fonts-dejavu-core")


def three() -> Finding:
    place, purpose = THREE / "three.min.js", "view"
    if place.is_file():
        return Finding("three.js", str(THREE), False, purpose)
    return Finding("three.js", "", False, purpose, "not installed: apt-get install libjs-three")


def machine() -> Finding:
    memory = os.sysconf("SC_PAGE_SIZE") * os.sysconf("SC_PHYS_PAGES") / GIB
    return Finding("machine", f"{platform.machine()}, {processes.cores()} processors, {memory:.1f} GiB of memory")


def free_space() -> Finding:
    folder = tempfile.gettempdir()
    free = shutil.disk_usage(folder).free / GIB
    remedy = f"found {free:.1f} GiB, expected 1 GiB or more: free some, or set TMPDIR" if free < 1 else ""
    return Finding("temporary files", f"{free:.1f} GiB free in {folder}", False, "large models", remedy)


def as_records(found: list[Finding]) -> list[dict[str, Any]]:
    return [asdict(it) for it in found]


def lines_of(found: list[Finding]) -> list[str]:
    """Returns the lines of a report: what there is, then what every command lacks, then what some commands lack."""
    width = max(len(it.part) for it in found) + 2
    lines = [f"{it.part:<{width}}{it.found}" for it in found if it.found]
    lacking = [it for it in found if it.remedy]
    for heading, is_wrong in ((REQUIRED, True), (OPTIONAL, False)):
        mine = [it for it in lacking if it.is_wrong is is_wrong]
        said = [f"  {it.part}: {it.remedy}{f' ({it.purpose})' if it.purpose else ''}" for it in mine]
        lines += ["", heading, *said] if said else []
    wrong = [it.part for it in lacking if it.is_wrong]
    return [*lines, "", f"pitplan cannot run: {', '.join(wrong)}" if wrong else "pitplan can run"]
