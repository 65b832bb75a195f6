"""Where the package finds what is not Python's: the program, the short checker, and itself for a process of its own."""

from __future__ import annotations

import os
import shutil
from pathlib import Path
from typing import Optional

from pitplan.errors import ProgramError

PACKAGE = Path(__file__).resolve().parents[1]
PACKAGES = PACKAGE.parent


def program() -> Path:
    """Returns the program pitshell. Raises ProgramError if it is missing or not executable."""
    found = executable("pitshell", "PITSHELL")
    if found is None:
        raise ProgramError(
            "the program pitshell was not found: install its package or wheel, build it with make, or set PITSHELL"
        )
    if not os.access(found, os.X_OK):
        raise ProgramError(f"{found}: is not an executable program: set PITSHELL to another")
    return found


def schedule_program() -> Optional[Path]:
    """Returns the program pitschedule, or None if it is not installed."""
    return executable("pitschedule", "PITSCHEDULE")


def executable(name: str, variable: str) -> Optional[Path]:
    """Returns a program by its name: the file that an environment variable names, otherwise the first of these that exists.

    1. the program of the wheel `pitshell`, next to this package;
    2. the program in build/ of this repository;
    3. the program in the folder bin below the prefix of an installation, which a folder near the root of the file system does not have;
    4. the program on the path.
    """
    named = os.environ.get(variable)
    if named:
        return Path(named)
    installed = [prefix / "bin" for prefix in PACKAGES.parents[2:3]]
    places = [folder / name for folder in (PACKAGES / "pitshell", PACKAGES.parent / "build", *installed)]
    found = next((str(place) for place in places if place.is_file()), None) or shutil.which(name)
    return Path(found) if found else None


def build_records() -> list[Path]:
    """Returns the files that say what a build has proved: in the wheel, in build/ of this repository, and in the documents of an installation."""
    installed = [prefix / "share" / "doc" / "pitshell" for prefix in PACKAGES.parents[2:3]]
    folders = (PACKAGES / "pitshell", PACKAGES.parent / "build", *installed)
    return [file for folder in folders for file in sorted(folder.glob("*.version"))]


def checker() -> Path:
    """Returns the path of the short checker of certificates, which shares no code with the program."""
    installed = PACKAGE / "checkers" / "check_certificate.py"
    return installed if installed.is_file() else PACKAGES.parent / "tools" / "check_certificate.py"
