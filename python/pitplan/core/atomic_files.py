"""Files that are written whole or not at all, and their hashes."""

from __future__ import annotations

import errno
import hashlib
import json
import os
from contextlib import contextmanager, suppress
from pathlib import Path
from typing import TYPE_CHECKING, Any, Iterable, Iterator, Mapping

from pitplan.errors import PlanError

from . import staging


@contextmanager
def staged(
    folder: Path, last: str = "", whole: tuple[str, ...] = (), subfolders: tuple[str, ...] = ()
) -> Iterator[Path]:
    """Yields a new folder to write into, whose files move to `folder` if no error is raised. Raises PlanError if a folder cannot be made or written,
    lies on another file system, or is in place of a file. Then nothing in it has changed.

    Parameters
    ----------
    folder : Path
        Where the files go; each is replaced whole.
    last : str
        The file that moves last, usually the record that names the others.
    whole : tuple of str
        Files that belong together. Those of an earlier run that this run has not written are removed, since they show other results.
    subfolders : tuple of str
        Folders that the new folder has from the start. An empty one is not moved.
    """
    try:
        with staging.made(folder), staging.stage_in(folder) as stage:
            for name in subfolders:
                (stage / name).mkdir()
            yield stage
            move(stage, folder, last, whole)
    except OSError as error:
        raise PlanError(f"{error.filename or folder}: cannot be written: {reason(error)}") from error


def reason(error: OSError) -> str:
    """Returns why a file was not written. On a full disk numpy says only how much it wrote."""
    if error.errno is None and "requested and" in str(error):
        return f"{os.strerror(errno.ENOSPC)}: {error}"
    return error.strerror or str(error)


def move(stage: Path, folder: Path, last: str, whole: tuple[str, ...]) -> None:
    """Moves all files of a stage to their places in a folder, as `staged` says. Raises PlanError or OSError before anything has changed."""
    paths = [path.relative_to(stage) for path in stage.rglob("*") if not path.is_dir()]
    found = sorted(paths, key=lambda path: (str(path) == last, path))
    demand_no_folders(folder, [*whole, *map(str, found)])
    subfolders = sorted({path.parent for path in found} - {Path(".")})
    for inner in subfolders:
        make_folder(folder / inner, stage)
    take_away(folder, [name for name in whole if not (stage / name).exists()], subfolders)
    for path in found:
        os.replace(stage / path, folder / path)


def make_folder(place: Path, stage: Path) -> None:
    """Makes a folder if it is missing. Raises PlanError if files of the stage cannot be moved there."""
    place.mkdir(parents=True, exist_ok=True)
    if place.stat().st_dev != stage.stat().st_dev:
        raise PlanError(f"{place}: is on another file system than {place.parent}: move it there, or give another --out")
    if not os.access(place, os.W_OK | os.X_OK):
        raise PlanError(f"{place}: cannot be written: Permission denied")


def demand_no_folders(folder: Path, names: Iterable[str]) -> None:
    """Raises PlanError if a folder has another in place of one of these files."""
    for place in (folder / name for name in names):
        if place.is_dir() and not place.is_symlink():
            raise PlanError(
                f"{place}: found a folder, expected a file or nothing: move it away, or give another folder by --out"
            )


def take_away(folder: Path, names: list[str], kept: list[Path]) -> None:
    """Removes files, and the subfolders that are empty then, but not those that are kept."""
    for path in map(Path, names):
        with suppress(FileNotFoundError, NotADirectoryError):
            (folder / path).unlink()
        if path.parent not in (Path("."), *kept):
            with suppress(OSError):
                (folder / path.parent).rmdir()


@contextmanager
def staged_file(path: Path) -> Iterator[Path]:
    """Yields a path to write one file to, which moves to `path` if no error is raised."""
    with staged(path.parent) as stage:
        yield stage / path.name


def hash_of(path: Path) -> str:
    """Returns the SHA-256 of a file, in hexadecimal digits."""
    digest = hashlib.sha256()
    with open(path, "rb") as file:
        for piece in iter(lambda: file.read(1 << 20), b""):
            digest.update(piece)
    return digest.hexdigest()


def hashes_of(paths: Mapping[str, Path]) -> dict[str, str]:
    """Returns the hashes of files by the names that they have here."""
    return {name: hash_of(path) for name, path in paths.items()}


def hashes(folder: Path, names: list[str]) -> dict[str, str]:
    return {name: hash_of(folder / name) for name in names}


def write_json(path: Path, record: dict[str, Any]) -> None:
    path.write_text(json.dumps(record, indent=2, ensure_ascii=False) + "\n", encoding="utf-8")


def read_json(path: Path) -> dict[str, Any]:
    record: dict[str, Any] = json.loads(path.read_text(encoding="utf-8"))
    return record


# Before Python 3.12 only the class of the system's own paths can be inherited.
if TYPE_CHECKING:
    SystemPath = Path
else:
    SystemPath = type(Path())


class NotedPath(SystemPath):
    """A path like any other, and sentences that a planner should read before using what is there."""

    notes: tuple[str, ...] = ()


def noted(path: Path, notes: Iterable[str]) -> NotedPath:
    """Returns the path with these notes."""
    found = NotedPath(path)
    found.notes = tuple(notes)
    return found
