"""The projects and the results below a folder, paths that never lead out of it, and what was read from files, kept while these are unchanged."""

from __future__ import annotations

import json
import os
import threading
from collections import OrderedDict
from collections.abc import Callable, Collection, Hashable, Iterator, Sequence
from dataclasses import dataclass, field
from datetime import datetime
from pathlib import Path
from typing import Generic, TypeVar

from pitplan.config import project_writer, toml_text
from pitplan.core import layout
from pitplan.errors import PlanError
from pitplan.results import names

Value = TypeVar("Value")


# A path, and what changes if its file does: a new file in its place has another inode.
State = tuple[str, int, int, int]


class FileCache(Generic[Value]):
    """Values that were read from files, each by its key; at most `most` are kept: the one that was asked for longest ago goes first. Threads may
    share it."""

    def __init__(self, most: int) -> None:
        self.most, self.lock = most, threading.Lock()
        # By key the value, and the states of its files before it was read.
        self.entries: OrderedDict[Hashable, tuple[Sequence[State], Value]] = OrderedDict()

    def of(
        self,
        key: Hashable,
        files: Sequence[Path],
        read: Callable[[], Value],
        *,
        keeps: Callable[[Value], bool] = lambda value: True,
    ) -> Value:
        """Returns the value of a key: the kept one if its files are unchanged, otherwise the one that `read` returns, which is kept if `keeps` says
        so. Raises PlanError if a file does not exist."""
        states = [state_of(file) for file in files]
        with self.lock:
            known = self.entries.get(key)
            if known and known[0] == states:
                self.entries.move_to_end(key)
                return known[1]
        # Other keys do not wait for slow files.
        found = read()
        with self.lock:
            self.entries.pop(key, None)
            if keeps(found):
                self.entries[key] = states, found
                while len(self.entries) > self.most:
                    self.entries.popitem(last=False)
        return found


def state_of(file: Path) -> State:
    """Returns what changes if a file does. Raises PlanError if it does not exist."""
    try:
        state = file.stat()
    except (OSError, ValueError) as error:
        why = getattr(error, "strerror", None) or str(error)
        raise PlanError(f"{file.name}: cannot be read: {why}: run the command again") from error
    return str(file), state.st_ino, state.st_mtime_ns, state.st_size


# Folders below the one that is served are searched to this depth.
DEPTH = 5
# How many projects and records are kept after reading.
KEPT = 5_000
# The record of each kind of results, with the title of those without a plan.
RECORDS = {
    names.RECORD: "",
    names.SENSITIVITY_RECORD: "Sensitivity",
    "scenarios.json": "Scenarios",
    names.COMPARISON: "Comparison",
}
# What the record of a plan is called, by a key that it has, the last first.
KINDS = (("by_block", "Schedule by block"), ("schedule", "Schedule"), ("pushbacks", "Pushbacks"), ("shells", "Shells"))


class NotThere(PlanError):
    """A path that does not exist, or that leads out of the folder."""


@dataclass(frozen=True)
class ProjectFile:
    """A project.

    Attributes
    ----------
    name : str
        Its path from the folder that is served.
    title : str
        Its title, or the reason why it cannot be read.
    table : str
        The block model that it names.
    """

    name: str
    title: str
    table: str
    is_readable: bool = True


@dataclass(frozen=True)
class Result:
    """An output folder.

    Attributes
    ----------
    name : str
        Its path from the folder that is served.
    kind : str
        What it has, such as Shells.
    project : str
        The path of its project from the folder that is served; empty if that is not below it.
    written : datetime
        When its record was written.
    """

    name: str
    kind: str
    project: str
    written: datetime


@dataclass(frozen=True)
class Record:
    """What the list of results takes from the record of an output folder: what it has, and its project as the record names it."""

    kind: str
    project: str


@dataclass(frozen=True)
class Workspace:
    """A folder with projects and results.

    Attributes
    ----------
    root : Path
        Without symbolic links.
    known : FileCache of list of ProjectFile
        The projects that were read, by their paths.
    records : FileCache of Record
        The records of output folders that were read, by their paths.
    """

    root: Path
    known: FileCache[list[ProjectFile]] = field(default_factory=lambda: FileCache(KEPT), compare=False)
    records: FileCache[Record] = field(default_factory=lambda: FileCache(KEPT), compare=False)

    def place(self, name: str) -> Path:
        """Returns the path of a file or folder by its name. Raises NotThere if it does not exist, if it is hidden, or if it leads out of the folder
        by `..` or a symbolic link."""
        refused = NotThere(f"{name}: no such file below the folder that is served")
        if "\0" in name or any(part.startswith(".") for part in Path(name).parts):
            raise refused
        try:
            path = (self.root / name).resolve(strict=True)
        except (OSError, RuntimeError) as error:
            raise refused from error
        if not path.is_relative_to(self.root):
            raise refused
        return path

    def name(self, path: Path) -> str:
        """Returns the name of a file or folder; "." of the folder itself."""
        return path.relative_to(self.root).as_posix()

    def folders(self) -> Iterator[tuple[Path, list[str]]]:
        """Yields the folders that are searched, each with the names of its files."""
        for at, below, files in os.walk(self.root):
            depth = at.count("/") - str(self.root).count("/")
            inside = (*layout.FOLDERS, layout.INPUTS) if RECORDS.keys() & files else ()
            below[:] = sorted(it for it in below if not it.startswith(".") and it not in inside and depth < DEPTH)
            yield Path(at), sorted(files)

    def projects(self) -> list[ProjectFile]:
        """Returns the projects: TOML files with a section `[table]`, except those that runs have recorded."""
        found = []
        for folder, files in self.folders():
            for file in files:
                if file.endswith(".toml") and file != project_writer.AS_RUN:
                    found += self.project_in(folder / file)
        return found

    def project_in(self, path: Path) -> list[ProjectFile]:
        """Returns the project in a file, if it is one. A file that cannot be read is an entry that says why."""
        name = self.name(path)
        if not is_text(name):
            return [ProjectFile(shown(name), "cannot be read: its name is not UTF-8: rename it", "", False)]
        try:
            return self.known.of(
                path,
                [self.place(name)],
                lambda: project_in(path, name),
                keeps=lambda it: all(one.is_readable for one in it),
            )
        except NotThere:
            # A link that leads out of the folder.
            return []

    def results(self) -> list[Result]:
        """Returns the output folders, the newest first."""
        found = [it for folder, files in self.folders() for it in self.result_in(folder, files)]
        return sorted(found, key=lambda it: it.written, reverse=True)

    def result_in(self, folder: Path, files: Collection[str]) -> list[Result]:
        """Returns the results in a folder by its record; none if the record is missing, cut or gone, or if the folder's name is not UTF-8."""
        record = next((it for it in RECORDS if it in files), "")
        if not record or not is_text(self.name(folder)):
            return []
        path = folder / record
        try:
            written = datetime.fromtimestamp(path.stat().st_mtime)
            said = self.records.of(path, [path], lambda: record_in(path, RECORDS[record]))
        except (OSError, ValueError, RecursionError, PlanError):
            return []
        return [Result(self.name(folder), said.kind, self.project_of(folder, said), written)]

    def result(self, folder: Path) -> Result:
        """Returns the results in a folder. Raises NotThere if it has no record."""
        try:
            found = self.result_in(folder, os.listdir(folder))
        except OSError:
            found = []
        if not found:
            raise NotThere(f"{self.name(folder)}: is no output folder of pitplan: it has no record")
        return found[0]

    def project_of(self, folder: Path, said: Record) -> str:
        """Returns the name of the project of a record; empty if it is not below the folder that is served."""
        try:
            path = (folder / said.project).resolve()
            is_here = path.is_file() and path.is_relative_to(self.root)
        except (OSError, ValueError, RuntimeError):
            return ""
        return self.name(path) if is_here and is_text(self.name(path)) else ""


def project_in(path: Path, name: str) -> list[ProjectFile]:
    """Returns the project in a file with this name, if it is one, with the reason if it cannot be read."""
    try:
        data = toml_text.parsed(path.read_text(encoding="utf-8"), name)
    except (OSError, ValueError, PlanError) as error:
        return [ProjectFile(name, f"cannot be read: {str(error).removeprefix(f'{name}: ')}", "", False)]
    table = data.get("table")
    if not isinstance(table, dict):
        return []
    return [ProjectFile(name, str(data.get("title", path.stem)), str(table.get("file", "")))]


def record_in(path: Path, kind: str) -> Record:
    """Returns the record in a file, of this kind or of that which it says. Raises ValueError, OSError or RecursionError if it is not a record."""
    said = json.loads(path.read_text(encoding="utf-8"))
    if not isinstance(said, dict):
        raise ValueError(path)
    of_plan = next((called for key, called in KINDS if key in said), "Pit")
    return Record(kind or of_plan, str(said.get("project", "")))


def is_text(name: str) -> bool:
    """Returns whether a name can be shown and sent: it is UTF-8 on disk."""
    return shown(name) == name


def shown(name: str) -> str:
    """Returns a name with a question mark for each byte that is not UTF-8."""
    return name.encode("utf-8", "replace").decode("utf-8")
