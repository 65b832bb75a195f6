"""Where the files of a run lie, and the project that was run."""

from __future__ import annotations

from dataclasses import dataclass
from pathlib import Path
from typing import Any

from planaudit.inputs.project import Project
from planaudit.inputs.project_file import load
from planaudit.inputs.record import AS_RUN, hash_of


@dataclass(frozen=True)
class Run:
    """A run.

    Attributes
    ----------
    folder : Path
        The output folder, from which paths in records are given.
    written : Path
        The folder with the files to audit: the output folder, or one in it while the run goes on.
    """

    folder: Path
    written: Path

    def place(self, name: str) -> Path:
        """Returns the path of an input: that of the file in `written` if the run itself has written it there."""
        staged = self.written / name
        return staged if ".." not in Path(name).parts and staged.is_file() else self.folder / name

    def project(self, record: dict[str, Any]) -> Project:
        """Returns the project that was run; once the run has ended that of the planner's file if this has changed since.

        Raises
        ------
        AuditError
            If it cannot be read.
        OSError
            If the file is missing.
        """
        if self.folder == self.written:
            first = self.folder / record["project"]
            if record.get("inputs", {}).get(first.name) != hash_of(first):
                return load(first)
        return self.as_run(record)

    def as_run(self, record: dict[str, Any]) -> Project:
        """Returns the project that was run; for a folder without its text that of the planner's file."""
        text = self.written / AS_RUN
        return load(text, self.place) if text.is_file() else load(self.folder / record["project"])
