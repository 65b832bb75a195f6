"""The text of a project as the browser edits it: opened, checked and saved."""

from __future__ import annotations

import fcntl
import os
from collections.abc import Iterator
from contextlib import contextmanager, suppress
from dataclasses import dataclass, field, replace
from pathlib import Path
from typing import Optional

from pitplan.config import toml_text
from pitplan.config.project import Project, of_data
from pitplan.core.atomic_files import hash_of, staged_file
from pitplan.errors import PlanError

from .grids import FormGrid, grids_of
from .values_form import FormField, fields_of

# The most letters of a project that is edited here.
MOST_LETTERS = 300_000


class Changed(PlanError):
    """A file is no longer what the page showed."""


@dataclass(frozen=True)
class Editor:
    """What the editor of a page shows.

    Attributes
    ----------
    seen : str
        The hash of the file that the page showed first.
    wrong : str
        Why the text is no project; empty if it is one.
    line : int, optional
        The line that is wrong, if it is known.
    said : str
        What was done.
    is_unsaved : bool
        Whether the file has another text.
    may_change : bool
        Whether the text can be edited here.
    """

    text: str
    seen: str
    wrong: str = ""
    line: Optional[int] = None
    said: str = ""
    is_unsaved: bool = False
    may_change: bool = True


def opened(path: Path, name: str, said: str = "") -> Editor:
    """Returns the editor of a file, with what is wrong in it. Its name is that from the folder that is served."""
    data = path.read_bytes()
    seen = hash_of(path)
    try:
        text = data.decode("utf-8-sig").replace("\r\n", "\n")
    except UnicodeDecodeError:
        wrong = f"{name}: is not UTF-8: save it as UTF-8 with another editor"
        return Editor(data.decode("utf-8", errors="replace"), seen, wrong, may_change=False)
    return judged(Editor(text, seen, said=said), path, name)


def judged(editor: Editor, path: Path, name: str) -> Editor:
    """Returns the editor with what is wrong in its text, in the words of the command line."""
    try:
        demand_project(editor.text, path, name)
    except PlanError as error:
        # The command line names files from the folder in which it runs.
        why = str(error).replace(f"{path.parent}/", name[: name.rfind("/") + 1])
        return replace(editor, wrong=why, line=error.place.line)
    return editor


def demand_project(text: str, path: Path, name: str) -> Project:
    """Returns the project of a text. Raises PlanError if the text is not a project."""
    if len(text) > MOST_LETTERS:
        raise PlanError(f"{name}: found {len(text):,} letters, expected at most {MOST_LETTERS:,}: use another editor")
    return of_data(toml_text.parsed(text, name), path, name, text)


def sent(text: str) -> str:
    """Returns a text as typed: browsers send each end of a line as two letters."""
    return text.replace("\r\n", "\n")


def demanded(editor: Editor, path: Path, name: str) -> Editor:
    """Returns an editor whose text is a project. Raises PlanError otherwise."""
    found = judged(editor, path, name)
    if found.wrong:
        raise PlanError(found.wrong)
    return found


def demand_seen(path: Path, name: str, seen: str) -> None:
    """Raises Changed if a file is not the one that the page showed, and PlanError if it cannot be read."""
    try:
        found = hash_of(path)
    except OSError as error:
        raise PlanError(f"{name}: cannot be read: {error.strerror}") from error
    if found != seen:
        raise Changed(
            f"{name}: has changed since this page was opened: copy your text, open the project again, and enter your changes there"
        )


@contextmanager
def locked(folder: Path) -> Iterator[None]:
    """Keeps other pages and servers from saving into a folder, if its file system has locks. Raises PlanError if it cannot be read."""
    try:
        descriptor = os.open(folder, os.O_RDONLY | os.O_DIRECTORY | os.O_CLOEXEC)
    except OSError as error:
        raise PlanError(f"{folder.name}: cannot be read: {error.strerror}") from error
    try:
        with suppress(OSError):
            fcntl.flock(descriptor, fcntl.LOCK_EX)
        yield
    finally:
        os.close(descriptor)


def save(path: Path, name: str, editor: Editor) -> None:
    """Writes the text of an editor, whole or not at all, with the ends of lines that the file has. Raises Changed if the file is not the one that the
    page showed, and PlanError if it cannot be written."""
    with locked(path.parent):
        demand_seen(path, name, editor.seen)
        text = editor.text.replace("\n", "\r\n") if b"\r\n" in path.read_bytes() else editor.text
        mode = path.stat().st_mode & 0o777
        with staged_file(path) as place:
            place.write_bytes(text.encode("utf-8"))
            place.chmod(mode)
            # A program that takes no lock may have written meanwhile.
            demand_seen(path, name, editor.seen)


@dataclass(frozen=True)
class Forms:
    """A project's file as the forms of its page show it.

    Attributes
    ----------
    project : Project, optional
        None if the text has an error.
    fields : list of FormField
        The numbers that a form changes; none if the text has an error.
    grids : dict of str to Grid
        By name; none if the text has an error.
    """

    editor: Editor
    project: Optional[Project] = None
    fields: list[FormField] = field(default_factory=list)
    grids: dict[str, FormGrid] = field(default_factory=dict)

    @property
    def is_of_one_file(self) -> bool:
        """Whether nothing but the project's file decides what the forms show."""
        return self.project is not None and self.project.shells.calendar.file is None


def read(path: Path, name: str) -> Forms:
    """Returns the forms of a project's file. Its name is that from the folder that is served."""
    editor = opened(path, name)
    if editor.wrong:
        return Forms(editor)
    project = demand_project(editor.text, path, name)
    return Forms(editor, project, fields_of(editor.text, project), grids_of(editor.text, project))
