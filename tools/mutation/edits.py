"""Mutants as files, `crates/CRATE/mutants/NAME.edit`.

A file says what the mutant is about (`#`), who must refuse it, and pairs of lines `old:` and `new:`, each below the `file:` that it
changes. An old text occurs exactly once in its file. Several lines `old:` or `new:` in a row are one text of as many lines, except for
the prover, which reads one line each. One line of these says who must refuse the mutant:

    clause: FUNCTION CLAUSE      the prover, at this clause (tools/mutation/clauses.py)
    proofs: CRATE FUNCTION       the proof of this function of the mutant's own crate, or of a crate above it: a law or an example, or a
                                 contract, that is false by the changed definition
    crate-tests: CRATE           the tests of this crate; the prover lets the mutant pass
    program-test: FILE::TEST     this test below tests/, over the program built with the mutant; the prover lets the mutant pass

A line `features:` beside `program-test:` names what the mutant may alter and its test uses, besides a plain solve; `all` if a plain solve
changes too.
"""

import contextlib
import functools
import pathlib
from collections.abc import Iterable, Iterator
from typing import NamedTuple

from crates import TOP, crates

CLAUSE, PROOFS, CRATE_TESTS, PROGRAM_TEST = KINDS = ("clause", "proofs", "crate-tests", "program-test")


class Unplantable(ValueError):
    """Why a mutant cannot be planted."""


class Change(NamedTuple):
    """A text of a file, named below the crate's folder, and what takes its place."""

    file: str
    old: str
    new: str


class Mutant(NamedTuple):
    """A mutant by its file: its kind, who must refuse it, and its changes."""

    path: pathlib.Path
    kind: str
    by: str
    features: frozenset[str]
    changes: tuple[Change, ...]

    @property
    def crate(self) -> str:
        return self.path.parent.parent.name

    @property
    def refuser(self) -> str:
        """The crate that must refuse it, for `proofs` and `crate-tests`."""
        return self.by.partition(" ")[0]

    @property
    def name(self) -> str:
        """As `crate/mutant`."""
        return f"{self.crate}/{self.path.stem}"

    @property
    def place(self) -> str:
        """Its file as seen from the top of the repository, for messages."""
        return str(self.path.relative_to(TOP)) if self.path.is_relative_to(TOP) else str(self.path)


def read(path: pathlib.Path) -> Mutant:
    """Raises Unplantable unless one line says who must refuse the mutant."""
    header: dict[str, str] = {}
    changes: list[Change] = []
    olds: list[str] = []
    news: list[str] = []
    file = ""
    for line in [*path.read_text().splitlines(), "file: "]:
        key, _, text = line.partition(":")
        text = text.removeprefix(" ")
        if olds and news and key in ("old", "file"):
            changes.append(Change(file, "\n".join(olds), "\n".join(news)))
            olds, news = [], []
        if key == "file":
            file = text.strip()
        elif key in ("old", "new"):
            (olds if key == "old" else news).append(text)
        elif key in (*KINDS, "features"):
            header[key] = text.strip()
    kinds = [kind for kind in KINDS if kind in header]
    if len(kinds) != 1 or not header[kinds[0]]:
        raise Unplantable(f"one of the lines {', '.join(f'`{kind}:`' for kind in KINDS)} must say who refuses it")
    return Mutant(path, kinds[0], header[kinds[0]], frozenset(header.get("features", "").split()), tuple(changes))


@functools.cache
def paths() -> list[pathlib.Path]:
    """The files of all mutants, by crate and name."""
    return [path for crate in sorted(crates()) for path in sorted((TOP / "crates" / crate / "mutants").glob("*.edit"))]


def planted(mutant: Mutant, folder: pathlib.Path | None = None) -> dict[str, str]:
    """The files that the mutant changes, with the changes, by their names in the crate; the crate is its own, or a copy in this folder.
    Raises Unplantable."""
    folder = folder or mutant.path.parent.parent
    texts: dict[str, str] = {}
    for change in mutant.changes:
        if not change.file or not (folder / change.file).is_file():
            raise Unplantable(f"its crate has no file `{change.file}`")
        text = texts.setdefault(change.file, (folder / change.file).read_text())
        if text.count(change.old) != 1:
            raise Unplantable(f"{change.file} has `{change.old}` {text.count(change.old)} times, not once")
        if mutant.kind == CLAUSE and "\n" in change.old + change.new:
            raise Unplantable("the prover reads one line `old:` and one line `new:` of a change")
        texts[change.file] = text.replace(change.old, change.new)
    if not texts:
        raise Unplantable("it changes nothing")
    return texts


@contextlib.contextmanager
def planted_in(copy: pathlib.Path, mutants: Iterable[Mutant]) -> Iterator[None]:
    """A copy of the repository has the mutants meanwhile."""
    before: dict[pathlib.Path, str] = {}
    try:
        for mutant in mutants:
            folder = copy / "crates" / mutant.crate
            for name, text in planted(mutant, folder).items():
                before.setdefault(folder / name, (folder / name).read_text())
                (folder / name).write_text(text)
        yield
    finally:
        for file, text in before.items():
            file.write_text(text)
