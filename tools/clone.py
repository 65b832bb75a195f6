"""A copy of the repository, outside of it, in which the gate's proofs run: with mutants planted, or with some crates alone.

The toolchain takes no repository within a repository, and proves what a copy holds as it proves the original.
"""
import contextlib
import os
import pathlib
import re
import shutil
import subprocess
import tempfile
from collections.abc import Callable, Iterable, Iterator
from typing import Optional

from crates import TOP


# Of what proofs have left in a crate's folder: the compiled crate, which is all that those above it need.
COMPILED = "rlib"


def unneeded(folder: str, names: list[str]) -> list[str]:
    """What was built or left by proofs, but for a compiled crate."""
    here = pathlib.Path(folder)
    if here.name == "out" and here.parent.parent == TOP / "crates":
        return [name for name in names if name != COMPILED]
    made = {TOP: {".git", "build"}, TOP / "bench": {"work"}}.get(here, set()) | {"__pycache__"}
    return [name for name in names if name in made]


def left_out(folder: str, names: list[str]) -> list[str]:
    """What no copy needs that is proved from nothing."""
    made = {"out"} if pathlib.Path(folder).parent == TOP / "crates" else set()
    return [*unneeded(folder, names), *(name for name in names if name in made)]


def link_compiled(source: str, target: str) -> None:
    """A file of a compiled crate, which is written anew as a whole and never changed, is shared where that can be; any other is copied."""
    if COMPILED in pathlib.Path(source).parts:
        with contextlib.suppress(OSError):
            os.link(source, target)
            return
    shutil.copy2(source, target)


@contextlib.contextmanager
def clone(mutants: Iterable[pathlib.Path] = (), only: Iterable[str] = (), warm: Optional[Iterable[str]] = None) -> Iterator[pathlib.Path]:
    """A folder with the repository's files, these mutants where the prover tries them, and only these crates, where any are named.

    A warm one has the compiled crates too, and all that proofs have left of those that are named warm: there only what changes is proved
    anew.
    """
    with tempfile.TemporaryDirectory(prefix="pitshell-", ignore_cleanup_errors=True) as name:
        copy = pathlib.Path(name) / "copy"
        shutil.copytree(TOP, copy, ignore=left_out if warm is None else unneeded, copy_function=link_compiled)
        for crate in warm or ():
            shutil.copytree(TOP / "crates" / crate / "out", copy / "crates" / crate / "out", ignore=shutil.ignore_patterns(COMPILED), dirs_exist_ok=True)
        for mutant in mutants:
            planted = copy / "crates" / mutant.parent.parent.name / "must-fail"
            planted.mkdir(exist_ok=True)
            shutil.copy(mutant, planted)
        if kept := set(only):
            keep_only(copy, kept)
        yield copy


def keep_only(copy: pathlib.Path, kept: set[str]) -> None:
    """Takes all other crates out of the copy and of its crates.txt."""
    for folder in (copy / "crates").iterdir():
        if folder.name not in kept:
            shutil.rmtree(folder)
    listed = (copy / "crates.txt").read_text().splitlines(keepends=True)
    (copy / "crates.txt").write_text("".join(line for line in listed if re.split(r"[ :]", line)[0] in kept))


def prove(copy: pathlib.Path, tell: Callable[[str], None], names: Iterable[str] = ()) -> int:
    """Runs the gate's proofs in a copy, of these crates and those below them alone where any are named, and hands on each line that they
    print; gives their status."""
    return listen(copy, ["rt", "ci", *names], tell)


def try_mutants(copy: pathlib.Path, tell: Callable[[str], None], names: Iterable[str]) -> int:
    """Tries the mutants of these crates in a copy, and proves no other crate that was kept there; the rest as for the proofs."""
    return listen(copy, ["rt", "must-fail", *names], tell)


def listen(copy: pathlib.Path, words: list[str], tell: Callable[[str], None]) -> int:
    with subprocess.Popen(words, cwd=copy, stdout=subprocess.PIPE, stderr=subprocess.STDOUT, text=True, errors="replace") as ran:
        for line in ran.stdout:
            tell(line)
    return ran.returncode
