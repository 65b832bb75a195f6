"""The state in which a mutant was tried: a hash over the files that decide its verdict.

For the prover: the crate's sources, definitions, proofs and mutants for the prover. For the others: the mutant, its crate's sources,
definitions and proofs, and those of the crate, or the test, that must refuse it. In each case the files of definitions of other crates
that these cite, directly or through others, belong to it. Lines that are comments do not.
"""

import functools
import hashlib
import pathlib
import re

from crates import TOP
from mutation import edits

CITES = re.compile(r"\buse Rattle\.(\w+)\.specs\.([\w.-]+)")
# A line that is a comment, by the ending of the file.
COMMENTS = {".rt": re.compile(rb"^[ \t]*//.*\n", re.MULTILINE), ".antt": re.compile(rb"^[ \t]*--.*\n", re.MULTILINE)}
DIGITS = 16


def cited_in(file: pathlib.Path) -> set[pathlib.Path]:
    """The files of definitions that a file names; what the toolchain declares of a crate's types has none."""
    found = set()
    for crate, words in CITES.findall(file.read_text()):
        modules = words.rstrip(".").split(".")
        found |= {TOP.joinpath("crates", crate, "specs", *modules[:count]).with_suffix(".antt") for count in range(1, len(modules) + 1)}
    return {it for it in found if it.is_file()}


@functools.cache
def own_files(crate: str) -> frozenset[pathlib.Path]:
    """The sources, definitions and proofs of a crate."""
    folders = [TOP / "crates" / crate / part for part in ("src", "specs", "proofs")]
    return frozenset(it for folder in folders for it in folder.rglob("*") if it.is_file())


@functools.cache
def with_cited(crate: str) -> frozenset[pathlib.Path]:
    """These files, and the files of definitions that they cite."""
    files = set(own_files(crate))
    new = {it for it in files if it.suffix in {".antt", ".rt"}}
    while new := {cited for it in new for cited in cited_in(it)} - files:
        files |= new
    return frozenset(files)


def bytes_of(file: pathlib.Path) -> bytes:
    """What a file is to the prover: a mutant without the clause that it is to be refused at, a source without lines of comments."""
    text = file.read_bytes()
    if file.suffix == ".edit":
        return re.sub(rb"^clause: .*\n", b"", text, flags=re.MULTILINE)
    return COMMENTS[file.suffix].sub(b"", text) if file.suffix in COMMENTS else text


@functools.cache
def line_of(file: pathlib.Path) -> bytes:
    return f"{file.relative_to(TOP)} {hashlib.sha256(bytes_of(file)).hexdigest()}\n".encode()


def digest(files: set[pathlib.Path]) -> str:
    found = hashlib.sha256()
    for file in sorted(files):
        found.update(line_of(file))
    return found.hexdigest()[:DIGITS]


def is_for_prover(path: pathlib.Path) -> bool:
    return any(line.startswith(f"{edits.CLAUSE}:") for line in path.read_text().splitlines())


@functools.cache
def crate_state(crate: str) -> str:
    """That of each mutant of a crate that is for the prover."""
    mutants = {it for it in (TOP / "crates" / crate / "mutants").rglob("*") if it.is_file() and is_for_prover(it)}
    return digest(set(with_cited(crate)) | mutants)


def state_of(mutant: edits.Mutant) -> str:
    if mutant.kind == edits.CLAUSE:
        return crate_state(mutant.crate)
    files = {mutant.path, *with_cited(mutant.crate)}
    if mutant.kind == edits.PROGRAM_TEST:
        return digest(files | {TOP / "tests" / mutant.by.partition("::")[0]})
    return digest(files | with_cited(mutant.refuser))
