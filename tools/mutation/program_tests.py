"""Tries mutants of the program's wiring: the test that each names must fail over the program that is built with it.

No contract says which option goes to which field, when an output is kept, or what a file of the system may be: the prover lets such a
mutant pass. Mutants without a feature in common are planted together, since the test of one cannot see the others. A round
proves the crates that it changes and those above them again, if the others were proved on this machine. To try many, run `rt run` in
the folder of the program first: then a round proves only what it changes.
"""

import os
import pathlib
import subprocess
from collections.abc import Iterator

import clone
from build import PROGRAM
from crates import TOP, in_order
from mutation.edits import Mutant, planted_in
from mutation.outcomes import Outcome

# The program that a file of tests runs, if it is another than PROGRAM.
PROGRAMS = {"test_pitschedule.py": "pitschedule"}


def program_of(mutant: Mutant) -> str:
    return PROGRAMS.get(mutant.by.partition("::")[0], PROGRAM)


def share_words(one: Mutant, other: Mutant) -> bool:
    """Whether a text that one mutant changes occurs in one that the other changes."""
    pairs = [(first, second) for first in one.changes for second in other.changes]
    return one.crate == other.crate and any(a.file == b.file and (a.old in b.old or b.old in a.old) for a, b in pairs)


def rounds(mutants: list[Mutant]) -> list[list[Mutant]]:
    """The mutants in rounds, each in the first round with whose mutants it shares neither a feature nor words."""
    found: list[tuple[set[str], list[Mutant]]] = []
    for mutant in mutants:
        free = [it for it in found if not mutant.features & it[0] and "all" not in mutant.features | it[0]]
        place = next((it for it in free if not any(share_words(mutant, other) for other in it[1])), None)
        if place is None:
            found.append((set(mutant.features), [mutant]))
        else:
            place[0].update(mutant.features)
            place[1].append(mutant)
    return [it for _, it in found]


def outcome_of(mutant: Mutant, program: pathlib.Path) -> Outcome:
    """Whether the mutant's test fails over this program, which it finds by a variable, and not because there is no such test."""
    words = ["/usr/bin/python3", "-m", "pytest", "-q", "-x", "-p", "no:cacheprovider", f"tests/{mutant.by}"]
    ran = subprocess.run(words, cwd=TOP, env={**os.environ, program_of(mutant).upper(): str(program)}, capture_output=True, text=True)
    if ran.returncode == 1:
        return Outcome(mutant, "the test fails")
    why = "NOT REFUSED: its test passes" if ran.returncode == 0 else f"not tried: {ran.stdout[-400:]}{ran.stderr[-400:]}"
    return Outcome(mutant, "", why)


def kept(name: str) -> list[str]:
    """The crates whose proofs lie in their folders, from `rt run`; none if the program's do not."""
    having = [crate for crate in in_order(name) if (TOP / "crates" / crate / "out" / "incremental").is_dir()]
    return having if name in having else []


def build(copy: pathlib.Path, name: str) -> str:
    """Proves and builds the program in a copy, and gives what was printed."""
    folder = copy / "crates" / name
    is_kept = (folder / "out" / "incremental").is_dir()
    words = ["rt", "run", "--", "--version"] if is_kept else ["rt", "ci"]
    ran = subprocess.run(words, cwd=folder if is_kept else copy, capture_output=True, text=True, errors="replace")
    return ran.stdout + ran.stderr


def try_round(copy: pathlib.Path, name: str, together: list[Mutant]) -> list[Outcome]:
    """What becomes of mutants of a program that are planted together."""
    program = copy / "crates" / name / "out" / name
    program.unlink(missing_ok=True)
    with planted_in(copy, together):
        said = build(copy, name)
    if not program.is_file():
        print(said[-4000:])
        return [Outcome(mutant, "", "not tried: the round is not proved") for mutant in together]
    return [outcome_of(mutant, program) for mutant in together]


def run(mutants: list[Mutant]) -> Iterator[Outcome]:
    for name in sorted({program_of(mutant) for mutant in mutants}):
        with clone.clone(only=in_order(name), warm=kept(name) or None) as copy:
            for together in rounds([mutant for mutant in mutants if program_of(mutant) == name]):
                yield from try_round(copy, name, together)
