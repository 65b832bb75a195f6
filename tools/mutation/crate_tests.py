"""Tries mutants that the prover lets pass: the tests of a crate must fail.

A contract promises neither memory nor threads, nor that another thread was not faster; so a call that always answers `no memory` or
`no seat` meets it, and no clause speaks of what a call does under the lock or in another thread. The tests run unproved. Calls that each
run of the program makes, such as `run_solve`, need no mutant: each row of tests/test_rows.py refuses a body that fails.
"""

import pathlib
import re
import shutil
import subprocess
import tempfile
from collections.abc import Iterator

from clone import left_out
from crates import TOP
from mutation.edits import Mutant, planted_in
from mutation.outcomes import Outcome


def outcome_of(mutant: Mutant, said: str) -> Outcome:
    """What the last result of the tests says: how many failed, or what went wrong before any ran."""
    results = re.findall(r"^test result: .*?(\d+) passed; (\d+) failed", said, re.MULTILINE)
    if not results:
        return Outcome(mutant, "", f"not tried: {said[-400:]}")
    passed, failed = map(int, results[-1])
    return Outcome(mutant, f"{failed} of {passed + failed} fail") if failed else Outcome(mutant, "", f"NOT REFUSED: all {passed} tests pass")


def run(mutants: list[Mutant]) -> Iterator[Outcome]:
    with tempfile.TemporaryDirectory() as name:
        copy = pathlib.Path(name)
        shutil.copytree(TOP / "crates", copy / "crates", ignore=left_out)
        shutil.copy(TOP / "crates.txt", copy)
        shutil.copy(TOP / "HANDLES", copy)
        for mutant in mutants:
            with planted_in(copy, [mutant]):
                folder = copy / "crates" / mutant.by
                ran = subprocess.run(["rt", "try", "--test"], cwd=folder, capture_output=True, text=True, errors="replace")
            yield outcome_of(mutant, ran.stdout + ran.stderr)
