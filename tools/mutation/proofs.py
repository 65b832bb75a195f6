"""Tries mutants of definitions: the function that a mutant names, a law or an example, must no longer be proved.

A definition that could change in one quantifier, sign or number while all stays proved would be pinned by the reader's eye alone. A proof
that breaks shows little: it may repeat the definition. So a mutant names a function whose contract is false by the changed definition,
and only that function is proved, in a copy of its crate. A copy takes the compiled crates below, and what a check of its crate kept, from
the folders `out/` of this checkout, as `rt check` leaves them; a crate with none, or one of other sources, is proved once for each copy.
"""

import concurrent.futures
import pathlib
import queue
import re
import shutil
import subprocess
import tempfile
from collections.abc import Iterator

from clone import COMPILED, keep_only, link_compiled, unneeded
from crates import TOP, in_order
from mutation.edits import Mutant, planted_in
from mutation.outcomes import Outcome


def copy_crates(folder: pathlib.Path, names: list[str]) -> None:
    """These crates; of what proofs have left in their folders only the compiled crates."""
    for name in names:
        shutil.copytree(TOP / "crates" / name, folder / "crates" / name, ignore=unneeded, copy_function=link_compiled)
    shutil.copy(TOP / "crates.txt", folder)
    shutil.copy(TOP / "HANDLES", folder)
    keep_only(folder, set(names))


def take_kept(folder: pathlib.Path, name: str) -> None:
    """What a check of this crate kept here, if there was one."""
    kept = TOP / "crates" / name / "out"
    if kept.is_dir():
        shutil.copytree(kept, folder / "crates" / name / "out", ignore=shutil.ignore_patterns(COMPILED), dirs_exist_ok=True)


def function_of(mutant: Mutant) -> str:
    """The function that must no longer be proved, as `rt check --only` takes it."""
    return mutant.by.partition(" ")[2]


def has_function(mutant: Mutant) -> bool:
    """Whether the crate that must refuse the mutant has a function of this name."""
    name = function_of(mutant).rpartition("::")[2]
    sources = (TOP / "crates" / mutant.refuser / "src").rglob("*.rt")
    return bool(name) and any(re.search(rf"\bfn {re.escape(name)}\b", file.read_text()) for file in sources)


def outcome_of(mutant: Mutant, said: str) -> Outcome:
    """What the prover says of the function that the mutant names, with its closures."""
    counts = re.search(r"^only=([1-9]\d*) proved=(\d+)$", said, re.MULTILINE)
    if not counts:
        return Outcome(mutant, "", f"not tried: {said.strip()[-400:]}")
    if counts[1] == counts[2]:
        return Outcome(mutant, "", f"NOT REFUSED: {function_of(mutant)} is proved")
    scope = re.search(r"^\./specs/\S+?:\d+:\d+: error: (.*)$", said, re.MULTILINE)
    if scope:
        return Outcome(mutant, "", f"not tried: {scope[1][:120]}")
    return Outcome(mutant, function_of(mutant))


def try_in(copy: pathlib.Path, mutant: Mutant) -> Outcome:
    with planted_in(copy, [mutant]):
        ran = subprocess.run(
            ["rt", "check", "--only", function_of(mutant)],
            cwd=copy / "crates" / mutant.refuser,
            capture_output=True,
            text=True,
            errors="replace",
        )
    return outcome_of(mutant, ran.stdout + ran.stderr)


def try_all(crate: str, mutants: list[Mutant], found: "queue.Queue[Outcome | None]") -> None:
    """Tries them one after the other in one copy of the crate that must refuse them, and puts what came of each into the queue, then None."""
    try:
        with tempfile.TemporaryDirectory(prefix="pitshell-", ignore_cleanup_errors=True) as name:
            copy = pathlib.Path(name)
            copy_crates(copy, in_order(crate))
            take_kept(copy, crate)
            for mutant in mutants:
                found.put(try_in(copy, mutant))
    finally:
        found.put(None)


def run(mutants: list[Mutant], jobs: int) -> Iterator[Outcome]:
    by_crate = {crate: [it for it in mutants if it.refuser == crate] for crate in sorted({it.refuser for it in mutants})}
    shares = [(crate, own[first::jobs]) for crate, own in by_crate.items() for first in range(min(jobs, len(own)))]
    found: queue.Queue[Outcome | None] = queue.Queue()
    with concurrent.futures.ThreadPoolExecutor(jobs) as pool:
        tried = [pool.submit(try_all, *share, found) for share in shares]
        for _ in tried:
            yield from iter(found.get, None)
        for it in tried:
            it.result()
