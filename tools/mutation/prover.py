"""Tries mutants by the prover: plants them in a copy of the repository, where `rt` must refuse each at its clause."""

import re

import ahead
import build
import clone
from crates import in_order
from mutation.clauses import mismatch, refused_at
from mutation.edits import Mutant
from mutation.outcomes import Outcome

SAID = re.compile(r"^rt: must-fail (\w+)/([\w.-]+)\.edit: (.*)$")
REFUSED = "refused, as it must be"


def outcome_of(mutant: Mutant, said: str) -> Outcome:
    """What the line of `rt` says of a mutant."""
    if not said.startswith(REFUSED):
        return Outcome(mutant, "", said or "rt printed nothing about it")
    refused = refused_at(mutant, said.removeprefix(REFUSED).removeprefix(": "))
    return Outcome(mutant, refused, mismatch(mutant, refused))


def run(mutants: list[Mutant], is_alone: bool) -> tuple[int, list[Outcome]]:
    """Plants the mutants and proves, their crates alone if that suffices, otherwise all, and then takes the programs and the library into
    build/. The status of the proofs, and what became of each mutant."""
    chosen = sorted({mutant.crate for mutant in mutants})
    print(f"{len(mutants)} mutants are planted, of {', '.join(chosen)}", flush=True)
    said: dict[str, str] = {}

    def listen(line: str) -> None:
        print(line, end="", flush=True)
        if found := SAID.match(line):
            said[f"{found[1]}/{found[2]}"] = found[3].strip()

    only = {it for crate in chosen for it in in_order(crate)} if is_alone else ()
    is_warm = is_alone and not ahead.keeps()
    with clone.clone((mutant.path for mutant in mutants), only, () if is_warm else None) as copy:
        status = clone.try_mutants(copy, listen, chosen) if is_warm else clone.prove(copy, listen, chosen if is_alone else ())
        if status == 0 and not is_alone:
            for crate in build.FILES:
                if crate != build.LIBRARY or build.has_libraries(copy):
                    build.take(copy, crate)
    return status, [outcome_of(mutant, said.get(mutant.name, "")) for mutant in mutants]
