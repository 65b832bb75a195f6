"""The clause at which the prover refused a mutant, read from what it printed.

A line `clause:` names a function and a clause of it. `find_pit shown` is the clause `shown` that `find_pit` ensures, `find_pit returns`
the only one that has no name. `find_pit loop-k` is the invariant of a loop, `find_pit invariant` that of a type, and `find_pit join-few`
what `find_pit` owes when it calls `join`.
"""

import pathlib
import re

from mutation.edits import Mutant, planted

BY_NAME = "(only because a proof file names"
# The goal in a refusal, whose end may be missing: the toolchain cuts long lines.
GOAL = re.compile(r"error: `([^`]+)(`?)|\(`([^`]+)(`?)")
CUT = ".."
PLACE = re.compile(r"(?:^|\s)(?:\./)?(src|proofs)/(\S+?):(\d+):")
FUNCTION = re.compile(r"^\s*(?:pub(?:\([a-z]+\))? |unsafe |extern \S+ |const )*fn (\w+)", re.MULTILINE)


def function_at(mutant: Mutant, said: str) -> str:
    """The function that a refusal lies in: the folder of its proof, or the function of the line or of the attribute there, or otherwise
    the last one that begins before the line. Empty for a law."""
    found = PLACE.search(said)
    if not found:
        return ""
    if found[1] == "proofs":
        return pathlib.Path(found[2]).parent.name
    name = f"src/{found[2]}"
    lines = (planted(mutant).get(name) or (mutant.path.parent.parent / name).read_text()).splitlines()
    at = int(found[3]) - 1
    if lines[at].lstrip().startswith("#["):
        return "".join(FUNCTION.findall("\n".join(lines[at:]))[:1])
    return "".join(FUNCTION.findall("\n".join(lines[: at + 1]))[-1:])


def clause_in(goal: str) -> str:
    """The clause that a goal belongs to."""
    owed, required, rest = re.sub(r"-\d+$", "", goal).partition("-requires")
    clause = rest.rpartition("-clause-")[2] if "-clause-" in rest else ""
    if required:
        return f"{owed}-{clause or 'requires'}"
    if goal.startswith("returns"):
        return owed.rpartition("-clause-")[2] if "-clause-" in owed else "returns"
    if goal.startswith("invariant_of"):
        return "invariant"
    return re.sub(r"-(init|preserved).*$", "", goal)


def refused_at(mutant: Mutant, said: str) -> str:
    """The function and the clause that a mutant was refused at, in the words of a line `clause:`, cut off where the goal is; empty if the
    prover named none."""
    found = None if said.startswith(BY_NAME) else GOAL.search(said)
    if not found:
        return ""
    end = "" if found[2] or found[4] else CUT
    return f"{function_at(mutant, said)} {clause_in(found[1] or found[3])}{end}".strip()


def mismatch(mutant: Mutant, refused: str) -> str:
    """What is wrong with the clause of a refusal: empty if it is the mutant's own."""
    is_begun = refused.endswith(CUT) and mutant.by.startswith(refused.removesuffix(CUT))
    return "" if is_begun or mutant.by == refused else f"is refused at `{refused or 'no clause'}`, not at `{mutant.by}`"
