#!/usr/bin/env python3
"""Plants mutants of the Rattle crates, one format for all (tools/mutation/edits.py), and checks that each is refused by whom it names.

    tools/mutants.py --changed            for the gate: mutants for the prover, of each crate whose state differs from mutants.lock, and of
                                          one crate more, another each day; proves all, and takes the programs and the library into build/
    tools/mutants.py [NAME..]             those for the prover, of these crates or by these names (crate/mutant), or all, which takes an
                                          hour or two. If crates are named, only those and the ones below them are proved
    tools/mutants.py --kind KIND [NAME..] those of another kind: `proofs` (10 to 30 seconds each, once `rt check` built the crates below),
                                          `crate-tests` (a minute each), `program-test` (some minutes a round of several)
    tools/mutants.py --read               plants none: each can be planted, names who refuses it, and has a line in mutants.lock
    tools/mutants.py --list               prints each with its kind, who must refuse it, and whether its state is that of mutants.lock

mutants.lock has a line for each mutant: its name, the state in which it was refused (tools/mutation/states.py), and by what. The status
is 1 if a mutant cannot be planted, has no line, is not refused, or is refused at another clause than it names; otherwise the status of
the proofs.
"""

import argparse
import datetime
import re
import sys
from collections.abc import Iterable

from crates import TOP, crates
from mutation import crate_tests, proofs, program_tests, prover
from mutation.clauses import mismatch
from mutation.edits import CLAUSE, CRATE_TESTS, KINDS, PROGRAM_TEST, PROOFS, Mutant, Unplantable, paths, planted, read
from mutation.lock import LOCK, Line, read_lock, record
from mutation.outcomes import Outcome
from mutation.states import state_of


def readable() -> tuple[list[Mutant], list[str]]:
    """All mutants that can be read, and what is wrong with the others."""
    mutants, wrong = [], []
    for path in paths():
        try:
            mutants.append(read(path))
        except Unplantable as error:
            wrong.append(f"{path.relative_to(TOP)}: {error}")
    return mutants, wrong


def refuser_fault(mutant: Mutant) -> str:
    """What is wrong with who must refuse the mutant; empty if nothing is."""
    if mutant.kind in (PROOFS, CRATE_TESTS) and mutant.refuser not in crates():
        return f"there is no crate `{mutant.refuser}`"
    if mutant.kind == PROOFS and not proofs.has_function(mutant):
        return f"`{mutant.by}` names no function of the crate"
    if mutant.kind == PROGRAM_TEST:
        name, _, test = mutant.by.partition("::")
        file = TOP / "tests" / name
        if not file.is_file() or not re.search(rf"^def {re.escape(test.partition('[')[0])}\(", file.read_text(), re.MULTILINE):
            return f"there is no test `{mutant.by}`"
    return ""


def mistakes(mutants: Iterable[Mutant], lines: dict[str, Line], needs_line: bool) -> list[str]:
    """Mutants that cannot be planted or name no one; if asked for, those without a line; and those that were refused at another clause in
    the state that they are in."""
    found = []
    for mutant in mutants:
        line, why = lines.get(mutant.name), refuser_fault(mutant)
        try:
            planted(mutant)
        except Unplantable as error:
            why = str(error)
        if not why and line is None and needs_line:
            why = f"has no line in {LOCK.name}: run tools/mutants.py --kind {mutant.kind} {mutant.name}"
        if not why and line is not None and mutant.kind == CLAUSE and line.state == state_of(mutant):
            why = mismatch(mutant, line.verdict)
        found += [f"{mutant.place}: {why}"] if why else []
    return found


def is_due(mutant: Mutant, lines: dict[str, Line]) -> bool:
    return mutant.name not in lines or lines[mutant.name].state != state_of(mutant)


def due(mutants: list[Mutant], lines: dict[str, Line]) -> list[str]:
    """The crates of these mutants whose state differs from the lock file's, and one of the others, by the day."""
    changed = sorted({mutant.crate for mutant in mutants if is_due(mutant, lines)})
    others = sorted({mutant.crate for mutant in mutants} - set(changed))
    turn = datetime.date.today().toordinal() % len(others) if others else 0
    return changed + others[turn : turn + 1]


def keep(outcomes: Iterable[Outcome]) -> int:
    """Records what was refused as it comes, prints the rest, and gives the status."""
    status = 0
    for outcome in outcomes:
        print(outcome, flush=True)
        if outcome.wrong:
            status = 1
        else:
            record({outcome.mutant.name: Line(state_of(outcome.mutant), outcome.refused)})
    return status


def by_prover(mutants: list[Mutant], is_alone: bool) -> int:
    """Records all of them if each is refused at its clause and nothing else fails."""
    states = {mutant.name: state_of(mutant) for mutant in mutants}
    status, outcomes = prover.run(mutants, is_alone)
    wrong = [it for it in outcomes if it.wrong]
    print("".join(f"not refused at its clause: {it}\n" for it in wrong), end="")
    if status == 0 and not wrong:
        record({it.mutant.name: Line(states[it.mutant.name], it.refused) for it in outcomes})
    return status or bool(wrong)


def listed(mutants: Iterable[Mutant], lines: dict[str, Line]) -> str:
    """A line for each mutant."""
    return "".join(f"{mutant.name}: {mutant.kind}: {mutant.by}{' (due)' if is_due(mutant, lines) else ''}\n" for mutant in mutants)


def parsed() -> argparse.Namespace:
    parser = argparse.ArgumentParser(description=__doc__, formatter_class=argparse.RawDescriptionHelpFormatter)
    parser.add_argument("names", nargs="*", metavar="NAME", help="a crate, or crate/mutant")
    parser.add_argument("--kind", choices=KINDS, default=CLAUSE, help="the mutants that these must refuse")
    parser.add_argument("--due", action="store_true", help="of them those whose state differs from mutants.lock")
    parser.add_argument("--jobs", type=int, default=2, help="how many proofs run at a time, for --kind proofs (default: 2)")
    parser.add_argument("--changed", action="store_true", help="what the gate tries")
    parser.add_argument("--read", action="store_true", help="plant none")
    parser.add_argument("--list", action="store_true", help="print them")
    return parser.parse_args()


def main() -> int:
    given, lines = parsed(), read_lock()
    mutants, wrong = readable()
    chosen = [it for it in mutants if not given.names or it.crate in given.names or it.name in given.names]
    wrong += [f"there is no mutant {name}" for name in given.names if name not in {part for it in chosen for part in (it.crate, it.name)}]
    wrong += mistakes(chosen, lines, given.changed or given.read)
    if wrong:
        print("\n".join(wrong))
        return 1
    if given.list or given.read:
        print(listed(chosen, lines) if given.list else "", end="")
        return 0
    chosen = [it for it in chosen if it.kind == given.kind and (not given.due or is_due(it, lines))]
    if given.changed:
        names = due(chosen, lines)
        chosen = [it for it in chosen if it.crate in names]
    if not chosen:
        print("there is no mutant to try")
        return 0
    if given.kind == CLAUSE:
        return by_prover(chosen, bool(given.names))
    if given.kind == PROOFS:
        return keep(proofs.run(chosen, given.jobs))
    return keep(crate_tests.run(chosen) if given.kind == CRATE_TESTS else program_tests.run(chosen))


if __name__ == "__main__":
    sys.exit(main())
