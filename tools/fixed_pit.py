#!/usr/bin/env python3
"""The best pit of a small mine that keeps to a fixed file, by the definition alone: every set of its blocks is tried.

    tools/fixed_pit.py --model MODEL --prec PREC --fixed FILE

A set may be dug where it holds whatever its blocks need, every block forced in, and no barred one. Of those the pit has the greatest
worth, and of several the smallest. The fixed file is refused by its first fault, or where a barred block must be dug (status 1); the
model and the precedence file are taken to be lawful, and of 20 blocks at most.
"""

import argparse
import pathlib
import sys

from check_certificate import closure, read_mine, rows_of
from replay_journal import pit_text

WORDS = {3: "wrong header", 5: "not a whole number", 7: "id out of place", 11: "wrong number of fields"}
Fault = type("Fault", (Exception,), {})
Pairs = list[tuple[int, int]]


def demand(holds: bool, number: int, line: int) -> None:
    if not holds:
        raise Fault(f"error {number}: {WORDS[number]} in fixed line {line}\n")


def read_fixed(text: bytes, blocks: int) -> tuple[set[int], set[int]]:
    """The blocks forced in, and those that are barred."""
    found: dict[bytes, set[int]] = {b"in": set(), b"out": set()}
    last = -1
    for line, fields in rows_of(text)[0]:
        demand(len(fields) == 2, 11, line)
        demand(fields[0] in found, 3, line)
        demand(len(fields[1]) <= 10 and all(48 <= byte <= 57 for byte in fields[1]), 5, line)
        demand(last < int(fields[1]) < blocks, 7, line)
        last = int(fields[1])
        found[fields[0]].add(last)
    return found[b"in"], found[b"out"]


def best_pit(values: list[int], pairs: Pairs, forced: set[int], barred: set[int]) -> set[int]:
    """The smallest of the best sets that may be dug. There is one: two best sets have a best one in common."""
    best: tuple[int, int, set[int]] | None = None
    for number in range(1 << len(values)):
        pit = {block for block in range(len(values)) if number >> block & 1}
        if forced <= pit and not barred & pit and all(p in pit for u, p in pairs if u in pit):
            rank = (sum(values[block] for block in pit), -len(pit), pit)
            best = rank if best is None or rank[:2] > best[:2] else best
    assert best
    return best[2]


def answer(model: bytes, prec: bytes, fixed: bytes) -> tuple[str, str, int]:
    """What goes to standard output and to standard error, and the exit status."""
    values, pairs = read_mine(model, prec)
    try:
        forced, barred = read_fixed(fixed, len(values))
    except Fault as fault:
        return "", str(fault), 1
    if clash := closure(forced, pairs) & barred:
        return "", f"error 21: fixed blocks clash at block {min(clash)}\n", 1
    return pit_text(values, best_pit(values, pairs, forced, barred)), "", 0


def main() -> int:
    parser = argparse.ArgumentParser(description=__doc__, formatter_class=argparse.RawDescriptionHelpFormatter)
    for option in ("model", "prec", "fixed"):
        parser.add_argument(f"--{option}", required=True, type=pathlib.Path, metavar="FILE")
    given = parser.parse_args()
    out, err, status = answer(*(file.read_bytes() for file in (given.model, given.prec, given.fixed)))
    sys.stdout.write(out)
    sys.stderr.write(err)
    return status


if __name__ == "__main__":
    sys.exit(main())
