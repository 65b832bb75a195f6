"""Rules of the verification, each with what holds and the differences found."""

from __future__ import annotations

import math
from collections.abc import Callable, Mapping
from dataclasses import dataclass
from typing import Any

# The most differences of a rule that are reported.
TOLD = 10


@dataclass(frozen=True)
class Rule:
    """A verified statement.

    Attributes
    ----------
    name : str
    holds : str
        The statement.
    differences : tuple of str
        The first ten differences; a rule without any holds.
    count : int
        The number of differences.
    """

    name: str
    holds: str
    differences: tuple[str, ...] = ()
    count: int = 0


# Checks by the name of their rule, or of the first of several, which they return when they are called.
Checks = Mapping[str, Callable[[], list[Rule]]]


def rules_of(checks: Checks) -> list[Rule]:
    """Runs all checks."""
    return [found for run in checks.values() for found in run()]


def rule(name: str, holds: str, differences: list[str], count: int | None = None) -> Rule:
    return Rule(name, holds, tuple(differences[:TOLD]), len(differences) if count is None else count)


def unlike(
    where: str, said: Mapping[str, Any], due: Mapping[str, float], slack: Callable[[str, float], float]
) -> list[str]:
    """Returns the amounts that differ by more than `slack` gives for a name and an amount; nan is equal to nan."""
    found = []
    for name, amount in due.items():
        there = float(said[name])
        if not (abs(there - amount) <= slack(name, amount) or math.isnan(there) and math.isnan(amount)):
            found.append(f"{where}: {name} {there:.12g} for {amount:.12g}")
    return found


def as_lines(rules: list[Rule]) -> list[str]:
    """Returns the lines that a command prints if all rules hold: each rule, then the verdict."""
    return [*(f"{rule.name}: {rule.holds}" for rule in rules), f"verified: all {len(rules)} rules hold"]
