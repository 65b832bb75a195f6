"""Verifies folders: of a plan, of a sensitivity and of scenarios.

What only some folders need is imported by the functions that use it, since the modules of schedules take a tenth of a second.
"""

from __future__ import annotations

from collections.abc import Callable
from decimal import Decimal
from functools import partial
from itertools import zip_longest
from pathlib import Path
from typing import Optional, TypeVar

import pandas as pd

from planaudit.blocks import constraints, missing_blocks, pit_limits, reblocked
from planaudit.errors import AuditError
from planaudit.ground import depletion, slopes
from planaudit.inputs import answer as answers, block_table, hashes
from planaudit.inputs.answer import Answer
from planaudit.inputs.run import Run
from planaudit.money import block_values, haulage
from planaudit.pits import conventions, pushbacks, sums, years
from planaudit.revenue_factors import factor_text
from planaudit.rules import TOLD, Checks, Rule, rule, rules_of
from planaudit.schedules import grade_tonnage

Found = TypeVar("Found")
OF_PITS = {"slopes": slopes.verify, "shells": sums.verify, "values": sums.verify_worth, "years": years.verify}
CHECKS = {
    "blocks": constraints.verify_places,
    "missing blocks": missing_blocks.verify,
    "slopes": slopes.verify,
    "slope error": slopes.verify_steepness,
    "constraints": constraints.verify,
    "money": block_values.verify,
    **OF_PITS,
    "conventions": conventions.verify,
}


def verify(written: Path, folder: Optional[Path] = None, table: Optional[pd.DataFrame] = None) -> list[Rule]:
    """Verifies the files of a plan.

    Parameters
    ----------
    written : Path
        The folder with the files.
    folder : Path, optional
        While a run goes on its output folder, to which the files will be moved.
    table : DataFrame, optional
        The planner's table, as `read_ahead` returns it. Default: it is read.

    Returns
    -------
    list of Rule
        A rule without differences holds.

    Raises
    ------
    AuditError
        If the folder has no results, a table of it lacks a column, or the planner's table has changed since.
    """
    answer = answers.read(written, folder, table)
    try:
        return rules_of(checks_of(answer))
    except KeyError as error:
        raise AuditError(f"{written}: a table has no column {error}: run pitplan again") from error


def read_ahead(written: Path, folder: Path) -> pd.DataFrame:
    """Returns the planner's table of a run whose results are not written yet. Raises AuditError if it cannot be read."""
    try:
        return block_table.read(Run(folder, written).as_run({}))
    except OSError as error:
        raise AuditError(f"{error.filename}: cannot be read: {error.strerror}") from error


def checks_of(answer: Answer) -> Checks:
    """Returns the checks of the results of a plan. They raise KeyError if a table lacks a column, and AuditError as `by_record`."""
    free, found = answer.free, {name: alone(check, answer) for name, check in CHECKS.items()}
    if answer.parts is not None:
        found["reblocked"] = alone(reblocked.verify, answer)
    if "inputs" in answer.record:
        found["inputs"] = alone(hashes.verify, answer)
    found["cuts"] = lambda: depletion.verify_cuts(answer)
    if answer.beyond is not None:
        found["crop"] = alone(pit_limits.verify, answer)
    if answer.project.haulage:
        found["haulage"] = lambda: [haulage.verify(answer, block_values.sample(answer))]
    if free is not None:
        found["without constraints"] = alone(partial(verify_free, free=free), answer)
    if answer.pushbacks is not None:
        found.update(pushbacks.checks_of(answer))
    if grade_tonnage.is_written(answer):
        found["grade tonnage"] = alone(grade_tonnage.verify, answer)
    if answer.is_by_block:
        from planaudit.schedules import block_schedule

        found.update(by_record(block_schedule.checks_of, answer, block_schedule.FILE))
    if answer.schedule is not None:
        from planaudit.schedules import pushback_schedule

        found.update(by_record(pushback_schedule.checks_of, answer, pushback_schedule.FILE))
    return found


def alone(check: Callable[[Answer], Rule], answer: Answer) -> Callable[[], list[Rule]]:
    """Returns the check of a single rule."""
    return lambda: [check(answer)]


def by_record(checks: Callable[[Answer], Checks], answer: Answer, name: str) -> Checks:
    """Returns checks that read a record of their own. Both raise AuditError if a part of it is missing or of another type."""
    found = recorded(lambda: checks(answer), answer, name)
    return {key: recording(run, answer, name) for key, run in found.items()}


def recording(run: Callable[[], list[Rule]], answer: Answer, name: str) -> Callable[[], list[Rule]]:
    return lambda: recorded(run, answer, name)


def recorded(run: Callable[[], Found], answer: Answer, name: str) -> Found:
    """Returns the result of a call. Raises AuditError if a part of the record is missing or of another type."""
    try:
        return run()
    except OSError as error:
        raise AuditError(f"{error.filename}: cannot be read: run pitplan schedule first") from error
    except (LookupError, ValueError, TypeError, AttributeError) as error:
        why = f"{type(error).__name__} {error}"
        raise AuditError(
            f"{answer.folder / name}: does not match the tables of the folder ({why}): run pitplan schedule again"
        ) from error


def verify_free(kept: Answer, free: Answer) -> Rule:
    """Verifies the pit without constraints like the other, and that its value is not smaller, since constraints cannot gain anything."""
    found = [check(free) for check in OF_PITS.values()]
    differences = [f"{rule_of.name}: {difference}" for rule_of in found for difference in rule_of.differences]
    lost = [
        f"revenue factor {factor_text(factor)}: value_at_revenue_factor {free.shells['value_at_revenue_factor'][factor]} is less than with constraints"
        for factor in free.shells.index
        if Decimal(free.shells["value_at_revenue_factor"][factor])
        < Decimal(kept.shells["value_at_revenue_factor"][factor])
    ]
    holds = "without constraints slopes hold, the row of the pit adds up, its value is that of its blocks and no less"
    return rule(
        "without constraints", holds, [*differences, *lost], sum(rule_of.count for rule_of in found) + len(lost)
    )


def verify_sensitivity(written: Path, folder: Path) -> list[Rule]:
    """Verifies a sensitivity with its tables in `written` and the results of its cases in `folder`. Raises AuditError as `verify`."""
    from planaudit.studies import sensitivity

    return sensitivity.verify(written, folder)


def verify_folder(folder: Path) -> list[Rule]:
    """Verifies a folder of scenarios, a sensitivity, or otherwise a plan. Raises AuditError as `verify`, and if an input is missing."""
    try:
        if (folder / "sensitivity.json").is_file():
            return verify_sensitivity(folder, folder)
        return verify_scenarios(folder) if (folder / "scenarios.json").is_file() else verify(folder)
    except OSError as error:
        why = f"{error.filename}: cannot be read: {error.strerror}"
        raise AuditError(f"{why}: put the input back, or run pitplan again without it") from error


def verify_scenarios(folder: Path, written: Optional[Path] = None) -> list[Rule]:
    """Verifies scenarios, of pits or of schedules by block; their tables may be in another folder, `written`. Raises AuditError as `verify`."""
    from planaudit.studies import block_scenarios, scenarios

    if block_scenarios.is_by_block(folder):
        return block_scenarios.verify(folder, written)
    return scenarios.verify(folder, written)


def demand(rules: list[Rule]) -> None:
    """Raises AuditError with ten of the differences, if there are any: the first of each rule, then the second of each, and so on.

    Inputs that have changed come first, since they explain the others.
    """
    rules = sorted(rules, key=lambda rule: rule.name != hashes.NAME)
    by_turns = zip_longest(*(rule.differences for rule in rules))
    told = [f"{rule.name}: {said}" for turn in by_turns for rule, said in zip(rules, turn) if said is not None]
    if told:
        count = sum(rule.count for rule in rules)
        places = "1 discrepancy" if count == 1 else f"{count:,} discrepancies"
        raise AuditError(f"verification failed: {places}:", told[:TOLD])
