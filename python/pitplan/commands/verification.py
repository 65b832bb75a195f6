"""The independent verification of what commands write, by the package `planaudit`: of a large model in a process of its own, which reads the planner's table while the run solves."""

from __future__ import annotations

import json
import os
import subprocess
import sys
from collections.abc import Callable, Iterator
from contextlib import contextmanager, suppress
from pathlib import Path
from typing import TYPE_CHECKING, Union

import planaudit
from pitplan.core import paths
from pitplan.core.atomic_files import write_json
from pitplan.core.processes import cores
from pitplan.core.progress import Progress
from pitplan.results import names
from planaudit import AuditError, PackageError, Rule

from ..errors import MissingPackage, PlanError

if TYPE_CHECKING:
    from .writing import Run

__all__ = ["Rule", "as_plan_errors", "demand", "verified"]


@contextmanager
def as_plan_errors() -> Iterator[None]:
    """Raises PlanError in place of an error of the audit, and MissingPackage if it lacks a package."""
    try:
        yield
    except PackageError as error:
        raise MissingPackage(error.text, error.details) from error
    except AuditError as error:
        raise PlanError(error.text, error.details) from error


def demand(rules: list[Rule]) -> None:
    """Raises PlanError with the first differences, if there are any."""
    with as_plan_errors():
        planaudit.demand(rules)


def verified(check: Callable[[], list[Rule]], progress: Progress) -> list[str]:
    """Recalculates results independently; returns the rules that hold, each with its name. Raises PlanError if a result differs."""
    with progress.step("verifying"), as_plan_errors():
        rules = check()
        planaudit.demand(rules)
    return [f"{rule.name}: {rule.holds}" for rule in rules]


# A model of this number of blocks takes longer to verify than another process takes to start.
APART = 100_000


def is_apart(blocks: int) -> bool:
    """Returns whether a model of this number of blocks is verified in a process of its own."""
    return blocks >= APART and cores() > 1


class AuditProcess:
    """A process that reads the project and the table of a run, and verifies its results when they are staged. The stage holds the project as it is
    run."""

    def __init__(self, stage: Path) -> None:
        words = [sys.executable, "-P", "-m", "planaudit", "--json", "--wait", "--final", str(stage.parent), str(stage)]
        beside = os.pathsep.join([str(paths.PACKAGES), *filter(None, [os.environ.get("PYTHONPATH")])])
        # A session of its own, so that an interruption from the keyboard reaches this process alone, which ends the other.
        self.child = subprocess.Popen(
            words,
            stdin=subprocess.PIPE,
            stdout=subprocess.PIPE,
            stderr=subprocess.PIPE,
            text=True,
            env={**os.environ, "PYTHONPATH": beside},
            start_new_session=True,
        )

    def begin(self) -> None:
        """Lets it verify what is staged."""
        # One that has ended says why in its last words.
        with suppress(OSError):
            print(file=self.child.stdin, flush=True)

    def rules(self) -> list[Rule]:
        """Waits for its end and returns the rules. Raises AuditError as `planaudit.verify` does, and PlanError if it ends without a result."""
        printed, said = self.child.communicate()
        try:
            found = json.loads(printed)
        except ValueError as error:
            last = (said.strip().splitlines() or ["nothing on standard error"])[-1]
            why = f"the verification ended with status {self.child.returncode}: {last}"
            raise PlanError(f"{why}: free some memory, or leave it out with --no-verify") from error
        if "error" in found:
            raise (PackageError if found["package"] else AuditError)(found["error"], found["details"])
        return [Rule(it["name"], it["holds"], tuple(it["differences"]), it["count"]) for it in found["rules"]]

    def close(self) -> None:
        """Ends it, unless it has ended."""
        self.child.kill()
        # Pipes that are closed already cannot be read.
        with suppress(ValueError):
            self.child.communicate()


@contextmanager
def verifying(run: Run) -> Iterator[None]:
    """Recalculates all staged results independently, of a large model while the body draws and writes, and records the rules that hold. Raises
    PlanError if a rule does not hold, or the verification ends without a result, and MissingPackage if a package that reads an input is not
    installed."""
    record, stage, progress = run.record, run.stage, run.writing.progress
    record["project"] = os.path.relpath(run.project.path, stage.parent)
    record["verified"] = []
    if not run.writing.verifies:
        yield
        return
    write_json(stage / names.RECORD, record)
    if run.audit is None:
        record["verified"] = verified(lambda: planaudit.verify(stage, stage.parent), progress)
        yield
        return
    run.audit.begin()
    yield
    record["verified"] = verified(run.audit.rules, progress)


def verify(folder: Union[str, Path]) -> list[Rule]:
    """Recalculates every number of a folder of shells, of a pit, of a sensitivity or of scenarios independently.

    Returns
    -------
    list of Rule
        Each with the words of the rule in `holds`, the first ten places that differ in `differences`, and their number in `count`.

    Raises
    ------
    PlanError
        If the folder has no answer, or the table has changed since the run.
    """
    with as_plan_errors():
        return planaudit.verify_folder(Path(folder))
