"""Solves the scenarios that have no result yet: over Dask, or by lists of jobs that others start.

All realisations are read before any scenario is solved, so that an error in the last one cannot stop a run half-way. Results are files: a
scheduler passes only a number to a task and a status back. The lists for Slurm and GNU parallel are text, which you can edit before you
submit it.
"""

from __future__ import annotations

import shlex
import sys
from dataclasses import dataclass
from pathlib import Path
from typing import Optional

from pitplan.config.project import Project
from pitplan.core.atomic_files import staged_file
from pitplan.core.paths import PACKAGES
from pitplan.core.progress import Progress
from pitplan.core.revenue_factors import BASE_PRICE, factor_text, factor_texts
from pitplan.errors import PlanError
from pitplan.solver import choice
from pitplan.solver.choice import Solver
from pitplan.studies import dask_pool

from . import prepare, store, worker
from .store import PIT, Scenario, Shared


@dataclass(frozen=True)
class Request:
    """How to solve scenarios, and which of the answers to gather.

    Attributes
    ----------
    where : str
        `local`, the address of a Dask scheduler, `slurm` or `parallel`.
    workers : int, optional
        The number of processes of `local`; 0 solves in a thread of this one. Default: one for each processor.
    revenue_factor : float, optional
        The shell whose probabilities are drawn. Default: the project's selected one, otherwise 1.0.
    partial : bool
        Gather even if scenarios have no result.
    by : str
        `pit`, or `block`: schedule the blocks of each scenario, and make one schedule for all.
    """

    where: str = "local"
    workers: Optional[int] = None
    revenue_factor: Optional[float] = None
    partial: bool = False
    by: str = PIT


# Scenarios as lists of jobs: a Slurm array, and a list for GNU parallel.
#
# Both run `scenario.sh NUMBER`. It ends with the status of `pitplan scenario`: 0 to 5 are final, and any other means
# that the program or its process was killed, so that the scenario is tried again.
#
# A folder may have any name that Slurm does not take as a pattern. The scripts quote it for the shell that reads
# them. GNU parallel passes its words to a second shell, so the folder reaches that one by the environment. Python is
# run with -P, since it would otherwise import modules from the folder in which the script is started.

SCRIPT, ARRAY, GATHER, START, JOBS, LOG = (
    "scenario.sh",
    "array.sbatch",
    "gather.sbatch",
    "start.sh",
    "jobs.txt",
    "joblog.txt",
)
TRIES = 3
# Slurm's default limit (MaxArraySize 1001).
MOST_TASKS = 1000

ONE = """#!/bin/sh
# Solves one scenario of this folder, by its number.
# 0: its answer stands. 1 to 4: the solver's own status. 5: pitplan refused. Others: killed, to be tried again.
{variable}={solver} PYTHONPATH={packages} exec {python} -P -m pitplan scenario {folder} "$1"
"""

SLURM = """#!/bin/sh
#SBATCH --job-name=pitplan
#SBATCH --array=1-{tasks}
#SBATCH --ntasks=1
#SBATCH --cpus-per-task=1
#SBATCH --requeue
#SBATCH --open-mode=append
#SBATCH --output={slurm_log}
# Of the {count} lines of {jobs} a task takes that of its own number and each {tasks}th after it. A node that dies gives its
# tasks back to Slurm (--requeue); a task of which a program was killed gives itself back, {tries} times at most.
status=0
for line in $(seq "$SLURM_ARRAY_TASK_ID" {tasks} {count}); do
    sh {script} "$(sed -n "${{line}}p" {jobs})"
    ended=$?
    [ "$ended" -le "$status" ] || status=$ended
done
if [ "$status" -gt 5 ] && [ "${{SLURM_RESTART_COUNT:-0}}" -lt {tries} ]; then
    echo "ended with status $status: tried again"
    scontrol requeue "${{SLURM_ARRAY_JOB_ID}}_${{SLURM_ARRAY_TASK_ID}}"
    # Slurm ends this task now; were it to end by itself first, it would count as done.
    sleep 60
fi
exit "$status"
"""

SLURM_GATHER = """#!/bin/sh
#SBATCH --job-name=pitplan-gather
#SBATCH --ntasks=1
#SBATCH --output={gather_log}
PYTHONPATH={packages} exec {python} -P -m pitplan gather {folder}
"""

SLURM_START = """#!/bin/sh
# Puts the array into the queue, and the gathering behind it, which says what is missing where a scenario has no answer.
set -eu
array=$(sbatch --parsable "$@" {array})
sbatch --dependency="afterany:$array" "$@" {gather}
"""

PARALLEL = """#!/bin/sh
# Solves the scenarios of {jobs}, as many at once as there are processors; options of GNU parallel may follow, such as
# --jobs 8 or --sshloginfile FILE. Run again, it does those alone that {log} does not name as done.
set -u
PITPLAN_SCENARIO={script}
export PITPLAN_SCENARIO
try() {{
    parallel -q --env PITPLAN_SCENARIO --joblog {log} --resume-failed "$@" sh -c 'exec sh "$PITPLAN_SCENARIO" "$1"' - {{}} :::: {jobs}
}}
for round in $(seq {tries}); do
    try "$@"
    # Columns 7 and 8 are the exit status and the signal. Statuses 1 to 5 would come again.
    awk 'NR > 1 {{ ends[$1] = $7 > 5 || $8 > 0 }} END {{ for (job in ends) killed += ends[job]; exit killed > 0 }}' {log} && break
done
PYTHONPATH={packages} exec {python} -P -m pitplan gather {folder}
"""


def write(kind: str, folder: Path, scenarios: list[Scenario], solver: Solver) -> Path:
    """Writes the scripts of `slurm` or `parallel`; returns the one to start. Raises PlanError if a script cannot name the folder."""
    folder = folder.resolve()
    demand_writable(kind, str(folder))
    words = words_of(folder, len(scenarios), solver)
    texts = {JOBS: "".join(f"{scenario.number}\n" for scenario in scenarios), SCRIPT: ONE.format(**words)}
    if kind == "slurm":
        texts |= {
            ARRAY: SLURM.format(**words),
            GATHER: SLURM_GATHER.format(**words),
            START: SLURM_START.format(**words),
        }
    else:
        texts[START] = PARALLEL.format(**words)
    for name, text in texts.items():
        with staged_file(folder / name) as path:
            path.write_text(text, encoding="utf-8")
            path.chmod(0o644 if name == JOBS else 0o755)
    return folder / START


def demand_writable(kind: str, folder: str) -> None:
    """Raises PlanError if a script cannot name the folder, or Slurm would take a character of it as a pattern."""
    if "\n" in folder or (kind == "slurm" and any(sign in folder for sign in "%\\")):
        others = ", a % or a backslash" if kind == "slurm" else ""
        raise PlanError(
            f"{folder!r}: a folder of jobs may not have a line's end{others} in its name: name another by --out"
        )
    try:
        folder.encode()
    except UnicodeEncodeError as error:
        raise PlanError(f"{folder!r}: a folder of jobs must have a name in UTF-8: name another by --out") from error


def slurm_word(text: str) -> str:
    """Returns a word of an #SBATCH line in double quotes, within which a backslash escapes the next character."""
    return '"' + text.replace("\\", "\\\\").replace('"', '\\"') + '"'


def words_of(folder: Path, count: int, solver: Solver) -> dict[str, object]:
    """Returns the fields of the scripts: paths, quoted for the shell, or for Slurm in its own lines."""
    variable, file = choice.place_of(solver)
    paths = {
        "python": Path(sys.executable),
        "packages": PACKAGES,
        "solver": file.resolve(),
        "folder": folder,
        "jobs": folder / JOBS,
        "log": folder / LOG,
        "script": folder / SCRIPT,
        "array": folder / ARRAY,
        "gather": folder / GATHER,
    }
    quoted: dict[str, object] = {name: shlex.quote(str(path)) for name, path in paths.items()}
    logs = {"slurm_log": slurm_word(f"{folder}/slurm-%a.log"), "gather_log": slurm_word(f"{folder}/gather.log")}
    return {**quoted, **logs, "variable": variable, "count": count, "tasks": min(count, MOST_TASKS), "tries": TRIES}


@dataclass(frozen=True)
class Solved:
    """How far the scenarios of a folder are solved.

    Attributes
    ----------
    notes : tuple of str
        Sentences for the planner.
    start : Path, optional
        The script to start, for `slurm` and `parallel`, if scenarios have no result yet.
    """

    notes: tuple[str, ...]
    start: Optional[Path] = None


def solve(project: Project, folder: Path, request: Request, progress: Progress) -> Solved:
    """Solves the scenarios that have no result yet, or writes the lists of jobs that do so.

    Raises
    ------
    PlanError
        If the project or a realisation is not usable, or a scenario ends without a result and the request is not partial.
    MissingPackage
        Without Dask if it is required, or by block without the library.
    """
    if request.by == store.BLOCK:
        demand_no_factor(request)
    shared = prepare.prepare(project, folder, progress, request.by)
    # Refused before hours of solving, not after them.
    if not shared.is_by_block:
        shown_factor(shared, request)
    missing, count = shared.missing(), len(shared.jobs)
    notes = [
        *shared.record["notes"],
        f"{count - len(missing):,} of {count:,} {shared.called} have a result already",
    ]
    if request.where in ("slurm", "parallel"):
        start = write(request.where, folder, missing, shared.solver) if missing else None
        return Solved(tuple(notes), start)
    if missing:
        outcomes = dask_pool.run(dask_pool.Where(request.where, request.workers), folder, missing, progress)
        ended = notes_of_outcomes(outcomes)
        if any(outcome.status for outcome in outcomes) and not request.partial:
            raise PlanError(f"{'; '.join(ended)}: run again, or gather the others with --partial")
        notes += ended
    return Solved(tuple(notes))


def notes_of_outcomes(outcomes: list[worker.Outcome]) -> list[str]:
    """How many scenarios ended with each status, with the first reason if it is not 0."""
    words = {0: "solved", 1: "refused by the solver", 2: "not understood by the program", 3: "out of budget"}
    words |= {4: "answered no", worker.REFUSED: "refused by pitplan", worker.LOST: "killed repeatedly"}
    notes = []
    for status, said in words.items():
        ended = [outcome for outcome in outcomes if outcome.status == status]
        if ended:
            notes.append(f"{len(ended):,} {said} (status {status})" + (f": {ended[0].why}" if status else ""))
    return notes


def demand_no_factor(request: Request) -> None:
    """Raises PlanError if a factor to draw is given: schedules by block have none."""
    if request.revenue_factor is not None:
        raise PlanError("--revenue-factor: schedules by block are at the base price: remove it")


def shown_factor(shared: Shared, request: Request) -> float:
    """The factor whose probabilities are drawn. Raises PlanError if no scenario was solved at it."""
    factors = list(shared.record["revenue_factors"])
    factor = request.revenue_factor or shared.project.shells.selected or BASE_PRICE
    if factor not in factors:
        raise PlanError(
            f"revenue factor {factor_text(factor)} is not among the revenue factors {factor_texts(factors)}"
        )
    return factor
