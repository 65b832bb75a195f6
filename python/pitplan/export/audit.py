"""A folder by which others can check one shell, with the program and without it.

The shell of revenue factor f is the pit of the mine whose values are `f * revenue - cost`. In money these have up to nine decimals, but a model
has six, so they are written times 1,000, exactly.

A folder that the program solved has the files of the mine. If the library solved, they are written here from the project that was run and its
table, which must be unchanged. In both cases the program finds the audited pit, which must be the shell of the folder.
"""

from __future__ import annotations

import shutil
from dataclasses import replace
from decimal import Decimal
from pathlib import Path

import numpy as np
import pandas as pd

from pitplan import constraints
from pitplan.core import paths
from pitplan.core.atomic_files import hashes, read_json, write_json
from pitplan.core.layout import SOLVER
from pitplan.core.progress import Progress
from pitplan.core.revenue_factors import factor_text, with_exact_factors
from pitplan.errors import PlanError
from pitplan.export.planner_table import project_of
from pitplan.plan import prepared
from pitplan.results import names
from pitplan.results.folder import Folder
from pitplan.solver import mine_files, program
from pitplan.solver.problem import values_at

CHECKER = paths.checker()
MODEL, PREC, FIXED, CERTIFICATE = "shell.upit", "shell.prec", "shell.fixed", "shell.cert"
PIT, RECORD, SCRIPT, HASHES = "pit.txt", "audit.json", "check.sh", "hashes.txt"
# All files of the folder; FIXED only if the mine has fixed blocks.
FILES = (MODEL, PREC, FIXED, CERTIFICATE, PIT, RECORD, SCRIPT, HASHES, CHECKER.name)

CHECK_SCRIPT = """#!/bin/sh
# Checks the shell of revenue factor {factor} of "{title}": the files' hashes, then the certificate by the proved program, then by
# a short program in Python that shares nothing with it. PITSHELL names the program, PYTHON the interpreter.
set -eu
program=${{PITSHELL:-pitshell}}
case $program in
/*) ;;
*/*) program=$PWD/$program ;;
esac
cd "$(dirname "$0")"
sha256sum --check --quiet {hashes}
echo "hashes: yes"
printf 'pitshell check: '
missing=0
if command -v "$program" > /dev/null; then
    "$program" check --model {model} --prec {prec} --certificate {certificate}{fixed}
else
    echo "not run: $program not found: install pitshell, or set PITSHELL"
    missing=1
fi
printf 'check_certificate.py: '
# As python -P, which Python before 3.11 does not know: no module is taken from this folder.
PYTHONSAFEPATH=1 "${{PYTHON:-python3}}" check_certificate.py {model} {prec} {certificate}{fixed}
exit $missing
"""


def read_nodes(blocks: Path) -> tuple[np.ndarray, np.ndarray]:
    """Reads a block model; returns revenue and cost of each node, int64, in millionths."""
    columns = pd.read_csv(blocks, sep=" ", header=None, usecols=[4, 5], dtype=str)
    revenue, cost = (np.array([int(Decimal(text).scaleb(6)) for text in columns[k]], dtype=np.int64) for k in (4, 5))
    return revenue, cost


def write_mine(stage: Path, folder: Folder, factor: float, progress: Progress) -> None:
    """Writes model, precedences and, if there are any, fixed blocks at a revenue factor. Raises PlanError if an input has changed since, or a
    value does not fit a model."""
    solver = folder.path / SOLVER
    if f"{SOLVER}/{mine_files.BLOCKS}" in folder.record["files"]:
        nodes = read_nodes(solver / mine_files.BLOCKS)
        for name, copy in ((mine_files.PREC, PREC), (mine_files.FIXED, FIXED)):
            if f"{SOLVER}/{name}" in folder.record["files"]:
                shutil.copyfile(solver / name, stage / copy)
    else:
        project = project_of(folder)
        shells = replace(project.shells, revenue_factors=tuple(folder.record["revenue_factors"]))
        plan = prepared(replace(project, shells=shells), progress=progress)
        nodes = plan.values.nodes()
        mine_files.write_precedences(stage / PREC, plan, plan.precedences)
        if plan.settled is not None:
            constraints.write(stage / FIXED, plan.fixed)
    mine_files.write_model(
        stage / MODEL, f"shell {factor_text(factor)} of {folder.record['title']}", values_at(nodes, factor)
    )


def write(stage: Path, folder: Folder, factor: float, progress: Progress) -> None:
    """Writes the audit of a shell, by its revenue factor, into a stage: model, precedences, certificate, pit, hashes, record, and the script that
    checks them. Raises ProgramError if the program refuses the mine, and PlanError if the audited pit is not the shell of the plan, or an input of a
    plan that the library solved has changed."""
    write_mine(stage, folder, factor, progress)
    shutil.copyfile(CHECKER, stage / CHECKER.name)
    options: list[str | Path] = ["--model", stage / MODEL, "--prec", stage / PREC]
    options += ["--certificate", stage / CERTIFICATE]
    fixed = [FIXED] if (stage / FIXED).exists() else []
    for name in fixed:
        options += ["--fixed", stage / name]
    (stage / PIT).write_bytes(program.call("solve", *options))
    value = demand_same(stage, folder, factor)
    digests = hashes(stage, [MODEL, PREC, *fixed, CERTIFICATE, PIT, CHECKER.name])
    lines = "".join(f"{digest}  {name}\n" for name, digest in digests.items())
    (stage / HASHES).write_text(lines, encoding="ascii")
    record = {
        "title": folder.record["title"],
        "revenue_factor": factor,
        "value_at_revenue_factor": str(value),
        "solver": folder.record["shells"]["solver"],
        "program": program.identity(),
        "files": digests,
        "inputs": folder.record["inputs"],
        "plan": folder.record["files"],
        "not_proved": "how the mine was made from the table",
    }
    write_json(stage / RECORD, record)
    write_script(stage / SCRIPT, folder.record["title"], factor, fixed)


def write_script(path: Path, title: str, factor: float, fixed: list[str]) -> None:
    """Writes the script that checks the folder; `fixed` is the name of the file of fixed blocks, if there is one."""
    words = {
        "factor": factor_text(factor),
        "title": title,
        "hashes": HASHES,
        "model": MODEL,
        "prec": PREC,
        "certificate": CERTIFICATE,
        "fixed": "".join(f" --fixed {name}" for name in fixed),
    }
    path.write_text(CHECK_SCRIPT.format(**words), encoding="utf-8")
    path.chmod(0o755)


def notes(folder: Path) -> list[str]:
    """Returns a warning if another release found the shells than the one that audits them."""
    record = read_json(folder / RECORD)
    found, audited = (record[name]["version"] for name in ("solver", "program"))
    return (
        []
        if found.split()[-1] == audited.split()[-1]
        else [f"WARNING: {found} found the shells, and {audited} audited them"]
    )


def demand_same(stage: Path, folder: Folder, factor: float) -> Decimal:
    """Returns the value of the shell. Raises PlanError if the audited pit has other blocks than blocks.csv, or another value than shells.csv."""
    lines = (stage / PIT).read_text(encoding="ascii").split("\n")
    pit = np.array(lines[4:-1], dtype=np.int64)
    value = Decimal(lines[3].split()[1]) / 1000
    shells = with_exact_factors(pd.read_csv(folder.path / names.SHELLS, dtype={"value_at_revenue_factor": str}))
    shells = shells.set_index("revenue_factor")
    ids, first = folder.blocks["id"].to_numpy(), folder.blocks["revenue_factor"].to_numpy()
    expected = ids[(first > 0) & (first <= factor)]
    if not np.array_equal(np.intersect1d(pit, ids), expected) or value != Decimal(
        shells["value_at_revenue_factor"][factor]
    ):
        raise PlanError(f"{stage / PIT}: the audited pit is not the shell of revenue factor {factor_text(factor)}")
    return value
