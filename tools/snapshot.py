#!/usr/bin/python3
"""Runs every command over the examples and a small deposit, and compares two such snapshots, so that a change of structure keeps all results.

    tools/snapshot.py take FOLDER [--tree TREE]   runs the commands of a checkout (default: this one) into a new folder
    tools/snapshot.py compare BEFORE AFTER        names file, row and column of what differs; status 1 if anything does

Tables are compared field by field, JSON and TOML key by key; of other files the bytes, if they have no times. The folder of a snapshot, and names of
cached answers, which are hashes of the project, are no differences.
"""
import argparse
import csv
import hashlib
import itertools
import json
import math
import pathlib
import random
import shutil
import subprocess
import sys
import tomllib
from collections.abc import Iterator
from typing import Any

TOP = pathlib.Path(__file__).resolve().parent.parent
# Each command by its name, with the words behind the project.
COMMANDS = {
    "shells": ["shells"],
    "pushbacks": ["pushbacks"],
    "schedule": ["schedule"],
    "certified": ["schedule", "--certificate"],
    "by_block": ["schedule", "--by", "block"],
    "sensitivity": ["sensitivity"],
    "scenarios": ["scenarios", "--workers", "2"],
}
# What a run writes after another: each is run on the folder of that, and writes beside it.
ON_FOLDERS = {"report": "schedule", "export": "schedule", "verify": "schedule"}
# Files with times, versions or machines in them, and keys of JSON that have these.
OTHER = (".html", ".xlsx", ".pdf", ".png", ".svg")
KEYS = ("key", "started", "seconds", "ended", "versions", "program", "library", "host", "files", "peak_memory")
DEPOSIT = """title = "A small deposit"
[table]
file = "blocks.csv"
rock_type = "rock"
[economics]
mining_cost = { OX = 1.9, SU = 2.2 }
mining_cost_per_bench = 0.04
processing_cost = 9
royalty = 0.02
capex = [[1, 20_000]]
[[metals]]
name = "copper"
column = "cu"
unit = "percent"
price = 8000
selling_cost = 300
recovery = { OX = 0.7, SU = [[0, 0.6], [1, 0.9]] }
[slopes]
[[slopes.domains]]
azimuths = [[0, 45], [90, 50], [180, 40]]
[shells]
revenue_factors = { from = 0.5, to = 1.2, step = 0.1 }
discount_rate = 0.08
processing_capacity = 12_000
mining_capacity = 60_000
[pushbacks]
count = 2
[schedule]
bench_lag = 1
ramp_up = [0.5, 1]
[[schedule.stockpiles]]
name = "low"
reclaim_cost = 0.8
capacity = 20_000
[[dumps]]
name = "north"
cost = 0.1
[cash_flow]
closure_cost = 5000
tax_rate = 0.25
[sensitivity]
changes = [-0.1, 0.1]
parameters = ["price", "mining_cost", "slopes"]
"""


def deposit(folder: pathlib.Path) -> None:
    """Writes a block model of 8 x 8 x 5 blocks with two rock types and a project: the same one each time."""
    folder.mkdir(parents=True)
    chance = random.Random(1)
    lines = ["x,y,z,tonnes,rock,cu"]
    for x, y, z in itertools.product(range(8), range(8), range(5)):
        distance = math.hypot(x - 3.5, y - 4.2, z - 1.5)
        grade = max(0.0, 1.6 - 0.35 * distance + chance.uniform(-0.2, 0.2))
        lines.append(f"{10 * x + 5},{10 * y + 5},{10 * z + 5},{2700 if z > 2 else 2500},{'OX' if z > 2 else 'SU'},{grade:.3f}")
    (folder / "blocks.csv").write_text("\n".join(lines) + "\n", encoding="utf-8")
    (folder / "project.toml").write_text(DEPOSIT, encoding="utf-8")


def take(folder: pathlib.Path, tree: pathlib.Path) -> None:
    inputs = folder / "inputs"
    shutil.copytree(tree / "examples", inputs)
    deposit(inputs / "deposit")
    for project in sorted(inputs.glob("*/project.toml")):
        name = project.parent.name
        for command, words in COMMANDS.items():
            run(tree, [*words, project, "--out", folder / name / command, "--no-figures"], folder / name / f"{command}.txt")
        for command, on in ON_FOLDERS.items():
            to = {"export": ["--to", "csv"]}.get(command, [])
            run(tree, [command, folder / name / on, *to], folder / name / f"{command}.txt")


def run(tree: pathlib.Path, words: list[Any], said: pathlib.Path) -> None:
    """Runs a command, and writes its status and its errors."""
    said.parent.mkdir(parents=True, exist_ok=True)
    done = subprocess.run([tree / "tools" / "pitplan", *words], capture_output=True, text=True, check=False)
    said.write_text(f"status {done.returncode}\n" + (done.stderr if done.returncode else ""), encoding="utf-8")
    print(f"{said.parent.name} {said.stem}: status {done.returncode}")


def differences(before: pathlib.Path, after: pathlib.Path) -> Iterator[str]:
    files = (it.relative_to(root) for root in (before, after) for it in root.rglob("*") if it.is_file())
    names = sorted({str(it) for it in files if it.suffix != ".npz"})
    for name in names:
        one, other = before / name, after / name
        if not (one.is_file() and other.is_file()):
            yield f"{name}: only {'after' if other.is_file() else 'before'}"
        elif one.suffix == ".csv":
            yield from (f"{name} {it}" for it in fields(one, other))
        elif one.suffix in (".json", ".toml"):
            texts = (it.read_text(encoding="utf-8").replace(str(root), "") for it, root in ((one, before), (other, after)))
            pairs = (dict(leaves(json.loads(it) if one.suffix == ".json" else tomllib.loads(it))) for it in texts)
            yield from (f"{name} {it}" for it in values(*pairs))
        elif one.suffix not in OTHER and digest(one, before) != digest(other, after):
            yield f"{name}: other bytes"


def digest(path: pathlib.Path, root: pathlib.Path) -> str:
    """The hash of a file without the name of the snapshot's folder."""
    return hashlib.sha256(path.read_bytes().replace(str(root).encode(), b"")).hexdigest()


def fields(one: pathlib.Path, other: pathlib.Path) -> Iterator[str]:
    """Yields the fields of two tables that differ, by row from 1 and column."""
    if one.read_bytes() == other.read_bytes():
        return
    tables = [list(csv.reader(it.read_text(encoding="utf-8").splitlines())) for it in (one, other)]
    if tables[0][:1] != tables[1][:1]:
        yield f"columns: {tables[0][:1]} and {tables[1][:1]}"
    for number, (row, changed) in enumerate(itertools.zip_longest(*(it[1:] for it in tables), fillvalue=[]), 1):
        for column, a, b in itertools.zip_longest(tables[0][0], row, changed, fillvalue=""):
            if a != b:
                yield f"row {number} column {column}: {a} and {b}"


def leaves(value: Any, name: str = "") -> Iterator[tuple[str, Any]]:
    if isinstance(value, dict):
        for key, it in value.items():
            if key not in KEYS:
                yield from leaves(it, f"{name}.{key}")
    elif isinstance(value, list):
        for number, it in enumerate(value):
            yield from leaves(it, f"{name}[{number}]")
    else:
        yield name, value


def values(one: dict[str, Any], other: dict[str, Any]) -> Iterator[str]:
    for name in dict.fromkeys([*one, *other]):
        if one.get(name) != other.get(name):
            yield f"key {name}: {one.get(name)} and {other.get(name)}"


def main() -> int:
    parser = argparse.ArgumentParser(description=__doc__, formatter_class=argparse.RawDescriptionHelpFormatter)
    subs = parser.add_subparsers(dest="does", required=True)
    sub = subs.add_parser("take")
    sub.add_argument("folder", type=pathlib.Path)
    sub.add_argument("--tree", type=pathlib.Path, default=TOP)
    sub = subs.add_parser("compare")
    sub.add_argument("before", type=pathlib.Path)
    sub.add_argument("after", type=pathlib.Path)
    options = parser.parse_args()
    if options.does == "take":
        take(options.folder.resolve(), options.tree.resolve())
        return 0
    found = [*differences(options.before.resolve(), options.after.resolve())]
    print("\n".join(found[:200]) or "no difference")
    return 1 if found else 0


if __name__ == "__main__":
    sys.exit(main())
