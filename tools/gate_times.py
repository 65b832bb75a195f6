#!/usr/bin/env python3
"""What the gate costs, by crate and pass, and what the proof of each function of a crate costs.

    tools/gate_times.py --results FILE COMMAND ..    runs the command, make test for instance, and writes a table in Markdown; what
                                                     the command prints is passed on, and the exit status is the command's
    tools/gate_times.py --functions CRATE            lists the functions of a crate by the seconds that their proofs took in the last
                                                     rt check --jobs 1 in its folder, for which out/incremental was removed

A crate is proved once ("proof"), once more with its tests if it has any ("tests"), and again for its mutants ("mutants"). Passes are
told apart by the provers that run below the command, whose processor time is read from /proc each second; what a process takes in
its last second is missed.
"""
import argparse
import collections
import datetime
import os
import pathlib
import re
import subprocess
import sys
import threading
import time
from typing import NamedTuple, Optional

from crates import TOP

TICKS = os.sysconf("SC_CLK_TCK")
PASSES = ["proof", "tests", "mutants"]
PYTHON = "tests in Python, and what they start"
# Of what the command prints, these lines are told in the table.
TOLD = re.compile(r"^(rt: ok;.*|\d+ passed, \d+ failed|\d+ mutants are planted.*|=*\s*\d+ passed[ ,].*)$")


class Process(NamedTuple):
    parent: int
    ticks: int
    words: list[str]
    folder: str


def processes() -> dict[int, Process]:
    found = {}
    for entry in pathlib.Path("/proc").iterdir():
        if not entry.name.isdigit():
            continue
        try:
            fields = (entry / "stat").read_bytes().decode(errors="replace").rsplit(")", 1)[1].split()
            words = (entry / "cmdline").read_bytes().decode(errors="replace").split("\0")
            found[int(entry.name)] = Process(int(fields[1]), int(fields[11]) + int(fields[12]), words, os.readlink(entry / "cwd"))
        except OSError:
            continue
    return found


def lineage(pid: int, found: dict[int, Process]) -> list[int]:
    """A process and those above it, the nearest first."""
    line = []
    while pid in found and pid not in line:
        line.append(pid)
        pid = found[pid].parent
    return line


def label(line: list[int], found: dict[int, Process]) -> tuple[str, str]:
    """The crate and the pass that a process works for, by itself or by those above it; other work has no pass."""
    for process in (found[pid] for pid in line):
        if "--crate-name" in process.words:
            crate = process.words[process.words.index("--crate-name") + 1]
            if "/rt-edit-" in process.folder:
                return crate, "mutants"
            return crate, "tests" if "--test" in process.words else "proof"
        if "pytest" in process.words:
            return PYTHON, ""
    return "all else", ""


class Spent:
    """Processor ticks by crate and pass of all that ran below a process."""

    def __init__(self, top: int) -> None:
        self.top, self.ticks = top, collections.Counter()
        self.last: dict[int, int] = {}

    def look(self) -> None:
        found = processes()
        for pid in found:
            line = lineage(pid, found)
            if self.top in line:
                self.ticks[label(line, found)] += found[pid].ticks - self.last.get(pid, 0)
                self.last[pid] = found[pid].ticks

    def seconds(self, crate: str, one: Optional[str] = None) -> float:
        return sum(ticks for (name, of), ticks in self.ticks.items() if name == crate and one in (None, of)) / TICKS


def run(command: list[str]) -> tuple[int, Spent, list[str]]:
    """Runs a command: its status, what it took, and what it told."""
    told: list[str] = []
    with subprocess.Popen(command, cwd=TOP, stdout=subprocess.PIPE, stderr=subprocess.STDOUT, text=True, errors="replace") as ran:

        def pass_on() -> None:
            for line in ran.stdout:
                print(line, end="", flush=True)
                if TOLD.match(line.strip()):
                    told.append(line.strip().strip("= "))

        reader = threading.Thread(target=pass_on)
        reader.start()
        spent = Spent(ran.pid)
        while ran.poll() is None:
            spent.look()
            time.sleep(1)
        reader.join()
    return ran.returncode, spent, told


def table(command: list[str], minutes: float, status: int, spent: Spent, told: list[str]) -> str:
    crates = sorted({crate for crate, one in spent.ticks if one}, key=lambda it: -spent.seconds(it))
    toolchain = subprocess.run(["rt", "version"], capture_output=True, text=True, check=True).stdout.strip()
    whole = sum(spent.ticks.values()) / TICKS
    rows = [f"# The gate, {datetime.date.today()}", ""]
    rows += [f"`{' '.join(command)}`, by {toolchain}: {minutes:.0f} minutes on {len(os.sched_getaffinity(0))} processors, "]
    rows[-1] += f"{whole / 60:.0f} processor minutes, status {status}. Written by `tools/gate_times.py`."
    rows += ["", *[f"    {it}" for it in told], "", "Processor seconds:", "", f"| crate | {' | '.join(PASSES)} | all |", "|---|---|---|---|---|"]
    for crate in crates:
        seconds = [spent.seconds(crate, one) for one in PASSES]
        rows.append(f"| {crate} | " + " | ".join(f"{it:.0f}" for it in [*seconds, sum(seconds)]) + " |")
    sums = [sum(spent.seconds(crate, one) for crate in crates) for one in PASSES]
    rows.append("| all crates | " + " | ".join(f"{it:.0f}" for it in [*sums, sum(sums)]) + " |")
    rows += [f"| {name} | | | | {spent.seconds(name):.0f} |" for name in (PYTHON, "all else") if spent.seconds(name)]
    return "\n".join(rows) + "\n"


def function_of(module: str) -> str:
    """The function that a checked module belongs to: its name without the parts that the prover adds behind it."""
    parts = module.split(".")
    while len(parts) > 1 and (parts[-1] == "decls" or parts[-1][0].isupper()):
        parts.pop()
    return ".".join(parts)


def functions(crate: str) -> list[tuple[float, str]]:
    """The seconds between each file that a check at one job left and the file before it, by function."""
    modules = sorted((TOP / "crates" / crate / "out" / "incremental").rglob("*.oantt"), key=lambda it: it.stat().st_mtime_ns)
    seconds: collections.Counter[str] = collections.Counter()
    for before, module in zip(modules, modules[1:]):
        function = function_of(module.stem.removeprefix(f"Rattle-{crate}-").removeprefix("proofs."))
        seconds[function] += (module.stat().st_mtime_ns - before.stat().st_mtime_ns) / 1e9
    return [(took, name) for name, took in seconds.most_common()]


def main() -> int:
    parser = argparse.ArgumentParser(description=__doc__, formatter_class=argparse.RawDescriptionHelpFormatter)
    parser.add_argument("--results", type=pathlib.Path, metavar="FILE")
    parser.add_argument("--functions", metavar="CRATE")
    parser.add_argument("command", nargs=argparse.REMAINDER)
    given = parser.parse_args()
    if given.functions:
        print("\n".join(f"{took:7.1f}  {name}" for took, name in functions(given.functions) if took >= 1))
        return 0
    if given.results is None or not given.command:
        parser.error("--results FILE COMMAND .. or --functions CRATE")
    began = time.monotonic()
    status, spent, told = run(given.command)
    given.results.parent.mkdir(parents=True, exist_ok=True)
    given.results.write_text(table(given.command, (time.monotonic() - began) / 60, status, spent, told))
    return status


if __name__ == "__main__":
    sys.exit(main())
