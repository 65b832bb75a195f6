#!/usr/bin/python3
"""Lets each request for memory, each read and each write of a run go wrong, one at a time, and compares all that the run leaves.

    tests/sweeps.py [--jobs 2] [--results FILE]      every row in every mode; `make sweep`

The Nth request for memory or the Nth start of a thread is refused, the Nth read or write fails or moves a single byte, for each N
until a run meets none; and signals interrupt each read or each write, so many times that it is made again, and so many that it
fails. What must come then is worked out of the row: its own outcome, or status 1 with one line on standard error that names the
refusal and its source, and no output and no file. The shim is `fail_calls.c`, built by `cc`.
"""

import argparse
import collections
import concurrent.futures
import dataclasses
import itertools
import os
import pathlib
import subprocess
import sys
import tempfile
import time
from collections.abc import Callable

from rows import Row, all_rows

HERE = pathlib.Path(__file__).resolve().parent
PROGRAM = pathlib.Path(os.environ.get("PITSHELL", HERE.parent / "build" / "pitshell")).resolve()

# How often a call that signals interrupt is made before it counts as failed.
MOST_TRIES = 1000
# A whole text of a row is read or written by one call, and a read that gives nothing ends it.
CHUNK = 65536


@dataclasses.dataclass(frozen=True)
class Outcome:
    """All that a run leaves. A file that was not made stands as None."""

    status: int
    out: str
    err: str
    made: tuple[tuple[str, str | None], ...]


@dataclasses.dataclass
class Counts:
    """How many calls of each kind a run made."""

    memory: int = 0
    reads: int = 0
    writes: int = 0
    threads: int = 0


def build_shim(folder: pathlib.Path) -> pathlib.Path:
    shim = folder / "fail_calls.so"
    subprocess.run(["cc", "-shared", "-fPIC", "-O1", "-o", shim, HERE / "fail_calls.c", "-ldl"], check=True)
    return shim


@dataclasses.dataclass(frozen=True)
class Kind:
    """What can go wrong with one call, by its number: the shim's variable, which count says that it was met, and what is due."""

    name: str
    variable: str
    count: str
    due: Callable[[int], list[Outcome]]


class Sweep:
    """A row in a folder of its own, run again and again."""

    def __init__(self, row: Row, shim: pathlib.Path, folder: pathlib.Path) -> None:
        self.row, self.shim, self.folder = row, shim, folder
        for name, text in row.files.items():
            (folder / name).write_text(text)

    def run(self, **settings: int) -> tuple[Outcome, Counts]:
        for name in self.row.made:
            (self.folder / name).unlink(missing_ok=True)
        told = self.folder / "counts"
        told.unlink(missing_ok=True)
        env = {"LD_PRELOAD": str(self.shim), "COUNT_CALLS": str(told), **{name: str(value) for name, value in settings.items()}}
        ran = subprocess.run([PROGRAM, *self.row.words], cwd=self.folder, env=env, capture_output=True, timeout=120)
        made = tuple((name, self.content(name)) for name in self.row.made)
        counts = Counts(*map(int, told.read_text().split())) if told.exists() else Counts()
        return Outcome(ran.returncode, ran.stdout.decode(), ran.stderr.decode(), made), counts

    def content(self, name: str) -> str | None:
        file = self.folder / name
        return file.read_text() if file.exists() else None

    def right(self) -> Outcome:
        return Outcome(self.row.status, self.row.out, self.row.err, tuple(self.row.made.items()))

    def refused(self, line: str) -> Outcome:
        """Status 1 with this line, no output, and no file: one takes its name only after a run that is done."""
        return Outcome(1, "", line, tuple((name, None) for name in self.row.made))

    def by_the_driver(self) -> Outcome:
        """The same where the worker lacked memory, so that the driver, under seat 0, makes the one merger that it left."""
        made = {name: text and text.replace("\n1 0 1\n", "\n0 0 1\n") for name, text in self.row.made.items()}
        return dataclasses.replace(self.right(), made=tuple(made.items()))

    def without_memory(self) -> list[Outcome]:
        """What may come where memory is refused: the run needed none any more, or it is refused."""
        lines = ["error 1: no memory\n"] + ["error 22: no seat\n"] * self.row.is_shared
        return [self.right(), self.by_the_driver()] + [self.refused(line) for line in lines]

    def without_threads(self, number: int) -> list[Outcome]:
        """The workers are started first: one that is not started is a refusal. All else goes on by the threads that there are."""
        if not self.row.is_shared or self.row.status == 1:
            return [self.right()]
        no_seat = self.refused("error 22: no seat\n")
        return [no_seat] if number <= self.row.workers else [no_seat, self.right()]

    def read_sources(self) -> list[str]:
        """The source of each read, in order: a text, and the read that ends it."""
        found = []
        for name, source in self.row.sources:
            found += [source] * (len(self.row.files[name].encode()) // CHUNK + 1 + bool(self.row.files[name]))
        return found

    def unread(self, number: int) -> list[Outcome]:
        return [self.refused(f"error 2: read failed in {source}\n") for source in self.read_sources()[number - 1 : number]]

    def unwritten(self, number: int) -> list[Outcome]:
        """The writes are that of each file, then that to standard output; or that of a refusal alone, which is lost."""
        if self.row.err:
            return [dataclasses.replace(self.right(), err="")]
        return [self.refused("error 18: write failed\n")]

    def silenced(self) -> list[Outcome]:
        """No write is ever made, that of a refusal neither."""
        return [dataclasses.replace(outcome, err="") for outcome in self.unwritten(1)]

    def kinds(self) -> list[Kind]:
        return [
            Kind("memory refused", "FAIL_ALLOC", "memory", lambda _: self.without_memory()),
            Kind("a read fails", "FAIL_READ", "reads", self.unread),
            Kind("a write fails", "FAIL_WRITE", "writes", self.unwritten),
            Kind("a short read", "SHORT_READ", "reads", lambda _: [self.right()]),
            Kind("a short write", "SHORT_WRITE", "writes", lambda _: [self.right()]),
            Kind("a thread refused", "FAIL_THREAD", "threads", self.without_threads),
        ]

    def interruptions(self) -> list[tuple[str, dict[str, int], list[Outcome]]]:
        right = [self.right()]
        often = [
            (f"interrupted {calls}", {variable: times}, right)
            for calls, variable in (("reads", "INTERRUPT_READ"), ("writes", "INTERRUPT_WRITE"))
            for times in (1, 2, MOST_TRIES - 1)
        ]
        always = [
            ("reads interrupted too often", {"INTERRUPT_READ": times}, self.unread(1) if self.row.sources else right)
            for times in (MOST_TRIES, -1)
        ]
        # after the thousandth interruption the next call is made: that which tells of the failure
        always += [("writes interrupted too often", {"INTERRUPT_WRITE": MOST_TRIES}, self.unwritten(1))]
        always += [("writes interrupted for ever", {"INTERRUPT_WRITE": -1}, self.silenced())]
        always += [("no thread starts", {"FAIL_THREAD": -1}, self.without_threads(1))]
        return [("single bytes", {"SHORT_READ": -1, "SHORT_WRITE": -1}, right), *often, *always]


@dataclasses.dataclass
class Result:
    """How many runs there were of each kind, and what was wrong."""

    runs: collections.Counter[str] = dataclasses.field(default_factory=collections.Counter)
    wrong: list[str] = dataclasses.field(default_factory=list)

    def compare(self, name: str, outcome: Outcome, due: list[Outcome]) -> None:
        self.runs[name.partition(":")[0]] += 1
        if outcome not in due:
            self.wrong.append(f"{name}: {outcome}, due: {due}")


def sweep_kind(one: Sweep, kind: Kind, result: Result) -> None:
    """Lets the Nth call of a kind go wrong, for each N until a run makes no such call."""
    refused = 0
    for number in itertools.count(1):
        outcome, counts = one.run(**{kind.variable: number})
        if getattr(counts, kind.count) < number:
            result.compare(f"{kind.name}: none is left at {number}", outcome, [one.right()])
            break
        refused += outcome != one.right()
        result.compare(f"{kind.name}: number {number}", outcome, kind.due(number))
    if kind.count == "memory" and not refused:
        result.wrong.append("no request for memory was refused")


def sweep(row: Row, shim: pathlib.Path, folder: pathlib.Path) -> Result:
    one, result = Sweep(row, shim, folder), Result()
    result.compare("nothing goes wrong", one.run()[0], [one.right()])
    for kind in one.kinds():
        sweep_kind(one, kind, result)
    for name, settings, due in one.interruptions():
        result.compare(f"{name}: {settings}", one.run(**settings)[0], due)
    return result


def table(totals: collections.Counter, rows: int, wrong: int) -> str:
    lines = ["# Sweeps", "", f"`make sweep`, {time.strftime('%Y-%m-%d')}: {rows} rows, {sum(totals.values()):,} runs, {wrong} wrong.", "", "| what goes wrong | runs |", "|---|---|"]
    return "\n".join(lines + [f"| {kind} | {count:,} |" for kind, count in totals.items()]) + "\n"


def main() -> int:
    options = argparse.ArgumentParser(description=__doc__, formatter_class=argparse.RawDescriptionHelpFormatter)
    options.add_argument("--jobs", type=int, default=2, help="how many rows are swept at once")
    options.add_argument("--results", type=pathlib.Path, help="where to write the counts")
    given = options.parse_args()
    totals, wrong = collections.Counter(), []
    with tempfile.TemporaryDirectory() as name, concurrent.futures.ThreadPoolExecutor(given.jobs) as pool:
        shim = build_shim(pathlib.Path(name))
        folders = [pathlib.Path(name) / str(place) for place in range(len(all_rows()))]
        for folder in folders:
            folder.mkdir()
        for row, result in zip(all_rows(), pool.map(lambda row, folder: sweep(row, shim, folder), all_rows(), folders)):
            totals += result.runs
            wrong += result.wrong
            print(f"{row.name}: {sum(result.runs.values())} runs, {len(result.wrong)} wrong", flush=True)
            print("".join(f"    {it}\n" for it in result.wrong), end="", flush=True)
    text = table(totals, len(all_rows()), len(wrong))
    print(text, end="")
    if given.results:
        given.results.write_text(text)
    return 1 if wrong else 0


if __name__ == "__main__":
    sys.exit(main())
