"""The library on arrays beside the program on text, on the same mines, each step timed: a pit, for which numpy writes the text; and nested
pits at 12 factors, for which the program's files are there.

Arrays are ready in memory when the clock starts; the answer as arrays, or the program's as text, stops it. Memory is what a process of
its own takes at most, before and after; for the ways by text that of Python alone, without the program's.
"""

import json
import resource
import subprocess
import sys
import tempfile
import time
from decimal import Decimal
from pathlib import Path

import numpy as np
from kit import ROOT, Mine, keep, mine_of, options, parsed

sys.path.insert(0, str(ROOT / "python"))


def arrays_of(mine: Mine) -> Path:
    """The arrays of a mine's files, kept beside them."""
    kept = mine.model.with_suffix(".arrays.npz")
    if not kept.exists():
        lines = mine.model.read_text().splitlines()[4:]
        values = np.array([round(float(line.split()[1]) * 100) * 10_000 for line in lines], dtype=np.int64)
        counts = np.zeros(len(values), dtype=np.int64)
        needs = []
        for line in mine.prec.read_text().splitlines():
            fields = line.split()
            counts[int(fields[0])] = int(fields[1])
            needs.append(np.array(fields[2:], dtype=np.int32))
        indptr = np.concatenate([[0], np.cumsum(counts)]).astype(np.int32)
        money = np.loadtxt(mine.blocks, usecols=(4, 5))
        revenues, costs = np.rint(money * 1e6).astype(np.int64).T
        np.savez(kept, values=values, indptr=indptr, indices=np.concatenate(needs), revenues=revenues, costs=costs)
    return kept


def peak() -> int:
    """In MB."""
    return resource.getrusage(resource.RUSAGE_SELF).ru_maxrss // 1024


def processor() -> float:
    """Processor seconds of this process and of those that it ran."""
    return sum(used.ru_utime + used.ru_stime for used in map(resource.getrusage, (resource.RUSAGE_SELF, resource.RUSAGE_CHILDREN)))


class Clock:
    def __init__(self) -> None:
        self.processor = processor()
        self.steps: dict[str, float] = {}
        self.last = time.perf_counter()

    def step(self, name: str) -> None:
        now = time.perf_counter()
        self.steps[name] = now - self.last
        self.last = now

    def taken(self) -> dict:
        return {"steps": self.steps, "processor": processor() - self.processor}


def by_library(mine) -> dict:
    import pitshell

    before = peak()
    clock = Clock()
    found = pitshell.solve(mine["values"], (mine["indptr"], mine["indices"]), millionths=True)
    clock.step("solve")
    return {**clock.taken(), "before": before, "peak": peak(), "worth": int(found.worth.scaleb(6)), "blocks": int(found.in_pit.sum())}


def by_program(mine, program: str) -> dict:
    from pitplan.core import byte_lines
    from pitplan.solver.mine_files import write_model

    n = len(mine["values"])
    before = peak()
    with tempfile.TemporaryDirectory() as folder:
        model, prec = Path(folder) / "mine.upit", Path(folder) / "mine.prec"
        clock = Clock()
        write_model(model, "mine", mine["values"])
        clock.step("write values")
        counts = np.diff(mine["indptr"])
        many = np.full((n, int(counts.max(initial=0))), -1, dtype=np.int64)
        many[np.arange(many.shape[1]) < counts[:, None]] = mine["indices"]
        with open(prec, "wb") as file:
            for begin in range(0, n, 100_000):
                rows = np.arange(begin, min(n, begin + 100_000))
                file.write(byte_lines.ragged([byte_lines.whole(rows), byte_lines.whole(counts[rows])], many[rows], -1))
        clock.step("write needs")
        ran = subprocess.run([program, "solve", "--model", model, "--prec", prec, "--mode", "single"], stdout=subprocess.PIPE, check=True)
        clock.step("program")
        head, _, rest = ran.stdout.partition(b"WORTH: ")
        worth, _, blocks = rest.partition(b"\n")
        in_pit = np.zeros(n, dtype=bool)
        in_pit[np.array(blocks.split(), dtype=np.int64)] = True
        clock.step("read answer")
        taken = clock.taken()
    return {
        **taken,
        "before": before,
        "peak": peak(),
        "worth": int(worth.replace(b".", b"")),
        "blocks": int(in_pit.sum()),
    }


def nested_by_library(mine) -> dict:
    import pitshell

    before = peak()
    clock = Clock()
    rows, money = (mine["indptr"], mine["indices"]), (np.ascontiguousarray(mine[name]) for name in ("revenues", "costs"))
    found = pitshell.shells(*money, rows, FACTORS, millionths=True)
    clock.step("shells")
    taken = clock.taken()
    blocks = [int(np.count_nonzero(found.first <= number)) for number in range(len(FACTORS))]
    return {**taken, "before": before, "peak": peak(), "worth": [str(worth.normalize()) for worth in found.worths], "blocks": blocks}


def nested_by_program(kept: str, program: str) -> dict:
    stem = kept.removesuffix(".arrays.npz")
    words = [program, "shells", "--blocks", f"{stem}.blocks", "--prec", f"{stem}.prec", "--revenue", "0", "--cost", "1", "--factors"]
    before = peak()
    clock = Clock()
    said = subprocess.run([*words, ",".join(map(str, FACTORS))], stdout=subprocess.PIPE, check=True).stdout
    clock.step("program, with reading")
    lines = [line.split() for line in said.split(b"\n", 3 + len(FACTORS))[3 : 3 + len(FACTORS)]]
    worths = [str(Decimal(fields[2].decode()).normalize()) for fields in lines]
    return {**clock.taken(), "before": before, "peak": peak(), "worth": worths, "blocks": [int(fields[1]) for fields in lines]}


def child(way: str, kept: str, program: str) -> None:
    if way == WAYS[3]:
        print(json.dumps(nested_by_program(kept, program)))
        return
    with np.load(kept) as file:
        mine = {name: file[name] for name in file.files}
    print(json.dumps(by_library(mine) if way == WAYS[0] else nested_by_library(mine) if way == WAYS[2] else by_program(mine, program)))


FACTORS = range(100, 1201, 100)
WAYS = ("library", "text and program", "library, nested", "program, nested")


def run(way: str, kept: Path, program: Path) -> dict:
    """One way in a process of its own."""
    words = [sys.executable, ROOT / "bench" / "bench.py", "library", "--child", way, kept, program]
    return json.loads(subprocess.run(words, stdout=subprocess.PIPE, check=True, text=True).stdout)


def main(words: list[str]) -> None:
    if words[:1] == ["--child"]:
        child(*words[1:])
        return
    given = parsed(options("library", __doc__, [100000, 1000000], ["1:9"]), words)
    lines = ["| slopes | blocks | way | whole s | processor s | steps s | MB before | MB at most |", "|---" * 8 + "|"]
    for slopes in given.slopes:
        for blocks in given.blocks:
            kept, answers = arrays_of(mine_of(blocks, slopes)), set()
            for way in WAYS:
                rounds = [run(way, kept, given.bin) for _ in range(given.runs)]
                answers |= {(way in WAYS[2:], str(it["worth"]), str(it["blocks"])) for it in rounds}
                least = min(rounds, key=lambda it: sum(it["steps"].values()))
                steps = ", ".join(f"{name} {took:.2f}" for name, took in least["steps"].items())
                whole = sum(least["steps"].values())
                lines.append(f"| {slopes} | {blocks:,} | {way} | {whole:.2f} | {least['processor']:.2f} | {steps} | {least['before']} | {least['peak']} |")
            if len(answers) != 2:
                raise SystemExit(f"the answers differ at {blocks} blocks with slopes {slopes}: {answers}")
    keep(given, "The library on arrays next to the program on text", lines)
