#!/usr/bin/env python3
"""Runs the program without proofs on the small mine, and plans the example if a built solver is there; make try.

    tools/first_run.py      writes build/try, and prints a line for each stage

The program is compiled by the toolchain alone and not kept: what it prints is not proved. The example is planned by the library or the program that
`make` or `make library` built, or that is installed.
"""
import os
import pathlib
import shutil
import subprocess
import sys
import time
from collections.abc import Iterator

TOP = pathlib.Path(__file__).resolve().parent.parent
MINE, PLAN, OUT = TOP / "examples/small_mine", TOP / "examples/plan/project.toml", TOP / "build/try"
FILES = ("mine.upit", "mine.prec")
# Seconds between two signs of life.
PAUSE = 10


def shown(path: pathlib.Path) -> str:
    return os.path.relpath(path)


def compiled_and_run() -> None:
    """Solves the small mine. Ends with the toolchain's words if that fails, or if the pit differs from the one that is stored."""
    words = [word for name in FILES for word in ("--data", f"{name}={MINE / name}")]
    command = ["rt", "try", *words, "--", "solve", "--model", FILES[0], "--prec", FILES[1]]
    pit, log = OUT / "pit.txt", OUT / "try.log"
    print("compiling the program without proofs: two or three minutes", flush=True)
    began, waited = time.monotonic(), 0
    with open(pit, "wb") as writes, open(log, "wb") as errors:
        process = subprocess.Popen(command, cwd=TOP / "crates/pitshell", stdout=writes, stderr=errors)
        while process.poll() is None:
            time.sleep(0.2)
            if time.monotonic() - began > waited + PAUSE:
                waited += PAUSE
                print(f"  {waited} s", flush=True)
    if process.returncode != 0:
        sys.exit(log.read_text(errors="replace") + f"rt try ended with status {process.returncode}")
    text = pit.read_text()
    if text != (MINE / "pit.txt").read_text():
        sys.exit(f"{shown(pit)} differs from {shown(MINE / 'pit.txt')}")
    print(f"solved {shown(MINE)}: {summary(text)}, the same as its pit.txt; not proved\n{shown(pit)}", flush=True)


def summary(text: str) -> str:
    """Returns the size and the value of a pit, from its text."""
    fields = dict(line.split(": ", 1) for line in text.splitlines() if ": " in line)
    return f"a pit of {int(fields['IN']):,} blocks of {int(fields['BLOCKS']):,}, worth {fields['WORTH']}"


def solvers() -> Iterator[str]:
    """Yields the solvers that pitplan finds: built here, named by a variable, or installed."""
    yield from (str(path) for path in (TOP / "build/libpitshell.so", TOP / "build/pitshell") if path.exists())
    yield from (os.environ[name] for name in ("PITSHELL_LIBRARY", "PITSHELL") if os.environ.get(name))
    yield from filter(None, [shutil.which("pitshell")])


def planned() -> None:
    """Plans the example with the first solver that is there."""
    if next(solvers(), None) is None:
        print("next: make, which proves and builds the program; then make try also plans a mine from a block model")
        return
    print(f"planning {shown(PLAN)}", flush=True)
    out = OUT / "plan"
    shutil.rmtree(out, ignore_errors=True)
    ran = subprocess.run([sys.executable, TOP / "tools/pitplan", "shells", PLAN, "--out", out, "--quiet"], stdout=subprocess.DEVNULL)
    if ran.returncode != 0:
        sys.exit("next: tools/pitplan doctor, which says what is missing")
    print(f"{shown(out / 'report.html')}\nnext: tools/pitplan init with your own block model")


def main() -> None:
    OUT.mkdir(parents=True, exist_ok=True)
    compiled_and_run()
    planned()


if __name__ == "__main__":
    main()
