#!/usr/bin/env python3
"""Times the program, and others next to it, by suites; make bench SUITE=fixed.

    bench/bench.py [all] [--bin FILE] [--runs N] [--results FILE] [--small]
    bench/bench.py SUITE [OPTION ..]      bench/bench.py SUITE --help says what a suite measures, and its options

all       each suite in turn on one build, which is what runs if none is named; it writes bench/results/bench.md
table     modes and shells, next to the strongest of other people's maximum flows
peers     other people's maximum flows, all that there are
irregular the strongest of them on mines of sheets, pipes, noise and values near zero
seeds     the strongest of them on mines of five seeds
fixed     runs with blocks forced in or barred next to the plain run
greatest  the greatest pit next to the least
shells    lists of revenue factors next to one factor
shared    mode shared next to mode parts, and what the workers did
shapes    mines of odd shapes, each next to the pit that its shape gives
malice    adversarial texts next to lawful ones
library   the library on arrays next to the program on text
layer     the planner's layer, by command, next to pandas' own reading of the table

A suite of its own writes build/bench.md unless --results names another file. --small tries the machinery on small mines, with one run of
each, and writes build/bench.md too.
"""

import hashlib
import importlib
import pathlib
import sys

SUITES = ("table", "peers", "irregular", "seeds", "fixed", "greatest", "shells", "shared", "shapes", "malice", "library", "layer")


def run_all(words: list[str]) -> None:
    """Runs each suite with these options; the program must stay the same meanwhile."""
    import kit

    parser = kit.options("all", __doc__)
    given = parser.parse_args(words)
    results = given.results if given.small or given.results != kit.DRAFT else kit.RESULTS
    options = ["--bin", str(given.bin), "--runs", str(given.runs), "--results", str(results), *(["--small"] if given.small else [])]
    before = hashlib.sha256(given.bin.read_bytes()).digest()
    for suite in SUITES:
        print(f"{suite}:", flush=True)
        importlib.import_module(suite if suite != "peers" else "all_peers").main(options)
        if hashlib.sha256(pathlib.Path(given.bin).read_bytes()).digest() != before:
            sys.exit(f"{given.bin} changed during the suite {suite}: run all again")


def main() -> None:
    words = sys.argv[1:]
    if words[:1] in (["-h"], ["--help"]):
        print(__doc__)
        return
    suite = words.pop(0) if words and not words[0].startswith("-") else "all"
    if suite == "all":
        run_all(words)
    elif suite in SUITES:
        importlib.import_module(suite if suite != "peers" else "all_peers").main(words)
    else:
        sys.exit(f"{suite} is no suite: there are all, {', '.join(SUITES)}")


if __name__ == "__main__":
    main()
