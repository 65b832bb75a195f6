#!/usr/bin/env python3
"""Holds the program against short references of other hands over texts that were bent.

    tools/compare_bent.py [--bin build/pitshell] [--jobs 2] [--results FILE]

Certificates are told by tools/check_certificate.py, journals by tools/replay_journal.py, and fixed files by tools/fixed_pit.py. Each
byte of a small text is bent to each other byte, and each of its lines is dropped, doubled, swapped with the next, and its last number
raised and lowered by one. Standard output, standard error and exit status must be those of the reference. Any difference is printed
with the bent text, and the status is 1.
"""

import argparse
import collections
import concurrent.futures
import pathlib
import subprocess
import sys
import tempfile
from collections.abc import Callable, Iterator
from typing import NamedTuple

import check_certificate
import fixed_pit
import replay_journal

Answer = tuple[str, str, int]


class Kind(NamedTuple):
    """What reads a text, by which option it is named, and what is due of the model, the precedence file, the text and the fixed file."""

    command: str
    option: str
    due: Callable[[bytes, bytes, bytes, bytes], Answer]


CERTIFICATE = Kind("check", "--certificate", check_certificate.answer)
JOURNAL = Kind("replay", "--journal", replay_journal.answer)
FIXED = Kind("solve", "--fixed", lambda model, prec, text, _: fixed_pit.answer(model, prec, text))


class Case(NamedTuple):
    """A mine, the blocks that are fixed in it, and a text about it that is lawful."""

    kind: Kind
    model: bytes
    prec: bytes
    text: bytes
    fixed: bytes = b""

    def write(self, folder: pathlib.Path) -> None:
        for name, text in (("m", self.model), ("p", self.prec), ("f", self.fixed)):
            (folder / name).write_bytes(text)


HEAD = b"NAME: t\nTYPE: UPIT\nNBLOCKS: %d\nOBJECTIVE_FUNCTION:\n"
NINE = HEAD % 4 + b"0 1\n1 -2\n2 5\n3 -2\n"
SIX = HEAD % 6 + b"0 1\n1 -2\n2 5\n3 -2\n4 -3\n5 6\n"
PAIRS = b"0 2 1 3\n2 1 1\n"
MORE_PAIRS = b"0 3 1 3 4\n2 1 1\n5 1 1\n"
CASES = {
    "a pit of two blocks": Case(
        CERTIFICATE, NINE, PAIRS, b"PITCERT 1\nBLOCKS: 4\nARCS: 3\nIN: 2\n1\n2\nFLOW: 2\n0 3 1000000\n2 1 5000000\n"
    ),
    "no block pays": Case(
        CERTIFICATE, HEAD % 2 + b"0 -5\n1 5\n", b"1 1 0\n", b"PITCERT 1\nBLOCKS: 2\nARCS: 1\nIN: 0\nFLOW: 1\n1 0 5000000\n"
    ),
    "a certificate with fixed blocks": Case(
        CERTIFICATE,
        SIX,
        MORE_PAIRS,
        b"PITCERT 2\nBLOCKS: 6\nARCS: 5\nFORCED: 1\n4\nBARRED: 1\n5\nIN: 3\n1\n2\n4\nFLOW: 2\n0 3 1000000\n2 1 5000000\n",
        b"in 4\nout 5\n",
    ),
    "a journal that leads to the pit": Case(
        JOURNAL, NINE, PAIRS, b"PITJOURNAL 1\nBLOCKS: 4\nARCS: 3\nBUDGET: none\nENTRIES: 4\n1 0 1\n2 0 2\n2 2 1\n1 1 1\n"
    ),
    "a journal whose budget is used up": Case(
        JOURNAL, NINE, PAIRS, b"PITJOURNAL 1\nBLOCKS: 4\nARCS: 3\nBUDGET: 2\nENTRIES: 3\n0 0 1\n0 2 1\n0 1 3\n"
    ),
    "a journal of the rest": Case(
        JOURNAL, SIX, MORE_PAIRS, b"PITJOURNAL 1\nBLOCKS: 4\nARCS: 3\nBUDGET: 3\nENTRIES: 3\n1 0 1\n2 2 1\n1 1 1\n", b"in 4\nout 5\n"
    ),
    "fixed blocks": Case(FIXED, SIX, MORE_PAIRS, b"in 3\nin 4\nout 5\n"),
    "fixed blocks that clash": Case(FIXED, SIX, MORE_PAIRS, b"out 1\nin 2\nout 05\n"),
}


def bent_bytes(text: bytes) -> Iterator[bytes]:
    for at in range(len(text)):
        for byte in range(256):
            if byte != text[at]:
                yield text[:at] + bytes([byte]) + text[at + 1 :]


def bent_lines(text: bytes) -> Iterator[bytes]:
    lines = text.splitlines(keepends=True)
    for at, line in enumerate(lines):
        before, behind = b"".join(lines[:at]), b"".join(lines[at + 1 :])
        yield before + behind
        yield before + line + line + behind
        yield before + b"".join(lines[at + 1 : at + 2]) + line + b"".join(lines[at + 2 :])
        words = line.split()
        for change in (1, -1):
            if words[-1].isdigit():
                yield before + b" ".join(words[:-1] + [b"%d" % (int(words[-1]) + change)]) + b"\n" + behind


class Bent(NamedTuple):
    """A bent text of a case, by its number, and where the case's files lie."""

    program: pathlib.Path
    folder: pathlib.Path
    number: int
    case: Case
    text: bytes

    def told(self) -> Answer:
        path = self.folder / f"{self.number}.text"
        path.write_bytes(self.text)
        kind = self.case.kind
        fixed = ["--fixed", self.folder / "f"] if self.case.fixed else []
        words = [kind.command, "--model", self.folder / "m", "--prec", self.folder / "p", *fixed, kind.option, path]
        ran = subprocess.run([self.program, *words], capture_output=True, check=False)
        path.unlink()
        return ran.stdout.decode(), ran.stderr.decode(), ran.returncode


def compared(bent: Bent) -> tuple[str, str | None]:
    """The first words of what is due, and what the program answers in place of it, where it answers something else."""
    told, due = bent.told(), bent.case.kind.due(bent.case.model, bent.case.prec, bent.text, bent.case.fixed)
    out, err, _ = due
    words = out.split("\n")[0].split(" ")[0] or err.split(" in ")[0].split(" after ")[0].split(" at ")[0].strip()
    return words, None if told == due else f"{bent.text!r}\n  program   {told}\n  reference {due}"


def compare_case(program: pathlib.Path, jobs: int, case: Case) -> tuple[collections.Counter[str], list[str]]:
    """How often which answer came over all bent texts of a case, and each difference."""
    answers, differences = collections.Counter(), []
    with tempfile.TemporaryDirectory() as name, concurrent.futures.ThreadPoolExecutor(jobs) as pool:
        folder = pathlib.Path(name)
        case.write(folder)
        texts = [case.text, *bent_lines(case.text), *bent_bytes(case.text)]
        for words, difference in pool.map(compared, (Bent(program, folder, number, case, text) for number, text in enumerate(texts))):
            answers[words] += 1
            differences += [difference] if difference else []
    return answers, differences


def table(rows: list[tuple[str, collections.Counter[str], int]]) -> str:
    lines = ["| text | bent | answers | differences |", "|---|---|---|---|"]
    for name, answers, differences in rows:
        told = ", ".join(f"`{words}` {count:,}" for words, count in sorted(answers.items()))
        lines.append(f"| {name} | {sum(answers.values()):,} | {told} | {differences} |")
    return "\n".join(lines) + "\n"


def main() -> int:
    parser = argparse.ArgumentParser(description=__doc__, formatter_class=argparse.RawDescriptionHelpFormatter)
    parser.add_argument("--bin", default="build/pitshell")
    parser.add_argument("--jobs", type=int, default=2)
    parser.add_argument("--results", type=pathlib.Path, help="a file to which the counts are added")
    options = parser.parse_args()
    rows = []
    for name, case in CASES.items():
        answers, differences = compare_case(pathlib.Path(options.bin).resolve(), options.jobs, case)
        print("".join(f"{it}\n" for it in differences), end="", flush=True)
        rows.append((name, answers, len(differences)))
    print(table(rows), end="")
    if options.results:
        with options.results.open("a") as file:
            file.write(f"\n`tools/compare_bent.py`, the rest of `make sweep`:\n\n{table(rows)}")
    return 1 if any(wrong for _, _, wrong in rows) else 0


if __name__ == "__main__":
    sys.exit(main())
