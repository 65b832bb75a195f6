"""Feeds the program texts that mean harm, and compares the processor seconds a megabyte with those of a lawful file.

Each text must end in the refusal that is named here, in time linear in its length; a row whose refusal is another, or whose ratio is
above 2, is marked.
"""

import pathlib
from collections.abc import Iterator

from kit import WORK, keep, options, parsed
from timing import best

HEAD = "NAME: t\nTYPE: UPIT\nNBLOCKS: {}\nOBJECTIVE_FUNCTION:\n"


def lawful_model(size: int) -> str:
    blocks = size // 12
    return HEAD.format(blocks) + "".join(f"{block} -1.5\n" for block in range(blocks))


def lawful_prec(size: int) -> tuple[str, int]:
    """Lines that name three predecessors each, and how many blocks they speak of."""
    lines, length, block = [], 0, 3
    while length < size:
        line = f"{block} 3 {block - 3} {block - 2} {block - 1}\n"
        lines.append(line)
        length += len(line)
        block += 1
    return "".join(lines), block


def small_model(blocks: int) -> str:
    return HEAD.format(blocks) + "".join(f"{block} -1\n" for block in range(blocks))


def texts(size: int) -> Iterator[tuple[str, str | bytes, str | bytes, str]]:
    """A name, the model, the precedence text and the first words of the fault (empty: a pit is written)."""
    two = small_model(2)
    many = 4_000_000
    prec, blocks = lawful_prec(size)
    yield "lawful model", lawful_model(size), "", ""
    yield "lawful precedence", small_model(blocks), prec, ""
    yield "one long field", "NAME: " + "x" * size + "\nTYPE: UPI\n", "", "error 3: wrong header in model line 2"
    yield "one long line of fields", "NAME: " + "x " * (size // 2) + "\nTYPE: UPI\n", "", "error 3: wrong header in model line 2"
    yield "blank lines alone", "\n" * size, "", f"error 12: ends early in model line {size + 1}"
    yield "blanks alone", " " * size, "", "error 12: ends early in model line 2"
    yield "bytes 0xFF alone", b"\xff" * size, "", "error 3: wrong header in model line 1"
    yield "NUL bytes alone", b"\0" * size, "", "error 3: wrong header in model line 1"
    yield "one long number", HEAD.format(1) + "0 " + "1" * size + "\n", "", "error 6: not a decimal in model line 5"
    yield "precedence of blank lines", two, "\r\n" * (size // 2), ""
    yield "precedence of one long field", two, "1 " + "0" * size + "\n", "error 5: not a whole number in precedence line 1"
    yield "more fields than are named", two, "1 1" + " 0" * (size // 2) + "\n", "error 11: wrong number of fields in precedence line 1"
    named = " ".join(map(str, range(many - 1)))
    yield "many predecessors, the last twice", small_model(many), f"{many - 1} {many} {named} {many - 2}\n", "error 10: predecessor named twice in precedence line 1"


def files_of(model: str | bytes, prec: str | bytes) -> tuple[pathlib.Path, pathlib.Path]:
    WORK.mkdir(exist_ok=True)
    paths = WORK / "harm.upit", WORK / "harm.prec"
    for path, text in zip(paths, (model, prec)):
        path.write_bytes(text if isinstance(text, bytes) else text.encode())
    return paths


def main(words: list[str]) -> None:
    parser = options("malice", __doc__)
    parser.add_argument("--megabytes", type=int, default=10)
    given = parsed(parser, words)
    lines = ["| text | MB | seconds | s/MB | times a lawful file | answer |", "|---|---|---|---|---|---|"]
    lawful = 0.0
    for what, model_text, prec_text, due in texts((1 if given.small else given.megabytes) * 1_000_000):
        model, prec = files_of(model_text, prec_text)
        size = (model.stat().st_size + prec.stat().st_size) / 1e6
        run = best([given.bin, "solve", "--model", model, "--prec", prec], given.runs, status=1 if due else 0)
        pace, fault = run.processor / size, run.told.strip()
        lawful = max(lawful, pace) if what.startswith("lawful") else lawful
        marks = (" SLOW" if pace > 2 * lawful else ""), ("" if fault == due else f" WRONG, due: {due}")
        lines.append(f"| {what} | {size:.1f} | {run.processor:.2f} | {pace:.4f} | {pace / lawful:.2f}{marks[0]} | {fault or 'a pit'}{marks[1]} |")
    keep(given, "Adversarial texts", lines)
