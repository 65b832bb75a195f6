#!/usr/bin/env python3
"""Counts lapses of language in documents, doc comments and commit subjects. The status is 1 if there are more than tools/prose.json allows.

    tools/prose.py            compares the counts with what is allowed
    tools/prose.py --list     prints each lapse with its file and line
    tools/prose.py --lower    writes the counts that are lower now into tools/prose.json

Counted are words to avoid and sentences of more than 40 words, in README.md, CONTRIBUTING.md, docs/, the READMEs of crates, man/*.in and
the doc comments of crates/*/src; the same words in docstrings and comments of the Python packages; and commit subjects of more than 72
characters or without an area, as in `solver: refuse a budget`.
What is allowed can only fall: a number above an earlier one of the file's history is an error. A crate's README has at most 120 words;
of longer ones none is allowed.
"""
import ast
import io
import json
import pathlib
import re
import subprocess
import sys
import tokenize
from typing import Iterator, NamedTuple

from crates import TOP

ALLOWED = TOP / "tools" / "prose.json"
DOCUMENTS = ("README.md", "CONTRIBUTING.md", "docs/**/*.md", "crates/*/README.md", "man/*.in")
COMMENTS = "crates/*/src/**/*.rt"
PYTHON = ("python/pitplan/**/*.py", "python/planaudit/**/*.py", "python/pitshell/**/*.py", "python/minelib/**/*.py")
MOST_WORDS, MOST_CHARACTERS, README_WORDS = 40, 72, 120
# Paraphrases, with what to write for each, as docs/GLOSSARY.md and the textbooks have it.
AVOIDED = {
    r"told|tells?|telling": "report, print, say",
    r"second look|looked at|look(?:s|ed)? (?:at|through)": "verify, read, search",
    r"goes by|go by": "follows",
    r"comes to|come to": "yields",
    r"(?:is|are) (?-i:none)": "does not exist",
    r"of which": "whose, or two sentences",
    r"anew": "again",
    r"turned round": "transposed, reversed",
    r"given up|gives up": "released",
    r"as it was|as they were": "unchanged",
    r"such a one|such as are": "such",
    r"want of": "lack of",
    r"but for": "except",
    r"and else|or else|; else": "otherwise",
    r"whoever|whichever|whatever": "any",
    r"so many": "the number",
    r"one behind the other": "one after the other",
}
AVOID = re.compile(rf"\b(?:{'|'.join(AVOIDED)})\b", re.IGNORECASE)
SUBJECT = re.compile(r"^[\w .,/()-]+: \S")


class Lapse(NamedTuple):
    """A lapse: which rule it breaks, where, and the words."""

    rule: str
    where: str
    words: str


def files(patterns: tuple[str, ...]) -> list[pathlib.Path]:
    return sorted({file for pattern in patterns for file in TOP.glob(pattern) if "out" not in file.relative_to(TOP).parts})


def document_blocks(text: str) -> Iterator[tuple[int, str]]:
    """The paragraphs, list items and table cells of a document, each with its first line; no code."""
    text = re.sub(r"^(```|~~~).*?^\1$|^\.nf$.*?^\.fi$", lambda found: "\n" * found[0].count("\n"), text, flags=re.MULTILINE | re.DOTALL)
    block, first = [], 0
    for number, line in enumerate([*text.splitlines(), ""], 1):
        bare = line.strip()
        starts = not bare or re.match(r"[-*+] |\d+\. |#|\||\.[A-Z]|@|<!--", bare) or line.startswith("    ")
        if starts and block:
            yield first, " ".join(block)
            block = []
        if bare.startswith("|"):
            yield from ((number, cell.strip()) for cell in bare.strip("|").split("|"))
        elif bare and not line.startswith("    "):
            first = first if block else number
            block.append(bare)


def comment_blocks(text: str) -> Iterator[tuple[int, str]]:
    """The paragraphs of doc comments, each with its first line."""
    block, first = [], 0
    for number, line in enumerate([*text.splitlines(), ""], 1):
        found = re.match(r"\s*//[/!] ?(.*)$", line)
        words = found[1].strip() if found else ""
        if block and (not words or re.match(r"[-*#] ", words)):
            yield first, " ".join(block)
            block = []
        if words:
            first = first if block else number
            block.append(words)


def python_blocks(text: str) -> Iterator[tuple[int, str]]:
    """The paragraphs of docstrings and the comments of a Python module, each with its first line."""
    for node in ast.walk(ast.parse(text)):
        if isinstance(node, (ast.Module, ast.ClassDef, ast.FunctionDef, ast.AsyncFunctionDef)) and ast.get_docstring(node):
            first = node.body[0].lineno
            for paragraph in re.finditer(r"(?:.+\n?)+", node.body[0].value.value):
                # Names of parameters are no prose.
                prose = re.sub(r"^ *\w+(?:, \w+)* : ", "", paragraph[0], flags=re.MULTILINE)
                yield first + node.body[0].value.value[: paragraph.start()].count("\n"), " ".join(prose.split())
    block, begin = [], 0
    for token in tokenize.generate_tokens(io.StringIO(text).readline):
        if token.type == tokenize.COMMENT:
            begin = begin if block else token.start[0]
            block.append(token.string.lstrip("#").strip())
        elif token.type != tokenize.NL and block:
            yield begin, " ".join(block)
            block = []


def plain(text: str) -> str:
    """The text without the targets of links, and with the word Code for each piece of code."""
    return re.sub(r"`[^`]*`", "Code", re.sub(r"\]\([^)]*\)", "]", text))


def lapses_of(where: str, blocks: Iterator[tuple[int, str]]) -> Iterator[Lapse]:
    for line, block in blocks:
        text = plain(block)
        for found in AVOID.finditer(text):
            yield Lapse("words", f"{where}:{line}", found[0])
        for sentence in re.split(r"(?<=[.!?])[\])*]*\s+(?=[\[(*\"]*[A-Z0-9])", text):
            words = len(sentence.split())
            if words > MOST_WORDS:
                yield Lapse("sentences", f"{where}:{line}", f"{words} words: {sentence[:60]}..")


def docstring_lapses(where: str, text: str) -> Iterator[Lapse]:
    for line, block in python_blocks(text):
        for found in AVOID.finditer(plain(block)):
            yield Lapse("docstrings", f"{where}:{line}", found[0])


def subjects() -> Iterator[Lapse]:
    shown = subprocess.run(["git", "log", "--no-merges", "--format=%h %s"], cwd=TOP, capture_output=True, text=True, check=True).stdout
    for line in shown.splitlines():
        commit, _, subject = line.partition(" ")
        if len(subject) > MOST_CHARACTERS or not SUBJECT.match(subject):
            yield Lapse("subjects", commit, subject)


def lapses() -> list[Lapse]:
    found = list(subjects())
    for file in files(DOCUMENTS):
        found += lapses_of(str(file.relative_to(TOP)), document_blocks(file.read_text(encoding="utf-8")))
    for file in files((COMMENTS,)):
        found += lapses_of(str(file.relative_to(TOP)), comment_blocks(file.read_text(encoding="utf-8")))
    for file in files(PYTHON):
        found += docstring_lapses(str(file.relative_to(TOP)), file.read_text(encoding="utf-8"))
    return found


def least_allowed() -> dict[str, int]:
    """The lowest number of each rule in the history of what is allowed."""
    shown = subprocess.run(["git", "log", "--format=", "-p", "--", ALLOWED], cwd=TOP, capture_output=True, text=True, check=True).stdout
    least: dict[str, int] = {}
    for rule, number in re.findall(r'^\+ *"(\w+)": (\d+)', shown, re.MULTILINE):
        least[rule] = min(int(number), least.get(rule, int(number)))
    return least


def long_readmes() -> list[str]:
    counted = [(file, len(file.read_text(encoding="utf-8").split())) for file in files(("crates/*/README.md",))]
    return [f"{file.relative_to(TOP)}: {words} words, at most {README_WORDS}" for file, words in counted if words > README_WORDS]


def main() -> int:
    found = lapses()
    allowed = json.loads(ALLOWED.read_text(encoding="utf-8"))
    counts = {rule: sum(lapse.rule == rule for lapse in found) for rule in allowed}
    if "--list" in sys.argv[1:]:
        print("\n".join(f"{lapse.rule}: {lapse.where}: {lapse.words}" for lapse in found))
    if "--lower" in sys.argv[1:]:
        allowed = {rule: min(number, counts[rule]) for rule, number in allowed.items()}
        ALLOWED.write_text(json.dumps(allowed, indent=2) + "\n", encoding="utf-8")
    wrong = long_readmes()
    wrong += [f"{rule}: {counts[rule]}, allowed are {number}: tools/prose.py --list shows each" for rule, number in allowed.items() if counts[rule] > number]
    wrong += [f"tools/prose.json: {rule} was {number} before and may not rise" for rule, number in least_allowed().items() if allowed.get(rule, 0) > number]
    print("\n".join(wrong), end="\n" if wrong else "")
    return 1 if wrong else 0


if __name__ == "__main__":
    sys.exit(main())
