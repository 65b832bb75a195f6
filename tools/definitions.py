#!/usr/bin/env python3
"""Counts the definitions that the reader of a contract must read: those of crates/*/specs that it cites, directly or through others.

    tools/definitions.py               writes the counts between the marks of README.md and docs/PROOFS.md
    tools/definitions.py --check       only compares; status 1 if a page has other counts
    tools/definitions.py --list NAME   prints the definitions behind one (`IsPit`) or behind a function's clauses (`run_solve`)

A definition is a record, a type of cases or a function of specs/. Its lines are those of its signature, fields and clauses, without
comments. Left out are the toolchain's definitions, and the types and traits of src/.
"""
import functools
import pathlib
import re
import sys
from typing import NamedTuple

from crates import TOP, crates

PAGES = (TOP / "README.md", TOP / "docs" / "PROOFS.md")
MARKED = re.compile(r"(<!-- definitions: (\w+) -->\n).*?(<!-- end of definitions -->\n)", re.DOTALL)
# The functions whose contracts are the theorems of the commands, with the file of each.
CONTRACTS = {"run_solve": "solve", "run_check": "check", "run_replay": "replay", "run_shells": "nested"}

NAME = r"[^\s.(){}\[\],;:◌]+"
USE = re.compile(r"^\s*(?:ghost )?use Rattle\.(\w+)\.specs\.([\w.]+)\.\{(.*?)\};?$", re.MULTILINE | re.DOTALL)
HEAD = re.compile(rf"(?:(?:abbrev|unfoldable|mutual|pub|record|data) )+({NAME})(?= )|({NAME})(?= : )")
BOUND = re.compile(rf"λ ((?:{NAME} )*{NAME})\.|[({{]((?:{NAME} )*{NAME}) : ")
MEMBER = re.compile(rf"^\s+(?:pub )?({NAME}) :(?=\s)", re.MULTILINE)


class Definition(NamedTuple):
    crate: str
    file: str
    name: str


class Text(NamedTuple):
    """A definition's statements (its signature with its fields or cases, and each clause), and its number of lines."""
    statements: tuple[str, ...]
    lines: int


def without_comments(text: str) -> str:
    return re.sub(r"^\s*--.*\n", "", text, flags=re.MULTILINE)


def imports(text: str) -> dict[str, tuple[str, str, str]]:
    """The names that a file brings in, with the crate, the file and the name of each there."""
    found = {}
    for crate, path, names in USE.findall(text):
        for name in re.findall(r"[^\s,][^,]*", names):
            there, _, here = name.strip().partition(" as ")
            found[here or there] = (crate, path.split(".")[0], there)
    return found


def statements(text: str) -> list[tuple[str, str]]:
    """The statements of a file, each with the name that it defines, or with none if it is a clause of the definition above it."""
    found: list[tuple[str, str]] = []
    base, in_head = 0, False
    for line in without_comments(text).splitlines():
        words, indent = line.lstrip(), len(line) - len(line.lstrip())
        if in_head:
            in_head = not line.endswith(" where")
        elif not words or re.match(r"use |(pub )?mod ", words):
            continue
        elif indent > base:
            found[-1] = (found[-1][0], f"{found[-1][1]}\n{line}")
        elif words.startswith("module _ "):
            base, in_head = indent + 2, not line.endswith(" where")
        else:
            base, named = indent, HEAD.match(words)
            found.append((named[1] or named[2] if named else "", line))
    return found


@functools.cache
def file_of(crate: str, file: str) -> tuple[dict[str, Text], dict[str, str], dict[str, tuple[str, str, str]]]:
    """The definitions of a file of specs/, the definition of each name (also of a case), and what the file brings in."""
    path = TOP / "crates" / crate / "specs" / f"{file}.antt"
    text = path.read_text() if crate in crates() and path.is_file() else ""
    parts: dict[str, list[str]] = {}
    homes: dict[str, str] = {}
    last = ""
    for name, statement in statements(text):
        last = name or last
        parts.setdefault(last, []).append(statement)
        homes[last] = last
        if re.match(r"\s*(?:pub )?data ", statement):
            homes |= dict.fromkeys(MEMBER.findall(statement), last)
    return {name: Text(tuple(own), sum(it.count("\n") + 1 for it in own)) for name, own in parts.items()}, homes, imports(text)


def cited(statement: str, bound: set[str]) -> set[str]:
    """The words of a statement that are neither bound in it nor fields."""
    for names in BOUND.findall(statement):
        bound = bound | set(" ".join(names).split())
    words = re.finditer(rf"(\.?)({NAME})( =\s)?", statement)
    return {word[2] for word in words if not word[1] and not word[3]} - bound


def resolved(words: set[str], brought: dict[str, tuple[str, str, str]]) -> set[Definition]:
    """The definitions that words name, by what was brought in."""
    places = [brought[word] for word in words if word in brought]
    homes = [(crate, file, file_of(crate, file)[1].get(name)) for crate, file, name in places]
    return {Definition(crate, file, home) for crate, file, home in homes if home}


@functools.cache
def below(definition: Definition) -> frozenset[Definition]:
    """The definitions that one cites itself."""
    own, homes, brought = file_of(definition.crate, definition.file)
    brought = brought | {name: (definition.crate, definition.file, name) for name in homes}
    found: set[Definition] = set()
    for place, statement in enumerate(own[definition.name].statements):
        # arguments of a clause are bound in it, except for cases
        left = set(re.findall(NAME, re.split(r" =\s", statement)[0])) if place else set(MEMBER.findall(statement))
        cases = {word for word in left if word[0].isupper()} if place else set()
        found |= resolved(cited(statement, left - cases), brought)
    return frozenset(found - {definition})


def closure(first: set[Definition]) -> set[Definition]:
    found, waiting = set(first), list(first)
    while waiting:
        new = below(waiting.pop()) - found
        found |= new
        waiting += new
    return found


def clauses(name: str) -> dict[str, set[Definition]]:
    """The definitions that each clause of a function's contract cites itself; those that the caller owes together."""
    text = (TOP / "crates" / "commands" / "src" / f"{CONTRACTS[name]}.rt").read_text()
    brought = imports(text)
    head = text[text.index(f"pub fn {name}<"):].partition("\n{\n")[0] + "\n"
    arguments = set(re.findall(r"^ +(\w+): ", head, re.MULTILINE))
    found: dict[str, set[Definition]] = {}
    for kind, label, body in re.findall(r"^    (requires|ensures) (\w+) \{(.*?)\}$", head, re.MULTILINE | re.DOTALL):
        found.setdefault("requires" if kind == "requires" else label, set()).update(resolved(cited(body, arguments), brought))
    return found


def counts(found: set[Definition]) -> list[str]:
    return [str(len(found)), str(sum(file_of(it.crate, it.file)[0][it.name].lines for it in found)), str(len({it[:2] for it in found}))]


def of_name(name: str) -> set[Definition]:
    files = [(crate, file.stem) for crate in crates() for file in (TOP / "crates" / crate / "specs").glob("*.antt")]
    return closure({Definition(*it, name) for it in files if name in file_of(*it)[0]})


def whole(name: str) -> set[Definition]:
    return closure(set().union(*clauses(name).values()))


def table(rows: list[list[str]]) -> str:
    lines = [f"| {' | '.join(row)} |" for row in rows]
    return "\n".join([lines[0], "|---" * len(rows[0]) + "|", *lines[1:], ""])


def shortest() -> str:
    """The table of README."""
    return table([
        ["To believe", "definitions", "lines"],
        ["`IsPit`: what a pit is", *counts(of_name("IsPit"))[:2]],
        ["`done` of `run_solve`: after a success the text of the pit is written", *counts(closure(clauses("run_solve")["done"]))[:2]],
        ["the whole contract of `run_solve`, with each refusal", *counts(whole("run_solve"))[:2]],
    ])


def longest() -> str:
    """The table of PROOFS."""
    rows = [["definition or contract", "clause", "definitions", "lines", "files"]]
    rows += [[f"`{name}`", "", *counts(of_name(name))] for name in ("IsPit", "Solves")]
    for name in CONTRACTS:
        rows += [[f"`{name}`", f"`{clause}`", *counts(closure(own))] for clause, own in clauses(name).items() if own and clause != "requires"]
        rows.append([f"`{name}`", "all, with `requires`", *counts(whole(name))])
    return table(rows)


MADE = {"shortest": shortest, "longest": longest}


def page_of(page: pathlib.Path) -> str:
    return MARKED.sub(lambda mark: f"{mark[1]}\n{MADE[mark[2]]()}\n{mark[3]}", page.read_text(encoding="utf-8"))


def main() -> int:
    if "--list" in sys.argv[1:]:
        name = sys.argv[sys.argv.index("--list") + 1]
        for it in sorted(whole(name) if name in CONTRACTS else of_name(name)):
            print(f"crates/{it.crate}/specs/{it.file}.antt: {it.name}")
        return 0
    differing = [(page, text) for page in PAGES if (text := page_of(page)) != page.read_text(encoding="utf-8")]
    for page, text in differing:
        if "--check" in sys.argv[1:]:
            print(f"{page.relative_to(TOP)}: has other counts of definitions: run tools/definitions.py")
        else:
            page.write_text(text, encoding="utf-8")
    return 1 if differing and "--check" in sys.argv[1:] else 0


if __name__ == "__main__":
    sys.exit(main())
