#!/usr/bin/env python3
"""Lists the definitions and lemmas of specs/ and proofs/ that nothing cites, and the names that specs/ of two crates define. The status is
1 if there is one.

A name is cited where it stands as a whole word anywhere else: in another line of an .antt or .rt file of the crates. What the
toolchain looks up by name (answers to goals, invariants, ghosts) stands in the folders named after functions, and is left out.
A reader looks a definition up by its name alone, so a public name of specs/ belongs to one crate.
"""
import collections
import pathlib
import re
import sys

from crates import TOP, crates

NAME = r"[^\s.(){}\[\],;:◌]+"
PUBLIC = re.compile(
    # at the top level; and in a module, where `pub` alone is a field
    rf"^(?:(?:abbrev|unfoldable|mutual) )*pub (?:record |data )?({NAME}) |^[ \t]+(?:(?:abbrev|unfoldable|mutual) )+pub (?:record |data )?({NAME}) "
    rf"|^[ \t]+pub (?:record|data) ({NAME}) ",
    re.MULTILINE,
)
DEFINES = re.compile(rf"^\s*(?:pub |abbrev |unfoldable |mutual )*(?:record |data )?(?:pub )?({NAME}) (?:\(.*\) |{{.*}} )*: ", re.MULTILINE)


def own_files() -> list[pathlib.Path]:
    """The files of definitions and lemmas: those right in specs/ and proofs/."""
    return [it for crate in crates() for part in ("specs", "proofs") for it in sorted((TOP / "crates" / crate / part).glob("*.antt"))]


def all_text() -> str:
    texts = []
    for crate in crates():
        for part in ("src", "specs", "proofs"):
            for file in sorted((TOP / "crates" / crate / part).rglob("*")):
                if file.suffix in {".rt", ".antt"}:
                    texts.append(re.sub(r"^\s*(--|//).*$", "", file.read_text(), flags=re.MULTILINE))
    return "\n".join(texts)


def defined(file: pathlib.Path) -> set[str]:
    """The names that a file defines at its top level."""
    text = re.sub(r"^\s*--.*$", "", file.read_text(), flags=re.MULTILINE)
    return {found[1] for found in DEFINES.finditer(text) if not found[0].startswith((" ", "\t"))}


def published(text: str) -> set[str]:
    """The names that a file of definitions makes public, without those of its records' fields and of the modules that it lists."""
    code = re.sub(r"^\s*--.*$", "", text, flags=re.MULTILINE)
    return {name for found in PUBLIC.finditer(code) for name in found.groups() if name} - {"mod"}


def shared(texts: dict[str, list[str]]) -> dict[str, list[str]]:
    """The public names that two crates define or more, with these crates, of the texts of each crate's definitions."""
    homes: dict[str, list[str]] = {}
    for crate, files in texts.items():
        for name in sorted(set().union(*(published(text) for text in files))):
            homes.setdefault(name, []).append(crate)
    return {name: found for name, found in homes.items() if len(found) > 1}


def main() -> int:
    # a definition itself names its name in its signature, and once more at the head of each of its clauses
    text = all_text()
    heads = collections.Counter()
    for line in text.splitlines():
        found = re.match(rf"(?:pub |abbrev |unfoldable |record |data )*({NAME})(?=[ \n]|$)", line)
        if found:
            heads[found[1]] += 1
    words = collections.Counter(re.findall(rf"{NAME}", text))
    uncited = [(file, name) for file in own_files() for name in sorted(defined(file)) if words[name] <= heads[name]]
    for file, name in uncited:
        print(f"{file.relative_to(TOP)}: nothing cites {name}")
    doubled = shared({crate: [file.read_text() for file in sorted((TOP / "crates" / crate / "specs").glob("*.antt"))] for crate in crates()})
    for name, homes in doubled.items():
        print(f"{' and '.join(homes)} define {name}")
    return 1 if uncited or doubled else 0


if __name__ == "__main__":
    sys.exit(main())
