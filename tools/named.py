#!/usr/bin/env python3
"""Lists what the documents name and nothing has, and ends with 1 if there is any.

The documents are README.md, CONTRIBUTING.md, docs/ and the crates' READMEs. Checked are, in each:
- a link to a file, which must exist, with a heading where the link names one; and where the link's words are a name in backticks, the
  file must have that name;
- a path in backticks, alone or in a command, which must exist (beside the document, or from the top); stars stand for anything;
- a name in backticks, which must stand as a word somewhere in the sources, whole or by its parts (`Holder::law`).
What a command writes, below build/, and words of other programs (OTHERS) are left out.
"""
import functools
import pathlib
import re
import subprocess
import sys

from crates import TOP

DOCUMENTS = ("README.md", "CONTRIBUTING.md", "docs/**/*.md", "crates/*/README.md")
# Pages with names of an earlier release: only their links are checked.
OF_EARLIER_NAMES = {TOP / "docs" / "UPGRADING.md"}
SOURCES = {".rt", ".antt", ".py", ".c", ".cpp", ".sh", ".toml", ".txt", ".fish", ".bash", ".html", ".1", ".edit", ".js", ""}
FOLDERS = ("bench", "completions", "crates", "docs", "examples", "man", "proofs", "python", "specs", "src", "tests", "tools", "mutants")
# words of the system, the toolchain and the field, which the sources need not hold
OTHERS = set("rt apt-get ulimit git pip".split())


@functools.cache
def tracked() -> list[pathlib.Path]:
    told = subprocess.run(["git", "ls-files", "-z", "--cached", "--others", "--exclude-standard"], cwd=TOP, capture_output=True, text=True, check=True)
    return [TOP / name for name in told.stdout.split("\0") if (TOP / name).is_file()]


@functools.cache
def words() -> set[str]:
    """All words of the sources, and the names of their files and folders."""
    found: set[str] = set()
    for file in tracked():
        found |= {part for name in file.relative_to(TOP).parts for part in (name, name.partition(".")[0])}
        if file.suffix in SOURCES and file.stat().st_size < 1 << 20:
            found |= set(re.findall(r"[A-Za-z_][\w-]*(?:\.\w+)?|\w+", file.read_text(errors="replace")))
    return found | {part for word in found for part in re.split(r"[-.]", word)}


def is_there(path: str, beside: pathlib.Path) -> bool:
    """A path beside the document, from the top or from the crates, or in each crate; or the bare name of some file."""
    if "/" not in path:
        return any(file.match(path) for file in tracked()) or path in words()
    return any(next(iter(folder.glob(path)), None) for folder in (beside, TOP, TOP / "crates", *(TOP / "crates").iterdir()))


def is_path(word: str) -> bool:
    return word.split("/")[0] in FOLDERS and "/" in word or re.fullmatch(r"[\w/*-]+\.(md|py|rt|antt|c|cpp|sh|edit)", word) is not None


def is_known(name: str) -> bool:
    return all(part in words() or part in OTHERS for part in re.findall(r"\w+", name))


@functools.cache
def headings(file: pathlib.Path) -> set[str]:
    """How links name the headings of a document: in lower case, with dashes for blanks and without other signs."""
    found = re.findall(r"^#+ (.*)$", without_code(file.read_text()), re.MULTILINE)
    return {re.sub(r"[^\w -]", "", heading.strip().lower()).replace(" ", "-") for heading in found}


def without_code(text: str) -> str:
    return re.sub(r"^```.*?^```", "", text, flags=re.MULTILINE | re.DOTALL)


def wrong_links(text: str, document: pathlib.Path) -> list[str]:
    found = []
    for label, target, heading in re.findall(r"\[([^\]]*)\]\(([^)#\s]*)#?([^)]*)\)", text):
        if "://" in target:
            continue
        file = document.parent / target if target else document
        name = re.fullmatch(r"`([\w:]+)`", label)
        if not file.exists():
            found.append(f"no file {target}")
        elif heading and heading not in headings(file):
            found.append(f"{target or 'it'} has no heading {heading}")
        elif name and not all(re.search(rf"\b{part}\b", file.read_text()) for part in name[1].split("::")):
            found.append(f"{target} has no {name[1]}")
    return found


def wrong_names(text: str, document: pathlib.Path) -> list[str]:
    found = []
    for quoted in re.findall(r"`([^`\n]+)`", text):
        for word in quoted.split() if " " in quoted else [quoted]:
            bare = word.strip("\"',;:()")
            if bare.startswith(("build/", "/", "-", "$")) or not bare:
                continue
            if is_path(bare):
                if not is_there(bare, document.parent):
                    found.append(f"no file {bare}")
            elif word == quoted and re.fullmatch(r"[A-Za-z_][\w:.-]*", bare) and not is_known(bare):
                found.append(f"nothing has the name {bare}")
    return found


def main() -> int:
    wrong = []
    for document in sorted(file for pattern in DOCUMENTS for file in TOP.glob(pattern)):
        text = without_code(document.read_text())
        names = [] if document in OF_EARLIER_NAMES else wrong_names(text, document)
        wrong += [f"{document.relative_to(TOP)}: {it}" for it in [*wrong_links(text, document), *names]]
    print("".join(f"{it}\n" for it in wrong), end="")
    return 1 if wrong else 0


if __name__ == "__main__":
    sys.exit(main())
