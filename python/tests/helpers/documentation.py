"""Reads pages of documentation: their links, headings, blocks of code and words."""

from __future__ import annotations

import argparse
import re
import shlex
import unicodedata
from html.parser import HTMLParser
from pathlib import Path
from typing import Any, Iterator, NamedTuple, Optional
from urllib.parse import unquote

import tomllib
from conftest import ROOT

from pitplan.cli.parser import parser

PATTERNS = ("README.md", "CONTRIBUTING.md", "docs/**/*.md")
FENCE = re.compile(r"^(```+|~~~+)([^\n]*)\n(.*?)^\1[ ]*$", re.MULTILINE | re.DOTALL)
LINK = re.compile(r"!?\[(?:[^\[\]]|\[[^\]]*\])*\]\(([^()\s]+(?:\([^()]*\))?)(?: \"[^\"]*\")?\)")
# Where a shell command ends that others follow.
ENDS = ("|", "&&", "||", ";", ">", "<")


class Block(NamedTuple):
    """A fenced block of code: the word after the fence, the text, and the line of the fence."""

    language: str
    text: str
    line: int


def pages() -> list[Path]:
    return sorted({file for pattern in PATTERNS for file in ROOT.glob(pattern)})


def blocks(text: str) -> list[Block]:
    return [Block(it[2].strip(), it[3], text[: it.start()].count("\n") + 1) for it in FENCE.finditer(text)]


def without_code(text: str) -> str:
    """The text without blocks and pieces of code, and without comments; lines stay in place."""
    text = FENCE.sub(lambda found: "\n" * found[0].count("\n"), text)
    text = re.sub(r"<!--.*?-->", lambda found: "\n" * found[0].count("\n"), text, flags=re.DOTALL)
    return re.sub(r"``?[^`\n]+``?", "code", text)


def words(text: str) -> int:
    """The words of a page, those of tables included: without blocks of code, comments and targets of links."""
    text = re.sub(r"<!--.*?-->", "", FENCE.sub("", text), flags=re.DOTALL)
    text = re.sub(r"\]\([^)]*\)", "]", text)
    return sum(bool(re.search(r"\w", word)) for word in text.split())


def anchors(text: str) -> set[str]:
    """The anchors of the headings of a page, as repository browsers make them."""
    found: set[str] = set()
    for title in re.findall(r"^#{1,6} +(.+?) *#*$", FENCE.sub("", text), re.MULTILINE):
        title = re.sub(r"\[([^\]]*)\]\([^)]*\)", r"\1", title)
        plain = "".join(it for it in title.lower() if it in " -_" or unicodedata.category(it)[0] in "LN")
        slug, number = plain.replace(" ", "-"), 0
        while (anchor := f"{slug}-{number}" if number else slug) in found:
            number += 1
        found.add(anchor)
    return found


def dead_links(page: Path, text: str) -> Iterator[str]:
    """The targets of relative links and pictures of a page that do not exist, or have no such heading."""
    for target in LINK.findall(without_code(text)):
        if re.match(r"[a-z]+:", target):
            continue
        path, _, anchor = unquote(target).partition("#")
        file = (page.parent / path).resolve() if path else page
        if not file.exists() or (file == page and not anchor):
            yield target
        elif anchor and (file.suffix != ".md" or anchor not in anchors(text if file == page else file.read_text())):
            yield target


class Html(HTMLParser):
    """The links, pictures, anchors and text of a page of the site."""

    def __init__(self, text: str) -> None:
        super().__init__()
        self.links: list[str] = []
        self.anchors: set[str] = {""}
        self.text = ""
        self.feed(text)

    def handle_data(self, data: str) -> None:
        self.text += data

    def handle_starttag(self, tag: str, attributes: list[tuple[str, Optional[str]]]) -> None:
        for name, value in attributes:
            if name in ("href", "src") and value is not None:
                self.links.append(value)
            if name == "id" and value:
                self.anchors.add(value)


def dead_in_site(site: Path) -> list[str]:
    """The relative links and pictures of a site that do not exist, each with its page."""
    read = {page: Html(page.read_text(encoding="utf-8")) for page in site.rglob("*.html")}
    dead = []
    for page, html in read.items():
        for link in html.links:
            if re.match(r"[a-z]+:|//", link):
                continue
            path, _, anchor = unquote(link).partition("#")
            file = (page.parent / path.partition("?")[0]).resolve() if path else page
            if not file.exists() or file in read and anchor not in read[file].anchors:
                dead.append(f"{page.relative_to(site)}: {link}")
    return dead


def missing_of_notebook(cells: list[dict[str, Any]], html: Html) -> list[str]:
    """The sources and outputs of a notebook's cells that a page of the site lacks: texts as they are, headings and tables word by word."""
    seen, lacks = "".join(html.text.split()), []
    for cell in cells:
        source = "".join(cell["source"])
        if cell["cell_type"] == "code" and source not in html.text:
            lacks.append(source)
        if cell["cell_type"] == "markdown":
            lacks += [line for line in source.splitlines() if "".join(re.sub(r"^#+ |`", "", line).split()) not in seen]
        for output in cell.get("outputs", []):
            data = output.get("data", {})
            if "image/png" in data:
                lacks += [it for it in ["data:image/png;base64," + data["image/png"]] if it not in html.links]
            elif "text/html" in data:
                text = "".join(Html("".join(data["text/html"])).text.split())
                lacks += [text] if text not in seen else []
            else:
                text = "".join(output.get("text") or data["text/plain"]).rstrip()
                lacks += [text] if text not in html.text else []
    return lacks


def commands(text: str, name: str = "pitplan") -> list[list[str]]:
    """The command lines of a program in a block of a shell or of a console, as words; lines of output have none."""
    lines = re.sub(r"\\\n", " ", text).splitlines()
    is_console = any(line.startswith("$ ") for line in lines)
    begins = re.compile(rf"{r'[$] ' if is_console else ''}(?:[A-Z_]+=\S* )*(?:\S*/)?{name} (.*)")
    found = []
    for line in lines:
        if command := begins.match(line):
            words = shlex.split(command[1], comments=True)
            end = next((k for k, word in enumerate(words) if word.startswith(ENDS)), len(words))
            found.append(words[:end])
    return found


def fault_of_command(arguments: list[str]) -> Optional[str]:
    """Why pitplan does not take the arguments of a command; None if it does, or prints help. The parser prints its words on standard error."""
    try:
        parser().parse_args(arguments)
    except SystemExit as end:
        return f"status {end.code}" if end.code else None
    return None


def fault_of_toml(text: str) -> Optional[str]:
    try:
        tomllib.loads(text)
    except tomllib.TOMLDecodeError as error:
        return str(error)
    return None


def is_command(piece: list[str]) -> bool:
    """Whether the first word is a subcommand of pitplan that has all options among the others; an option may come first."""
    if piece[0].startswith("-"):
        return piece[0] in options_of(parser())
    subparser = parser_of(piece[0])
    options = [word.partition("=")[0] for word in piece[1:] if word.startswith("--")]
    return subparser is not None and set(options) <= options_of(subparser)


def parser_of(subcommand: str) -> Optional[argparse.ArgumentParser]:
    for action in parser()._actions:
        if isinstance(action, argparse._SubParsersAction):
            return action.choices.get(subcommand)
    return None


def options_of(subparser: argparse.ArgumentParser) -> set[str]:
    return set(subparser._option_string_actions)
