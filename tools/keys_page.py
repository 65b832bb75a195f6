#!/usr/bin/python3
"""Writes the tables of keys in docs/reference/project-keys.md, from the declarations in python/pitplan/config.

    tools/keys_page.py            writes them below the marks of the page, each <!-- keys: SECTION -->
    tools/keys_page.py --check    only compares; status 1 if the page has others
"""
import pathlib
import re
import sys
from decimal import Decimal

TOP = pathlib.Path(__file__).resolve().parent.parent
sys.path.insert(0, str(TOP / "python"))

from pitplan.config.keys import Key, is_empty, keys_of
from pitplan.config.project import SECTIONS, record_at
from pitplan.config.project_writer import shown

PAGE = TOP / "docs" / "reference" / "project-keys.md"
# A mark and the table below it.
MARKED = re.compile(r"(<!-- keys: ([\w.]*) -->\n\n)(?:\|.*\n)*")
HEAD = ["| Key | Meaning | Unit and range | Default |", "|---|---|---|---|"]
FIRST = "0.1.0"


def default(it: Key) -> str:
    """What holds without a key; empty if it must be given."""
    if it.is_required:
        return ""
    if it.otherwise != "none" or is_empty(it.default):
        return it.otherwise
    value = shown(it.kind.write(it.default, pathlib.Path(".")))
    return value if isinstance(it.default, (int, float, Decimal)) and not isinstance(it.default, bool) else f"`{value}`"


def row(name: str, it: Key) -> str:
    """The row of a key."""
    since = f" (since {it.since})" if it.since != FIRST else ""
    named = f"`{name}`, `{it.short}`" if it.short else f"`{name}`"
    allowed = ", ".join(filter(None, [it.unit_of(), it.kind.range]))
    return f"| {named} | {it.meaning}{since} | {allowed} | {default(it)} |"


def table(section: str) -> list[str]:
    """The table of a section; without a name of what stands above all sections."""
    keys = keys_of(record_at(section)) if section else {name: SECTIONS[name] for name in ("title", "periods")}
    return [*HEAD, *(row(name, it) for name, it in keys.items())]


def main() -> int:
    text = PAGE.read_text(encoding="utf-8")
    written = MARKED.sub(lambda found: found[1] + "\n".join(table(found[2])) + "\n", text)
    if "--check" in sys.argv[1:]:
        if written != text:
            sys.exit(f"{PAGE}: has other tables of keys than python/pitplan/config: run tools/keys_page.py")
        return 0
    PAGE.write_text(written, encoding="utf-8")
    return 0


if __name__ == "__main__":
    sys.exit(main())
