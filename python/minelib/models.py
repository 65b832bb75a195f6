"""Optimisation models: `.upit`, `.cpit` and `.pcpsp`. The pit needs of each the blocks and their values alone."""

from __future__ import annotations

import re
from dataclasses import dataclass, field
from decimal import Decimal
from pathlib import Path
from typing import Optional

from .text import Line, MinelibError, lines

HEADER = re.compile(r"([A-Za-z][A-Za-z_ ]*?)\s*:\s*(.*)")
VALUES = "OBJECTIVE_FUNCTION"
TYPES = ("UPIT", "CPIT", "PCPSP")
KNOWN = ("NAME", "TYPE", "NBLOCKS", "NDESTINATIONS", VALUES)


@dataclass(frozen=True)
class Model:
    """A model for the pit alone.

    values        of block 0, 1, ..: of several destinations the greatest
    destinations  how many values a block has in the file
    unnamed       how many blocks have no line, and so the value 0
    passed_over   lines of each section that the pit does not need
    """

    name: str
    kind: str
    values: list[Decimal]
    destinations: int
    unnamed: int
    passed_over: dict[str, int]


@dataclass
class Draft:
    """What was read so far."""

    headers: dict[str, str] = field(default_factory=dict)
    values: dict[int, tuple[Line, Decimal]] = field(default_factory=dict)
    destinations: Optional[int] = None
    passed_over: dict[str, int] = field(default_factory=dict)

    def take_value(self, line: Line) -> None:
        number, *amounts = line.fields
        block = line.whole(number)
        if block in self.values:
            raise line.wrong(f"block {block} stands in line {self.values[block][0].number} too")
        if self.destinations is None:
            self.destinations = len(amounts)
        if not amounts or len(amounts) != self.destinations:
            raise line.wrong(f"{len(amounts)} values, where the lines before have {self.destinations}")
        self.values[block] = (line, max(map(line.decimal, amounts)))


def read(path: Path) -> Model:
    """Raises MinelibError, with the line, where a header is missing, a block stands twice or a number is malformed."""
    draft, section = Draft(), ""
    for line in lines(path):
        header = HEADER.fullmatch(line.text)
        text = line.text
        if header:
            section, text = header[1].upper().replace(" ", "_"), header[2]
            if section in draft.headers:
                raise line.wrong(f"{section}: stands twice")
            draft.headers[section] = text
            if section != VALUES or not text:
                continue
        if not section:
            raise line.wrong("a header such as NAME: is due")
        if section == VALUES:
            draft.take_value(Line(path, line.number, text))
        else:
            draft.passed_over[section] = draft.passed_over.get(section, 0) + 1
    return finished(path, draft)


def finished(path: Path, draft: Draft) -> Model:
    headers = draft.headers
    for key in ("NBLOCKS", VALUES):
        if key not in headers:
            raise MinelibError(f"{path}: has no header {key}:")
    kind = headers.get("TYPE", path.suffix[1:]).upper()
    if kind not in TYPES:
        raise MinelibError(f"{path}: TYPE: {kind} is none of {', '.join(TYPES)}")
    count = Line(path, 1, "").whole(headers["NBLOCKS"])
    demand_destinations(path, kind, draft)
    zero = Decimal(0)
    values = [zero] * count
    for block, (line, value) in draft.values.items():
        if block >= count:
            raise line.wrong(f"block {block}, where NBLOCKS: is {count:,} and blocks count from 0")
        values[block] = value
    passed_over = {key: number for key, number in draft.passed_over.items() if key != VALUES}
    passed_over |= {key: 0 for key in headers if key not in KNOWN and key not in passed_over}
    name = headers.get("NAME", "") or path.stem
    return Model(name, kind, values, draft.destinations or 1, count - len(draft.values), passed_over)


def demand_destinations(path: Path, kind: str, draft: Draft) -> None:
    """Refuses lines with more or fewer values than the model has destinations."""
    said = draft.headers.get("NDESTINATIONS")
    due = Line(path, 1, "").whole(said) if said and kind == "PCPSP" else None if kind == "PCPSP" else 1
    if due is not None and draft.destinations not in (None, due):
        raise MinelibError(f"{path}: blocks have {draft.destinations} values, and a {kind} here has {due}")
