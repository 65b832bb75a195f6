"""Lines and numbers of published files, each mistake named by file and line."""

from __future__ import annotations

import codecs
import re
from dataclasses import dataclass
from decimal import Decimal
from pathlib import Path
from typing import Iterator

NUMBER = re.compile(r"[+-]?(\d+\.?\d*|\.\d+)([eE][+-]?\d{1,3})?")
# Far beyond any amount; keeps a bent exponent from taking all memory.
MOST_CHARACTERS, GREATEST_POWER = 100, 40
# What Windows puts before a text in UTF-8, as latin-1 reads it.
MARK = codecs.BOM_UTF8.decode("latin-1")


class MinelibError(ValueError):
    """A file that cannot be converted. Its text names the file, and where it can the line."""


@dataclass(frozen=True)
class Line:
    """A line with fields: where it stands, from 1, and its text without comment."""

    path: Path
    number: int
    text: str

    @property
    def fields(self) -> list[str]:
        return self.text.split()

    def wrong(self, why: str) -> MinelibError:
        return MinelibError(f"{self.path} line {self.number}: {why}")

    def decimal(self, word: str) -> Decimal:
        """Exactly the number that is written."""
        if len(word) > MOST_CHARACTERS or not NUMBER.fullmatch(word):
            raise self.wrong(f'"{word}" is not a number')
        value = Decimal(word)
        if value and abs(value.adjusted()) > GREATEST_POWER:
            raise self.wrong(f"{word} is out of all measure")
        return value

    def whole(self, word: str) -> int:
        """A whole number that is not negative; 12.0 and 1.2e1 are 12."""
        value = self.decimal(word)
        if value < 0 or value != int(value):
            raise self.wrong(f'"{word}" is not a whole number from 0 on')
        return int(value)


def lines(path: Path) -> Iterator[Line]:
    """The lines with fields, up to a line EOF. Raises MinelibError where it cannot be read, or goes on behind EOF."""
    ended = False
    try:
        # Texts may be in any eight-bit code: latin-1 reads them all, and numbers are the same in each.
        with open(path, encoding="latin-1") as file:
            for number, raw in enumerate(file, 1):
                text = raw.split("%", 1)[0].removeprefix(MARK if number == 1 else "").strip(" \t\r\n\f\v\x1a")
                if not text:
                    continue
                line = Line(path, number, text)
                if ended:
                    raise line.wrong("stands behind the line EOF")
                ended = text.upper() == "EOF"
                if not ended:
                    yield line
    except OSError as error:
        raise MinelibError(f"{path}: cannot be read: {error.strerror or error}") from error
