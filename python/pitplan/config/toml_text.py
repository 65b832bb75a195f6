"""A project's text as TOML: its decimals as they are written, the lines of its keys, and its sections with their errors."""

from __future__ import annotations

import difflib
import math
import re
import sys
from collections.abc import Mapping
from dataclasses import dataclass, field
from decimal import Decimal
from numbers import Integral, Real
from os import PathLike, fspath
from pathlib import Path
from types import MappingProxyType
from typing import Any, Optional, Union

import tomllib

from pitplan.errors import ErrorPlace, PlanError

PART = r"(?:[A-Za-z0-9_-]+|\"(?:[^\"\\\n]|\\.)*\"|'[^'\n]*')"
KEY = rf"{PART}(?:[ \t]*\.[ \t]*{PART})*"
HEADER = re.compile(rf"[ \t]*(?P<opened>\[\[?)[ \t]*(?P<key>{KEY})[ \t]*\]\]?")
ASSIGNED = re.compile(rf"[ \t]*(?P<key>{KEY})[ \t]*=[ \t]*")
# What ends a value, or what it may end in only after: a text, a comment, a bracket or the end of a line.
TOKEN = re.compile(
    r"\"\"\"(?:[^\\]|\\.)*?\"\"\"|'''.*?'''|\"(?:[^\"\\\n]|\\.)*\"|'[^'\n]*'|#[^\n]*|[\[{]|[\]}]|\n", re.DOTALL
)


@dataclass(frozen=True)
class TomlEntry:
    """A header of a section, or a key with its value.

    Attributes
    ----------
    name : str
        As errors name it: the second section [[metals]] is "metals 2", and its price "metals 2.price".
    line : int
        From 1.
    start, end : int
        Where its value lies in the text, without a comment; equal for a header.
    """

    name: str
    line: int
    start: int = 0
    end: int = 0

    @property
    def is_header(self) -> bool:
        return self.start == self.end


def entries(text: str) -> list[TomlEntry]:
    """Returns the headers and keys of a text in their order, as far as it is TOML."""
    found: list[TomlEntry] = []
    counts: dict[str, int] = {}
    section, place, counted, line = "", 0, 0, 1
    while place < len(text):
        line, counted = line + text.count("\n", counted, place), place
        header, assigned = HEADER.match(text, place), ASSIGNED.match(text, place)
        if header:
            section = section_of(header["key"], header["opened"] == "[[", counts)
            found.append(TomlEntry(section, line))
            place = header.end()
        elif assigned:
            key = ".".join(parts_of(assigned["key"]))
            place = end_of_value(text, assigned.end())
            value = text[assigned.end() : place].rstrip()
            name = f"{section}.{key}" if section else key
            found.append(TomlEntry(name, line, assigned.end(), assigned.end() + len(value)))
        place = (text.find("\n", place) + 1) or len(text)
    return found


def written_twice(text: str) -> Optional[tuple[int, str]]:
    """Returns the line of the first section or key that is written twice, and a sentence with both lines and the remedy; None if nothing is."""
    seen: dict[str, int] = {}
    for entry in entries(text):
        if entry.name in seen:
            # As the text has it, without the numbers of entries of a list.
            name = re.sub(r" \d+(?=\.|$)", "", entry.name)
            section, _, key = name.rpartition(".")
            named = f"[{name}]" if entry.is_header else f"[{section}] {key}" if section else key
            remedy = "put the keys below the first" if entry.is_header else "remove one"
            return entry.line, f"{named} is written twice, lines {seen[entry.name]} and {entry.line}: {remedy}"
        seen[entry.name] = entry.line
    return None


def parts_of(key: str) -> list[str]:
    return [part.strip("\"'") for part in re.findall(PART, key)]


def section_of(key: str, is_list: bool, counts: dict[str, int]) -> str:
    """Returns the name of a section with the numbers of the lists that it lies in, and counts it."""
    name, parts = "", parts_of(key)
    for number, part in enumerate(parts, 1):
        name = f"{name}.{part}" if name else part
        if is_list and number == len(parts):
            counts[name] = counts.get(name, 0) + 1
        if name in counts:
            name = f"{name} {counts[name]}"
    return name


def end_of_value(text: str, start: int) -> int:
    """Returns where a value ends: before a comment or the end of a line that is in no bracket."""
    depth = 0
    for token in TOKEN.finditer(text, start):
        first = token[0][0]
        if first in "[{":
            depth += 1
        elif first in "]}":
            depth -= 1
        elif first in "#\n" and depth <= 0:
            return token.start()
    return len(text)


def line_of(text: str, name: str) -> Optional[int]:
    """Returns the line of a key or section; of one that a text does not have the line of the nearest that holds it."""
    found = {entry.name: entry.line for entry in reversed(entries(text))}
    while name:
        for known in (name, f"{name} 1"):
            if known in found:
                return found[known]
        # "metals 2.price" lies in "metals 2", and this in "metals".
        name = name[: max(name.rfind("."), name.rfind(" "), 0)]
    return None


# A project's longest key has three parts. tomllib's time grows with the square of a key's parts.
MOST_PARTS = 50
LONG_KEY = re.compile(rf"(?:^|[\[{{,])[ \t]*{PART}(?:[ \t]*\.[ \t]*{PART}){{{MOST_PARTS}}}", re.MULTILINE)
# Powers of ten at which the digits of a number begin and end.
GREATEST_POWER, LEAST_POWER = 1000, -60
AT_LINE = re.compile(r"\(at line (\d+)")


class Absurd:
    """A number that no project holds, as it is written: nothing computes with it, and each reader of a key refuses it."""

    def __init__(self, written: str) -> None:
        self.written = written

    def __repr__(self) -> str:
        return self.written if len(self.written) <= 40 else f"{self.written[:40]}.."


@dataclass(frozen=True)
class ProjectSource:
    """The sections of a project and where they come from.

    Attributes
    ----------
    name : str
        How errors name them: usually the file.
    data : dict
        The sections, as TOML has them.
    folder : Path
        The folder to which their paths are relative.
    text : str
        The text that they were read from; empty if it is unknown, or if keys were set by other means.
    """

    name: str
    data: dict[str, Any] = field(default_factory=dict)
    folder: Path = Path(".")
    text: str = ""

    def error(self, why: str, at: str) -> PlanError:
        """Returns an error at a key or a section, which is named as in `metals 2.price`."""
        return at_line(self.name, line_of(self.text, at) if self.text else None, why, at)

    @property
    def metals(self) -> tuple[str, ...]:
        found = self.data.get("metals")
        entries = [it for it in found if isinstance(it, dict)] if isinstance(found, list) else []
        return tuple(str(it.get("name", "")) for it in entries)


def number(written: str) -> Decimal | Absurd:
    """Returns a decimal; Absurd if its digits lie beyond all amounts, or are finer than any."""
    found = Decimal(written)
    if not found.is_finite() or not found and abs(found.adjusted()) <= -LEAST_POWER:
        return found
    exponent = found.as_tuple().exponent
    return found if found.adjusted() <= GREATEST_POWER and int(exponent) >= LEAST_POWER else Absurd(written)


def text_of(path: Path) -> str:
    """Returns the text of a file. Raises PlanError if it cannot be read."""
    try:
        return path.read_text(encoding="utf-8-sig")
    except OSError as error:
        raise PlanError(f"{path}: cannot be read: {error.strerror}") from error
    except UnicodeDecodeError as error:
        raise PlanError(f"{path}: is not UTF-8: save it as UTF-8") from error
    except ValueError as error:
        raise PlanError(f"{str(path)!r}: is not a file name: {error}") from error


def parsed(text: str, path: str) -> dict[str, Any]:
    """Returns the sections of a text, which errors name by `path`. Raises PlanError, with the line if it is known, if the text is no TOML, or has a
    key or number that no project has."""
    if long := LONG_KEY.search(text):
        why = f"a key of more than {MOST_PARTS} parts: a project's keys have three at most"
        raise at_line(path, text.count("\n", 0, long.start()) + 1, why)
    try:
        return tomllib.loads(text, parse_float=number)
    except tomllib.TOMLDecodeError as error:
        found = AT_LINE.search(str(error))
        line, why = written_twice(text) or (int(found[1]) if found else None, str(error))
        raise at_line(path, line, why) from error
    except RecursionError as error:
        raise PlanError(
            f"{path}: lists or tables lie within each other too deeply: a project's lie three deep at most"
        ) from error
    except ValueError as error:
        # Python converts no text of more digits than its limit.
        digits = sys.get_int_max_str_digits()
        long = re.search(rf"\d(?:_?\d){{{digits}}}", text)
        why = f"a whole number of more than {digits:,} digits: amounts end at 10^18"
        raise at_line(path, text.count("\n", 0, long.start() if long else 0) + 1, why) from error


def at_line(path: str, line: Optional[int], why: str, key: str = "") -> PlanError:
    """Returns an error of a file, with its line if it is known, and the path of a key or section."""
    return PlanError(f"{path}{f':{line}' if line else ''}: {why}", place=ErrorPlace(key, line))


# The least ratio of difflib between a missing key and an unknown one that may be meant by it.
MISTYPED = 0.75
NOTHING: Mapping[str, str] = MappingProxyType({})


class Section:
    """One table of a TOML file, by its name in errors: `metals 2`, empty for the top of the file. `source` is the project that it is of, or its name
    in errors. `finish` refuses keys that nothing asked for."""

    def __init__(self, source: Union[ProjectSource, str], name: str, data: Any) -> None:
        self.source = ProjectSource(source) if isinstance(source, str) else source
        if not isinstance(data, dict):
            raise self.source.error(f"[{name}] must be a section of its own", name)
        self.name, self.data = name, data
        self.asked: set[str] = set()

    def wrong(self, key: str, why: str, at: str = "") -> PlanError:
        """Returns the error of a key; `at` is the key whose line is meant, if it is another one."""
        named = f"[{self.name}] " if self.name else ""
        return self.source.error(f"{named}{key}: {why}", self.inner(at or key))

    def has(self, key: str) -> bool:
        self.asked.add(key)
        return key in self.data

    def get(self, key: str, renamed: Mapping[str, str] = NOTHING) -> Any:
        """Returns the value of a key. Raises PlanError if it is missing; `renamed` has the new names of old keys."""
        if not self.has(key):
            old = next((it for it, new in renamed.items() if new == key and it in self.data), None)
            if old:
                raise self.wrong(key, f"is missing: rename {old}, as an earlier release called it", old)
            near = difflib.get_close_matches(key, [it for it in self.data if it not in self.asked], 1, MISTYPED)
            why = "is missing" + (f": did you misspell it as {near[0]}?" if near else "")
            raise self.wrong(key, why, near[0] if near else "")
        return self.data[key]

    def finish(self, renamed: Mapping[str, str] = NOTHING) -> None:
        """Raises PlanError if the section has an unknown key, with the known one that is most like it; `renamed` has the new names of old keys."""
        for key in self.data:
            if key not in self.asked:
                if key in renamed:
                    raise self.wrong(key, f"unknown key: rename it to {renamed[key]}, as it is called now")
                near = difflib.get_close_matches(key, self.asked, 1)
                raise self.wrong(key, "unknown key: " + (f"did you mean {near[0]}?" if near else "remove it"))

    def section(self, key: str) -> Section:
        return Section(self.source, self.inner(key), self.get(key))

    def sections(self, key: str) -> list[Section]:
        data = self.get(key)
        if not isinstance(data, list) or not data:
            raise self.wrong(key, f"write at least one [[{self.inner(key)}]]")
        return [Section(self.source, f"{self.inner(key)} {k}", item) for k, item in enumerate(data, 1)]

    def inner(self, key: str) -> str:
        return f"{self.name}.{key}" if self.name else key


def as_toml(value: Any, key: str) -> Any:
    """Returns a value as a TOML file has it: dicts, lists, texts, true and false, whole numbers and decimals. The value is a mapping, list, tuple,
    array, path or plain value. A float is the shortest decimal that reads back as it: 0.1 is one tenth. Raises PlanError, with the key, if the value
    is of a type that no project has."""
    if isinstance(value, Mapping):
        return {str(name): as_toml(item, f"{key}.{name}") for name, item in value.items() if item is not None}
    if isinstance(value, (str, bool, Decimal)):
        return value
    if isinstance(value, PathLike):
        return fspath(value)
    if isinstance(value, Integral):
        return int(value)
    if isinstance(value, Real) and math.isfinite(value):
        return Decimal(repr(float(value)))
    if isinstance(value, Real):
        raise PlanError(f"{key}: found {value}, expected a finite number")
    if hasattr(value, "tolist"):
        return as_toml(value.tolist(), key)
    if isinstance(value, (list, tuple, range)):
        return [as_toml(item, key) for item in value]
    raise PlanError(
        f"{key}: found a value of type {type(value).__name__}, expected a number, text, true or false, list or dict"
    )
