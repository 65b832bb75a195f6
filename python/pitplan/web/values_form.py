"""The numbers of a project that a form changes in its text: each key whose value is one number."""

from __future__ import annotations

import re
from collections.abc import Iterator, Mapping, Sequence
from dataclasses import dataclass, replace
from typing import Any

from pitplan.config import toml_text
from pitplan.config.keys import Key, keys_of
from pitplan.config.project import Project, record_at
from pitplan.config.toml_text import TomlEntry, entries

from .draft import Draft, path_of
from .run_form import WrongForm

# The fields of the form are named by the keys, after this.
PREFIX = "value:"
NUMBER = re.compile(r"-?(?:0|[1-9][0-9]*)(?:\.[0-9]+)?(?:[eE][+-]?[0-9]+)?")
IN_FILE = re.compile(r"[+-]?[0-9][0-9_]*(?:\.[0-9][0-9_]*)?(?:[eE][+-]?[0-9_]+)?")
MOST_LETTERS = 40
# The sections whose numbers the forms have.
SECTIONS = ("metals", "economics", "processes", "shells", "slopes.domains", "pushbacks", "schedule", "cash_flow")
# How the keys begin that the form of pushbacks and schedule has.
OF_SCHEDULE = ("shells.selected", "pushbacks.", "schedule.", "cash_flow.")


@dataclass(frozen=True)
class FormField:
    """A number of a project.

    Attributes
    ----------
    entry : TomlEntry
        Where it lies in the text; its end is 0 if the text leaves it out.
    value : str
        As the form shows it.
    is_optional : bool
        Whether an empty field leaves the key out.
    """

    entry: TomlEntry
    label: str
    unit: str
    value: str
    is_optional: bool = False

    @property
    def name(self) -> str:
        return PREFIX + self.entry.name

    @property
    def is_of_schedule(self) -> bool:
        return self.entry.name.startswith(OF_SCHEDULE)


@dataclass(frozen=True)
class FormValues:
    """What the forms show: their fields, what is wrong in which form, and the form that was saved."""

    fields: list[FormField]
    wrong: str = ""
    said: str = ""
    form: str = ""

    @property
    def forms(self) -> list[tuple[str, str, str, list[FormField]]]:
        """The name, title, description and fields of each form."""
        economics = [it for it in self.fields if not it.is_of_schedule]
        schedule = [it for it in self.fields if it.is_of_schedule]
        return [
            ("values", "Economics", "Prices, costs, recoveries, capacities and slope angles", economics),
            ("schedule", "Pushbacks and schedule", "Pushbacks, mining widths, rates, closure and tax", schedule),
        ]


def at(entry: Mapping[str, Any], path: Sequence[str]) -> Any:
    """Returns the value of an entry at a path; None if it has none."""
    value: Any = entry
    for key in path:
        value = value.get(key) if isinstance(value, dict) else None
    return value


def fields_of(text: str, project: Project) -> list[FormField]:
    """Returns the keys of a project's text that the forms change: those whose value is one number, and those that may be added."""
    data = toml_text.parsed(text, str(project.path))
    written = {entry.name: entry for entry in entries(text) if entry.end}
    return [field for section in SECTIONS for field in fields_in(section, text, written, project, data=data)]


def fields_in(
    section: str, text: str, written: Mapping[str, TomlEntry], project: Project, *, data: Mapping[str, Any]
) -> Iterator[FormField]:
    """Yields the fields of a section, or of each entry of a list of sections."""
    listed = at(data, section.split("."))
    numbers = range(1, len(listed) + 1) if isinstance(listed, list) else range(1)
    for key, it in keys_of(record_at(section)).items():
        if it.kind.type != "number" or it.of_processes and project.processes:
            continue
        if may_be_added(section, key, it, written, data=data):
            unit = "; ".join(filter(None, [it.unit_of(project.economics.currency), without(it)]))
            yield FormField(TomlEntry(f"{section}.{key}", 0), it.label, unit, "", True)
        for number in numbers:
            entry = written.get(f"{section} {number}.{key}" if number else f"{section}.{key}")
            value = text[entry.start : entry.end] if entry else ""
            if entry and IN_FILE.fullmatch(value):
                of, unit = words_of(section, number, it, project)
                shown = value.replace("_", "").removeprefix("+")
                yield FormField(entry, f"{it.label}{of}", unit, shown, not it.is_required and not number)


def may_be_added(section: str, key: str, it: Key, written: Mapping[str, TomlEntry], *, data: Mapping[str, Any]) -> bool:
    """Returns whether a key is left out, and can be added: its section is no list, and is missing or has a header of its own."""
    held = data.get(section, {})
    is_section = isinstance(held, dict) and "." not in section and section not in ("metals", "processes")
    return is_section and not it.is_required and not it.is_seldom and key not in held and section not in written


def without(it: Key) -> str:
    """Returns what holds if a field is left empty."""
    said = str(it.default) if it.default is not None else it.otherwise
    plain = re.sub(r"\[([^]]*)\]\([^)]*\)", r"\1", said).replace("`", "")
    return f"empty: {plain}" if plain not in ("", "none") else ""


def words_of(section: str, number: int, it: Key, project: Project) -> tuple[str, str]:
    """Returns what a key is of, as ` of copper`, and its unit; the number is that of its entry in a list."""
    if not number:
        return "", it.unit_of(project.economics.currency)
    if section == "metals":
        metal = project.metals[number - 1]
        return f" of {metal.name}", it.unit_of(project.economics.currency, metal.price_unit, metal.sign)
    if section == "processes":
        return f" of {project.processes[number - 1].name}", it.unit_of(project.economics.currency)
    domains = project.slopes.domains[number - 1].domains
    return "" if domains is None else f", domain {', '.join(domains)}", it.unit_of()


def typed(fields: list[FormField], form: Mapping[str, str]) -> list[FormField]:
    return [replace(field, value=form.get(field.name, field.value).strip()) for field in fields]


def changed(text: str, before: list[FormField], after: list[FormField]) -> str:
    """Returns a text with other numbers in some fields; all else in it stays. Raises WrongForm, with its label and the remedy, if a field has no
    number."""
    draft = Draft(text)
    for old, new in zip(before, after):
        if new.value == old.value:
            continue
        if not new.value and old.is_optional:
            draft.remove(path_of(old.entry.name))
            continue
        if not NUMBER.fullmatch(new.value) or len(new.value) > MOST_LETTERS:
            raise WrongForm(
                f"{old.label}: found {new.value[:MOST_LETTERS]!r}, expected a number such as {old.value or 1}: "
                "write decimals with a point, and no separators of thousands"
            )
        draft.set(path_of(old.entry.name), new.value)
    return draft.text
