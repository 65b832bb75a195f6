"""Keys are declared once: reader, writer, reference, schema, forms, completions and the comments of `pitplan init` follow."""

import contextlib
import json
import re
import subprocess
import sys
from dataclasses import dataclass, replace
from decimal import Decimal

import jsonschema
import pytest
import tomllib
from conftest import PROJECT, ROOT
from helpers.project_page import PAGE, entry, several, whole

from pitplan import PlanError
from pitplan.blockmodel import wizard
from pitplan.cli.completions import script
from pitplan.config import keys, project
from pitplan.config.economics import Economics
from pitplan.config.project import SECTIONS, Project, schema, settable
from pitplan.config.toml_text import Section
from pitplan.report import assumptions
from pitplan.web.values_form import fields_of

sys.path.insert(0, str(ROOT / "tools"))
import keys_page  # noqa: E402

EXAMPLES = sorted((ROOT / "examples").glob("*/project.toml"))
SCHEMA = json.loads(json.dumps(schema(), default=float))


def sections(found=SECTIONS, path=""):
    """Each section with the keys of its record, and those within it."""
    for name, it in found.items():
        if it.kind.record is not None:
            yield f"{path}{name}", keys.keys_of(it.kind.record)
            yield from sections(keys.keys_of(it.kind.record), f"{path}{name}.")


KEYS = {(section, name): it for section, found in sections() for name, it in found.items()}


def test_the_tables_of_the_page_are_those_of_the_declarations():
    """After a change: tools/keys_page.py."""
    words = [sys.executable, ROOT / "tools" / "keys_page.py", "--check"]
    assert subprocess.run(words, capture_output=True, text=True, check=False).stderr == ""


def test_each_section_is_on_the_page():
    marked = {*re.findall(r"<!-- keys: ([\w.]+) -->", PAGE)}
    # Tables on one line, which the row of their key shows whole, and the folder of results.
    inline = {"output", "metals.smelter.price_participation", "shells.specified", "slopes.domains.bench"}
    assert {section for section, _ in sections()} - marked == inline | {"schedule.milp", "constraints.areas"}
    named = {name.strip("[]").partition(".")[0] for name in re.findall(r"^## `(.+)`$", PAGE, re.MULTILINE)}
    assert named == {*SECTIONS} - {"title", "output"}


def test_each_declaration_says_what_a_key_is():
    assert len(KEYS) > 190
    for place, it in KEYS.items():
        assert it.meaning and it.since in ("0.1.0", "0.2.0", "0.3.0"), place
        assert not it.meaning.endswith("."), place


@pytest.mark.parametrize("path", EXAMPLES, ids=lambda path: path.parent.name)
def test_the_examples_are_valid_by_the_schema(path):
    data = tomllib.loads(path.read_text())
    jsonschema.validate(data, SCHEMA)
    data["economics"]["minning_cost"] = 2
    with pytest.raises(jsonschema.ValidationError, match="'minning_cost' was unexpected"):
        jsonschema.validate(data, SCHEMA)


NUMBERS = [-1, 0, Decimal("0.0005"), Decimal("0.5"), 1, Decimal("1.5"), 2, 5, 12, 45, 90, 91, 100, 101, 200, 201, 1000]
NUMBERS += [1001, 10_001, 10**12 + 1, True, "x", [], [1], [[1, 2]], {}]


@pytest.mark.parametrize("text", [whole(), several()], ids=["one process", "processes"])
def test_reader_and_schema_accept_the_same_values(text):
    """Whatever the schema refuses the reader refuses, with the key; what it accepts is refused for other keys alone."""
    data, compared = tomllib.loads(text, parse_float=Decimal), 0
    validator = jsonschema.Draft7Validator(SCHEMA)
    assert validator.is_valid(json.loads(json.dumps(data, default=float)))
    for (section, key), it in KEYS.items():
        held = tomllib.loads(text, parse_float=Decimal)
        if section.partition(".")[0] not in data or key not in entry(held, section):
            continue
        for value in NUMBERS:
            entry(held, section)[key] = value
            if validator.is_valid(json.loads(json.dumps(held, default=float))):
                continue
            with pytest.raises(PlanError, match=key):
                Project.from_dict(held, ROOT)
            compared += 1
    assert compared > 400


def test_the_schema_is_printed():
    words = [sys.executable, ROOT / "tools" / "pitplan", "schema"]
    printed = subprocess.run(words, capture_output=True, text=True, check=True).stdout
    assert json.loads(printed) == SCHEMA and SCHEMA["properties"]["economics"]["required"] == ["mining_cost"]


@pytest.mark.parametrize("shell", ["bash", "zsh", "fish"])
def test_set_is_completed_by_the_keys(shell):
    found = script(shell)
    assert " economics.mining_cost= " in found and " metals.1.price= " in found and " slopes.never_steeper= " in found


def defaults():
    """Each key whose default is a value of TOML, as (section, key, value)."""
    for (section, key), it in KEYS.items():
        if not it.is_required and it.default is not None and it.default != () and it.default != {}:
            with contextlib.suppress(tomllib.TOMLDecodeError):
                yield section, key, it.kind.write(it.default, ROOT)


# Periods take theirs from other sections, azimuth_of requires azimuths, and prices of scenarios are the base ones.
WITHOUT = [
    ("slopes.domains", "azimuth_of"),
    ("periods", "years"),
    ("scenarios", "prices"),
    ("haulage", "ex_pit_distance"),
]
DEFAULTS = [it for it in defaults() if it[:2] not in WITHOUT and isinstance(it[2], (int, float, Decimal, str, tuple))]


@pytest.mark.parametrize("section, key, value", DEFAULTS, ids=[f"{it[0]}.{it[1]}" for it in DEFAULTS])
def test_a_default_is_what_holds_without_the_key(section, key, value):
    text = PROJECT if section == "metals" else whole()
    without, explicit = tomllib.loads(text), tomllib.loads(text)
    if value == "":
        return
    entry(without, section).pop(key, None)
    entry(explicit, section)[key] = value
    assert Project.from_dict(without, ROOT) == Project.from_dict(explicit, ROOT)


def test_most_defaults_are_compared():
    assert len(DEFAULTS) > 40


def test_a_new_key_reaches_everything(monkeypatch):
    """A key without arithmetic is one field of a record."""

    @dataclass(frozen=True, kw_only=True)
    class More(Economics):
        levy: Decimal = keys.key(keys.number(0, below=1), "levy of the state", Decimal(0), "share of gross revenue")

    known = SECTIONS["economics"]
    monkeypatch.setitem(project.SECTIONS, "economics", replace(known, kind=keys.table(More)))
    section = {"mining_cost": 1, "processing_cost": 1, "levy": Decimal("0.03")}
    found = keys.read(More, Section("p.toml", "economics", section))
    assert found.levy == Decimal("0.03") and keys.write(found, ROOT)["levy"] == Decimal("0.03")
    with pytest.raises(PlanError, match="levy: found 2, expected 0 to below 1"):
        keys.read(More, Section("p.toml", "economics", {**section, "levy": 2}))
    with pytest.raises(PlanError, match="levi: unknown key: did you mean levy"):
        keys.read(More, Section("p.toml", "economics", {"mining_cost": 1, "processing_cost": 1, "levi": 1}))
    text = whole()
    plan = replace(Project.from_dict(tomllib.loads(text), ROOT), economics=found)
    assert [(it.label, it.unit) for it in fields_of(text, plan) if it.entry.name == "economics.levy"] == [
        ("Levy", "share of gross revenue; empty: 0")
    ]
    assert ("levy", "3 % of gross revenue") in [*assumptions.costs(plan)]
    assert "economics.levy" in [*settable()] and " economics.levy= " in script("bash")
    assert keys.schema(More)["properties"]["levy"]["exclusiveMaximum"] == 1
    assert "# levy = 0 " in wizard.others("economics", [])
    assert "| `levy` | levy of the state | share of gross revenue, 0 to below 1 | 0 |" in keys_page.table("economics")
