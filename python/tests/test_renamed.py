"""Keys that 0.1.0 called otherwise: errors name the new ones, and docs/UPGRADING.md lists them all."""

import re

import pytest
from conftest import PROJECT, ROOT

from pitplan import PlanError, load
from pitplan.config.keys import RENAMED

PAGE = (ROOT / "docs" / "UPGRADING.md").read_text(encoding="utf-8")


@pytest.mark.parametrize(
    "new, old, said",
    [
        (
            "[economics]",
            "[money]",
            r"project.toml:\d+: economics: is missing: rename money, as an earlier release called it",
        ),
        ("rock_type =", "rock =", r"\[table\] rock: unknown key: rename it to rock_type, as it is called now"),
        ("discount_rate =", "rate =", r"\[shells\] discount_rate: is missing: rename rate, as an earlier release"),
        ("processing_capacity =", "ore_per_year =", r"\[shells\] processing_capacity: is missing: rename ore_per_year"),
        ("[[slopes.domains]]", "[[slopes.walls]]", r"\[slopes\] domains: is missing: rename walls, as an earlier"),
        ("precedence_benches =", "levels =", r"\[slopes\] levels: unknown key: rename it to precedence_benches"),
    ],
)
def test_a_key_of_an_earlier_release_is_answered_with_the_new_one(tmp_path, new, old, said):
    assert PROJECT.count(new) == 1
    (tmp_path / "project.toml").write_text(PROJECT.replace(new, old), encoding="utf-8")
    with pytest.raises(PlanError, match=said):
        load(tmp_path / "project.toml")


def test_the_page_lists_each_key_with_its_new_name():
    rows = re.findall(
        r"^\| ([^|]*`[^|]*) \| ([^|]*) \|$",
        PAGE.partition("### Keys of project.toml")[2].partition("### Results that change")[0],
        re.MULTILINE,
    )
    listed = {}
    for olds, news in rows:
        keys = [re.findall(r"`\[*([\w.]+)\]*`", cell) for cell in (olds, news)]
        listed |= dict(zip(*([key.rpartition(".")[2] for key in cell] for cell in keys)))
    assert listed == RENAMED


# A project of 0.1.0 with each key that has another name or form now.
OLD = """
title = "Test hill"
[table]
file = "blocks.csv"
id = "name"
rock = "rock"
region = "region"
absent = { tonnes = 1, rock = "R", region = "1" }
[money]
mining_cost = 2
mining_cost_per_level = 0.1
processing_cost = 10
dilution = { region = { 1 = 0.1 } }
capital = [[1, 100]]
cutoff = "fixed"
[[metals]]
name = "copper"
column = "cu"
unit = "percent"
price = 8000
recovery = 0.5
fixed_tail = 0.01
[slopes]
levels = 3
[[slopes.walls]]
region = "1"
bench = { height = 10, face = 70, berm = 5 }
[[slopes.walls]]
steps = [[0, 0, 1]]
[shells]
factors = { from = 500, to = 1500, step = 50 }
rate = 0.1
ore_per_year = 100
rock_per_year = 200
chosen = 1000
[pushbacks]
count = 2
last = 1500
width = 20
bottom = 20
[schedule]
sinking_rate = 4
lag = 1
bins = 4
metal_per_year = { copper = 10 }
stockpile = { rehandling_cost = 1 }
[fixed]
forced = "f"
barred = "b"
[[fixed.areas]]
polygon = "a.csv"
barred = "inside"
[sensitivity]
vary = ["price"]
by = [-0.1, 0.1]
[pictures]
levels = [5]
[scenarios]
models = "simulated"
"""
NEW = """
title = "Test hill"
[table]
file = "blocks.csv"
id = "name"
rock_type = "rock"
domain = "region"
missing_blocks = { tonnes = 1, rock_type = "R", domain = "1" }
[economics]
mining_cost = 2
mining_cost_per_bench = 0.1
processing_cost = 10
dilution = { domain = { 1 = 0.1 } }
capex = [[1, 100]]
cutoff = "base_price"
[[metals]]
name = "copper"
column = "cu"
unit = "percent"
price = 8000
recovery = 0.5
tail_grade = 0.01
[slopes]
precedence_benches = 3
[[slopes.domains]]
domain = "1"
bench = { height = 10, face_angle = 70, berm_width = 5 }
[[slopes.domains]]
offsets = [[0, 0, 1]]
[shells]
revenue_factors = { from = 0.50, to = 1.50, step = 0.05 }
discount_rate = 0.1
processing_capacity = 100
mining_capacity = 200
selected = 1.0
[pushbacks]
count = 2
ultimate_pit = 1.5
min_mining_width = 20
min_bottom_width = 20
[schedule]
vertical_advance_rate = 4
bench_lag = 1
bins = 4
max_metal_per_year = { copper = 10 }
stockpile = { reclaim_cost = 1 }
[constraints]
must_mine = "f"
exclude = "b"
[[constraints.areas]]
polygon = "a.csv"
exclude = "inside"
[sensitivity]
parameters = ["price"]
changes = [-0.1, 0.1]
[figures]
levels = [5]
[scenarios]
realisations = "simulated"
"""
# How a planner follows an error: what it says, and where the text changes.
RENAMES = [r"(\w+): unknown key: rename it to (\w+),", r"(\w+): is missing: rename (\w+),"]


def followed(text, said):
    """The project after the change that an error names, in the section that it names."""
    if factor := re.search(r"found ([\d.]+), expected .* \(did you mean ([\d.]+)\?\)", said):
        return re.sub(rf"(?<![\d.]){factor[1]}\b", factor[2], text, count=1)
    if 'cutoff: found "fixed", expected one of per_revenue_factor, base_price' in said:
        return text.replace('"fixed"', '"base_price"')
    found = [match.groups() for match in (re.search(form, said) for form in RENAMES) if match]
    assert found, said
    old, new = found[0] if "unknown key" in said else found[0][::-1]
    section = re.match(r".*?project\.toml(?::\d+)?: \[(\w+)", said)
    parts = re.split(r"(?m)^(?=\[)", text)
    # The key or a section within that section; otherwise a section of the top level.
    named = rf"\b{old}(?= =|\])" if section else rf"(?<=\[){old}\b"
    return "".join(re.sub(named, new, it) if not section or re.match(rf"\[+{section[1]}\b", it) else it for it in parts)


def test_errors_lead_from_a_project_of_the_earlier_release_to_this_one(tmp_path):
    """As a planner follows them, one after the other. `price` and tables without these keys stay."""
    path, text = tmp_path / "project.toml", OLD
    for _ in range(60):
        path.write_text(text, encoding="utf-8")
        try:
            found = load(path)
            break
        except PlanError as error:
            text = followed(text, str(error))
    (tmp_path / "new").mkdir()
    (tmp_path / "new" / "project.toml").write_text(NEW, encoding="utf-8")
    assert found.to_toml(tmp_path) == load(tmp_path / "new" / "project.toml").to_toml(tmp_path / "new")
