"""Bent records: each command that reads one names the part, what was found, what was expected and what to run."""

import copy
import json
import re

import pytest

import pitplan
from pitplan import PlanError
from pitplan.results.folder import PLAN, Reader, demand_plan, read_folder, read_record
from planaudit import AuditError
from planaudit.inputs.record import read_json


def parts_of(value, place=()):
    """The place of each part, from the outside in."""
    if place:
        yield place
    if isinstance(value, (dict, list)):
        for key in value if isinstance(value, dict) else range(len(value)):
            yield from parts_of(value[key], (*place, key))


def bent(record, place, *value):
    """The record with another value at a place, or without one."""
    result = copy.deepcopy(record)
    inner = result
    for key in place[:-1]:
        inner = inner[key]
    if value:
        inner[place[-1]] = value[0]
    else:
        del inner[place[-1]]
    return result


def called(place):
    return re.sub(r"\.\[", "[", ".".join(f"[{key}]" if isinstance(key, int) else key for key in place))


# What is read of a record, and what else is only told.
READ = {
    "title",
    "grid",
    "slope_domains",
    "revenue_factors",
    "summary",
    "notes",
    "codes",
    "tonnes",
    "metals",
    "project",
    "verified",
    "inputs",
    "files",
    "shells",
}
TOLD = {
    "grid.cells",
    "grid.cells_without_a_row",
    "grid.of_these_not_above_the_highest_of_their_column",
    "grid.greatest_shift_of_a_centre",
}
OTHERS = (None, True, -1, 2.5, float("nan"), "", "\0", [], [1], {}, {"a": 1}, 10**30)


def test_each_part_of_a_record_is_of_its_kind_or_named(solved):
    _, folder = solved
    whole, file = read_record(folder), folder / "plan.json"
    reader, count = Reader(file, "pitplan shells"), 0
    for place in parts_of(whole):
        if (
            place[0] not in READ
            or called(place) in TOLD
            or (place[0] == "slope_domains" and place[-1] not in ("slope_domains", 0, "precedence_benches"))
        ):
            continue
        for value in OTHERS:
            changed = bent(whole, place, value)
            try:
                reader.demand(changed, PLAN, "")
                demand_plan(reader, changed)
            except PlanError as error:
                count += 1
                said = str(error)
                # Of factors the whole list is named, or that the chosen one is not among them.
                named = place[0] if "revenue_factors" in place else called(place)
                assert (
                    said.startswith(f"{file}: {named}")
                    and said.endswith(": run pitplan shells again")
                    and "\n" not in said
                )
                assert (": found " in said and ", expected " in said) or " is missing" in said
    assert count > 700


@pytest.mark.parametrize(
    ("place", "value", "said"),
    [
        (("grid", "shape"), [5, 9], "grid.shape: found [5, 9], expected a list of 3"),
        (("grid", "shape", 0), 0, "grid.shape[0]: found 0, expected a whole number from 1 to 1,000,000"),
        (
            ("grid", "shape"),
            [1000, 1000, 1000],
            "grid.shape: found 1000 x 1000 x 1000 cells, expected 64,000,000 at most",
        ),
        (("grid", "size", 2), -10, "grid.size[2]: found -10, expected a length in metres above 0"),
        (("grid", "origin", 1), float("nan"), "grid.origin[1]: found NaN, expected a number"),
        (("shells", "selected"), 0.501, "shells.selected: found 0.501, expected one of the revenue factors"),
        (
            ("shells", "revenue_factors"),
            [1.0, 0.5],
            "shells.revenue_factors: found [1.0, 0.5], expected revenue factors, each greater than the one before",
        ),
        (("shells", "solver", "by"), "hand", 'shells.solver.by: found "hand", expected library or program'),
        (("metals", 0, "column"), 3, "metals[0].column: found 3, expected a text"),
        (("notes", 0), {"a": 1}, 'notes[0]: found {"a": 1}, expected a text'),
        (
            ("files",),
            {"../blocks.csv": "0" * 64},
            'files: found "../blocks.csv", expected the path of a file within the folder',
        ),
        (("files", "blocks.csv"), "0", 'files.blocks.csv: found "0", expected a SHA-256'),
        (("inputs",), [], "inputs: found [], expected a table"),
        (("title",), "\n" * 200, 'title: found "'),
    ],
)
def test_what_is_found_and_what_is_expected(solved, place, value, said):
    _, folder = solved
    record = read_record(folder)
    (folder / "plan.json").write_text(json.dumps(bent(record, place, value)))
    if place == ("title",):
        read_record(folder)
        return
    with pytest.raises(PlanError) as error:
        read_record(folder)
    assert str(error.value) == f"{folder / 'plan.json'}: {said}: run pitplan shells again"


@pytest.mark.parametrize("text", ["", "[]", "{", "nothing", "[" * 100_000, "1" * 5000, "\xff", '"\\ud800"', "null"])
def test_what_is_no_record(solved, text):
    _, folder = solved
    (folder / "plan.json").write_bytes(text.encode("latin-1"))
    for read in (read_folder, pitplan.verify):
        with pytest.raises(
            PlanError,
            match="plan.json: (cannot be read as JSON|found .*, expected a table).*: run pitplan shells again",
        ) as error:
            read(folder)
        assert "\n" not in str(error.value)


def bends():
    """What is of the right kind and does not fit the files beside it, and what each command reads of it alone."""
    yield ("grid", "shape"), [1, 1, 1]
    yield ("grid", "shape", 0), 1
    yield ("grid", "shape", 2), 9
    yield ("grid", "size", 0), 1e-9
    yield ("grid", "origin", 0), 1e9
    yield ("tonnes",), "nothing"
    yield ("tonnes",), "rock"
    yield ("codes",), ["nothing"]
    yield ("codes",), ["id"]
    yield ("metals", 0, "column"), "rock"
    yield ("metals", 0, "name"), "gold"
    yield ("slope_domains",), []
    yield ("revenue_factors",), [500]
    yield ("shells", "revenue_factors"), [500]
    yield ("shells", "solver", "version"), ""
    yield ("project",), "nowhere.toml"
    yield ("project",), "."
    yield ("pushbacks",), 3
    yield ("schedule",), "rule"
    yield ("by_block",), True
    yield ("inputs",), {}
    yield ("files",), {}


def test_records_that_do_not_fit_what_stands_beside_them(solved):
    _, folder = solved
    whole = read_record(folder)
    calls = (pitplan.verify, lambda it: pitplan.write_export(it, "csv"), pitplan.view)
    refusals = 0
    for place, value in bends():
        (folder / "plan.json").write_text(
            json.dumps(bent(whole, place, value) if len(place) > 1 or place[0] in whole else {**whole, place[0]: value})
        )
        for call in calls:
            try:
                call(folder)
            except PlanError as error:
                refusals += 1
                assert "\n" not in str(error)
    assert refusals > 25


@pytest.mark.parametrize("text", ["", "[]", "{}", '{"methods": 3}', '{"methods": {}, "bins": 3}', None])
def test_a_bent_record_of_a_schedule_is_named(folder, text):
    file = folder / "schedule.json"
    if text is None:
        file.unlink()
    else:
        file.write_text(text)
    why = (
        "cannot be read: run pitplan schedule first"
        if text is None
        else r"does not match the tables of the folder \(.*\): run pitplan schedule again"
    )
    with pytest.raises(PlanError, match=f"schedule.json: {why}"):
        pitplan.verify(folder)


@pytest.mark.parametrize(
    "found, said", [([1, 2], "[1, 2]"), (["a" * 76], f'["{"a" * 76}"]'), ([7] * 40, f"{str([7] * 40)[:80]}..")]
)
def test_the_audit_shows_the_first_80_letters_of_what_it_found(tmp_path, found, said):
    (tmp_path / "plan.json").write_text(json.dumps(found))
    with pytest.raises(AuditError, match=f"plan.json: found {re.escape(said)}, expected a table: run pitplan again"):
        read_json(tmp_path / "plan.json", "pitplan")
