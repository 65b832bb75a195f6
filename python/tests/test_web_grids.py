"""Metals, processes, stockpiles, dumps, periods and slopes of a project that grids of the browser change in its text."""

import html
import re
from dataclasses import replace
from decimal import Decimal

import pytest
import tomllib
from conftest import ROOT
from helpers.browser_application import OWN, PORT, entered
from helpers.pushbacks import pillars

from pitplan.config.project import load
from pitplan.web import grids, project_text
from pitplan.web.draft import Draft
from pitplan.web.edit_pages import with_named_process
from pitplan.web.grids import KINDS, GridRow, grids_of
from pitplan.web.run_form import WrongForm
from pitplan.web.security import Access

NAME = "hill/project.toml"
TEXT = """# A mine
title = "Hill"
[table]
file = "blocks.csv"
id = "name"
rock_type = "rock"

[economics]
currency = "AUD"
mining_cost = 2.5

[[metals]]            # the first
name = "copper"
column = "cu"
unit = "percent"
price = 9_000.50      # per tonne
# price_per = "lb"

# The second comes with the first.
[[metals]]
name = "gold"
column = "tonnes"
unit = "gram_per_tonne"
price = 20
[metals.smelter]
payable = 0.99

[[processes]]
name = "mill"
cost = { R = 10 }     # by rock
recovery = { copper = 0.9, gold = [[0, 0.5], [2, 0.9]] }
capacity = 1_000
[processes.feed]
cu = { max = 3 }      # head grade

[[processes]]
name = "leach"
cost = 4
recovery.copper = 0.4
capacity = 500
accepts = { rock_type = ["R"], cu = { max = 1 } }

[slopes]
[[slopes.domains]]
angle = 45

[shells]
revenue_factors = [1.0]
discount_rate = 8e-2
"""


@pytest.fixture
def path(tmp_path):
    folder = tmp_path.resolve() / "mines" / "hill"
    folder.mkdir(parents=True)
    pillars().to_csv(folder / "blocks.csv", index=False)
    (folder / "project.toml").write_text(TEXT)
    return folder / "project.toml"


@pytest.fixture
def client(path):
    return entered(path.parent.parent, Access(PORT))


def page_of(client):
    return client.get("/project", params={"name": NAME}).text


def form_in(page, kind):
    """The fields of a grid, as a browser sends them."""
    part = page.partition(f'action="/project/grid#{kind}"')[2].partition("</form>")[0]
    found = re.findall(r'<input[^>]* name="([^"]+)" value="([^"]*)"', part)
    found += re.findall(r'<input name="(cell:[^"]+)" value="([^"]*)"', part)
    return {html.unescape(name): html.unescape(value) for name, value in found}


def keys_in(page, kind):
    part = page.partition(f'action="/project/grid#{kind}"')[2].partition("</form>")[0]
    return re.findall(r'data-key="([^"]+)"', part)


def send(client, kind, page=None, **cells):
    """Sends a grid with other cells, by row (from 1) and key: r1_cost="5"."""
    page = page or page_of(client)
    form, keys = form_in(page, kind), keys_in(page, kind)
    for name, value in cells.items():
        row, _, key = name.partition("_")
        form[f"cell:{int(row[1:]) - 1}:{keys.index(key.replace('__', '.'))}"] = value
    return client.post("/project/grid", data=form, headers=OWN)


def wrong(page, kind):
    return html.unescape(re.search(rf'<p id="wrong-{kind}"[^>]*>(.*?)</p>', page, re.DOTALL)[1])


# ---- shown


def test_each_grid_shows_its_entries_with_labels_and_units(path, client):
    found = grids_of(TEXT, load(path))
    assert list(found) == ["metals", "processes", "stockpiles", "dumps", "periods", "classes", "slopes", "areas"]
    metals = found["metals"]
    cells = [dict(zip((it.name for it in metals.columns), row.cells)) for row in metals.rows]
    assert cells[0]["price"] == "9000.50" and cells[1]["name"] == "gold" and cells[1]["smelter.payable"] == "0.99"
    processes = found["processes"]
    cells = [dict(zip((it.name for it in processes.columns), row.cells)) for row in processes.rows]
    assert cells[0]["cost.R"] == "10" and cells[1]["cost"] == "4" and cells[0]["feed.cu.max"] == "3"
    assert cells[0]["recovery.gold"] == "[[0, 0.5], [2, 0.9]]" and cells[1]["accepts.rock_type"] == "R"
    page = page_of(client)
    assert 'aria-label="Process 1, Capacity, t of mill feed/year"' in page
    assert form_in(page, "metals").keys() >= {"project", "seen", "grid", "row:0", "row:2", "cell:2:0"}


@pytest.mark.parametrize("kind", [kind for kind in KINDS if kind != "classes"])
def test_a_grid_without_changes_changes_no_letter(path, client, kind):
    answer = send(client, kind)
    assert answer.status_code == 303 and answer.headers["location"].endswith(f"&saved={kind}#{kind}")
    assert path.read_text() == TEXT
    assert "Saved." in client.get(answer.headers["location"]).text


# ---- changed


def lines_changed(before, after):
    old, new = before.splitlines(), after.splitlines()
    return [it for it in old if it not in new], [it for it in new if it not in old]


def test_cells_change_in_their_places(path, client):
    answer = send(
        client, "processes", r1_cost__R="12.25", r1_recovery__copper="0.85", r2_capacity="750", r2_accepts__cu__max=""
    )
    assert answer.status_code == 303, wrong(answer.text, "processes")
    assert lines_changed(TEXT, path.read_text()) == (
        [
            "cost = { R = 10 }     # by rock",
            "recovery = { copper = 0.9, gold = [[0, 0.5], [2, 0.9]] }",
            "capacity = 500",
            'accepts = { rock_type = ["R"], cu = { max = 1 } }',
        ],
        [
            "cost = { R = 12.25 }     # by rock",
            "recovery = { copper = 0.85, gold = [[0, 0.5], [2, 0.9]] }",
            "capacity = 750",
            'accepts = { rock_type = ["R"] }',
        ],
    )


def test_keys_are_added_and_removed(path, client):
    answer = send(client, "metals", r1_price_per="lb", r1_selling_cost="3")
    assert answer.status_code == 303
    assert path.read_text() == TEXT.replace("# per tonne\n", '# per tonne\nselling_cost = 3\nprice_per = "lb"\n')
    assert send(client, "metals", r1_price_per="", r1_selling_cost="").status_code == 303 and path.read_text() == TEXT
    assert send(client, "processes", r1_feed__cu__max="").status_code == 303
    assert path.read_text() == TEXT.replace("[processes.feed]\ncu = { max = 3 }      # head grade\n", "")


def test_rows_are_added_at_the_end_and_removed_with_their_sections(path, client):
    new = {"r3_name": "stockwork", "r3_cost": "7", "r3_capacity": "50", "r3_recovery__copper": "0.6"}
    assert send(client, "processes", **new, r3_accepts__rock_type="R, S").status_code == 303
    block = '[[processes]]\nname = "stockwork"\ncost = 7\nrecovery = { copper = 0.6 }\ncapacity = 50\naccepts = { rock_type = ["R", "S"] }\n\n'
    assert path.read_text() == TEXT.replace("[slopes]\n", f"{block}[slopes]\n")
    page = page_of(client)
    form = {
        name: value for name, value in form_in(page, "processes").items() if not name.startswith(("row:0", "cell:0:"))
    }
    assert client.post("/project/grid", data=form, headers=OWN).status_code == 303
    start, end = TEXT.index("[[processes]]"), TEXT.index('[[processes]]\nname = "leach"')
    assert path.read_text() == (TEXT[:start] + TEXT[end:]).replace("[slopes]\n", f"{block}[slopes]\n")


def test_a_row_between_others_goes_there_and_comments_stay(path, client):
    found = grids_of(TEXT, load(path))["metals"]
    cells = tuple(
        {"name": "silver", "column": "ag", "unit": "percent", "price": "5"}.get(it.name, "") for it in found.columns
    )
    after = replace(found, rows=[found.rows[0], GridRow(None, cells), GridRow(None, ("x", *cells[1:])), found.rows[1]])
    text = grids.changed(TEXT, found, after, NAME)
    names = [it["name"] for it in tomllib.loads(text)["metals"]]
    assert names == ["copper", "silver", "x", "gold"]
    assert '\n# The second comes with the first.\n[[metals]]\nname = "gold"' in text and '# price_per = "lb"' in text


def test_a_new_list_is_added(path, client):
    assert send(client, "periods", r1_years="2", r1_prices__copper="8500", r1_capex="1e6").status_code == 303
    assert path.read_text() == f"{TEXT}\n[[periods]]\nyears = 2\nprices = {{ copper = 8500 }}\ncapex = 1e6\n"
    assert send(client, "stockpiles", r1_name="low", r1_reclaim_cost="1.5").status_code == 303
    assert path.read_text().endswith('\n\n[[schedule.stockpiles]]\nname = "low"\nreclaim_cost = 1.5\n')
    project = load(path)
    assert [it.name for it in project.schedule.stockpiles] == ["low"] and project.shells.calendar.periods[0].years == 2


CLASSED = TEXT.replace('rock_type = "rock"\n', 'rock_type = "rock"\nclass = "region"\n')


def test_rules_of_classes_are_set_changed_and_removed(path, client):
    assert "names no column of resource classes" in page_of(client)
    path.write_text(CLASSED)
    answer = send(client, "classes", r1_class="inferred", r1_rule="refuse")
    assert answer.status_code == 303, wrong(answer.text, "classes")
    assert path.read_text() == f'{CLASSED}\n[classes]\ninferred = "refuse"\n'
    answer = send(client, "classes", r1_rule="ore", r2_class="Cat 3", r2_rule="waste")
    assert path.read_text() == f'{CLASSED}\n[classes]\ninferred = "ore"\n"Cat 3" = "waste"\n'
    assert load(path).classes.of("inferred") == "ore" and load(path).classes.of("Cat 3") == "waste"
    page = page_of(client)
    form = {
        name: value for name, value in form_in(page, "classes").items() if not name.startswith(("row:0", "cell:0:"))
    }
    assert client.post("/project/grid", data=form, headers=OWN).status_code == 303
    assert path.read_text() == f'{CLASSED}\n[classes]\n"Cat 3" = "waste"\n'


@pytest.mark.parametrize(
    ("cells", "why"),
    [
        ({"r1_rule": "ore"}, "Resource classes, row 1, Class: found nothing, expected a code"),
        ({"r1_class": "inf"}, "Resource classes, row 1, Rule: found '', expected one of ore, waste, refuse"),
        ({"r1_class": "inf", "r1_rule": "maybe"}, "Rule: found 'maybe', expected one of ore, waste, refuse"),
    ],
)
def test_rules_of_classes_that_are_wrong(path, client, cells, why):
    path.write_text(CLASSED)
    answer = send(client, "classes", **cells)
    assert answer.status_code == 422 and why in wrong(answer.text, "classes") and path.read_text() == CLASSED


def test_rules_in_another_form_are_changed_there(path):
    text = CLASSED.replace("[table]", 'classes = { inf = "ore" }\n[table]')
    path.write_text(text)
    grid = grids_of(text, load(path))["classes"]
    assert [row.cells for row in grid.rows] == [("inf", "ore")]
    after = replace(grid, rows=[GridRow(0, ("inf", "ore")), GridRow(None, ("x", "waste"))])
    expected = text.replace('{ inf = "ore" }', '{ inf = "ore", x = "waste" }')
    assert grids.changed(text, grid, after, NAME) == expected


# ---- refused


@pytest.mark.parametrize(
    ("kind", "cells", "why"),
    [
        ("processes", {"r1_capacity": "x"}, "Processes, row 1, Capacity: found 'x', expected a number such as 12.5"),
        ("processes", {"r1_capacity": "1,000"}, "and no separators of thousands"),
        ("processes", {"r1_capacity": "0"}, f"{NAME}:32: [processes 1] capacity: found 0, expected 1 or more"),
        ("processes", {"r3_name": "third"}, ": [processes 3] cost: is missing"),
        ("metals", {"r1_unit": "pct"}, ': [metals 1] unit: found "pct", expected one of percent'),
        (
            "slopes",
            {"r1_azimuths": "0 48"},
            "Slopes, row 1, Angles by azimuth: found '0 48', expected a number, a text",
        ),
        ("slopes", {"r1_azimuths": "[[0, 48]]"}, "give exactly one of angle, azimuths"),
        ("periods", {"r1_years": "[1"}, "Periods, row 1, Years: found '[1', expected"),
    ],
)
def test_what_is_wrong_is_refused_in_words_and_shown_again(path, client, kind, cells, why):
    answer = send(client, kind, **cells)
    assert answer.status_code == 422 and path.read_text() == TEXT
    assert why in wrong(answer.text, kind)
    ((name, value),) = cells.items()
    row, _, key = name.partition("_")
    place = keys_in(answer.text, kind).index(key.replace("__", "."))
    assert form_in(answer.text, kind)[f"cell:{int(row[1:]) - 1}:{place}"] == value
    assert f'<details class="run" id="{kind}" open>' in answer.text


def test_a_file_that_has_changed_is_kept(path, client):
    page, theirs = page_of(client), TEXT.replace("0.9,", "0.8,")
    path.write_text(theirs)
    answer = send(client, "processes", page, r1_capacity="x2")
    assert answer.status_code == 409 and path.read_text() == theirs
    answer = send(client, "processes", page, r1_capacity="2000")
    assert answer.status_code == 409 and path.read_text() == theirs
    assert "has changed since this page was opened" in wrong(answer.text, "processes")


def test_other_grids_rows_and_sites_change_nothing(path, client):
    form = form_in(page_of(client), "processes")
    assert client.post("/project/grid", data=form).status_code == 403
    assert client.post("/project/grid", data=form | {"grid": "x"}, headers=OWN).status_code == 422
    strange = {"row:x": "0", "row:7": "99", "cell:7:0": "", "cell:0:999": "1", "cell:-1:0": "1"}
    assert client.post("/project/grid", data=form | strange, headers=OWN).status_code == 303
    twice = form | {"row:9": "0", "cell:9:0": "other"}
    assert client.post("/project/grid", data=twice, headers=OWN).status_code == 422
    assert path.read_text() == TEXT


@pytest.mark.parametrize(
    ("old", "new", "kind", "why"),
    [
        ('[[processes]]\nname = "leach"', "", "dumps", ""),
        (
            "[slopes]\n[[slopes.domains]]\nangle = 45",
            "[slopes]\ndomains = [{ angle = 45 }]",
            "slopes",
            "are not written as",
        ),
        ("[shells]", "[schedule.stockpile]\nreclaim_cost = 1\n[shells]", "stockpiles", "has the short form"),
        ("[table]", 'periods = "p.csv"\n[table]', "periods", "Periods are in the table p.csv: change them there"),
    ],
)
def test_lists_in_another_form_are_left_to_the_text(path, client, old, new, kind, why):
    (path.parent / "p.csv").write_text("years\n2\n")
    text = TEXT.replace(old, new) if why else TEXT
    path.write_text(text)
    page = page_of(client)
    assert (why in page) if why else f'action="/project/grid#{kind}"' in page
    if why:
        assert f'action="/project/grid#{kind}"' not in page
        grid = grids_of(text, load(path))[kind]
        with pytest.raises(WrongForm, match=re.escape(why)):
            grids.changed(text, grid, grid, NAME)


def test_a_text_that_a_grid_cannot_change_is_refused(path):
    """A table that a header makes cannot become a number in its place."""
    text = TEXT.replace("cost = { R = 10 }     # by rock\n", "").replace(
        "[processes.feed]", "[processes.cost]\nR = 10\n[processes.feed]"
    )
    path.write_text(text)
    grid = grids_of(text, load(path))["processes"]
    place = [it.name for it in grid.columns].index("cost")
    cells = list(grid.rows[0].cells)
    cells[place] = "5"
    with pytest.raises(WrongForm, match=r"in a way that this grid cannot change: change it in the text"):
        grids.changed(text, grid, replace(grid, rows=[GridRow(0, tuple(cells)), grid.rows[1]]), NAME)


# ---- all examples, each cell


def rows_with(grid, row, column, text):
    cells = list(grid.rows[row].cells)
    cells[column] = text
    return replace(grid, rows=[*grid.rows[:row], GridRow(row, tuple(cells)), *grid.rows[row + 1 :]])


@pytest.mark.parametrize("file", sorted(str(it.relative_to(ROOT)) for it in ROOT.glob("examples/*/project*.toml")))
def test_each_number_of_the_examples_changes_alone(file):
    text, project = (ROOT / file).read_text(), load(ROOT / file)
    for kind, grid in grids_of(text, project).items():
        for row, before in enumerate(grid.rows):
            for column, cell in enumerate(before.cells):
                if not re.fullmatch(r"[0-9.]+", cell):
                    continue
                after = grids.changed(text, grid, rows_with(grid, row, column, "7.125"), file)
                old, new = text.splitlines(), after.splitlines()
                assert sum(a != b for a, b in zip(old, new, strict=True)) == 1, (kind, row, column)
                gone = grids.changed(text, grid, rows_with(grid, row, column, ""), file)
                assert Decimal("7.125") not in tomllib.loads(gone, parse_float=Decimal).values()


# ---- the first process


UNNAMED = (
    TEXT.replace(TEXT[TEXT.index("[[processes]]") : TEXT.index("[slopes]")], "")
    .replace("mining_cost = 2.5\n", "mining_cost = 2.5\nprocessing_cost = { R = 1_0 }   # by rock\n")
    .replace("[shells]\n", "[schedule.feed]\ncu = { max = 3 }\n[shells]\nprocessing_capacity = 1_000\n")
    .replace("# per tonne\n", "# per tonne\nrecovery = 0.9\n")
    .replace("price = 20\n", "price = 20\nrecovery = [[0, 0.5], [2, 0.9]]\n")
)


def test_a_process_without_a_name_gets_one_and_the_plan_is_the_same(path, client):
    path.write_text(UNNAMED)
    before = load(path)
    page = page_of(client)
    assert "Name the process" in page
    form = {"project": NAME, "seen": project_text.hash_of(path), "name": "mill"}
    answer = client.post("/project/name-process", data=form, headers=OWN)
    assert answer.status_code == 303, answer.text
    after = load(path)
    (process,) = after.processes
    assert (process.name, process.cost, process.capacity) == ("mill", before.economics.processing_cost, 1000)
    assert process.recovery == {it.name: it.recovery for it in before.metals}
    assert [(it.column, it.max) for it in process.feed] == [("cu", 3)] and "cost = { R = 1_0 }" in path.read_text()
    with pytest.raises(WrongForm, match="names them already"):
        with_named_process(path.read_text(), "mill")


def test_a_process_needs_a_name_that_names_columns(path, client):
    path.write_text(UNNAMED)
    for name, why in (("", "Name of the process: found nothing"), ("two words", "expected one word of letters")):
        form = {"project": NAME, "seen": project_text.hash_of(path), "name": name}
        answer = client.post("/project/name-process", data=form, headers=OWN)
        assert answer.status_code == 422 and why in wrong(answer.text, "processes") and path.read_text() == UNNAMED


# ---- saved under a lock


def test_a_write_between_the_check_and_the_rename_is_kept(path, monkeypatch):
    """Another program writes while the new text is being written next to the file."""
    seen, theirs, whole = project_text.hash_of(path), TEXT + "# theirs\n", project_text.Path.chmod

    def meanwhile(place, mode):
        path.write_text(theirs)
        whole(place, mode)

    monkeypatch.setattr(project_text.Path, "chmod", meanwhile)
    with pytest.raises(project_text.Changed):
        project_text.save(path, NAME, project_text.Editor(TEXT + "# mine\n", seen))
    assert path.read_text() == theirs and [it.name for it in path.parent.iterdir() if it.name.startswith(".")] == []


# ---- the text


@pytest.mark.parametrize(
    ("text", "path", "value", "expected"),
    [
        ("", ("x",), "1", "[a]\nx = 1\n"),
        ("[a]", ("x",), "1", "[a]\nx = 1\n"),
        ("[a]\ny = [\n 1, # one\n]", ("x",), "1", "[a]\ny = [\n 1, # one\n]\nx = 1\n"),
        ("[a]\nb = {}\n", ("b", "x"), "1", "[a]\nb = { x = 1 }\n"),
        ("[a]\n[a.b]\n# none\n", ("b", "x"), "1", "[a]\n[a.b]\n# none\nx = 1\n"),
        ("[a]\nb.c = 1\n", ("b", "x"), "2", "[a]\nb.c = 1\nb.x = 2\n"),
        ("[a]\n", ("Cu %", "x"), "2", '[a]\n"Cu %" = { x = 2 }\n'),
        ('[a]\nb = { "Cu %" = { x = "}" } }\n', ("b", "Cu %", "x"), "2", '[a]\nb = { "Cu %" = { x = 2 } }\n'),
    ],
)
def test_a_key_is_set_where_its_table_is(text, path, value, expected):
    draft = Draft(text)
    draft.set(("a", *path), value)
    assert draft.text == expected


@pytest.mark.parametrize(
    ("text", "path", "expected"),
    [
        ("[a]\nx = 1 # one\ny = 2\n", ("x",), "[a]\ny = 2\n"),
        ("[a]\nx = [\n1]", ("x",), "[a]\n"),
        ("[a]\nb = { x = 1, y = 2 }\n", ("b", "x"), "[a]\nb = { y = 2 }\n"),
        ("[a]\nb = { x = 1, y = 2 } # c\n", ("b", "y"), "[a]\nb = { x = 1 }        # c\n"),
        ("[a]\nb = { c = { x = 1 } }\nd = 1\n", ("b", "c", "x"), "[a]\nd = 1\n"),
        ("[a]\n[a.b]\nx = 1\n[c]\n", ("b", "x"), "[a]\n[c]\n"),
        ("[a]\n[a.b]\nx = 1\n[a.b.c]\n", ("b", "x"), "[a]\n[a.b]\n[a.b.c]\n"),
        ("[a]\nx = 1\n", ("y",), "[a]\nx = 1\n"),
    ],
)
def test_a_key_is_removed_with_what_is_empty_then(text, path, expected):
    draft = Draft(text)
    draft.remove(("a", *path))
    assert draft.text == expected
