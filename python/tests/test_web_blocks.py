"""Plans and sections, charts and what follows a result in the browser: arrays, the choice of a shell, and exports."""

import html
import json
import re

import numpy as np
import pandas as pd
import pytest
import tomllib
from helpers.browser_application import OWN, PORT, ended, entered
from helpers.pushbacks import PUSHBACKS, pillars
from helpers.writings import UNVERIFIED

import pitplan
from pitplan.cli.parser import FORMATS
from pitplan.web import block_data, project_text
from pitplan.web.edit_pages import with_pushbacks, with_shell
from pitplan.web.jobs import DONE, Jobs
from pitplan.web.output_pages import export_words
from pitplan.web.results_page import WORDS, grouped, read_table
from pitplan.web.run_form import WrongForm
from pitplan.web.security import Access

NAME = "hill/project.toml"


@pytest.fixture(scope="module")
def served(tmp_path_factory):
    """A folder with a project and its results: shells, pushbacks and a schedule."""
    root = tmp_path_factory.mktemp("served").resolve() / "mines"
    (root / "hill").mkdir(parents=True)
    table = pillars()
    table["zone"] = [f"Z{number % 3}" for number in range(len(table))]
    table.to_csv(root / "hill" / "blocks.csv", index=False)
    (root / "hill" / "project.toml").write_text(PUSHBACKS)
    pitplan.write_shells(root / "hill" / "project.toml", writing=UNVERIFIED)
    pitplan.write_schedule(root / "hill" / "project.toml", root / "hill" / "plan" / "schedule", writing=UNVERIFIED)
    return root


@pytest.fixture
def client(served):
    path = served / "hill" / "project.toml"
    path.write_text(PUSHBACKS)
    return entered(served, Access(PORT))


def get(client, what, name="hill/plan", **more):
    return client.get(f"/blocks/{what}", params={"name": name, **more})


# ---- arrays


def test_the_arrays_are_those_of_the_table(served, client):
    model = get(client, "model").json()
    table = pd.read_csv(served / "hill/plan/tables/blocks.csv")
    assert model["count"] == len(table) and np.prod(model["shape"]) >= len(table)
    cells = np.frombuffer(get(client, "cells").content, dtype="<u4")
    assert sorted(table["id"]) == list(cells)
    table = table.sort_values("id")
    for name in ("cu", "revenue_factor"):
        values = np.frombuffer(get(client, "values", column=name).content, dtype="<f4")
        np.testing.assert_allclose(values, table[name].to_numpy(), rtol=1e-6)
    said = get(client, "column", column="cu").json()
    assert said["unit"] == "%" and said["greatest"] == table["cu"].max() and said["labels"] == []
    rock = get(client, "column", column="rock").json()
    codes = np.frombuffer(get(client, "values", column="rock").content, dtype=np.uint8)
    assert [rock["labels"][code - 1] for code in codes] == list(table["rock"])
    row = get(client, "row", cell=int(cells[3])).json()
    assert row["id"] == str(cells[3]) and float(row["cu"]) == table["cu"].iloc[3]
    assert get(client, "row", cell=10**9).json() == {}


@pytest.mark.parametrize("of", ["project", "result"])
def test_nulls_are_drawn_as_nulls_and_not_as_zero(tmp_path, of):
    """A null grade is read as 0, and the browser gets nan for it, which it draws grey. A grade of 0 stays 0."""
    table = pillars()
    null, zero = table.index[table["cu"] == 0][[0, 2]], table.index[table["cu"] == 0][1]
    table.loc[null, "cu"] = -99
    table.to_csv(tmp_path / "blocks.csv", index=False)
    text = PUSHBACKS.replace("[table]\n", '[table]\nempty = "zero"\nnull_values = [-99]\n', 1)
    (tmp_path / "project.toml").write_text(text)
    if of == "result":
        pitplan.write_shells(tmp_path / "project.toml", tmp_path / "plan", writing=UNVERIFIED)
    blocks = (
        block_data.of_project(tmp_path / "project.toml")
        if of == "project"
        else block_data.of_results(tmp_path / "plan")
    )
    column = blocks.column("cu")
    names = blocks.frame["name"]
    assert set(names[np.isnan(column.values)]) == set(table["name"][null])
    assert column.values[names == table["name"][zero]] == 0 and column.as_json["nulls"] == 2
    cell = int(blocks.cells[np.flatnonzero(names == table["name"][null[0]])[0]])
    assert blocks.row(cell)["cu"] == "null, read as 0"
    assert not np.isnan(blocks.column("tonnes").values).any()


def test_a_result_without_its_block_model_or_without_nulls_is_shown(served, tmp_path, monkeypatch):
    """The block model is read again only if it may have nulls, and a result is shown without it."""
    pillars().to_csv(tmp_path / "blocks.csv", index=False)
    text = PUSHBACKS.replace("[table]\n", '[table]\nempty = "zero"\n', 1)
    (tmp_path / "project.toml").write_text(text)
    pitplan.write_shells(tmp_path / "project.toml", tmp_path / "plan", writing=UNVERIFIED)
    (tmp_path / "blocks.csv").unlink()
    assert block_data.of_results(tmp_path / "plan").nulls == {}
    monkeypatch.setattr(block_data.reader, "read", lambda project: pytest.fail("the block model is read again"))
    assert block_data.of_results(served / "hill" / "plan").nulls == {}


def test_the_cell_of_a_block_gives_its_place(client):
    model = get(client, "model").json()
    cells = np.frombuffer(get(client, "cells").content, dtype="<u4")
    levels, rows, columns = model["shape"]
    (dx, dy, dz), (west, south, top) = model["size"], model["corner"]
    for cell in cells[:: max(1, len(cells) // 7)]:
        row = get(client, "row", cell=int(cell)).json()
        place = (
            west + (cell % columns + 0.5) * dx,
            south + (cell // columns % rows + 0.5) * dy,
            top - (cell // (rows * columns) + 0.5) * dz,
        )
        assert [float(row[axis]) for axis in "xyz"] == pytest.approx(place)


def test_stages_have_a_colour_each(client):
    said = get(client, "column", "hill/plan/schedule", column="pushback").json()
    assert said["labels"][0] == "pushback 1" and len(said["labels"]) == len(set(said["colours"]))
    assert "year" in [it["name"] for it in get(client, "model", "hill/plan/schedule").json()["columns"]]


def test_a_project_has_plans_before_any_run(client):
    model = get(client, "model", NAME).json()
    assert model["factors"] == [] and "cu" in [it["name"] for it in model["columns"]]
    assert "Back to the project" in client.get("/blocks", params={"name": NAME}).text
    assert "Back to the results" in client.get("/blocks", params={"name": "hill/plan"}).text


def test_columns_and_folders_that_there_are_not(served, client):
    answer = get(client, "column", column="none")
    assert answer.status_code == 400 and "none: found no such column, expected one of cu" in answer.text
    for name in ("hill", "none", "../secret", "hill/blocks.csv", "hill/plan/tables"):
        assert get(client, "model", name).status_code == 400
    assert get(client, "row", cell="x").status_code == 400


def test_models_are_kept_and_read_again_if_a_file_changes(served, monkeypatch):
    store, reads = block_data.Store(), []
    read = block_data.of_project
    monkeypatch.setattr(block_data, "of_project", lambda path: reads.append(path) or read(path))
    path = served / "hill" / "project.toml"
    first = store.of(path)
    assert store.of(path) is first and len(reads) == 1
    path.write_text(PUSHBACKS + "\n# another\n")
    assert store.of(path) is not first and len(reads) == 2
    monkeypatch.setattr(block_data, "MOST_CELLS", 1)
    path.write_text(PUSHBACKS + "\n# a third\n")
    with pytest.raises(pitplan.PlanError, match="cells, expected at most 1: see the figures, or reblock"):
        store.of(path)


def test_many_codes_share_the_last_colour():
    shown = block_data.coded("zone", pd.Series([f"Z{min(number, 40)}" for number in range(60)]))
    assert len(shown.labels) == block_data.MOST_CODES and shown.labels[-1] == "others"
    assert shown.labels[0] == "Z40" and shown.values.max() == block_data.MOST_CODES


# ---- charts


def charts_in(page):
    found = re.findall(r'data-chart="([^"]+)"', page)
    return {it["name"]: it for it in (json.loads(html.unescape(text)) for text in found)}


def test_charts_have_the_numbers_of_the_tables(served, client):
    charts = charts_in(client.get("/result", params={"name": "hill/plan/schedule"}).text)
    assert {"pushbacks", "flows", "feed", "metal", "cash_flow"} <= set(charts)
    tables = served / "hill/plan/schedule/tables"
    shown = json.loads((served / "hill/plan/schedule/plan.json").read_text())["schedule"]
    flow = pd.read_csv(tables / "cash_flow.csv").query("method == @shown")
    series = {it["name"]: it for it in charts["cash_flow"]["series"]}
    assert series["cash flow"]["values"] == pytest.approx(list(flow["cash_flow"] / 1e6))
    assert series["discounted cash flow to date"]["values"][-1] == pytest.approx(
        flow["discounted_cash_flow"].sum() / 1e6
    )
    years = pd.read_csv(tables / "years.csv").query("case == @shown") if shown in ("rule", "lp") else None
    mined = np.sum([it["values"] for it in charts["flows"]["series"]], axis=0)
    assert mined == pytest.approx(list(flow["total_tonnes"] / 1e6)) and (years is None or len(years) == len(mined))
    assert charts["flows"]["left"] == "Mt" and charts["cash_flow"]["left"] == "M USD"


def test_the_pit_by_pit_chart_of_shells_lets_a_shell_be_chosen(served, client):
    page = client.get("/result", params={"name": "hill/plan"}).text
    chart = charts_in(page)["shells"]
    table = pd.read_csv(served / "hill/plan/tables/shells.csv")
    assert [float(it) for it in chart["categories"]] == list(table["revenue_factor"])
    assert chart["series"][0]["values"] == pytest.approx(list(table["in_situ_ore_tonnes"] / 1e6))
    assert 'data-choose="yes"' in page and 'action="/project/shell"' in page
    assert 'data-choose="yes"' not in client.get("/result", params={"name": "hill/plan/schedule"}).text


def test_results_without_their_tables_have_a_page_without_charts(served, client, tmp_path):
    folder = served / "hill/plan/schedule"
    kept = {it: it.read_bytes() for it in (folder / "tables").glob("*.csv")}
    try:
        for path in kept:
            path.write_text("a,b\n1\n\x00")
        assert client.get("/result", params={"name": "hill/plan/schedule"}).status_code == 200
    finally:
        for path, data in kept.items():
            path.write_bytes(data)


def test_a_long_table_shows_its_first_rows(tmp_path):
    (tmp_path / "t.csv").write_text("a,b\n" + "1,x\n" * 2500)
    found = read_table(tmp_path / "t.csv")
    assert (found.count, len(found.rows), found.are_numbers) == (2500, 2000, [True, False])


def test_numbers_have_groups_of_digits():
    assert [grouped(it) for it in ("65590338.164", "-1234", "0.5", "lp", "nan", "")] == [
        "65,590,338.164",
        "-1,234",
        "0.5",
        "lp",
        "nan",
        "",
    ]


# ---- the choice of a shell


def choose(client, served, **form):
    path = served / "hill" / "project.toml"
    given = {"project": NAME, "seen": project_text.hash_of(path), "use": "shell", **form}
    return client.post("/project/shell", data=given, headers=OWN)


def test_a_shell_is_selected(served, client):
    answer = choose(client, served, factors="0.50")
    assert answer.status_code == 303 and answer.headers["location"] == f"/project?name={NAME}&saved=schedule#schedule"
    after = (served / NAME).read_text()
    assert (
        tomllib.loads(after)["shells"]["selected"] == 0.5 and len(after.splitlines()) == len(PUSHBACKS.splitlines()) + 1
    )
    assert choose(client, served, factors="1.00").status_code == 303
    assert tomllib.loads((served / NAME).read_text())["shells"]["selected"] == 1.0


def test_the_shells_of_pushbacks_take_the_place_of_a_count(served, client):
    assert choose(client, served, use="pushbacks", factors="1.00,0.50").status_code == 303
    assert tomllib.loads((served / NAME).read_text())["pushbacks"] == {"revenue_factors": [0.5, 1.0]}
    text = with_pushbacks("[pushbacks]\ncount = 4 # four\nmin_mining_width = 40\nultimate_pit = 0.8\n", ["0.9", "0.35"])
    assert text == "[pushbacks]\nmin_mining_width = 40\nrevenue_factors = [0.35, 0.9]\n"
    assert with_shell("[shells]\nx = 1\n", "0.8") == "[shells]\nx = 1\nselected = 0.8\n"


@pytest.mark.parametrize(
    ("form", "status", "why"),
    [
        ({"factors": ""}, 422, "Shell: found '', expected a revenue factor such as 0.80"),
        ({"factors": "0.5,1.0"}, 422, "Shell: found ''"),
        ({"factors": "x"}, 422, "found 'x'"),
        ({"factors": "0.77"}, 400, ": [shells] selected: 0.77 is not among the revenue_factors"),
        ({"factors": "0.5", "seen": "x"}, 400, "has changed since this page was opened"),
        ({"use": "pushbacks", "factors": ""}, 422, "Pushbacks: found 0 shells, expected 1 to 100"),
    ],
)
def test_a_choice_that_cannot_be_is_refused(served, client, form, status, why):
    answer = choose(client, served, **form)
    assert answer.status_code == status and why in html.unescape(answer.text)
    assert (served / NAME).read_text() == PUSHBACKS
    assert client.post("/project/shell", data={"project": NAME}).status_code == 403


# ---- exports


@pytest.mark.parametrize(
    ("form", "words"),
    [
        ({"to": "xlsx", "factor": "0.5", "of": "pushback"}, ["--to=xlsx"]),
        ({"to": "dxf", "factor": "0.5"}, ["--to=dxf", "--revenue-factor=0.5"]),
        ({"to": "stl", "of": "year", "factor": "0.5"}, ["--to=stl", "--of=year"]),
        ({"to": "obj", "surface": "ground", "smooth": "on"}, ["--to=obj", "--surface=ground", "--smooth"]),
        ({"to": "str", "surface": "ground", "smooth": "on"}, ["--to=str"]),
    ],
)
def test_an_export_becomes_the_words_of_a_command(form, words):
    assert export_words(form) == words


@pytest.mark.parametrize(
    "form",
    [{"to": "exe"}, {}, {"to": "dxf", "of": "x"}, {"to": "dxf", "surface": "x"}, {"to": "dxf", "factor": "--out"}],
)
def test_an_export_that_there_is_not_is_refused(form):
    with pytest.raises(WrongForm, match="found"):
        export_words(form)


def test_each_format_of_the_command_line_has_words():
    assert tuple(WORDS) == FORMATS


def test_an_export_and_a_view_are_files_of_the_result(served, client):
    exports = [("export", {"to": "table", "factor": ""}), ("export", {"to": "lines", "factor": ""})]
    for action, form in (*exports, ("view", {})):
        answer = client.post(f"/result/{action}", data={"name": "hill/plan", **form}, headers=OWN)
        assert answer.status_code == 303
        number = int(answer.headers["location"].rpartition("=")[2])
        assert ended(served, number).status == DONE, Jobs(served).log(number)
        assert "/result?name=hill/plan" in client.get(f"/job?number={number}").text
    page = client.get("/result", params={"name": "hill/plan"}).text
    assert "/file?name=hill/plan/table.csv" in page
    selected = json.loads((served / "hill/plan/plan.json").read_text())["shells"]["selected"]
    assert f"/file?name=hill/plan/lines-{selected:.2f}.csv" in page
    assert '<iframe class="view" src="/file?name=hill/plan/view.html" sandbox="allow-scripts"' in page
    shown = client.post("/result/export", data={"name": "hill/plan", "to": "dxf", "show": "on"}, headers=OWN).text
    assert f"pitplan export hill/plan --to=dxf --revenue-factor={selected:.2f}" in shown
    for name in ("hill", "none", "../x"):
        assert client.post("/result/view", data={"name": name}, headers=OWN).status_code == 404
