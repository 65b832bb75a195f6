"""`[[sensitivity.hill]]`: the NPV over two parameters, of a mine that is worked out by hand, and its verification."""

import json
import re
import shutil

import pandas as pd
import pytest
from conftest import PROJECT, rows
from helpers.writings import PLAIN, UNVERIFIED, WITH_WORKBOOK
from matplotlib.figure import Figure

import pitplan
from pitplan import PlanError, load
from pitplan.figures import sensitivity as charts
from pitplan.report import statements
from pitplan.studies import sensitivity

# Four rich and four poor blocks side by side, without waste. A rich block earns 4,000 less 1,000 for the mill and 200 for mining, a poor one 1,600
# less these. A larger mill takes more blocks a year, and costs more a year. With a cut-off of 0.2 % both kinds are milled, with 0.5 % the rich only,
# and with 1.1 % none. The base case is the second mill with the first cut-off.
TEXT = PROJECT.replace("processing_cost = 10\n", "fixed_cost_per_year = 1700\n").replace("recovery = 0.5\n", "")
TEXT = TEXT.replace("processing_capacity = 100\n", "").replace("[0.5, 1.0, 1.5]", "[0.5, 1.0]\nselected = 1.0")
TEXT += """[[processes]]
name = "mill"
cost = 10
recovery = { copper = 0.5 }
capacity = 400
accepts = { cu = { min = 0.2 } }
[sensitivity]
changes = [0.1]
parameters = "mining_cost"
"""
HILL = """[[sensitivity.hill]]
parameter = "processes.mill.capacity"
values = [200, 400, 800]
also = { "economics.fixed_cost_per_year" = [700, 1700, 5000] }
[[sensitivity.hill]]
parameter = "processes.mill.accepts.cu.min"
values = [0.2, 0.5, 1.1]
"""
CAPACITIES, COSTS, CUTOFFS = (200, 400, 800), (700, 1700, 5000), (0.2, 0.5, 1.1)
RICH, POOR = 4000 - 1200, 1600 - 1200


def worked(capacity, cost, cutoff):
    """NPV of best and worst case at 10 %. The best mines the shell of the rich blocks first, the worst all eight blocks alike. The cost of a year
    is spent while the mine runs."""
    if cutoff == 1.1:
        return 0, 0
    blocks = capacity // 100
    kinds = [RICH] * 4 + [POOR] * 4 * (cutoff == 0.2)
    mean = [sum(kinds) / len(kinds)] * len(kinds)
    return tuple(
        sum(
            (sum(order[first : first + blocks]) - cost * len(order[first : first + blocks]) / blocks) / 1.1**year
            for year, first in enumerate(range(0, len(order), blocks), 1)
        )
        for order in (kinds, mean)
    )


def table():
    return rows(8, 1, 1, cu=lambda i, j, k: 1 if i < 4 else 0.4)


@pytest.fixture(scope="module")
def written(tmp_path_factory):
    place = tmp_path_factory.mktemp("hill")
    table().to_csv(place / "blocks.csv", index=False)
    (place / "project.toml").write_text(TEXT + HILL)
    pitplan.write_sensitivity(place / "project.toml", writing=PLAIN)
    return place / "plan" / "sensitivity"


def hill_of(folder):
    return pd.read_csv(folder / "tables/hill_of_value.csv")


def wrong(folder):
    return {rule.name for rule in pitplan.verify(folder) if rule.differences}


def test_the_hill_is_as_worked_out_by_hand_and_its_top_lies_inside(written):
    found = hill_of(written).set_index(["value", "second_value"])
    assert len(found) == 9
    for capacity, cost in zip(CAPACITIES, COSTS):
        for cutoff in CUTOFFS:
            best, worst = worked(capacity, cost, cutoff)
            row = found.loc[(capacity, cutoff)]
            assert (row["npv_best"], row["npv_worst"]) == pytest.approx((best, worst), abs=0.001)
            assert row["npv"] == pytest.approx((best + worst) / 2, abs=0.001)
    top = found["npv"].idxmax()
    assert top == (400, 0.5) and found.loc[top, "npv"] == pytest.approx((4 * RICH - 1700) / 1.1, abs=0.001)
    assert found["parameter"].unique().tolist() == ["processes.mill.capacity"] and wrong(written) == set()


@pytest.mark.parametrize(
    ("cutoffs", "top", "edge"),
    [
        ("[0.2, 0.5, 1.1]", "8,636 USD at processes.mill.capacity = 400 and processes.mill.accepts.cu.min = 0.5", []),
        (
            "[0.5, 1.1]",
            "8,636 USD at processes.mill.capacity = 400 and processes.mill.accepts.cu.min = 0.5",
            ["processes.mill.accepts.cu.min"],
        ),
    ],
)
def test_notes_name_the_top_and_say_if_it_lies_at_the_edge(plan_folder, cutoffs, top, edge):
    path = plan_folder(table(), TEXT + HILL, ("[0.2, 0.5, 1.1]", cutoffs))
    pitplan.write_sensitivity(path, writing=UNVERIFIED)
    record = json.loads((path.parent / "plan/sensitivity/sensitivity.json").read_text())
    found = [note for note in record["notes"] if note.startswith("hill of value")]
    assert found[0] == f"hill of value: highest NPV {top}" and len(found) == 1 + len(edge)
    assert all(name in found[1] for name in edge)


def test_the_hill_is_no_part_of_the_sensitivity(written):
    cases = pd.read_csv(written / "tables/sensitivity.csv")
    assert cases["parameter"].fillna("").tolist() == ["", "mining_cost"]
    base = hill_of(written).query("value == 400 and second_value == 0.2")
    assert base["npv"].item() == cases["npv"][0] and base["kept_npv_best"].item() == cases["npv_best"][0]


def test_changes_of_parameters_are_axes_too(plan_folder):
    """Half, the same and twice the capacity, at prices 10 % lower and as given."""
    hill = '[[sensitivity.hill]]\nparameter = "capacity"\nchanges = [-0.5, 0, 1]\n'
    hill += '[[sensitivity.hill]]\nparameter = "price copper"\nchanges = [-0.1, 0]\n'
    path = plan_folder(table(), TEXT + hill)
    pitplan.write_sensitivity(path, writing=UNVERIFIED)
    folder = path.parent / "plan" / "sensitivity"
    found = hill_of(folder).set_index(["value", "second_value"])["npv"]
    for change, price in ((-0.5, 7200), (0, 8000), (1, 7200)):
        plan = pitplan.Plan.from_project(
            path, overrides=[f"processes.mill.capacity={400 * (1 + change)}", f"metals.copper.price={price}"]
        )
        row = plan.shells().table.query("revenue_factor == 1").iloc[0]
        expected = (row["npv_best"] + row["npv_worst"]) / 2
        assert found[change, -0.1 if price == 7200 else 0] == pytest.approx(expected, abs=0.001)
    assert wrong(folder) == set()


@pytest.mark.parametrize(("name", "by"), [("npv", 1.0), ("npv_best", 1.0), ("feed_tonnes", 1.0), ("value", 1.0)])
def test_a_changed_number_is_found(written, tmp_path, name, by):
    folder = shutil.copytree(written.parent.parent, tmp_path / "mine") / "plan" / "sensitivity"
    found = hill_of(folder)
    found[name] = found[name].astype(float)
    found.loc[4, name] += by
    found.to_csv(folder / "tables/hill_of_value.csv", index=False)
    assert wrong(folder) == ({"cases"} if name == "value" else {"shells"} if name == "feed_tonnes" else {"years"})


def test_a_key_that_is_set_otherwise_is_found(plan_folder, monkeypatch):
    monkeypatch.setattr(sensitivity, "assigned", lambda data, path, value, where: data)
    with pytest.raises(PlanError, match="verification failed"):
        pitplan.write_sensitivity(plan_folder(table(), TEXT + HILL), writing=PLAIN)


def test_a_run_without_a_hill_removes_that_of_an_earlier_run(written, tmp_path):
    place = shutil.copytree(written.parent.parent, tmp_path / "mine")
    (place / "project.toml").write_text(TEXT)
    pitplan.write_sensitivity(place / "project.toml", writing=UNVERIFIED)
    assert not [*(place / "plan/sensitivity").glob("tables/hill*")]


def test_the_workbook_has_the_grid(plan_folder):
    openpyxl = pytest.importorskip("openpyxl")
    path = plan_folder(table(), TEXT + HILL)
    pitplan.write_sensitivity(path, writing=WITH_WORKBOOK)
    folder = path.parent / "plan" / "sensitivity"
    book = openpyxl.load_workbook(folder / "tables/hill_of_value.xlsx")
    assert book.sheetnames == ["npv", "hill_of_value"]
    cells = [[cell.value for cell in row] for row in book["npv"]]
    assert [row[0] for row in cells[1:]] == list(CUTOFFS)
    found = hill_of(folder).pivot(index="second_value", columns="value", values="npv")
    assert [row[1:] for row in cells[1:]] == found.to_numpy().tolist()


def test_the_report_shows_the_npvs_as_a_grid_of_cells(written):
    """A row per cut-off, a column per capacity, in thousands of USD; each number names its cell."""
    found, rows_of_file = statements.of_hill(written, load(written.parent.parent / "project.toml")), hill_of(written)
    assert found["part"]["headings"] == ["least cu that mill accepts", "200", "400", "800"] and not found["picture"]
    assert found["caption"].startswith("Hill of value: NPV, USD, by capacity of mill (columns)")
    for row, cutoff in zip(found["part"]["rows"], CUTOFFS):
        first, *others = row["cells"]
        assert first["text"] == f"{cutoff:g}"
        for cell, capacity in zip(others, CAPACITIES):
            number = int(re.fullmatch(r"tables/hill_of_value.csv row (\d+) column npv", cell["source"])[1]) - 2
            it = rows_of_file.loc[number]
            assert (it["value"], it["second_value"]) == (capacity, cutoff) and cell["text"] == f"{it['npv']:,.2f}"


def test_the_contours_have_a_star_at_the_top(written, tmp_path):
    ax = charts.plot(hill_of(written), "USD", Figure().subplots())
    (star,) = [line for line in ax.lines if line.get_marker() == "*"]
    assert (star.get_xdata(), star.get_ydata()) == (400, 0.5)
    assert (
        star.get_label() == "highest NPV: 8,636.36 USD at capacity of mill 400 t a year, least cu that mill accepts 0.5"
    )
    assert (ax.get_xlabel(), ax.get_ylabel()) == ("capacity of mill, t a year", "least cu that mill accepts")
    charts.write(hill_of(written).assign(npv=0.0), "USD", tmp_path / "flat.png")
    assert (tmp_path / "flat.png").stat().st_size > 5_000


@pytest.mark.parametrize(
    ("old", "new", "said"),
    [
        ("values = [0.2, 0.5, 1.1]", "values = [0.2]", "values: expected 2 to 30 different numbers that rise"),
        ("values = [0.2, 0.5, 1.1]", "values = [0.5, 0.2]", "values: expected 2 to 30 different numbers that rise"),
        ("values = [0.2, 0.5, 1.1]", "", "values: expected either values of a key or changes of a parameter"),
        ('"processes.mill.accepts.cu.min"', '"price"', 'values: found values of "price", expected changes'),
        ('"processes.mill.accepts.cu.min"', '"processes.mill.capacity"', "both axes change the same parameter"),
        ('"processes.mill.accepts.cu.min"', '"processes.mil.cost"', "found mil, expected one of mill"),
        ('"processes.mill.accepts.cu.min"', '"metals.copper.name"', "expected a key with one number"),
        ("[700, 1700, 5000]", "[700]", "found 1 values, expected 3 as of the parameter"),
        ('"economics.fixed_cost_per_year" =', "fixed_cost_per_year =", "expected the path of a key in quotes"),
        ("values = [200, 400, 800]", "values = [-5, 400, 800]", "capacity"),
    ],
)
def test_what_is_wrong_is_named(plan_folder, old, new, said):
    path = plan_folder(table(), TEXT + HILL, (old, new))
    with pytest.raises(PlanError, match=said):
        load(path) if "-5" not in new else pitplan.write_sensitivity(path, writing=UNVERIFIED)
