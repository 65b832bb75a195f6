"""The schema of columns, against the tables that commands write, the places that take it, and docs/FORMATS.md."""

import csv
import subprocess
import sys

import numpy as np
import pandas as pd
import pytest
from conftest import PROJECT, ROOT, rows
from helpers.writings import UNVERIFIED

import pitplan
from pitplan.export import xlsx
from pitplan.report import columns as report
from pitplan.results import columns
from pitplan.results.columns import TABLES
from pitplan.results.rounding import decimals_of, shown

BY_FILE = {table.file: table for table in TABLES}
WIDE = """[pushbacks]
count = 2
min_mining_width = 20
mining_cost_added = [0, 0.125]
[schedule]
bins = 2
stockpile = { reclaim_cost = 1.2 }
[[dumps]]
name = "north"
cost = 0.1
[sensitivity]
changes = [0.1]
parameters = "mining_cost"
[[sensitivity.hill]]
parameter = "price"
changes = [0, 0.1]
[[sensitivity.hill]]
parameter = "economics.processing_cost"
values = [9, 10]
[constraints]
must_mine = "due"
[price_paths]
count = 3
[price_paths.metals.copper]
long_term = 9000
speed = 0.4
volatility = 0.2
[cash_flow]
discount_rates = [0.05]
closure_cost = 5
tax_rate = 0.3
"""
GOLD = """[[metals]]
name = "gold"
column = "au"
unit = "gram_per_tonne"
price = 60
recovery = 0.7
[metals.smelter]
concentrate_grade = 30
treatment_charge = 80
refining_charge = 0.2
freight = 50
price_participation = { base = 50, share = 0.1 }
penalties = [{ column = "cu", steps = [[1, 2]] }]
"""
PROCESSES = """[[processes]]
name = "mill"
cost = 10
recovery = { copper = 0.5 }
capacity = 100
[[processes]]
name = "leach"
cost = 3
recovery = { copper = 0.2 }
capacity = 100
[pushbacks]
count = 2
[haulage]
pit_exit = [0, 0, 40]
ramp_gradient = 0.1
cost = 0.12
"""


@pytest.fixture(scope="module")
def written(tmp_path_factory):
    """The rows of tables that have every column between them, by the place of their file."""
    grades = {(3, 4, 1): 6, (7, 4, 1): 2, (5, 2, 2): 0.9, (4, 4, 2): 1.7}
    varied = {
        "cu": lambda i, j, k: grades.get((i, j, k), 0),
        "au": lambda i, j, k: grades.get((i, j, k), 0) / 10,
        "due": lambda i, j, k: int((i, j, k) == (1, 1, 3)),
        "tonnes": lambda i, j, k: 100 + 7 * i + j,
        "cls": lambda i, j, k: "measured" if k else "inferred",
    }
    table = rows(11, 9, 4, **varied)
    money = "mining_cost_per_bench = 0.01\nfixed_cost_per_year = 77\ncapex = [[1, 10]]\n"
    one = PROJECT.replace("mining_cost = 2\n", f"mining_cost = 2\n{money}") + WIDE
    one = one.replace("processing_capacity = 100\n", "processing_capacity = 100\nspecified = { pushbacks = [0.5] }\n")
    one = one.replace("[table]\n", '[table]\nclass = "cls"\n').replace("[slopes]\n", f"{GOLD}[slopes]\n")
    several = PROJECT.replace("processing_cost = 10\n", "").replace("recovery = 0.5\n", "")
    several = several.replace("processing_capacity = 100\n", "") + PROCESSES
    place = tmp_path_factory.mktemp("columns")
    for name, text in (("one", one), ("several", several)):
        (place / name).mkdir()
        table.to_csv(place / name / "blocks.csv", index=False)
        (place / name / "project.toml").write_text(text)
    project = place / "one" / "project.toml"
    pitplan.write_schedule(project, writing=UNVERIFIED)
    pitplan.write_sensitivity(project, writing=UNVERIFIED)
    pitplan.write_pit(project, writing=UNVERIFIED)
    pitplan.write_pushbacks(place / "several" / "project.toml", writing=UNVERIFIED)
    paths = [path for path in place.glob("*/plan/**/*.csv") if path.name in BY_FILE]
    return {path.relative_to(place): list(csv.reader(path.open())) for path in paths}


def own(table, header):
    """The columns of a file without the planner's own, which come first in blocks.csv, before the source of flows, and before the cut-off."""
    if table.file == "cutoffs.csv":
        return header[: header.index("process") + 1] + header[header.index("cutoff") :]
    if table.file in ("flows.csv", "inventory.csv"):
        last = "bin" if table.file == "flows.csv" else "bench"
        return header[: header.index(last) + 1] + header[header.index("source") :]
    return header[header.index("mining_cost") :] if table.file == "blocks.csv" else header


def test_each_column_that_is_written_is_in_the_schema_and_each_of_the_schema_is_written(written):
    found = {}
    for path, (header, *_) in written.items():
        table = BY_FILE[path.name]
        names = own(table, header)
        assert [name for name in names if table.find(name) is None] == [], path
        always = {column.name for column in table.columns if not column.when}
        # A pushback's file has no pits, and the pits' no pushbacks; blocks.csv of a sensitivity has one revenue factor.
        missing = always - {table.find(name).name for name in names}
        assert missing <= ({"process_revenue_factor"} if "sensitivity" in path.parts else set()), path
        found.setdefault(table.file, set()).update(table.find(name) for name in names)
    by_block = {"sum_NAME", "head_grade_COLUMN", "share_PROCESS", "share_DUMP", "blocks", "equivalent_METAL"}
    by_block |= {"share_STOCKPILE"}
    for file in (
        "blocks.csv",
        "shells.csv",
        "years.csv",
        "pits.csv",
        "pushbacks.csv",
        "schedule.csv",
        "flows.csv",
        "feed.csv",
        "cutoffs.csv",
        "stockpiles.csv",
        "dumps.csv",
        "inventory.csv",
        "grade_tonnage.csv",
        "cash_flow.csv",
        "valuation.csv",
        "sensitivity.csv",
        "hill_of_value.csv",
        "price_paths.csv",
        "price_path_quantiles.csv",
    ):
        never = {it.name for it in BY_FILE[file].columns} - {it.name for it in found[file]}
        never -= {"feed_tonnes_PROCESS"} if file not in ("shells.csv", "years.csv", "pushbacks.csv") else set()
        never -= {"haulage_cost", "rounding"} if file == "cash_flow.csv" else set()
        assert never - {"outline"} <= by_block, file


def test_numbers_in_files_have_the_decimals_of_their_columns(written):
    """As texts: no number has more, and of each column with decimals that no rounding is left out."""
    most = {}
    for path, (header, *lines) in written.items():
        table = BY_FILE[path.name]
        for at, name in enumerate(header):
            column = table.find(name)
            if column is not None and table.digits is None and column.unit.decimals is not None:
                decimals = [len(line[at].partition(".")[2]) for line in lines]
                assert max(decimals) <= column.unit.decimals, (path, name)
                most[column.name] = max(most.get(column.name, 0), *decimals)
    assert most["strip_ratio"] == most["head_grade_METAL"] == 6 and most["optimality_gap"] == 9
    assert most["npv_best"] == most["discounted_cash_flow"] == 3 and most["value_at_revenue_factor"] == 9


def test_a_column_has_the_same_decimals_in_every_table():
    known = {}
    for table in TABLES:
        for column in table.columns if table.digits is None else ():
            if column.unit.decimals is not None:
                assert (
                    known.setdefault(column.name, column.unit.decimals)
                    == column.unit.decimals
                    == decimals_of(column.name)
                )
    assert (
        decimals_of("recovered_copper") == 3 and decimals_of("head_grade_gold") == 6 and decimals_of("change") is None
    )


def test_a_column_that_is_in_no_table_is_an_error():
    with pytest.raises(KeyError, match="no table has a column tonnage: add it to pitplan/results/columns.py"):
        shown(pd.DataFrame({"tonnage": [1.5]}))


def test_rounding_by_hand():
    table = pd.DataFrame(
        {
            **{"tonnes": [1.00049, -0.0001], "strip_ratio": [0.12345649, np.nan], "years": [1.23456789, 2]},
            **{"share": [0.12345678949, 1], "change": [0.1234567891234, 0], "blocks": [3, 4]},
        }
    )
    assert shown(table).to_csv(index=False).splitlines()[1:] == [
        "1.0,0.123456,1.234568,0.123456789,0.1234567891234,3",
        "0.0,,2.0,1.0,0.0,4",
    ]


@pytest.mark.parametrize("name", [name for name in dir(report) if name.startswith("OF_")])
def test_each_column_that_is_shown_has_a_heading(name):
    display = getattr(report, name)
    assert all(display.column(it).heading for it in display.names) and {*display.money} < {*display.names}


def test_a_column_that_is_shown_and_is_in_no_table_is_an_error():
    with pytest.raises(KeyError, match="shells.csv has no column npv"):
        report.Display(columns.SHELLS, ("npv",), ()).column("npv")


def test_workbooks_have_the_formats_of_units():
    formats = {name: xlsx.format_of(name) for name in ("year", "years", "recovered_gold", "share", "tonnes", "other")}
    assert formats == {
        **{"year": "General", "years": "0.0", "recovered_gold": "#,##0.00", "share": "0.0000", "tonnes": "#,##0"},
        "other": "#,##0",
    }


def test_the_page_of_formats_has_these_tables(tmp_path):
    """After a change: tools/columns_page.py."""
    words = [sys.executable, ROOT / "tools" / "columns_page.py", "--check"]
    ran = subprocess.run(words, capture_output=True, text=True)
    assert (ran.returncode, ran.stderr) == (0, "")
    text = (ROOT / "docs" / "FORMATS.md").read_text()
    assert text.count("| `value_at_revenue_factor` | currency | 9 |") == 4
