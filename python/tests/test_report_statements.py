"""The parts of the report that finance and a Competent Person read: each number is a cell of a table, or a sum of cells."""

import re
from html.parser import HTMLParser

import pandas as pd
import pytest
from conftest import PROJECT, rows
from helpers import worked_cash_flow
from helpers.writings import UNVERIFIED_REPORT

import pitplan
from pitplan.report.statements import WrittenTable, of_money, physicals


class Page(HTMLParser):
    """The tables of a page, by their captions: rows of pairs of text and tooltip."""

    def __init__(self, text):
        super().__init__()
        self.tables, self.caption, self.place = {}, "", None
        self.feed(text)

    def handle_starttag(self, tag, attributes):
        if tag == "caption":
            self.place, self.caption = "caption", ""
        elif tag == "tr" and self.caption:
            self.tables.setdefault(self.caption, []).append([])
        elif tag in ("td", "th") and self.caption in self.tables:
            self.place = "cell"
            self.tables[self.caption][-1].append(["", dict(attributes).get("title", "")])

    def handle_endtag(self, tag):
        if tag == "table":
            self.caption = ""
        if tag in ("caption", "td", "th"):
            self.place = None

    def handle_data(self, data):
        if self.place == "caption":
            self.caption += data
        elif self.place == "cell":
            self.tables[self.caption][-1][-1][0] += data

    def table(self, start):
        """The rows of the table whose caption begins so."""
        (found,) = [rows for caption, rows in self.tables.items() if caption.startswith(start)]
        return found


@pytest.fixture(scope="module")
def worked(tmp_path_factory):
    """Folder and page of the three pillars."""
    place = tmp_path_factory.mktemp("statements")
    worked_cash_flow.table().to_csv(place / "blocks.csv", index=False)
    (place / "project.toml").write_text(worked_cash_flow.TEXT + worked_cash_flow.MONEY)
    pitplan.write_schedule(place / "project.toml", writing=UNVERIFIED_REPORT)
    folder = place / "plan" / "schedule"
    return folder, Page((folder / "report.html").read_text())


def test_the_cash_flow_by_line_has_the_amounts_worked_out_by_hand(worked):
    """In thousands of USD: sums of the years, then the years; no line without an amount in these decimals."""
    _, page = worked
    head, *lines = page.table("Cash flow of the schedule by line, k USD")
    assert [text for text, _ in head] == ["line", "all", "year 1", "year 2", "year 3"]
    found = {row[0][0]: [text for text, _ in row[1:]] for row in lines}
    assert found["revenue copper"] == ["22.18", "0.00", "19.30", "2.88"]
    assert found["processing leach"] == ["0.50", "0.00", "0.50", "0.00"]
    assert found["operating cash flow"] == ["27.61", "-0.60", "26.14", "2.08"]
    assert found["capex"] == ["5.60", "5.00", "0.00", "0.60"]
    assert found["free cash flow"] == ["15.76", "-5.61", "21.01", "0.36"]
    assert "rounding of block values" not in found and "C1 cost" not in found


def test_each_number_of_the_cash_flow_is_the_cell_that_its_tooltip_names(worked):
    folder, page = worked
    table = pd.read_csv(folder / "tables/cash_flow.csv")
    for row in page.table("Cash flow of the schedule by line")[1:]:
        for text, source in row[2:]:
            line, column = re.fullmatch(r"tables/cash_flow.csv row (\d+) column (\w+)", source).groups()
            assert 1000 * float(text.replace(",", "")) == pytest.approx(table.at[int(line) - 2, column], abs=5.1)


def test_tonnes_grades_and_metal_of_each_year_are_as_worked_out_by_hand(worked):
    """Three pillars of 100 t of waste and 100 t of ore; 375 t of feed hold 3.9 t of copper and 450 g of gold."""
    _, page = worked
    head, *lines = page.table("Tonnes, head grades and metal of the schedule")
    assert [text for text, _ in head] == ["quantity", "all", "year 1", "year 2", "year 3"]
    assert {row[0][0]: [text for text, _ in row[1:]] for row in lines} == {
        "total material, t": ["600.00", "200.00", "200.00", "200.00"],
        "waste, t": ["300.00", "100.00", "100.00", "100.00"],
        "strip ratio": ["1.00", "1.00", "1.00", "1.00"],
        "mill feed, t": ["375.00", "0.00", "250.00", "125.00"],
        "feed of mill, t": ["250.00", "0.00", "125.00", "125.00"],
        "feed of leach, t": ["125.00", "0.00", "125.00", "0.00"],
        "head grade copper, %": ["1.040", "–", "1.400", "0.320"],
        "recovered copper, t": ["2.59", "0.00", "2.27", "0.32"],
        "head grade gold, g/t": ["1.200", "–", "1.600", "0.400"],
        "recovered gold, g": ["225.00", "0.00", "200.00", "25.00"],
    }
    assert lines[2][1][1].endswith("cash_flow.csv: sum of waste_tonnes by that of total_tonnes less waste_tonnes")
    assert re.fullmatch(r"tables/years.csv row \d+ column feed_tonnes_leach", lines[5][2][1])


def test_more_years_than_fit_continue_in_another_table(worked):
    """Of 13 years eleven are next to the sums, and two below."""
    folder, _ = worked
    project = pitplan.load(folder.parent.parent / "project.toml")
    lines = pd.read_csv(folder / "tables/cash_flow.csv").query("method == 'milp'").iloc[[0, 1, 2] * 4 + [2]]
    lines = lines.assign(year=range(1, 14)).reset_index(drop=True)
    years = pd.DataFrame({f"feed_tonnes_{name}": [1.0] * 13 for name in ("mill", "leach")})
    first, second = physicals(WrittenTable("cash_flow.csv", lines), WrittenTable("years.csv", years), project)
    assert first["headings"][:3] == ["quantity", "all", "year 1"] and second["headings"] == [
        "quantity",
        "year 12",
        "year 13",
    ]
    assert {len(row["cells"]) for row in first["rows"]} == {13} and {len(row["cells"]) for row in second["rows"]} == {3}


def test_key_results_are_those_of_the_schedule(worked):
    """Head grades of its mill feed, not those of the pit; returns after closure cost and tax; capital of 5,600 USD."""
    folder, _ = worked
    values = pd.read_csv(folder / "tables/valuation.csv").query("method == 'milp' and discount_rate == 0.1").iloc[0]
    shown = re.findall(r'<div><b title="[^"]*">(.*?)</b><span>(.*?)</span></div>', (folder / "report.html").read_text())
    found = {label: text for text, label in shown}
    assert (
        found["Copper head grade of the mill feed"] == "1.040 %"
        and found["Strip ratio, waste to in-situ ore"] == "1.00"
    )
    assert found["Net present value after tax"] == f"{values['npv_after_tax'] / 1000:,.2f} k USD"
    assert found["Internal rate of return after tax"] == f"{100 * values['irr_after_tax']:,.1f} %"
    assert found["Payback after tax"] == f"{values['payback_after_tax']:.1f} years" and found["Capital"] == "5.60 k USD"
    assert "Unmined material" not in found


@pytest.mark.parametrize(("payback", "count"), [(0.0, 1), (2.5, 3), (float("nan"), 3)])
def test_a_schedule_that_pays_from_the_start_shows_no_return_and_no_payback(worked, payback, count):
    """A card of 0.0 years would be read as a fast return; one without a payback in its life keeps its dash."""
    project = pitplan.load(worked[0].parent.parent / "project.toml")
    row = {"discount_rate": 0.1, "npv": 5.0, "npv_after_tax": 4.0, "irr_after_tax": float("nan")}
    values = WrittenTable("valuation.csv", pd.DataFrame([row | {"payback_after_tax": payback}]))
    found = of_money(WrittenTable("cash_flow.csv", pd.DataFrame({"year": [1]})), values, project)
    labels = ["Net present value after tax", "Internal rate of return after tax", "Payback after tax"]
    assert [it.name for it in found] == labels[:count]


def test_valuation_has_npv_irr_and_payback(worked):
    folder, page = worked
    head, *lines = page.table("NPV at several rates")
    values = pd.read_csv(folder / "tables/valuation.csv").query("method == 'milp'")
    assert [row[0][0] for row in lines] == ["5.0", "8.0", "10.0"] and head[3][0] == "IRR, %"
    assert [row[1][0] for row in lines] == [f"{npv / 1000:,.2f}" for npv in values["npv"]]
    assert lines[0][3][0] == f"{100 * values['irr'].iloc[0]:,.1f}"


def test_methods_are_called_by_their_names(worked):
    _, page = worked
    assert [row[0][0] for row in page.table("Scheduling methods")[1:]] == [
        "rule",
        "linear programme",
        "integer programme",
    ]


GRADES = {(3, 4, 1): 6, (7, 4, 1): 2, (6, 4, 1): 1.7, (4, 4, 1): 3}
CLASSES = {(3, 4): "measured", (7, 4): "inferred"}


def test_ore_is_summed_by_class_and_inferred_feed_is_apart(tmp_path):
    """By block: a class with a rule that sends it to the mill is no ore."""
    text = PROJECT.replace('file = "blocks.csv"\n', 'file = "blocks.csv"\nclass = "cls"\n', 1)
    text = text.replace("[economics]\n", '[classes]\ninferred = "ore"\n[economics]\ndilution = 0.1\n')
    text = text.replace("processing_capacity = 100", "processing_capacity = 250\nmining_capacity = 2500")
    varied = {"cu": lambda i, j, k: GRADES.get((i, j, k), 0), "cls": lambda i, j, k: CLASSES.get((i, j), "indicated")}
    rows(11, 9, 4, **varied).to_csv(tmp_path / "blocks.csv", index=False)
    (tmp_path / "project.toml").write_text(text)
    pitplan.write_block_schedule(tmp_path / "project.toml", writing=UNVERIFIED_REPORT)
    page = Page((tmp_path / "plan/block_schedule/report.html").read_text())
    head, *lines = page.table("Mill feed of the schedule")
    assert [text for text, _ in head] == [
        "class",
        "in situ, t",
        "mill feed, t",
        "copper, %",
        "contained copper, t",
        "recovered copper, t",
    ]
    assert [[text for text, _ in row] for row in lines] == [
        ["ore: measured", "100.00", "110.00", "5.455", "6.00", "3.00"],
        ["ore: indicated", "200.00", "220.00", "2.136", "4.70", "2.35"],
        ["all ore", "300.00", "330.00", "3.242", "10.70", "5.35"],
        ["not a reserve: inferred", "100.00", "110.00", "1.818", "2.00", "1.00"],
    ]
    assert lines[0][1][1] == "tables/inventory.csv, rows with category ore and cls measured: sum of total_tonnes"
    assert lines[2][3][1].endswith("rows with category ore: contained_copper by feed_tonnes")
