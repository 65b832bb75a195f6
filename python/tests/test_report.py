"""The report: its numbers read back and found in the tables that they come from, its order, and how it prints."""

import csv
import platform
import re
import shutil
import subprocess
import time
from decimal import Decimal
from html.parser import HTMLParser
from importlib.metadata import version

import pandas as pd
import pytest
from browser import Browser, needs_chromium
from conftest import PROJECT, rows
from helpers.blank_figures import blank_figures
from helpers.writings import UNVERIFIED_REPORT

import pitplan
from pitplan import PlanError, verify
from pitplan.cli import main
from pitplan.core.atomic_files import hash_of, read_json
from pitplan.report import columns, html
from pitplan.results.folder import read_record

CHROMIUM, PDFTOTEXT = shutil.which("chromium"), shutil.which("pdftotext")
PARTS = ["Key results", "Assumptions", "Pit-by-pit analysis", "Plans and sections", "Pushbacks", "Grade and tonnage"]
PARTS += ["Schedule", "Ore by resource class", "Cash flow", "Sensitivity", "Risks", "JORC Table 1, section 4", "Inputs"]
PARTS += ["Verification"]
OF_SCHEDULES = ("Pushbacks", "Schedule", "Ore by resource class")
MORE = """[pushbacks]
count = 2
[schedule]
mining_capacity = 700
ramp_up = [0.5, 1]
[sensitivity]
changes = [-0.1, 0.1]
parameters = ["price", "mining_cost"]
pairs = [["price", "mining_cost"]]
"""
GOLD = '[[metals]]\nname = "gold"\ncolumn = "au"\nunit = "gram_per_tonne"\nprice = 60\nrecovery = 0.9\n[slopes]\n'
# By how much a number is divided that is shown with a unit; a grade's has its column's.
SIZES = {"M": 10**6, "k": 10**3, "kg": 10**3}


class Page(HTMLParser):
    """What the page shows: parts, and of each cell or figure its source, its text and its heading."""

    def __init__(self, text):
        super().__init__()
        self.parts, self.shown, self.bare, self.headings, self.files = [], [], [], [], []
        self.tag, self.source, self.column, self.classes = "", None, 0, ""
        self.feed(text)

    def handle_starttag(self, tag, attributes):
        given = dict(attributes)
        self.tag = tag
        if tag == "table":
            self.headings = []
        if tag == "tr":
            self.column = -1
        if tag in ("td", "b"):
            self.column += 1
            self.source, self.classes = given.get("title"), given.get("class", "")

    def handle_endtag(self, tag):
        self.tag = ""

    def handle_data(self, text):
        if self.tag == "h2":
            self.parts.append(text)
        if self.tag == "th":
            self.headings.append(text)
        if self.tag in ("td", "b") and self.source:
            self.shown.append((self.source, text, self.headings[self.column] if self.tag == "td" else text))
        elif self.tag in ("td", "b") and self.classes != "text":
            self.bare.append(text)


@pytest.fixture(scope="module")
def written(tmp_path_factory):
    """A hill with two metals: its schedule, and a sensitivity of it in the project's own folder."""
    place = tmp_path_factory.mktemp("reported")
    grades = {(3, 4, 1): 6, (7, 4, 1): 2, (5, 2, 2): 0.9, (3, 3, 2): 1.5}
    table = rows(11, 9, 4, cu=lambda i, j, k: grades.get((i, j, k), 0), au=lambda i, j, k: 0.005 * (i + k))
    table.to_csv(place / "blocks.csv", index=False)
    text = PROJECT.replace("[slopes]\n", GOLD).replace("[economics]", '[economics]\ncurrency = "EUR"') + MORE
    (place / "project.toml").write_text(text)
    with blank_figures():
        for write in (pitplan.write_sensitivity, pitplan.write_schedule, pitplan.write_shells):
            write(place / "project.toml", writing=pitplan.Writing(figures=True))
    return place


@pytest.fixture
def copied(written, tmp_path):
    return shutil.copytree(written, tmp_path / "mine")


def cells_of(folder):
    return {f"tables/{path.name}": list(csv.reader(path.open())) for path in folder.glob("tables/*.csv")}


def size_of(heading, column):
    """The unit of a heading such as "rock, kt" or a figure such as "12.4 M EUR"."""
    unit = heading.partition(", ")[2] if ", " in heading and not heading[0].isdigit() else heading.partition(" ")[2]
    if column == "optimality_gap":
        return Decimal("0.01")
    if column.startswith("head_grade_") or not unit:
        return 1
    first = unit.split()[0]
    return SIZES.get(first) or (SIZES[first[0]] if re.fullmatch("[Mk]t", first) else 1)


@pytest.mark.parametrize("place", ["plan", "plan/schedule"])
def test_each_number_of_the_page_is_one_of_a_written_table(written, place):
    """The page is read by the test's own parser, and tables by csv; what is shown is within half of its last digit of what is written."""
    page = Page((written / place / "report.html").read_text())
    tables = cells_of(written / "plan" / "sensitivity") | cells_of(written / place)
    found = set()
    for source, text, heading in page.shown:
        cell = re.fullmatch(r"(\S+) row (\d+) column (\S+)", source)
        if cell is None or cell[1] in ("tables/cash_flow.csv", "tables/valuation.csv"):
            # Sums and cells of statements, whose unit is in their caption: test_report_statements.py.
            assert cell or re.search(r"^tables/(cash_flow|inventory)\.csv.*(: sum of | by )", source), source
            continue
        file, row, column = cell.groups()
        written_as = tables[file][int(row) - 1][tables[file][0].index(column)]
        found.add((file, column))
        number = text.split()[0].replace(",", "")
        if not re.fullmatch(r"-?[\d.]+", number):
            assert (
                text in ("–", written_as, html.METHODS.get(written_as))
                or column == "parameter"
                and written_as.replace("_", " ") in text
            )
            continue
        shown = Decimal(number) * size_of(heading, column)
        half = Decimal(1).scaleb(Decimal(number).as_tuple().exponent) * size_of(heading, column) / 2
        assert abs(shown - Decimal(written_as)) <= half, f"{source}: {text} for {written_as}"
    assert {
        ("tables/shells.csv", "npv_best"),
        ("tables/shells.csv", "head_grade_gold"),
        ("tables/years.csv", "discounted_cash_flow"),
        ("tables/sensitivity.csv", "npv"),
    } <= found
    if place == "plan/schedule":
        assert {
            ("tables/methods.csv", "npv"),
            ("tables/methods.csv", "upper_bound"),
            ("tables/methods.csv", "recovered_gold"),
            ("tables/pushbacks.csv", "undiscounted_cash_flow"),
        } <= found
    assert page.parts == [part for part in PARTS if place != "plan" or part not in OF_SCHEDULES]
    assert page.bare == []


def test_the_table_of_a_sensitivity_has_no_share_among_its_amounts(written):
    """The column `change` of the file is a share of a parameter. The command line shows by how much the NPV changes, the report does not."""
    table = pd.read_csv(written / "plan" / "sensitivity" / "tables/sensitivity.csv").fillna(
        {"parameter": "", "second_parameter": ""}
    )
    project = pitplan.load(written / "project.toml")
    cases = columns.of_cases(table)
    shown = columns.OF_CASES.of(cases, project)
    change = dict(zip((name for name, *_ in shown), zip(*columns.cells_of(cases, shown))))["npv_change"]
    size = next(size for name, _, size, _ in shown if name == "npv_change")
    assert [float(text.replace(",", "")) * size for text in change] == [
        pytest.approx(npv - table["npv"][0], abs=size / 100) for npv in table["npv"]
    ]
    assert table["npv"].nunique() > 2
    page = (written / "plan" / "report.html").read_text()
    headings = re.search(r"<code>tables/sensitivity.csv</code></caption>\s*<thead><tr>(.*?)</tr>", page)[1]
    assert [it.partition(",")[0] for it in re.findall("<th>(.*?)</th>", headings)] == [
        *("case", "NPV", "total", "ore"),
        *("undiscounted cash flow", "years"),
    ]


def test_the_answer_is_the_first_that_is_told(written):
    """The schedule's value, bound, tonnes, metal and life by the table of its methods; returns, strip ratio and head grades of its own mill feed by
    its cash flow by line."""
    page = Page((written / "plan" / "schedule" / "report.html").read_text())
    ways = pd.read_csv(written / "plan" / "schedule" / "tables/methods.csv")
    row = 2 + int(ways["npv"].round(2).argmax())
    names = ["npv", "upper_bound", "tonnes", "feed_tonnes", "recovered_copper", "recovered_gold", "years"]
    shown = page.shown[:12]
    assert [source for source, _, _ in shown if "methods.csv" in source] == [
        f"tables/methods.csv row {row} column {name}" for name in names
    ]
    assert shown[11][1] == f"{ways['years'][row - 2]} years"
    assert [source.rpartition(" ")[2] for source, _, _ in shown[2:4]] == ["irr", "payback"]
    lines = pd.read_csv(written / "plan" / "schedule" / "tables/cash_flow.csv")
    lines = lines[lines["method"] == ways["method"][row - 2]].sum(numeric_only=True)
    ratio, copper, gold = (float(text.split()[0]) for _, text, _ in shown[6:9])
    assert ratio == pytest.approx(lines["waste_tonnes"] / (lines["total_tonnes"] - lines["waste_tonnes"]), abs=0.005)
    assert copper == pytest.approx(100 * lines["contained_copper"] / lines["feed_tonnes"], abs=0.0005)
    assert gold == pytest.approx(lines["contained_gold"] / lines["feed_tonnes"], abs=0.0005)


def test_ways_are_the_sums_of_their_years(written):
    """Anew, from schedule.csv and schedule.json."""
    folder = written / "plan" / "schedule"
    rows_of, told = pd.read_csv(folder / "tables/schedule.csv").groupby("method"), read_json(folder / "schedule.json")
    for way in pd.read_csv(folder / "tables/methods.csv").itertuples():
        mined = rows_of.get_group(way.method)
        assert (way.tonnes, way.feed_tonnes) == (
            pytest.approx(mined["total_tonnes"].sum()),
            pytest.approx(mined["feed_tonnes"].sum()),
        )
        assert way.recovered_gold == pytest.approx(mined["recovered_gold"].sum(), abs=0.05)
        assert (way.npv, way.years, way.unmined_tonnes) == tuple(
            told["methods"][way.method][name] for name in ("npv", "years", "unmined_tonnes")
        )
        assert way.upper_bound == told["upper_bound"] and way.optimality_gap == pytest.approx(
            1 - way.npv / told["upper_bound"], abs=1e-6
        )


@pytest.mark.parametrize(
    "name",
    ["npv", "upper_bound", "optimality_gap", "years", "tonnes", "feed_tonnes", "unmined_tonnes", "recovered_copper"],
)
def test_a_way_that_is_bent_is_found(copied, name):
    folder = copied / "plan" / "schedule"
    table = pd.read_csv(folder / "tables/methods.csv")
    table.loc[0, name] += 1 if name != "optimality_gap" else 1e-4
    table.to_csv(folder / "tables/methods.csv", index=False)
    assert {rule.name for rule in verify(folder) if rule.differences} == {"schedule value"}


def test_ways_that_are_missing_or_others_are_found(copied):
    path = copied / "plan" / "schedule" / "tables/methods.csv"
    text = path.read_text()
    for bent, said in (
        (text.replace("rule", "hand"), "methods.csv has the methods ['hand', 'lp'] for ['rule', 'lp']"),
        (None, "methods.csv is missing"),
    ):
        path.unlink() if bent is None else path.write_text(bent)
        found = {rule.name: rule.differences for rule in verify(path.parents[1]) if rule.differences}
        assert found == {"schedule value": (said,)}


def test_the_report_names_the_versions_that_made_it(written):
    page = (written / "plan" / "report.html").read_text()
    said = f"Versions: pitplan {pitplan.__version__}, python {platform.python_version()}, numpy {version('numpy')}, pandas {version('pandas')}, scipy "
    assert said in page


def test_the_report_is_made_anew_with_a_sensitivity_of_the_same_inputs(copied, capsys):
    folder = copied / "plan"
    shutil.move(folder / "sensitivity", copied / "other")
    assert main(["report", str(folder)]) == 0
    assert capsys.readouterr().out.strip() == str(folder / "report.html")
    assert "<h2>Sensitivity</h2>" not in (folder / "report.html").read_text()
    assert main(["report", str(folder), "--sensitivity", str(copied / "other")]) == 0
    page = (folder / "report.html").read_text()
    assert (
        "<h2>Sensitivity</h2>" in page
        and "mining cost +10 %" in page
        and "Pairs of parameters are in the same file." in page
    )
    assert hash_of(copied / "other" / "tables/sensitivity.csv") in page
    (copied / "other" / "figures/tornado.png").unlink()
    pitplan.write_report(folder, copied / "other")
    assert (folder / "report.html").read_text().count("data:image/png") == page.count("data:image/png") - 1
    assert main(["report", str(folder), "--sensitivity", str(copied)]) == 1
    assert f"pitplan: {copied}: has no sensitivity.json: run pitplan sensitivity first" in capsys.readouterr().err


def test_a_sensitivity_of_other_inputs_is_left_out_and_refused_where_it_is_asked_for(copied):
    project = copied / "project.toml"
    project.write_text(project.read_text().replace("mining_cost = 2", "mining_cost = 3"))
    pitplan.write_shells(project, writing=UNVERIFIED_REPORT)
    page = (copied / "plan" / "report.html").read_text()
    assert (
        "is a sensitivity of other inputs (project.toml), and is left out here." in page
        and "<h2>Sensitivity</h2>" not in page
    )
    with pytest.raises(PlanError, match=r"of other inputs \(project.toml\): run pitplan sensitivity again"):
        pitplan.write_report(copied / "plan", copied / "plan" / "sensitivity")


@pytest.mark.parametrize("text", ["{", "{}"])
def test_a_record_that_is_none_of_a_sensitivity_stops_no_report(copied, text):
    (copied / "plan" / "sensitivity" / "sensitivity.json").write_text(text)
    page = pitplan.write_report(copied / "plan").read_text()
    assert "and is left out here." in page and "<h2>Sensitivity</h2>" not in page


def test_a_report_is_of_the_project_that_was_run(copied):
    """Its file may have other numbers since; the block model may not."""
    project = copied / "project.toml"
    before = pitplan.write_report(copied / "plan").read_text()
    changed = re.sub(r"(?m)^price = \S+", "price = 1", project.read_text())
    project.write_text(changed)
    assert "price = 1\n" in changed and pitplan.write_report(copied / "plan").read_text() == before
    table = pitplan.load(copied / "plan" / "project-as-run.toml").table.file
    table.write_text(table.read_text() + "\n")
    with pytest.raises(PlanError, match=f"{table.name}: has changed since .* was written: run pitplan again"):
        pitplan.write_report(copied / "plan")


@pytest.mark.parametrize("count", [12, 13, 25, 40])
def test_a_table_that_is_too_wide_stands_in_parts(count):
    """Each with the first column, and of at most 13; none is lost, and the grade of a metal is beside what is recovered of it."""
    names = ["revenue_factor", *(f"{kind}_{k}" for k in range(count) for kind in ("grade", "metal"))][:count]
    table = html.WrittenTable("tables/shells.csv", pd.DataFrame({name: [1.0, 2.0] for name in names}))
    parts = html.parts_of(table, lambda frame, project: [columns.ShownColumn(name, name) for name in names], None)
    assert all(
        part["headings"][0] == "revenue_factor" and len(part["headings"]) <= 13 and len(part["rows"]) == 2
        for part in parts
    )
    assert [name for part in parts for name in part["headings"][1:]] == names[1:] and len(parts) == -(
        -(count - 1) // 12
    )
    assert not any(part["headings"][1].startswith("metal") for part in parts)
    assert parts[-1]["rows"][1]["cells"][0]["source"] == "tables/shells.csv row 3 column revenue_factor"


def test_a_bound_that_was_not_found_is_a_dash_without_a_unit():
    ways = html.WrittenTable(
        "tables/methods.csv", pd.DataFrame({"method": ["rule"], "npv": [2.5e7], "upper_bound": [float("nan")]})
    )
    told = [ways.figure("NPV", 0, columns.ShownColumn(name, "NPV, M EUR", 1e6, 1)) for name in ("npv", "upper_bound")]
    assert [(it.text, it.source) for it in told] == [
        ("25.0 M EUR", "tables/methods.csv row 2 column npv"),
        ("–", "tables/methods.csv row 2 column upper_bound"),
    ]


def test_a_project_is_shown_without_what_it_says_of_itself():
    text = '# All keys.\ntitle = "Pit #7"  # of nine\n\n[table]\nfile = \'a#b.csv\'   \nkey = "it\'s" # "so"\n'
    assert html.without_comments(text) == 'title = "Pit #7"\n[table]\nfile = \'a#b.csv\'\nkey = "it\'s"'


@pytest.mark.skipif(
    CHROMIUM is None or PDFTOTEXT is None, reason="needs the Debian packages chromium and poppler-utils"
)
def test_it_prints_on_a4_and_nothing_is_cut_off(written, tmp_path):
    """Each number of the page's tables is in the text of the PDF, and each of its words lies within the margins of 13, 14 and 10 mm."""
    page, pdf = written / "plan" / "schedule" / "report.html", tmp_path / "report.pdf"
    flags = ["--headless", "--no-sandbox", "--disable-gpu", "--no-pdf-header-footer"]
    subprocess.run(
        [CHROMIUM, *flags, f"--print-to-pdf={pdf}", f"file://{page}"], capture_output=True, timeout=60, check=True
    )
    boxes = subprocess.run([PDFTOTEXT, "-bbox", pdf, "-"], capture_output=True, text=True, check=True).stdout
    sheets = re.findall(r'<page width="([\d.]+)" height="([\d.]+)"', boxes)
    assert 7 <= len(sheets) <= 15 and all(
        (round(float(wide)), round(float(high))) == (595, 842) for wide, high in sheets
    )
    words = re.findall(r'<word xMin="([\d.]+)" yMin="([\d.]+)" xMax="([\d.]+)" yMax="([\d.]+)">([^<]*)</word>', boxes)
    left, low, right, high = (max(float(word[k]) if k > 1 else -float(word[k]) for word in words) for k in range(4))
    assert -left >= 36 and -low >= 39 and right <= 595 - 36 and high <= 842 - 10
    # Chromium makes all smaller where something is too wide: the title has 16 points.
    assert float(words[0][3]) - float(words[0][1]) > 16 and words[0][4] == "Test"
    told = {word for *_, word in words}
    numbers = {text for _, text, _ in Page(page.read_text()).shown if " " not in text and text != "–"}
    assert len(numbers) > 80 and numbers <= told
    assert {f"{k}" for k in range(1, len(sheets) + 1)} <= told, "pages are numbered"


@needs_chromium
def test_on_a_telephone_nothing_is_cut_off(written, tmp_path):
    phone = Browser(tmp_path, 390, 800)
    try:
        phone.call("Emulation.setDeviceMetricsOverride", width=390, height=800, deviceScaleFactor=1, mobile=True)
        phone.call("Page.navigate", url=f"file://{written / 'plan' / 'schedule' / 'report.html'}")
        while not phone.ask("document.readyState === 'complete' && document.querySelector('.figures') !== null"):
            time.sleep(0.1)
        sides = phone.ask(
            "Array.from(document.querySelectorAll('.figures div'), it => it.getBoundingClientRect().right)"
        )
    finally:
        phone.end()
    assert len(sides) > 8 and max(sides) <= 390


def test_the_way_of_a_schedule_is_told_in_words(written):
    folder, project = written / "plan" / "schedule", pitplan.load(written / "project.toml")
    record = read_record(folder)
    told = [html.of_answer(folder, project, record | {"schedule": way})["method"] for way in ("rule", "lp")]
    assert told == ["rule", "linear programme"]
    assert (
        f"Annual schedule, {told[record['schedule'] == 'lp']}, of the pushbacks" in (folder / "report.html").read_text()
    )


def test_the_bound_of_a_schedule_names_its_premise(written):
    page = " ".join((written / "plan" / "schedule" / "report.html").read_text().split())
    assert "wherever each block goes: to a process, to a stockpile or to waste. Other pushbacks may earn more." in page
    assert "Upper bound, these pushbacks" in page
