"""Prices, costs and capacities of a project that a form of the browser changes: only these numbers change in the text."""

import html
import re
from decimal import Decimal

import pytest
import tomllib
from conftest import ROOT
from helpers.browser_application import OWN, PORT, entered
from helpers.pushbacks import pillars

from pitplan.config.project import load
from pitplan.web import values_form
from pitplan.web.run_form import WrongForm
from pitplan.web.security import Access
from pitplan.web.values_form import changed, fields_of, typed

NAME = "hill/project.toml"
TEXT = """# A mine
title = "Hill"
[table]
file = "blocks.csv"
id = "name"
rock_type = "rock"

[economics]           # all of them
currency = "AUD"
mining_cost = 2.5     # per tonne mined
processing_cost = { R = 10 } # by rock
royalty=0.02# share

[[metals]]
name = "copper"
column = "cu"
unit = "percent"
price = 9_000.50      # per tonne
recovery = 0.9
[[metals]]
name = "gold"
column = "tonnes"
unit = "gram_per_tonne"
price_per = "oz"
price = +2000
recovery = [[0, 0.5], [2, 0.9]]

[slopes]
[[slopes.domains]]
angle = 45

[shells]
revenue_factors = [1.0]
discount_rate = 8e-2
processing_capacity = 100
"""
# The name, label, unit and value of each field, by hand.
FIELDS = [
    ("metals 1.price", "Price of copper", "AUD/t", "9000.50"),
    ("metals 2.price", "Price of gold", "AUD/oz", "2000"),
    ("metals 1.recovery", "Recovery of copper", "share", "0.9"),
    ("economics.mining_cost", "Mining cost", "AUD/t mined", "2.5"),
    ("economics.royalty", "Royalty", "share of gross revenue", "0.02"),
    ("shells.discount_rate", "Discount rate", "share per year", "8e-2"),
    ("shells.processing_capacity", "Processing capacity", "t of mill feed/year", "100"),
    ("slopes.domains 1.angle", "Overall slope angle", "degrees", "45"),
]


@pytest.fixture
def path(tmp_path):
    folder = tmp_path.resolve() / "mines" / "hill"
    folder.mkdir(parents=True)
    pillars().to_csv(folder / "blocks.csv", index=False)
    (folder / "project.toml").write_text(TEXT)
    return folder / "project.toml"


@pytest.fixture
def client(path):
    return entered(path.parent.parent, Access(PORT))


def page_of(client, name=NAME):
    return client.get("/project", params={"name": name}).text


def form_in(page):
    """The fields of the form on a page, as a browser sends them."""
    form = page.partition('action="/project/values#')[2].partition("</form>")[0]
    found = re.findall(r'<input[^>]* name="([^"]+)" value="([^"]*)"', form)
    return {html.unescape(name): html.unescape(value) for name, value in found}


def send(client, page=None, **numbers):
    """Sends the form with other numbers, by the end of their names."""
    form = form_in(page or page_of(client))
    for name, value in numbers.items():
        form[next(it for it in form if it.endswith(f".{name}"))] = value
    return client.post("/project/values", data=form, headers=OWN)


def wrong(page):
    return html.unescape(re.search(r'<p id="wrong-value"[^>]*>(.*?)</p>', page, re.DOTALL)[1])


def test_the_form_has_the_numbers_with_labels_and_units(path, client):
    fields = fields_of(TEXT, load(path))
    found = [(it.entry.name, it.label, it.unit, it.value) for it in fields if it.entry.end]
    assert found == FIELDS
    page, form = page_of(client), form_in(page_of(client))
    left_out = {it.name: "" for it in fields if not it.entry.end and not it.is_of_schedule}
    assert {"value:shells.mining_capacity", "value:economics.dilution"} < left_out.keys()
    units = {it.entry.name: it.unit for it in fields}
    assert units["economics.royalty_per_tonne"] == "AUD/t of mill feed; empty: 0"
    assert units["shells.mining_capacity"] == "t mined/year; empty: waste takes no time"
    written = {f"value:{it[0]}": it[3] for it in FIELDS}
    assert form == {"project": NAME, "seen": form["seen"], "form": "values", **written, **left_out}
    for name, label, unit, _ in FIELDS:
        known = f"value:{name}".replace(" ", "-")
        assert f'<label for="{known}">{label}</label>' in page and f'id="{known}-unit">{unit}' in page
    # Long numbers are shown with groups of digits too.
    assert "AUD/t: 9,000.50</span>" in page and "AUD/t mined</span>" in page


def test_only_the_numbers_that_were_changed_change_in_the_text(path, client):
    answer = send(client, mining_cost="12.75", royalty="0.5", processing_capacity="250")
    assert answer.status_code == 303 and answer.headers["location"].endswith("&saved=values#values")
    # By hand: the comment keeps its column.
    assert path.read_text() == TEXT.replace("mining_cost = 2.5     #", "mining_cost = 12.75   #").replace(
        "royalty=0.02#", "royalty=0.5 #"
    ).replace("processing_capacity = 100", "processing_capacity = 250")
    assert "Saved." in client.get(answer.headers["location"]).text


def test_numbers_of_other_lengths_go_to_their_places(path, client):
    numbers = {"price": "1", "recovery": "0.123456789", "discount_rate": "0.1234567", "angle": "44.25"}
    assert send(client, **numbers, processing_capacity="123456789").status_code == 303
    before, after = (dict(leaves(tomllib.loads(it, parse_float=Decimal))) for it in (TEXT, path.read_text()))
    assert {name: str(value) for name, value in after.items() if before[name] != value} == {
        "/metals/0/price": "1",
        "/metals/0/recovery": "0.123456789",
        "/shells/discount_rate": "0.1234567",
        "/shells/processing_capacity": "123456789",
        "/slopes/domains/0/angle": "44.25",
    }


def test_a_form_without_changes_changes_no_letter(path, client):
    assert send(client).status_code == 303 and path.read_text() == TEXT


@pytest.mark.parametrize(
    "number", ["", "x", "9,000", "1_000", "0x10", ".5", "5.", "01", "+1", "nan", "1\n[x]", "1" * 41, "1 # 2", '"1"']
)
def test_what_is_no_number_is_refused_with_its_field_and_shown_again(path, client, number):
    answer = send(client, mining_cost=number, royalty="0.03")
    assert answer.status_code == 422 and path.read_text() == TEXT
    assert wrong(answer.text).startswith("Mining cost: found ") and "expected a number such as 2.5" in wrong(
        answer.text
    )
    assert form_in(answer.text)["value:economics.royalty"] == "0.03"


def test_a_number_that_no_project_has_is_refused_in_the_words_of_the_command_line(path, client):
    answer = send(client, mining_cost="-1")
    assert answer.status_code == 422 and path.read_text() == TEXT
    assert wrong(answer.text).startswith(f"{NAME}:10: [economics] mining_cost: ")
    assert form_in(answer.text)["value:economics.mining_cost"] == "-1"
    assert send(client, answer.text, mining_cost="3").status_code == 303 and "mining_cost = 3 " in path.read_text()


def test_a_file_that_has_changed_is_kept(path, client):
    page = page_of(client)
    theirs = TEXT.replace("0.9", "0.8")
    path.write_text(theirs)
    answer = send(client, page, mining_cost="3")
    assert answer.status_code == 409 and path.read_text() == theirs
    assert "has changed since this page was opened" in wrong(answer.text)
    # The page that answers does not let it pass either.
    assert send(client, answer.text, mining_cost="3").status_code == 409 and path.read_text() == theirs


def test_other_fields_of_a_form_change_nothing(path, client):
    form = form_in(page_of(client)) | {"value:table.file": "1", "value:economics.currency": "2", "text": "x"}
    assert client.post("/project/values", data=form, headers=OWN).status_code == 303 and path.read_text() == TEXT


def test_another_site_changes_nothing(path, client):
    form = form_in(page_of(client)) | {"value:economics.mining_cost": "3"}
    assert client.post("/project/values", data=form).status_code == 403 and path.read_text() == TEXT


def test_a_project_with_an_error_has_no_form(path, client):
    before = form_in(page_of(client))
    broken = TEXT.replace("[economics]", "[economics")
    path.write_text(broken)
    assert 'action="/project/values' not in page_of(client)
    answer = client.post("/project/values", data=before, headers=OWN)
    assert answer.status_code == 422 and "The project has an error" in answer.text and path.read_text() == broken


def leaves(data, name=""):
    """All values of a project by their places."""
    if isinstance(data, dict):
        for key, value in data.items():
            yield from leaves(value, f"{name}/{key}")
    elif isinstance(data, list):
        for number, value in enumerate(data):
            yield from leaves(value, f"{name}/{number}")
    else:
        yield name, data


@pytest.mark.parametrize("file", sorted(str(it.relative_to(ROOT)) for it in ROOT.glob("examples/*/project*.toml")))
def test_each_number_of_the_examples_changes_alone(file):
    text, project = (ROOT / file).read_text(), load(ROOT / file)
    fields, before = fields_of(text, project), dict(leaves(tomllib.loads(text, parse_float=Decimal)))
    assert len(fields) >= 3
    for field in [it for it in fields if it.entry.end]:
        after = changed(text, fields, typed(fields, {field.name: "7.125"}))
        found = dict(leaves(tomllib.loads(after, parse_float=Decimal)))
        differing = {name: value for name, value in found.items() if before[name] != value}
        assert list(differing.values()) == [Decimal("7.125")] and found.keys() == before.keys()
        (place,) = differing
        assert place.rpartition("/")[2] == field.entry.name.rpartition(".")[2] and before[place] == Decimal(field.value)
        lines = list(zip(text.splitlines(), after.splitlines(), strict=True))
        assert [number for number, (old, new) in enumerate(lines, 1) if old != new] == [field.entry.line]


@pytest.mark.parametrize("file", sorted(str(it.relative_to(ROOT)) for it in ROOT.glob("examples/*/project*.toml")))
def test_a_key_that_is_left_out_is_added_and_removed_again(file):
    text, project = (ROOT / file).read_text(), load(ROOT / file)
    fields, before = fields_of(text, project), dict(leaves(tomllib.loads(text, parse_float=Decimal)))
    for field in [it for it in fields if not it.entry.end]:
        added = changed(text, fields, typed(fields, {field.name: "0.125"}))
        found = dict(leaves(tomllib.loads(added, parse_float=Decimal)))
        name = "/" + field.entry.name.replace(".", "/")
        assert found == before | {name: Decimal("0.125")}
        (entry,) = [it for it in values_form.entries(added) if it.name == field.entry.name]
        again = [values_form.FormField(entry, "", "", "0.125", is_optional=True)]
        assert tomllib.loads(changed(added, again, typed(again, {field.name: ""})), parse_float=Decimal).items() >= (
            tomllib.loads(text, parse_float=Decimal).items()
        )


def test_the_form_of_the_schedule_adds_its_sections(path, client):
    page = page_of(client).partition('<details class="run" id="schedule"')[2]
    form = form_in(page)
    assert form["value:pushbacks.count"] == "" and "value:economics.royalty" not in form
    numbers = {"value:pushbacks.count": "2", "value:schedule.bench_lag": "1"}
    answer = client.post("/project/values", data=form | numbers, headers=OWN)
    assert answer.headers["location"].endswith("&saved=schedule#schedule")
    assert path.read_text() == TEXT + "\n[pushbacks]\ncount = 2\n\n[schedule]\nbench_lag = 1\n"
    assert '<details class="run" id="schedule" open>' in client.get(answer.headers["location"]).text


def test_a_number_is_refused_with_its_label():
    text = "[economics]\nmining_cost = 2\n"
    field = values_form.FormField(
        values_form.TomlEntry("economics.mining_cost", 2, 26, 27), "Mining cost", "USD/t", "2"
    )
    with pytest.raises(WrongForm, match="Mining cost: found '2,5', expected a number such as 2: write decimals with"):
        changed(text, [field], typed([field], {field.name: " 2,5 "}))
    assert changed(text, [field], typed([field], {field.name: " 2.5 "})) == text.replace("2", "2.5")
