"""Projects that are edited in the browser: what is wrong and where, and what is saved."""

import html
import re

import pytest
import tomllib
from conftest import ROOT
from helpers.browser_application import OWN, PORT, client_of, entered
from helpers.project_page import several
from helpers.pushbacks import UPRIGHT, pillars

from pitplan import PlanError
from pitplan.cli import main
from pitplan.config import toml_text
from pitplan.config.project import of_data
from pitplan.web import project_text
from pitplan.web.security import Access

NAME = "hill/project.toml"
COMMENTED = UPRIGHT + "\n# The last line is a comment with é and </textarea><script>alert(1)</script>\n"


@pytest.fixture
def path(tmp_path):
    folder = tmp_path.resolve() / "mines" / "hill"
    folder.mkdir(parents=True)
    pillars().to_csv(folder / "blocks.csv", index=False)
    (folder / "project.toml").write_text(COMMENTED)
    return folder / "project.toml"


@pytest.fixture
def root(path):
    return path.parent.parent


@pytest.fixture
def client(root):
    return entered(root, Access(PORT))


def shown(page):
    """The text of the editor, as a browser sends it: without the first end of a line."""
    found = re.search(r"<textarea id=\"text\"[^>]*>\n(.*?)</textarea>", page, re.DOTALL)
    return html.unescape(found[1])


def seen(client):
    return re.search(r'name="seen" value="([0-9a-f]{64})"', client.get("/project", params={"name": NAME}).text)[1]


def send(client, to, text, **more):
    form = {"project": NAME, "seen": seen(client), "text": text.replace("\n", "\r\n"), **more}
    return client.post(f"/project/{to}", data=form, headers=OWN)


def said(page):
    """What the page says is wrong; empty if it says nothing."""
    found = re.search(r'<p id="wrong" class="bad" role="alert">(.*?)</p>', page, re.DOTALL)
    return html.unescape(found[1]) if found else ""


PRICE = re.search(r"^price = .*$", COMMENTED, re.MULTILINE)[0]


# ---- saved


def test_a_text_is_saved_with_its_comments(path, client):
    text = COMMENTED.replace(PRICE, "price = 9123.5   # mine")
    assert text != COMMENTED and shown(client.get("/project", params={"name": NAME}).text) == COMMENTED
    answer = send(client, "save", text)
    assert answer.status_code == 303 and answer.headers["location"] == f"/project?name={NAME}&saved=text#editor"
    assert path.read_bytes() == text.encode()
    page = client.get(answer.headers["location"]).text
    assert "Saved." in page and shown(page) == text and 'data-unsaved="no"' in page


@pytest.mark.parametrize("text", ["\n\n" + COMMENTED, COMMENTED.rstrip("\n"), COMMENTED + "\n\n"])
def test_empty_lines_at_both_ends_stay(path, client, text):
    assert send(client, "save", text).status_code == 303 and path.read_bytes() == text.encode()
    assert shown(client.get("/project", params={"name": NAME}).text) == text


def test_ends_of_lines_and_permissions_stay(path, client):
    path.write_bytes(COMMENTED.replace("\n", "\r\n").encode())
    path.chmod(0o640)
    text = COMMENTED.replace(PRICE, "price = 1")
    assert send(client, "save", text).status_code == 303
    assert path.read_bytes() == text.replace("\n", "\r\n").encode() and path.stat().st_mode & 0o777 == 0o640


def test_a_check_saves_nothing_and_keeps_the_text(path, client):
    text = COMMENTED.replace(PRICE, "price = 1")
    answer = send(client, "check", text)
    assert answer.status_code == 200 and "No errors. The text is not saved yet." in answer.text
    assert shown(answer.text) == text and 'data-unsaved="yes"' in answer.text and path.read_text() == COMMENTED


def test_a_file_that_has_changed_is_not_replaced(path, client):
    before, mine, theirs = seen(client), COMMENTED.replace(PRICE, "price = 1"), COMMENTED.replace(PRICE, "price = 2")
    path.write_text(theirs)
    answer = send(client, "save", mine, seen=before)
    assert answer.status_code == 409 and path.read_text() == theirs and shown(answer.text) == mine
    assert said(answer.text).startswith(f"{NAME}: has changed since this page was opened: copy your text")
    # The page that answers has not seen the other text either.
    assert f'value="{before}"' in answer.text


def test_a_file_that_is_gone_loses_no_text(path, client):
    before = seen(client)
    path.unlink()
    answer = client.post("/project/save", data={"project": NAME, "seen": before, "text": COMMENTED}, headers=OWN)
    assert answer.status_code == 404 and html.escape(COMMENTED[-40:-1]) in answer.text and not path.exists()


def test_a_file_that_cannot_be_written_loses_no_text(path, client, monkeypatch):
    def full(place):
        raise PlanError(f"{place}: cannot be written: No space left on device")

    monkeypatch.setattr(project_text, "staged_file", full)
    text = COMMENTED.replace(PRICE, "price = 1")
    answer = send(client, "save", text)
    assert answer.status_code == 422 and shown(answer.text) == text and path.read_text() == COMMENTED
    assert "No space left on device" in said(answer.text)


@pytest.mark.parametrize("headers", [{}, {"origin": "http://evil.example"}])
@pytest.mark.parametrize("to", ["check", "save"])
def test_another_site_saves_nothing(path, client, to, headers):
    form = {"project": NAME, "seen": seen(client), "text": ""}
    assert client.post(f"/project/{to}", data=form, headers=headers).status_code == 403
    assert path.read_text() == COMMENTED


@pytest.mark.parametrize(
    "name", ["../secret.toml", "hill/blocks.csv", "hill/link.toml", "hill/none.toml", "hill/other.toml", ""]
)
@pytest.mark.parametrize("to", ["check", "save"])
def test_no_other_file_is_written(root, client, to, name):
    (root.parent / "secret.toml").write_text(COMMENTED)
    (root / "hill" / "link.toml").symlink_to(root.parent / "secret.toml")
    (root / "hill" / "other.toml").write_text("[tool]\n")
    before = {it: it.read_bytes() for it in root.parent.rglob("*") if it.is_file()}
    answer = send(client, to, COMMENTED.replace(PRICE, "price = 1"), project=name)
    assert answer.status_code == 404
    assert {it: it.read_bytes() for it in root.parent.rglob("*") if it.is_file()} == before


def test_nobody_without_the_cookie_saves(root, path):
    form = {"project": NAME, "seen": project_text.hash_of(path), "text": COMMENTED + "#"}
    assert client_of(root, Access(PORT)).post("/project/save", data=form, headers=OWN).status_code == 403
    assert path.read_text() == COMMENTED


# ---- wrong


def line(words):
    """The line of the project that begins with words."""
    return next(number for number, it in enumerate(COMMENTED.splitlines(), 1) if it.startswith(words))


WRONG = [
    (PRICE, 'price = "x"', line(PRICE), "[metals 1] price: 'x' is not a number"),
    (PRICE, "prize = 3", line(PRICE), "[metals 1] price: is missing"),
    ("mining_cost = ", "minning_cost = ", line("mining_cost"), "[economics] mining_cost: is missing"),
    ("[economics]", "[economics", line("[economics]"), "at line"),
    ("[shells]", "[shelves]", line("[shells]"), "shells: is missing: did you misspell it as shelves?"),
    ("[slopes]", "[inclines]", line("[slopes]"), "inclines: unknown key: remove it"),
    ("title = ", "tile = ", line("title"), "tile: unknown key: did you mean title?"),
]


@pytest.mark.parametrize(("old", "new", "number", "why"), WRONG, ids=[it[1] for it in WRONG])
@pytest.mark.parametrize("to", ["check", "save"])
def test_a_wrong_text_is_refused_with_its_line_in_the_words_of_the_command_line(
    path, root, client, monkeypatch, capsys, to, old, new, number, why
):
    text = COMMENTED.replace(old, new, 1)
    assert text != COMMENTED
    answer = send(client, to, text)
    assert answer.status_code == 422 and shown(answer.text) == text and path.read_text() == COMMENTED
    path.write_text(text)
    monkeypatch.chdir(root)
    assert main(["check", NAME]) == 1
    printed = capsys.readouterr().err.strip().removeprefix("pitplan: ")
    assert why in printed
    assert said(answer.text) == printed and printed.startswith(f"{NAME}:{number}: ")
    assert ("data-line" in answer.text) == (number is not None)
    assert number is None or f'data-line="{number}"' in answer.text


def test_a_project_with_an_error_can_be_opened_and_repaired(path, client):
    path.write_text(COMMENTED.replace("[economics]", "[economics"))
    assert f'href="/project?name={NAME}" class="bad"' in client.get("/").text
    page = client.get("/project", params={"name": NAME})
    assert page.status_code == 200 and said(page.text).startswith(f"{NAME}:{line('[economics]')}: ")
    assert send(client, "save", COMMENTED).status_code == 303 and path.read_text() == COMMENTED


def test_a_file_that_is_no_utf_8_is_shown_and_not_changed(path, client):
    path.write_bytes(COMMENTED.encode("latin-1"))
    page = client.get("/project", params={"name": NAME}).text
    assert "is not UTF-8: save it as UTF-8" in said(page) and " readonly>" in page and 'id="save"' not in page


def test_a_text_that_is_too_long_is_refused(path, client):
    answer = send(client, "save", COMMENTED + "#" * project_text.MOST_LETTERS)
    assert answer.status_code == 422 and "letters, expected at most 300,000" in said(answer.text)
    assert path.read_text() == COMMENTED


def test_no_text_becomes_a_script(client):
    page = client.get("/project", params={"name": NAME}).text
    assert "<script>alert" not in page and "&lt;/textarea&gt;&lt;script&gt;alert(1)" in page


# ---- where keys lie


def values_of(data, name=""):
    """The keys of sections and their values, by the names that errors give them."""
    for key, value in data.items():
        inner = f"{name}.{key}" if name else key
        if isinstance(value, dict):
            yield from values_of(value, inner)
        elif isinstance(value, list) and value and all(isinstance(it, dict) for it in value):
            for number, it in enumerate(value, 1):
                yield from values_of(it, f"{inner} {number}")
        else:
            yield inner, value


def is_part(name, entries):
    return any(name.startswith((f"{it}.", f"{it} ")) for it in entries)


@pytest.mark.parametrize("file", sorted(str(it.relative_to(ROOT)) for it in ROOT.glob("examples/*/*.toml")))
def test_the_values_of_all_keys_are_found_as_tomllib_reads_them(file):
    text = (ROOT / file).read_text()
    # Keys that are commented out are keys too: all of them are tried that make a text which can be read.
    found = {it.name: it for it in toml_text.entries(text) if it.end}
    data = dict(values_of(tomllib.loads(text)))
    assert {name for name in data if not is_part(name, found)} <= set(found)
    for name, entry in found.items():
        value = tomllib.loads(f"key = {text[entry.start:entry.end]}")["key"]
        assert data[name] == value if name in data else dict(values_of({name: value}))
        assert text.splitlines()[entry.line - 1].lstrip().startswith((name.rpartition(".")[2], '"', "'")) or "." in name


TRICKY = """
"a b".'c.d' = 1          # [x]
list = [                 # a comment with ] and "
  "[not]", 'x = 1',      # y = 2
  ["no header"],         # nor this ]
  [1, 2],
]
long = \"\"\"
[no]
key = "x" \\\"\"\" y
\"\"\"

[one.two]
x = { y = "#", z = [1] } # end
[[rows]]
x = 1
[rows.inner]
x = 2
[[rows.list]]
[[rows.list]]
x = 3
[[rows]]
[[rows.list]]
x = '''
4'''
"""


def test_headers_and_keys_of_lists_have_numbers():
    names = {it.name: it.line for it in toml_text.entries(TRICKY)}
    assert names == {
        "a b.c.d": 2,
        "list": 3,
        "long": 8,
        "one.two": 13,
        "one.two.x": 14,
        "rows 1": 15,
        "rows 1.x": 16,
        "rows 1.inner": 17,
        "rows 1.inner.x": 18,
        "rows 1.list 1": 19,
        "rows 1.list 2": 20,
        "rows 1.list 2.x": 21,
        "rows 2": 22,
        "rows 2.list 1": 23,
        "rows 2.list 1.x": 24,
    }
    values = {it.name: TRICKY[it.start : it.end] for it in toml_text.entries(TRICKY) if it.end}
    assert values["one.two.x"] == '{ y = "#", z = [1] }' and values["rows 2.list 1.x"] == "'''\n4'''"
    assert tomllib.loads(f"key = {values['long']}")["key"] == tomllib.loads(TRICKY)["long"]


@pytest.mark.parametrize(
    ("name", "number"),
    [
        ("rows 1.inner.x", 18),
        ("rows 1.inner.none", 17),
        ("rows 1.none", 15),
        ("rows", 15),
        ("one.two.x.y", 14),
        ("none.x", None),
    ],
)
def test_the_line_of_a_key_is_that_of_the_nearest_that_there_is(name, number):
    assert toml_text.line_of(TRICKY, name) == number


# A project, changes of it that are errors across sections, and how the line begins that the error names.
SEVERAL = (
    several()
    + """
[[processes]]
name = "leach"
cost = 1
capacity = 10
recovery = { copper = 0.4 }
[[periods]]
years = 1
[schedule]
max_metal_per_year = { copper = 5 }
[[schedule.limits]]
name = "acid"
column = "cu"
max = 9
[[dumps]]
name = "north"
"""
)
ACROSS = [
    ("recovery = { copper = 0.4 }", "recovery = { tin = 0.4 }", "recovery = { tin"),
    ("years = 1", "years = 1\nprices = { tin = 1 }", "prices = { tin"),
    ("years = 1", "years = 1\n[[periods]]\nminimum = { feed = 1 }", "minimum = { feed"),
    ('name = "north"', 'name = "mill"', 'name = "mill"'),
    ("max_metal_per_year = { copper = 5 }", "max_metal_per_year = { tin = 5 }", "max_metal_per_year"),
    ("max = 9", 'max = 9\nof = "x"', 'of = "x"'),
    ("[schedule]", "[schedule]\nprocessing_capacity = 5", "processing_capacity"),
    ("[[dumps]]", "[sensitivity]\nparameters = ['haulage']\n[[dumps]]", "[sensitivity]"),
    ("[[dumps]]", "[schedule.feed]\ncu = { max = 1 }\n[[dumps]]", "[schedule.feed]"),
]


@pytest.mark.parametrize(("old", "new", "begins"), ACROSS, ids=[it[2] for it in ACROSS])
def test_errors_across_sections_have_a_line(old, new, begins):
    before, found, after = SEVERAL.rpartition(old)
    assert found
    text = before + new + after
    with pytest.raises(PlanError) as error:
        of_data(toml_text.parsed(text, "p.toml"), ROOT / "p.toml", "p.toml", text)
    number = text[: len(before) + new.index(begins)].count("\n") + 1
    assert str(error.value).startswith(f"p.toml:{number}: ") and error.value.place.line == number
