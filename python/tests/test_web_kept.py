"""What pages keep of files: until a file changes, and not beyond a number; and tables page by page."""

import csv
import os
import re
import shutil

import pytest
from conftest import PROJECT, rows
from helpers.browser_application import PORT, entered
from helpers.documentation import ROOT

from pitplan import PlanError
from pitplan.web import project_text, results_page, workspace
from pitplan.web.security import Access
from pitplan.web.workspace import FileCache, Workspace

NAME = "hill/project.toml"


@pytest.fixture
def root(tmp_path):
    folder = tmp_path / "mines"
    (folder / "hill").mkdir(parents=True)
    (folder / NAME).write_text(PROJECT)
    rows(3, 3, 2).to_csv(folder / "hill/blocks.csv", index=False)
    return folder.resolve()


@pytest.fixture
def client(root):
    return entered(root, Access(PORT))


def counted(monkeypatch, module, name):
    """Notes the calls of a function of a module."""
    calls, known = [], getattr(module, name)
    monkeypatch.setattr(module, name, lambda *given: calls.append(given) or known(*given))
    return calls


# ---- what is kept


def test_a_value_is_read_again_only_if_its_file_changes(tmp_path):
    file, kept = tmp_path / "a", FileCache(2)
    file.write_text("one")
    assert [kept.of("a", [file], file.read_text) for _ in range(3)] == ["one"] * 3
    # Another file of the same size and time takes its place, as a save within the clock's resolution does.
    state, other = file.stat(), tmp_path / "b"
    other.write_text("two")
    os.utime(other, ns=(state.st_atime_ns, state.st_mtime_ns))
    other.replace(file)
    assert kept.of("a", [file], file.read_text) == "two"
    # The value goes back unread while the file stays as it is.
    assert kept.of("a", [file], lambda: "not read") == "two"
    with pytest.raises(PlanError, match="b: cannot be read: No such file or directory"):
        kept.of("a", [other], file.read_text)


def test_a_file_that_changes_while_it_is_read_is_read_again(tmp_path):
    file, kept = tmp_path / "a", FileCache(2)
    file.write_text("old")

    def reads_late():
        text = file.read_text()
        file.write_text("newer")
        return text

    assert kept.of("a", [file], reads_late) == "old"
    assert kept.of("a", [file], file.read_text) == "newer"


def test_the_value_that_was_asked_for_longest_ago_goes_first(tmp_path):
    file, kept, reads = tmp_path / "a", FileCache(2), []
    file.write_text("")
    for key in "abacabc":
        kept.of(key, [file], lambda: reads.append(key))
    assert "".join(reads) == "abcbc"


def test_a_value_that_is_not_to_be_kept_is_read_each_time(tmp_path):
    kept = FileCache(2)
    assert [kept.of("a", [], lambda: value, keeps=bool) for value in ([], [1], [2])] == [[], [1], [1]]


# ---- projects and results


def test_the_list_parses_a_project_once(client, root, monkeypatch):
    calls = counted(monkeypatch, workspace, "project_in")
    for _ in range(3):
        assert "Test hill" in client.get("/").text
    assert len(calls) == 1
    (root / NAME).write_text(PROJECT.replace("Test hill", "Best hill"))
    assert "Best hill" in client.get("/").text and len(calls) == 2


def test_a_project_that_could_not_be_read_is_tried_again(root, monkeypatch):
    found, known = Workspace(root), workspace.project_in

    def fails(path, name):
        monkeypatch.setattr(workspace, "project_in", known)
        return [workspace.ProjectFile(name, "cannot be read: Input/output error", "", False)]

    monkeypatch.setattr(workspace, "project_in", fails)
    assert [[it.title for it in found.projects()] for _ in range(2)] == [
        ["cannot be read: Input/output error"],
        ["Test hill"],
    ]


def test_a_record_is_read_once_and_again_after_the_next_run(root, monkeypatch):
    (root / "hill/plan").mkdir()
    record = root / "hill/plan/plan.json"
    record.write_text('{"project": "../project.toml", "shells": {}}')
    found, calls = Workspace(root), counted(monkeypatch, workspace, "record_in")
    assert [[it.kind for it in found.results()] for _ in range(2)] == [["Shells"]] * 2 and len(calls) == 1
    assert found.result(root / "hill/plan").project == NAME and len(calls) == 1
    record.write_text('{"project": "../project.toml", "schedule": "lp"}')
    assert [it.kind for it in found.results()] == ["Schedule"]


def test_charts_are_made_once_and_again_if_a_table_changes(client, root, monkeypatch):
    folder = root / "hill/plan"
    (folder / "tables").mkdir(parents=True)
    (folder / "plan.json").write_text('{"project": "../project.toml", "shells": {"selected": 0.8}}')
    shutil.copy(root / NAME, folder / "project-as-run.toml")
    table = (ROOT / "examples/plan/expected/shells.csv").read_text()
    (folder / "tables/shells.csv").write_text(table)
    calls = counted(monkeypatch, results_page, "charts_in")
    first, second = (client.get("/result", params={"name": "hill/plan"}).text for _ in range(2))
    assert len(calls) == 1 and first == second and "Pit by pit" in first
    (folder / "tables/shells.csv").write_text("\n".join(table.splitlines()[:1]))
    assert "Pit by pit" not in client.get("/result", params={"name": "hill/plan"}).text


def test_the_page_of_a_project_shows_the_file_as_it_is(client, root, monkeypatch):
    calls = counted(monkeypatch, project_text, "read")
    pages = [client.get("/project", params={"name": NAME}).text for _ in range(3)]
    assert len(calls) == 1 and len(set(pages)) == 1
    (root / NAME).write_text(PROJECT.replace("[economics]", "[economics]\nroyalty = 0.04"))
    assert 'value="0.04"' in client.get("/project", params={"name": NAME}).text
    (root / NAME).write_text(PROJECT.replace("[economics]", "[ecstatics]"))
    assert "The project has an error" in client.get("/project", params={"name": NAME}).text


def test_a_project_with_a_table_of_periods_follows_the_table(client, root):
    """The error lies in another file than the project's."""
    periods = root / "hill/periods.csv"
    periods.write_text("years\n1\n")
    (root / NAME).write_text('periods = "periods.csv"\n' + PROJECT)
    assert "The project has an error" not in client.get("/project", params={"name": NAME}).text
    periods.write_text("years\nmany\n")
    assert "The project has an error" in client.get("/project", params={"name": NAME}).text


# ---- pages of tables


def write_table(root, lines):
    folder = root / "hill/plan/tables"
    folder.mkdir(parents=True, exist_ok=True)
    (root / "hill/plan/plan.json").write_text('{"project": "../project.toml"}')
    (folder / "years.csv").write_text("\n".join(lines) + "\n")
    return folder / "years.csv"


def page_of(client, page=""):
    answer = client.get("/table", params={"name": "hill/plan/tables/years.csv", "page": page})
    assert answer.status_code == 200
    return answer.text


@pytest.mark.parametrize("field", ["x", '"two\nlines"', '"a ""quote"""'])
def test_all_rows_of_a_long_table_lie_on_its_pages(root, monkeypatch, field):
    monkeypatch.setattr(results_page, "MOST_ROWS", 3)
    path = write_table(root, ["a,b", *(f"{k},{field}" for k in range(7))])
    with open(path, newline="") as file:
        _, *expected = csv.reader(file)
    tables = [results_page.read_table(path, page) for page in (1, 2, 3)]
    assert [row for it in tables for row in it.rows] == expected
    assert [(it.first, it.page, it.pages, it.count) for it in tables] == [(0, 1, 3, 7), (3, 2, 3, 7), (6, 3, 3, 7)]
    # Pages beyond the last show the last.
    assert results_page.read_table(path, 400) == tables[2]


def test_pages_lead_to_the_next_and_back(client, root, monkeypatch):
    monkeypatch.setattr(results_page, "MOST_ROWS", 3)
    write_table(root, ["a", *map(str, range(1_000, 1_007))])
    first, second, third = (page_of(client, it) for it in ("", "2", "3"))
    assert "7 rows; this page has 1 to 3" in first and "page has 4 to 6" in second and "7 to 7" in third
    links = [re.findall(r'rel="(prev|next)" href="/table\?name=([^&"]+)&amp;page=(\d)"', it) for it in (first, second)]
    name = "hill/plan/tables/years.csv"
    assert links == [[("next", name, "2")], [("prev", name, "1"), ("next", name, "3")]]
    assert 'data-raw="1003">1,003<' in second and "1,002" not in second and 'rel="next"' not in third
    for other in ("0", "-1", "x", "9" * 30, "²"):
        assert page_of(client, other) == first
    assert page_of(client, "99") == third


def test_a_short_table_has_one_page_without_links(client, root):
    write_table(root, ["a", "1"])
    text = page_of(client)
    assert "1 rows." in text and "rel=" not in re.sub(r"<head>.*</head>", "", text, flags=re.DOTALL)


@pytest.mark.parametrize("lines", [[], ["a,b"]])
def test_a_table_without_rows_is_shown(client, root, lines):
    write_table(root, lines)
    assert "0 rows" in page_of(client)


def test_a_page_of_a_table_is_kept_until_the_file_changes(client, root, monkeypatch):
    path = write_table(root, ["a", "17"])
    calls = counted(monkeypatch, results_page, "read_table")
    assert page_of(client) == page_of(client) and ">17<" in page_of(client) and len(calls) == 1
    path.write_text("a\n18\n")
    assert ">18<" in page_of(client)
    # Headings have the units of the project of the run.
    shutil.copy(root / NAME, root / "hill/plan/project-as-run.toml")
    page_of(client)
    assert len(calls) == 3


def test_texts_of_a_table_are_escaped(client, root):
    write_table(root, ["a,b", "<b>&,1"])
    assert "<td>&lt;b&gt;&amp;</td>" in page_of(client)


def test_a_line_without_an_end_is_refused(client, root, monkeypatch):
    monkeypatch.setattr(results_page, "MOST_IN_A_LINE", 100)
    write_table(root, ["a", "1" * 101])
    answer = client.get("/table", params={"name": "hill/plan/tables/years.csv"})
    assert (
        answer.status_code == 400
        and "years.csv: cannot be read as a table: a line has more than 100 letters" in answer.text
    )
