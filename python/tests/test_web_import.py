"""Block models that come by the browser: their names, their bytes, and what they are recognised as."""

import asyncio
import gzip
import json
import re

import pytest
from conftest import rows
from helpers.browser_application import OWN, PORT, client_of, ended, entered
from starlette.requests import ClientDisconnect

import pitplan
from pitplan.cli import main
from pitplan.web import import_pages
from pitplan.web.jobs import DONE, FAILED, Jobs
from pitplan.web.run_form import WrongForm
from pitplan.web.security import Access
from pitplan.web.workspace import Workspace

ORE = {"cu": lambda i, j, k: 2.0 if k == 1 and i == 4 else 0.0}


@pytest.fixture
def root(tmp_path):
    """A folder with a file, and next to it a secret."""
    folder = tmp_path.resolve() / "mines"
    (folder / "taken").mkdir(parents=True)
    (folder / "taken" / "project.toml").write_text("")
    (folder / "half").mkdir()
    (folder / "half" / "blocks.csv").write_text("x\n")
    (folder / "file").write_text("")
    (tmp_path / "outside").mkdir()
    (folder / "link").symlink_to(tmp_path / "outside")
    return folder


@pytest.fixture
def client(root):
    return entered(root, Access(PORT))


def table():
    """The text of a block model of 256 blocks, with a null code."""
    found = rows(8, 8, 4, **ORE).rename(columns={"cu": "CU_PCT"}).drop(columns=["name"])
    found.loc[3, "CU_PCT"] = -99
    return found.to_csv(index=False)


def sent(client, content, headers=OWN, **query):
    given = {"folder": "hill", "file": "blocks.csv", **query}
    return client.put("/import/file", params=given, content=content, headers=headers)


def left(root):
    """The files of the folder that is served, without those of jobs."""
    return sorted(str(it.relative_to(root)) for it in root.rglob("*") if it.is_file() and "jobs" not in it.parts)


# ---- the whole way


def test_a_block_model_becomes_a_project_and_its_page_says_what_was_recognised(root, client, tmp_path, capsys):
    answer = sent(client, table())
    assert answer.status_code == 201 and answer.json() == {"next": "/job?number=1"}
    assert (root / "hill" / "blocks.csv").read_text() == table()
    job = ended(root, 1)
    assert job.status == DONE, Jobs(root).log(1)
    assert job.words == ("init", "hill/blocks.csv", "--out=hill/project.toml", "--figures", "--json")
    # The command line writes the same project, and prints what the page shows.
    (tmp_path / "own").mkdir()
    (tmp_path / "own" / "blocks.csv").write_text(table())
    assert main(["init", str(tmp_path / "own" / "blocks.csv")]) == 0
    assert (tmp_path / "own" / "project.toml").read_text() == (root / "hill" / "project.toml").read_text()
    printed = capsys.readouterr().err
    text = client.get("/imported?number=1").text
    assert "CU_PCT: 1 of 256 blocks are null (-99" in printed and "CU_PCT: 1 of 256 blocks are null (-99" in text
    row = re.search(r"<tr><th scope=\"row\">CU_PCT</th>.*?</tr>", text)[0]
    assert '<option value="copper:percent" selected>grade of copper, %</option>' in row
    assert '<td data-field="unit">%</td><td class="number" data-field="nulls">1 (-99)</td>' in row
    line = next(it for it in printed.splitlines() if it.startswith("x "))
    assert line.split()[:6] == ["x", "centroid", "x", "m", "5", "40"]
    assert 'data-field="least" data-raw="5">5</td>' in text and 'data-field="mean" data-raw="40">40</td>' in text
    assert pitplan.load(root / "hill" / "project.toml").metals[0].column == "CU_PCT"


def test_the_figure_of_a_block_model_is_shown_and_no_other_file_beside_a_project(root, client):
    sent(client, table())
    ended(root, 1)
    assert 'src="/file?name=hill/project-block-model.png"' in client.get("/imported?number=1").text
    picture = client.get("/file?name=hill/project-block-model.png")
    assert picture.headers["content-type"] == "image/png" and picture.content.startswith(b"\x89PNG")
    (root / "hill" / "other-block-model.png").write_bytes(picture.content)
    for name in ("hill/other-block-model.png", "hill/blocks.csv", "hill/project.toml"):
        assert client.get("/file", params={"name": name}).status_code == 404


def test_a_packed_block_model_keeps_its_ending_in_small_letters(root, client):
    assert sent(client, gzip.compress(table().encode()), file="Blocks.CSV.GZ").status_code == 201
    assert ended(root, 1).status == DONE and (root / "hill" / "Blocks.csv.gz").is_file()


def test_a_file_that_is_no_block_model_fails_with_the_words_of_init(root, client):
    assert sent(client, "a,b\n1,2\n").status_code == 201
    assert ended(root, 1).status == FAILED
    text = client.get("/job?number=1").text
    assert "found no column for x and y and z of the centroids; the columns are a, b" in text
    assert 'href="/import"' in text and client.get("/imported?number=1").status_code == 404


def test_an_import_does_not_wait_for_a_job(root, client, monkeypatch):
    """The first job of the queue is one that never starts."""
    monkeypatch.setattr(Jobs, "pump", lambda self: None)
    Jobs(root).ask(("check",), "x.toml", "")
    assert sent(client, table()).json() == {"next": "/job?number=2"}
    monkeypatch.undo()
    assert ended(root, 2).status == DONE


def test_other_jobs_are_no_imports(root, client, monkeypatch):
    monkeypatch.setattr(Jobs, "pump", lambda self: None)
    Jobs(root).ask(("check",), "x.toml", "")
    for number in ("1", "2", "x", ""):
        assert client.get(f"/imported?number={number}").status_code == 404


def test_init_prints_what_it_recognised_as_json(tmp_path, capsys):
    (tmp_path / "blocks.csv").write_text(table())
    assert main(["init", str(tmp_path / "blocks.csv"), "--json"]) == 0
    said = json.loads(capsys.readouterr().out)
    assert said["path"] == str(tmp_path / "project.toml") and said["figure"] is None
    found = {it["column"]: it for it in said["columns"]}
    assert [found["z"][key] for key in ("role", "unit", "least", "greatest")] == ["centroid z", "m", "5", "35"]
    assert found["CU_PCT"]["nulls"] == "1 (-99)" and len(found) == len(table().splitlines()[0].split(","))
    assert said["warnings"] == [it for it in said["warnings"] if not it.startswith("WARNING")] != []


# ---- names


@pytest.mark.parametrize(
    ("query", "why"),
    [
        ({"folder": ""}, "Name of the mine: found nothing"),
        ({"folder": "  "}, "Name of the mine: found nothing"),
        ({"folder": "../x"}, "without / and \\"),
        ({"folder": "a/b"}, "without / and \\"),
        ({"folder": "a\\b"}, "without / and \\"),
        ({"folder": ".."}, "does not begin with a dot"),
        ({"folder": ".pitplan-serve"}, "does not begin with a dot"),
        ({"folder": "a\0b"}, "letters that can be printed"),
        ({"folder": "a\nb"}, "letters that can be printed"),
        ({"folder": "é" * 101}, "found 101 letters, expected at most 100"),
        ({"folder": "taken"}, "taken: has a file project.toml already: give another name"),
        ({"folder": "half"}, "half: has a file blocks.csv already: give another name"),
        ({"folder": "file"}, "file: is a file: give another name"),
        ({"folder": "link"}, "is a link that leads out of the folder"),
        ({"file": ""}, "Block model: found nothing"),
        ({"file": "../blocks.csv"}, "without / and \\"),
        ({"file": ".csv"}, "does not begin with a dot"),
        ({"file": ".hidden.csv"}, "does not begin with a dot"),
        ({"file": "model.xlsx"}, "expected a file that ends in .csv, .csv.gz, .zip, .omf or .dm: export the"),
        ({"file": "project.toml"}, "expected a file that ends in"),
    ],
)
@pytest.mark.parametrize("way", ["check", "file"])
def test_a_wrong_or_taken_name_is_refused_and_nothing_is_written(root, client, query, why, way):
    before = left(root)
    given = {"folder": "hill", "file": "blocks.csv", "size": "5", **query}
    if way == "file":
        answer = sent(client, table(), **given)
    else:
        answer = client.get("/import/check", params=given)
    assert answer.status_code == 422 and why in answer.text, answer.text
    assert left(root) == before and Jobs(root).all() == [] and not (root / "hill").exists()
    assert list((root.parent / "outside").iterdir()) == []


def test_a_name_that_is_free_is_so(root, client):
    for folder in ("hill", "north hill", "-x", "Cerro Ñandú"):
        answer = client.get("/import/check", params={"folder": folder, "file": "b.csv", "size": "5"})
        assert answer.status_code == 204, answer.text


def test_a_folder_that_begins_as_an_option_is_none(root, client):
    assert sent(client, table(), folder="--json").status_code == 201
    assert ended(root, 1).status == DONE and (root / "--json" / "project.toml").is_file()


# ---- bytes


@pytest.mark.parametrize("headers", [{}, {"origin": "http://evil.example"}, {"origin": "null"}])
def test_another_site_sends_nothing(root, client, headers):
    assert sent(client, table(), headers=headers).status_code == 403 and not (root / "hill").exists()


def test_nobody_without_the_cookie_sends(root):
    assert sent(client_of(root, Access(PORT)), table()).status_code == 403 and not (root / "hill").exists()


def test_a_file_that_is_too_large_is_refused_by_its_size_and_by_its_bytes(root, client, monkeypatch):
    monkeypatch.setattr(import_pages, "MOST_OF_FILE", 1000)
    given = {"folder": "hill", "file": "blocks.csv"}
    assert client.get("/import/check", params={**given, "size": "1000"}).status_code == 204
    assert client.get("/import/check", params={**given, "size": "1001"}).status_code == 422
    assert sent(client, b"x" * 1001).status_code == 422
    # Without a length in the headers.
    assert sent(client, iter([b"x" * 600, b"x" * 600])).status_code == 422
    assert not (root / "hill").exists() and list((root / import_pages.UNFINISHED).iterdir()) == []


@pytest.mark.parametrize("size", ["", "x", "-1", "1e3", "²"])
def test_a_size_that_is_none(client, size):
    answer = client.get("/import/check", params={"folder": "hill", "file": "blocks.csv", "size": size})
    assert answer.status_code == 422


def test_an_empty_file_is_refused(root, client):
    answer = sent(client, b"")
    assert answer.status_code == 422 and "is empty: export it again" in answer.text and not (root / "hill").exists()


async def parts_of(*given):
    for part in given:
        if isinstance(part, Exception):
            raise part
        yield part


def received(root, *given, folder="hill"):
    space = Workspace(root)
    asyncio.run(import_pages.receive(parts_of(*given), space, import_pages.upload_of(space, folder, "blocks.csv")))


def test_a_file_that_is_cut_leaves_nothing(root):
    before = left(root)
    with pytest.raises(ClientDisconnect):
        received(root, b"x" * (3 << 20), ClientDisconnect())
    assert left(root) == before and not (root / "hill").exists()
    assert list((root / import_pages.UNFINISHED).iterdir()) == []


def test_parts_are_put_together_in_their_order(root):
    parts = [bytes([number]) * 300_000 for number in range(10)]
    received(root, *parts)
    assert (root / "hill" / "blocks.csv").read_bytes() == b"".join(parts)


@pytest.mark.parametrize("taken", ["blocks.csv", "project.toml"])
def test_a_file_that_comes_meanwhile_is_kept(root, taken):
    """Another upload takes the name of the mine after the first has been let in."""

    async def slow():
        yield b"mine"
        (root / "hill").mkdir()
        (root / "hill" / taken).write_text("theirs")

    space = Workspace(root)
    upload = import_pages.upload_of(space, "hill", "blocks.csv")
    with pytest.raises(WrongForm, match=f"hill: has a file {taken} already"):
        asyncio.run(import_pages.receive(slow(), space, upload))
    assert [(it.name, it.read_text()) for it in (root / "hill").iterdir()] == [(taken, "theirs")]


def test_what_a_killed_server_left_is_removed(root):
    old = root / import_pages.UNFINISHED / ".pitplan-old"
    old.mkdir(parents=True)
    (old / "part").write_bytes(b"x" * 100)
    received(root, b"x")
    assert not old.exists()


def test_a_file_system_without_hard_links(root, monkeypatch):
    def refused(*given):
        raise PermissionError(1, "Operation not permitted")

    monkeypatch.setattr(import_pages.os, "link", refused)
    received(root, b"x")
    assert (root / "hill" / "blocks.csv").read_bytes() == b"x"
    assert list((root / import_pages.UNFINISHED).iterdir()) == []


def test_a_folder_that_cannot_be_written_says_so(root, monkeypatch):
    def full(*given):
        raise OSError(28, "No space left on device")

    monkeypatch.setattr(import_pages.os, "link", full)
    monkeypatch.setattr(import_pages.os, "rename", full)
    with pytest.raises(pitplan.PlanError, match="hill/blocks.csv: cannot be written: No space left on device: free"):
        received(root, b"x")
    assert not (root / "hill").exists()
