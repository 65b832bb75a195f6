"""Roles of columns that a planner sets: by `pitplan init --role`, and on the page of an imported block model."""

import html
import json
import re
import shutil

import pytest
from conftest import rows
from helpers.browser_application import OWN, PORT, ended, entered

import pitplan
from pitplan.cli import main
from pitplan.web import import_pages
from pitplan.web.jobs import DONE, FAILED, LOST, Jobs, now
from pitplan.web.security import Access


def table():
    """A block model with two columns that may be copper, and one whose name says nothing."""
    found = rows(6, 6, 3, cu=lambda i, j, k: 2.0 if k == 1 and i == 4 else 0.0).rename(columns={"cu": "CU_PCT"})
    return found.assign(CU_SOL=found["CU_PCT"] / 4, SEAM=[f"S{number % 3}" for number in range(len(found))])


@pytest.fixture
def root(tmp_path):
    folder = tmp_path.resolve() / "mines"
    folder.mkdir()
    return folder


@pytest.fixture
def client(root):
    return entered(root, Access(PORT))


@pytest.fixture(scope="module")
def imported_once(tmp_path_factory):
    """A folder with an import that has succeeded."""
    folder = tmp_path_factory.mktemp("imported").resolve() / "mines"
    folder.mkdir()
    query = {"folder": "hill", "file": "blocks.csv"}
    answer = entered(folder, Access(PORT)).put(
        "/import/file", params=query, content=table().to_csv(index=False), headers=OWN
    )
    assert answer.status_code == 201 and ended(folder, 1).status == DONE
    return folder


@pytest.fixture
def imported(root, client, imported_once):
    """A copy of it; gives the number of its job."""
    shutil.copytree(imported_once, root, dirs_exist_ok=True)
    return 1


def init(folder, *words):
    """Runs pitplan init on the block model in a folder; gives the project."""
    table().to_csv(folder / "blocks.csv", index=False)
    assert main(["init", str(folder / "blocks.csv"), *words]) == 0
    return pitplan.load(folder / "project.toml")


def test_a_role_takes_the_place_of_the_guess(tmp_path, capsys):
    project = init(tmp_path, "--role=CU_SOL=copper:fraction", "--role=SEAM=domain", "--role=rock=unused")
    assert [(it.name, it.column, it.unit) for it in project.metals] == [("copper", "CU_SOL", "fraction")]
    assert (project.table.domain, project.table.rock_type) == ("SEAM", None)
    assert [it.domains for it in project.slopes.domains] == [("S0",), ("S1",), ("S2",)]
    assert "SEAM" in capsys.readouterr().err
    with pytest.raises(SystemExit):
        main(["init", "--role"])
    assert main(["init", str(tmp_path / "blocks.csv")]) == 1
    assert "already exists: name another file with --out, or replace it with --replace" in capsys.readouterr().err
    assert init(tmp_path, "--replace").metals[0].column == "CU_PCT"


@pytest.mark.parametrize(
    ("words", "why"),
    [
        (["rock=tonne"], "role of rock: found tonne, expected one of unused, x, y"),
        (["rock=copper:ounces"], "found copper:ounces, expected one of"),
        (["rock=tonnes:percent"], "found tonnes:percent, expected one of"),
        (["rock"], "--role rock: expected COLUMN=ROLE, such as AS=unused"),
        (["none=unused"], "role of none: found no such column, expected one of name, x, y"),
        (["rock=id", "rock=domain"], "rock has a role already: give it one"),
        (["SEAM=domain", "rock=domain"], "role of rock: domain is the role of SEAM too: give one of them another"),
        (["CU_SOL=xinc"], "role of CU_SOL: xinc needs the sizes along the other axes: set yinc and zinc too"),
        (["rock=tonnes"], 'row 2 column rock: "R" is not a number'),
        (["tonnes=unused"], "row 1: found no column for tonnes or density"),
    ],
)
def test_a_role_that_cannot_be_is_refused(tmp_path, capsys, words, why):
    table().to_csv(tmp_path / "blocks.csv", index=False)
    assert main(["init", str(tmp_path / "blocks.csv"), *(f"--role={it}" for it in words)]) == 1
    assert why in capsys.readouterr().err and not (tmp_path / "project.toml").exists()


def form_in(page):
    """The roles on a page, as a browser sends them."""
    chosen = re.findall(r'<select name="(role:[^"]+)".*?<option value="([^"]+)" selected>', page, re.DOTALL)
    return {"number": re.search(r'name="number" value="(\d+)"', page)[1], **dict(chosen)}


def test_the_page_shows_the_project_that_follows_and_writes_nothing(root, client, imported):
    page = client.get("/imported?number=1").text
    form = form_in(page)
    assert form["role:CU_PCT"] == "copper:percent" and form["role:SEAM"] == "unused" and len(form) == 11
    before = (root / "hill" / "project.toml").read_text()
    same = client.post("/import/preview", data=form, headers=OWN).json()
    assert same["text"] == before
    found = client.post("/import/preview", data=form | {"role:SEAM": "domain"}, headers=OWN).json()
    assert 'domain = "SEAM"' in found["text"] and found["text"].count("[[slopes.domains]]") == 3
    roles = {it["column"]: (it["role"], it["set"]) for it in found["columns"]}
    assert roles["SEAM"] == ("slope domain", "domain") and roles["CU_SOL"] == ("not used", "unused")
    # Another column of copper takes the place of the first.
    found = client.post("/import/preview", data=form | {"role:CU_SOL": "copper:percent"}, headers=OWN).json()
    roles = {it["column"]: it["set"] for it in found["columns"]}
    assert (roles["CU_SOL"], roles["CU_PCT"]) == ("copper:percent", "unused")
    assert (root / "hill" / "project.toml").read_text() == before and len(Jobs(root).all()) == 1


def test_a_role_that_is_wrong_is_refused_in_words(client, imported):
    form = form_in(client.get("/imported?number=1").text)
    for role, why in (
        ("tonnes", 'column SEAM: "S0" is not a number'),
        ("tonne", "role of SEAM: found tonne, expected"),
    ):
        answer = client.post("/import/preview", data=form | {"role:SEAM": role}, headers=OWN)
        assert answer.status_code == 400 and why in answer.text
    assert client.post("/import/preview", data=form).status_code == 403


def test_the_project_is_written_with_the_roles_as_by_command(root, client, imported, tmp_path):
    form = form_in(client.get("/imported?number=1").text)
    answer = client.post("/import/roles", data=form | {"role:SEAM": "domain"}, headers=OWN)
    assert answer.headers["location"] == "/job?number=2"
    job = ended(root, 2)
    assert job.status == DONE
    words = (
        "init",
        "hill/blocks.csv",
        "--out=hill/project.toml",
        "--role=SEAM=domain",
        "--replace",
        "--figures",
        "--json",
    )
    assert job.words == words
    (tmp_path / "own").mkdir()
    init(tmp_path / "own", "--role=SEAM=domain")
    assert (tmp_path / "own" / "project.toml").read_text() == (root / "hill" / "project.toml").read_text()
    # A further change keeps the first.
    form = form_in(client.get("/imported?number=2").text)
    assert form["role:SEAM"] == "domain"
    found = client.post("/import/preview", data=form | {"role:rock": "unused"}, headers=OWN).json()
    assert 'domain = "SEAM"' in found["text"] and "rock_type" not in found["text"]


def test_a_project_that_was_changed_is_not_written_again(root, client, imported):
    form = form_in(client.get("/imported?number=1").text)
    path = root / "hill" / "project.toml"
    path.write_text(path.read_text().replace("mining_cost = 2.5", "mining_cost = 3"))
    before = path.read_text()
    answer = client.post("/import/roles", data=form | {"role:SEAM": "domain"}, headers=OWN)
    assert answer.status_code == 422 and path.read_text() == before and len(Jobs(root).all()) == 1
    assert "hill/project.toml: has changed since the block model was imported" in html.unescape(answer.text)


def test_a_failed_import_leaves_no_folder_and_its_name_is_free(root, client):
    query = {"folder": "hill", "file": "blocks.csv"}
    assert client.put("/import/file", params=query, content="a,b\n1,2\n", headers=OWN).status_code == 201
    assert ended(root, 1).status == FAILED and not (root / "hill").exists()
    assert "The file is removed" in client.get("/job?number=1").text
    assert client.put("/import/file", params=query, content=table().to_csv(index=False), headers=OWN).status_code == 201
    assert ended(root, 2).status == DONE and (root / "hill" / "project.toml").is_file()


def test_a_failed_import_leaves_files_that_others_put_there(root, client):
    (root / "hill").mkdir()
    (root / "hill" / "notes.txt").write_text("mine")
    query = {"folder": "hill", "file": "blocks.csv"}
    assert client.put("/import/file", params=query, content="a,b\n1,2\n", headers=OWN).status_code == 201
    assert ended(root, 1).status == FAILED
    assert [it.name for it in (root / "hill").iterdir()] == ["notes.txt"]


def test_an_import_whose_runner_was_killed_leaves_no_folder(root):
    found = Jobs(root)
    (root / "hill").mkdir()
    (root / "hill" / "blocks.csv").write_text("x\n")
    for number in (1, 2):
        folder = found.of(number)
        folder.mkdir(parents=True)
        job = {"number": number, "words": ["check"], "project": "", "folder": "hill", "asked": now()}
        (folder / "job.json").write_text(json.dumps(job | ({"removes": "hill/blocks.csv"} if number == 1 else {})))
        (folder / "state.json").write_text(json.dumps({"runner": 0, "began": "0", "status": "running"}))
    assert found.read(1).status == LOST
    found.pump()
    assert not (root / "hill").exists()
    # The name is free, and a file that comes later is another one's.
    (root / "hill").mkdir()
    (root / "hill" / "blocks.csv").write_text("new\n")
    found.pump()
    assert (root / "hill" / "blocks.csv").read_text() == "new\n"


def test_the_rest_of_a_file_that_is_refused_is_read(root, client, monkeypatch):
    """A browser shows the answer only after it has sent the whole file."""
    sent = []

    def parts():
        for number in range(6):
            sent.append(number)
            yield b"x" * (1 << 20)

    def full(*given, **more):
        raise OSError(28, "No space left on device")

    monkeypatch.setattr(import_pages, "write_parts", full)
    answer = client.put("/import/file", params={"folder": "hill", "file": "b.csv"}, content=parts(), headers=OWN)
    assert answer.status_code == 400 and "hill/b.csv: cannot be written: No space left" in answer.text
    assert sent == list(range(6)) and not (root / "hill").exists()
