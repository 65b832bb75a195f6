"""What `pitplan serve` holds against: slow pages, odd files, large numbers, inputs elsewhere, and many passwords."""

import asyncio
import json
import os
import threading
import time

import pytest
from conftest import PROJECT, rows
from helpers.browser_application import OWN, PORT, entered

from pitplan import PlanError, load
from pitplan.core import input_places
from pitplan.web import jobs, pages, results_page, security
from pitplan.web.jobs import DONE, Jobs
from pitplan.web.security import Access
from pitplan.web.server import Sparing, opening
from pitplan.web.workspace import Workspace


@pytest.fixture
def root(tmp_path):
    folder = tmp_path / "mines"
    (folder / "hill").mkdir(parents=True)
    (folder / "hill/project.toml").write_text(PROJECT)
    rows(3, 3, 2).to_csv(folder / "hill/blocks.csv", index=False)
    return folder.resolve()


@pytest.fixture
def client(root):
    return entered(root, Access(PORT))


# ---- pages of tables


def test_a_page_of_two_thousand_rows_reads_each_field_once(monkeypatch, tmp_path):
    """Twenty columns of 2,000 rows: whether they are numbers is asked once a field."""
    path, count = tmp_path / "blocks.csv", 0
    path.write_text("\n".join([",".join(f"c{k}" for k in range(20)), *[",".join(["1.5"] * 20)] * 2_000]))
    known = results_page.is_number

    def counted(text):
        nonlocal count
        count += 1
        return known(text)

    monkeypatch.setattr(results_page, "is_number", counted)
    table = results_page.read_table(path)
    for _ in range(1_000):
        assert table.are_numbers == [True] * 20
    assert count == 40_000


def test_a_cut_row_is_shown(client, root):
    folder = root / "hill/plan/tables"
    folder.mkdir(parents=True)
    (folder / "shells.csv").write_text("a,b,c\n1,2,3\n4,5\n6,7,8,9\n")
    (root / "hill/plan/plan.json").write_text('{"project": "../project.toml"}')
    answer = client.get("/table", params={"name": "hill/plan/tables/shells.csv"})
    assert answer.status_code == 200 and ">8<" in answer.text and ">9<" not in answer.text


@pytest.mark.parametrize(
    ("text", "shown"),
    [
        ("1234567.5", "1,234,567.5"),
        ("1e9999999999", "1e9999999999"),
        ("1e30", "1e30"),
        ("1e-30", "1e-30"),
        ("-1e6", "-1,000,000"),
    ],
)
def test_a_number_with_a_large_exponent_is_shown_as_typed(text, shown):
    assert results_page.grouped(text) == shown


# ---- no request waits for another


def test_a_page_that_waits_for_a_file_holds_up_no_other(root, monkeypatch):
    """One page waits until another was answered."""
    access, answered = Access(PORT), threading.Event()
    with entered(root, access) as client:
        known = Workspace.projects

        def slow(self):
            assert answered.wait(20)
            return known(self)

        monkeypatch.setattr(Workspace, "projects", slow)
        found = []
        first = threading.Thread(target=lambda: found.append(client.get("/")))
        first.start()
        assert client.get("/jobs").status_code == 200
        answered.set()
        first.join(30)
        assert found[0].status_code == 200


def test_pages_of_one_job_share_what_was_read(root, monkeypatch):
    jobs_of_root = Jobs(root)
    found = pages.Pages(Workspace(root), jobs_of_root, "")
    folder = jobs_of_root.of(1)
    folder.mkdir(parents=True)
    words = {"number": 1, "words": ["shells"], "project": "", "folder": "", "asked": ""}
    (folder / jobs.JOB).write_text(json.dumps(words))
    monkeypatch.setattr(pages, "PACE", 60.0)
    count, known = 0, found.state_of

    def counted(job):
        nonlocal count
        count += 1
        return known(job)

    monkeypatch.setattr(found, "state_of", counted)
    assert len({found.latest(1) for _ in range(50)}) == 1 and count == 1


def test_fresh_news_of_a_job_go_to_all_its_pages_without_a_thread(root, monkeypatch):
    found = pages.Pages(Workspace(root), Jobs(root), "")
    found.latest_news[1] = pages.News("{}", True, time.monotonic())
    monkeypatch.setattr(pages, "PACE", 60.0)
    monkeypatch.setattr(found, "latest", lambda number: pytest.fail("was read again"))

    async def watched():
        return [[text async for text in found.news(1)] for _ in range(3)]

    assert asyncio.run(watched()) == [["data: {}\n\n"]] * 3


# ---- jobs


def written_job(root, number, **state):
    folder = root / jobs.FOLDER / str(number)
    folder.mkdir(parents=True)
    job = {"number": number, "words": ["shells", "x"], "project": "x", "folder": "", "asked": "2026-01-01T00:00:00"}
    (folder / jobs.JOB).write_text(json.dumps(job))
    state = {"status": DONE, "started": "2026-01-01T00:00:00", "ended": "2026-01-01T00:00:05", "code": 0} | state
    (folder / jobs.STATE).write_text(json.dumps(state))


def test_ended_jobs_are_read_once_and_old_ones_removed(root, monkeypatch):
    monkeypatch.setattr(jobs, "MOST_ENDED", 3)
    for number in range(1, 6):
        written_job(root, number)
    found, count, known = Jobs(root), 0, Jobs.read_files

    def counted(self, number):
        nonlocal count
        count += 1
        return known(self, number)

    monkeypatch.setattr(Jobs, "read_files", counted)
    for _ in range(10):
        assert len(found.all()) == 5
    assert count == 5 and found.usual_seconds(found.read(5)) == 5.0
    found.pump()
    assert [it.number for it in found.all()] == [5, 4, 3] and not found.of(1).exists()


def test_a_job_with_a_bent_time_is_listed(root, client):
    written_job(root, 1, ended="yesterday")
    assert Jobs(root).read(1).seconds is None and client.get("/jobs").status_code == 200


def test_the_folder_of_jobs_is_private(root):
    found = Jobs(root)
    found.ask(("check", "hill/project.toml"), "hill/project.toml", "")
    assert (root / ".pitplan-serve").stat().st_mode & 0o777 == 0o700
    (root / ".pitplan-serve").chmod(0o755)
    Jobs(root)
    assert (root / ".pitplan-serve").stat().st_mode & 0o777 == 0o700


@pytest.mark.skipif(os.getuid() != 0, reason="only root gives a folder to another user")
def test_jobs_that_another_user_planted_are_not_run(root):
    written_job(root, 1)
    os.chown(root / ".pitplan-serve", 1234, 1234)
    with pytest.raises(PlanError, match="belongs to another user, whose jobs would run as yours"):
        Jobs(root)
    os.chown(root / ".pitplan-serve", 0, 0)
    folder = root / jobs.FOLDER / "2"
    folder.mkdir()
    job = {"number": 2, "words": ["shells", "x"], "project": "x", "folder": "", "asked": "2026-01-01T00:00:00"}
    (folder / jobs.JOB).write_text(json.dumps(job))
    os.chown(folder / jobs.JOB, 1234, 1234)
    found = Jobs(root)
    found.pump()
    assert found.read(2).status == jobs.CANCELLED and not found.runners


# ---- odd files


def test_odd_files_are_entries_of_the_list(root, client):
    (root / os.fsdecode(b"\xff.toml")).write_text(PROJECT)
    (root / "deep.toml").write_text("a = " + "[" * 5_000 + "]" * 5_000)
    for name, record in (("nul", {"project": "a\0b"}), ("long", {"project": "x" * 5_000}), ("odd", {"notes": 3})):
        (root / name).mkdir()
        (root / name / "plan.json").write_text(json.dumps(record))
    (root / "nested").mkdir()
    (root / "nested/plan.json").write_text("[" * 100_000)
    outside = root.parent / "secret.toml"
    outside.write_text(PROJECT.replace("Test hill", "Secret title"))
    (root / "link.toml").symlink_to(outside)
    answer = client.get("/")
    assert answer.status_code == 200 and "Secret title" not in answer.text
    assert "its name is not UTF-8: rename it" in answer.text and "too deeply" in answer.text


def test_an_error_that_nobody_expects_is_a_page_and_one_line(root, client, capfd):
    (root / "odd").mkdir()
    (root / "odd/plan.json").write_text('{"notes": 3}')
    answer = client.get("/result", params={"name": "odd"})
    assert answer.status_code == 500 and "the server has noted why" in answer.text
    lines = [line for line in capfd.readouterr().err.splitlines() if "GET /result" in line]
    assert len(lines) == 1 and lines[0].startswith("pitplan serve: GET /result: TypeError: ")


@pytest.mark.parametrize("folder", ["\0", "x" * 300])
def test_an_output_folder_that_is_no_name_is_refused(client, folder):
    form = {"project": "hill/project.toml", "command": "shells", "folder": folder}
    answer = client.post("/run", data=form, headers=OWN)
    assert answer.status_code == 422 and "Output folder" in answer.text


# ---- inputs


@pytest.fixture
def confined(root, monkeypatch):
    monkeypatch.delenv(input_places.VARIABLE, raising=False)
    monkeypatch.setenv(input_places.VARIABLE, json.dumps([str(root)]))


def with_keys(root, *changes):
    text = PROJECT
    for old, new in changes:
        assert text.count(old) == 1, old
        text = text.replace(old, new)
    path = root / "hill/project.toml"
    path.write_text(text)
    return path


@pytest.mark.parametrize(
    "change",
    [
        ('file = "blocks.csv"', 'file = "/etc/passwd"'),
        ('file = "blocks.csv"', 'file = "../../other.csv"'),
        ('file = "blocks.csv"', 'file = "link.csv"'),
        ("[table]", 'periods = "/etc/passwd"\n[table]'),
        ('id = "name"', 'id = "name"\ntopography = "/etc/passwd"'),
        ("[shells]", '[scenarios]\nrealisations = "/etc"\n[shells]'),
    ],
)
def test_an_input_elsewhere_is_not_read(root, confined, client, change):
    (root.parent / "other.csv").write_text("secret")
    (root / "hill/link.csv").symlink_to(root.parent / "other.csv")
    path = with_keys(root, change)
    with pytest.raises(PlanError, match="lies outside of the folders that are served") as error:
        load(path)
    assert "root:" not in str(error.value) and "secret" not in str(error.value)
    answer = client.get("/project", params={"name": "hill/project.toml"})
    assert answer.status_code == 200 and "lies outside of the folders that are served" in answer.text
    assert client.get("/blocks/model", params={"name": "hill/project.toml"}).status_code == 400


def test_only_regular_files_are_inputs(root, confined):
    os.mkfifo(root / "hill/pipe.csv")
    with pytest.raises(PlanError, match=r"periods: pipe.csv: is no regular file"):
        load(with_keys(root, ("[table]", 'periods = "pipe.csv"\n[table]')))


def test_a_folder_of_inputs_is_allowed(root, monkeypatch):
    (root.parent / "other").mkdir()
    rows(3, 3, 2).to_csv(root.parent / "other/blocks.csv", index=False)
    monkeypatch.setenv(input_places.VARIABLE, "[]")
    input_places.confine([root, root.parent / "other"])
    path = with_keys(root, ('file = "blocks.csv"', 'file = "../../other/blocks.csv"'))
    assert load(path).table.file.resolve() == root.parent / "other/blocks.csv"


def test_a_table_of_periods_has_a_limit(root, monkeypatch):
    monkeypatch.setattr("pitplan.config.periods.MOST_LETTERS", 100)
    (root / "hill/periods.csv").write_text("years\n" + "1\n" * 100)
    with pytest.raises(PlanError, match="has more than 100 letters"):
        load(with_keys(root, ("[table]", 'periods = "periods.csv"\n[table]')))


# ---- slow forms, the log, the token


def test_a_form_that_is_not_sent_is_refused_after_a_while(root, monkeypatch):
    monkeypatch.setattr(pages, "PATIENCE", 0.05)

    async def stuck():
        class Request:
            async def stream(self):
                yield b"a="
                await asyncio.sleep(5)

        return await pages.read_form(Request())

    with pytest.raises(PlanError, match="The form was not sent within 0 seconds"):
        asyncio.run(stuck())


@pytest.mark.parametrize(("more", "taken"), [(True, 16), (False, 1)])
def test_of_a_refused_form_a_megabyte_is_taken(more, taken):
    asked = []

    async def receive():
        asked.append(1)
        return {"type": "http.request", "body": b"x" * (64 << 10), "more_body": more}

    asyncio.run(security.drain(receive))
    assert len(asked) == taken


def test_a_refused_form_that_is_not_sent_holds_up_nobody(monkeypatch):
    monkeypatch.setattr(security, "DRAINING", 0.05)
    asyncio.run(asyncio.wait_for(security.drain(lambda: asyncio.sleep(60)), 20))


def test_the_same_words_are_logged_once_a_minute():
    import logging

    found = Sparing()

    def record(words):
        made = logging.LogRecord("asyncio", logging.ERROR, "", 1, words, (), (ValueError, ValueError("x"), None))
        return found.filter(made), made.exc_info

    assert record("socket.accept() out of system resource") == (True, None)
    assert [record("socket.accept() out of system resource")[0] for _ in range(100)] == [False] * 100
    assert record("another")[0]


def test_the_browser_is_opened_by_a_page_that_only_the_user_reads():
    with opening("http://127.0.0.1:8123/enter?token=abc&x") as page:
        assert page.stat().st_mode & 0o777 == 0o600 and page.parent.stat().st_mode & 0o777 == 0o700
        assert "url=http://127.0.0.1:8123/enter?token=abc&amp;x" in page.read_text()
    assert not page.exists()
