"""The browser application without a browser: who may use it, what it shows, and the jobs that it runs."""

import asyncio
import json
import os
import re
import signal
import socket
import subprocess
import sys
import time
from pathlib import Path

import httpx
import pytest
from helpers.browser_application import OWN, PORT, client_of, ended, entered
from helpers.pushbacks import UPRIGHT, pillars
from helpers.writings import PLAIN, REPORTED, UNVERIFIED

import pitplan
from pitplan import PlanError
from pitplan.core import paths
from pitplan.web import import_pages, jobs as jobs_of, run_form
from pitplan.web.jobs import CANCELLED, DONE, FAILED, LOST, RUNNING, WAITING, Jobs, JobStep, steps_of
from pitplan.web.run_form import WrongForm
from pitplan.web.security import Access
from pitplan.web.server import listening
from pitplan.web.workspace import NotThere, Workspace

POPEN = subprocess.Popen


@pytest.fixture
def root(tmp_path):
    """A folder with a project, and next to it a secret."""
    folder = tmp_path.resolve() / "mines"
    (folder / "hill").mkdir(parents=True)
    pillars().to_csv(folder / "hill" / "blocks.csv", index=False)
    text = re.sub(r'^title = ".*"$', 'title = "Three </script> pillars"', UPRIGHT, flags=re.MULTILINE)
    assert text != UPRIGHT
    (folder / "hill" / "project.toml").write_text(text)
    (tmp_path / "secret.csv").write_text("a,b\n1,2\n")
    return folder


@pytest.fixture
def access():
    return Access(PORT)


@pytest.fixture
def client(root, access):
    """A browser that has entered."""
    return entered(root, access)


def run(client, **form):
    """Runs a command by its form; gives the number of the job."""
    answer = client.post("/run", data={"project": "hill/project.toml", **form}, headers=OWN)
    assert answer.status_code == 303, answer.text
    return int(answer.headers["location"].rpartition("=")[2])


# ---- who may use it


def test_the_token_becomes_a_cookie_that_no_script_and_no_other_site_gets(root, access):
    client = client_of(root, access)
    answer = client.get(f"/enter?token={access.token}")
    cookie = answer.headers["set-cookie"].lower()
    assert 'content="0; url=/"' in answer.text and "httponly" in cookie and "samesite=strict" in cookie
    assert client.get("/").status_code == 200


def test_the_token_is_for_one_use(root, access, capfd):
    """A browser that has entered may use its address again; another one needs the address that was printed then."""
    used = access.token
    client, other = client_of(root, access), client_of(root, access)
    client.get(f"/enter?token={used}")
    assert f"another browser enters by {access.address}" in capfd.readouterr().err and access.token != used
    assert client.get(f"/enter?token={used}").headers["location"] == "/"
    answer = other.get(f"/enter?token={used}")
    assert answer.status_code == 403 and "has been used" in answer.text and "set-cookie" not in answer.headers
    assert other.get(f"/enter?token={access.token}").status_code == 200 and other.get("/").status_code == 200


@pytest.mark.parametrize(
    "path", ["/", "/jobs", "/project?name=hill/project.toml", "/static/app.js", "/file?name=x", "/job/events?number=1"]
)
def test_a_browser_without_the_cookie_sees_nothing(root, access, path):
    assert client_of(root, access).get(path).status_code == 403


@pytest.mark.parametrize("token", ["", "x", "é"])
def test_another_token_opens_nothing(root, access, token):
    answer = client_of(root, access).get("/enter", params={"token": token})
    assert answer.status_code == 403 and "set-cookie" not in answer.headers


def test_tokens_differ():
    assert Access(1).token != Access(1).token and len(Access(1).token) > 40


@pytest.mark.parametrize(
    "host", ["evil.example", f"evil.example:{PORT}", "127.0.0.1", f"127.0.0.1:{PORT + 1}", f"[::1]:{PORT}", ""]
)
def test_a_foreign_host_is_refused(client, host):
    """A name that an attacker's server points to this machine reaches it as such a host."""
    assert client.get("/", headers={"host": host}).status_code == 421


@pytest.mark.parametrize(
    "headers",
    [
        {},
        {"origin": "null"},
        {"origin": "http://evil.example"},
        {"origin": f"https://127.0.0.1:{PORT}"},
        {"origin": f"http://localhost:{PORT}"},
    ]
    + [{"origin": f"http://127.0.0.1:{PORT + 1}"}, {"sec-fetch-site": "cross-site"}, {"sec-fetch-site": "same-site"}],
)
def test_a_form_of_another_site_runs_nothing(root, client, headers):
    answer = client.post("/run", data={"project": "hill/project.toml", "command": "check"}, headers=headers)
    assert answer.status_code == 403 and Jobs(root).all() == []


def test_an_old_browser_says_the_site_without_the_origin(root, client):
    form = {"project": "hill/project.toml", "command": "check"}
    assert client.post("/run", data=form, headers={"sec-fetch-site": "same-origin"}).status_code == 303
    ended(root, 1)


def test_no_page_may_be_framed_or_has_scripts_of_its_own(client):
    answer = client.get("/project?name=hill/project.toml")
    policy = answer.headers["content-security-policy"]
    assert "script-src 'self'" in policy and "unsafe" not in policy and "frame-ancestors 'none'" in policy
    assert answer.headers["x-content-type-options"] == "nosniff" and answer.headers["cache-control"] == "no-store"
    assert "Three &lt;/script&gt; pillars" in answer.text and "Three </script>" not in answer.text


OUTSIDE = [
    "../secret.csv",
    "hill/../../secret.csv",
    "%2e%2e/secret.csv",
    "/etc/passwd",
    "hill/link.csv",
    "hill/loop",
    "hill/\0",
    "none.csv",
]


@pytest.mark.parametrize("name", OUTSIDE)
@pytest.mark.parametrize("page", ["file", "table", "result", "project"])
def test_no_path_leads_out_of_the_folder(root, client, page, name):
    (root / "hill" / "link.csv").symlink_to(root.parent / "secret.csv")
    (root / "hill" / "loop").symlink_to(root / "hill" / "loop")
    answer = client.get(f"/{page}", params={"name": name})
    assert answer.status_code == 404 and "a,b" not in answer.text
    assert client.get(f"/{page}?name={name}".replace("\0", "%00")).status_code == 404


def test_hidden_files_and_those_of_no_results_are_not_given(root, client):
    (root / ".env.csv").write_text("a,b\n")
    (root / "hill" / "own.txt").write_text("private")
    for name in (".env.csv", "hill/own.txt", "hill/project.toml", ".pitplan-serve/jobs"):
        assert client.get("/file", params={"name": name}).status_code == 404


# ---- projects and results


def test_the_first_page_lists_projects_and_results(root, client):
    (root / "broken.toml").write_text("[table\n")
    (root / "other.toml").write_text("[tool]\nname = 1\n")
    pitplan.write_shells(root / "hill" / "project.toml", writing=PLAIN)
    text = client.get("/").text
    assert "hill/project.toml" in text and "cannot be read" in text and "other.toml" not in text
    assert [it.kind for it in Workspace(root).results()] == ["Shells"] and "/result?name=hill/plan" in text
    assert "project-as-run.toml" not in text


def test_a_folder_without_projects_says_how_to_make_one(tmp_path, access):
    client = client_of(tmp_path, access)
    client.get(f"/enter?token={access.token}")
    assert "pitplan init blocks.csv" in client.get("/").text


def test_results_have_their_tables_with_units_and_pages_in_a_sandbox(root, client):
    pitplan.write_shells(root / "hill" / "project.toml", writing=REPORTED)
    text = client.get("/result?name=hill/plan").text
    assert "/table?name=hill/plan/tables/shells.csv" in text and "rules of the independent verification hold" in text
    table = client.get("/table?name=hill/plan/tables/shells.csv").text
    assert "npv_best (USD)" in table and '<td class="number">600.0</td>' in table
    report = client.get("/file?name=hill/plan/report.html")
    assert report.headers["content-security-policy"].startswith("sandbox allow-scripts; default-src 'none'")
    assert "attachment" in client.get("/file?name=hill/plan/tables/shells.csv").headers["content-disposition"]


def test_results_that_were_not_verified_say_so(root, client):
    pitplan.write_shells(root / "hill" / "project.toml", writing=UNVERIFIED)
    assert "Not verified." in client.get("/result?name=hill/plan").text


# ---- forms


@pytest.mark.parametrize(
    ("form", "words"),
    [
        ({"command": "check"}, ("check", "hill/project.toml")),
        ({"command": "shells", "figures": "on", "verify": "on"}, ("shells", "hill/project.toml", "--out=hill/plan")),
        (
            {
                "command": "shells",
                "folder": "high price",
                "set": "metals.copper.price = 9000\n\nshells.discount_rate=0.1\n",
            },
            (
                "shells",
                "hill/project.toml",
                "--out=high price",
                "--set=metals.copper.price=9000",
                "--set=shells.discount_rate=0.1",
            )
            + ("--no-figures", "--no-verify"),
        ),
        (
            {"command": "schedule", "by_block": "on", "certificate": "on", "figures": "on", "verify": "on"},
            ("schedule", "hill/project.toml", "--out=hill/plan/block_schedule", "--by=block", "--certificate"),
        ),
    ],
)
def test_a_form_becomes_the_words_of_a_command(root, form, words):
    assert run_form.read({"project": "hill/project.toml", **form}, Workspace(root)).words == words


def test_a_command_is_shown_and_not_started(root, client):
    form = {"project": "hill/project.toml", "command": "shells", "show": "on"}
    text = client.post("/run", data=form, headers=OWN).text
    assert "pitplan shells hill/project.toml --out=hill/plan --no-figures --no-verify" in text
    assert "not started" in text and Jobs(root).all() == []


@pytest.mark.parametrize(
    ("form", "why"),
    [
        ({"command": "rm"}, "Command: found 'rm', expected one of check"),
        ({"command": "shells", "folder": "../out"}, "Output folder: ../out: expected a folder below"),
        ({"command": "shells", "folder": "/elsewhere"}, "Output folder: /elsewhere: expected a folder below"),
        ({"command": "shells", "folder": "."}, "expected a folder below"),
        ({"command": "shells", "folder": ".hidden"}, "does not begin with a dot"),
        ({"command": "shells", "folder": "hill/project.toml"}, "is a file"),
        ({"command": "shells", "set": "price 9000"}, "Changed keys, line 1: found 'price 9000', expected KEY = VALUE"),
    ],
)
def test_a_wrong_form_is_refused_with_the_field(root, client, form, why):
    answer = client.post("/run", data={"project": "hill/project.toml", **form}, headers=OWN)
    assert answer.status_code == 422 and why in answer.text.replace("&#39;", "'") and Jobs(root).all() == []


def test_a_project_named_as_an_option_is_none(root):
    (root / "--set=x.toml").write_text((root / "hill/project.toml").read_text())
    found = run_form.read({"project": "--set=x.toml", "command": "check"}, Workspace(root))
    assert found.words == ("check", "./--set=x.toml")


def test_a_form_that_is_too_long_or_no_form_is_refused(client):
    assert client.post("/run", content=b"a=" + b"x" * 70_000, headers=OWN).status_code == 422
    assert client.post("/run", content=b"\xff\xfe", headers=OWN).status_code == 422
    with pytest.raises(WrongForm):
        run_form.settings("x")


# ---- jobs


def test_steps_of_a_log():
    log = "reading blocks.csv .. 1.7 s\nnote\nsolving .. 3 of 9: x .. 0.1 s\ndrawing .."
    assert steps_of(log)[0] == JobStep("reading blocks.csv", 1.7) and steps_of(log)[-1] == JobStep("drawing", None)
    assert [it.what for it in steps_of(log)] == ["reading blocks.csv", "solving", "drawing"]


def test_a_command_runs_and_its_page_has_what_it_said(root, client):
    number = run(client, command="shells", figures="", verify="on")
    job = ended(root, number)
    assert (job.status, job.code, job.folder) == (DONE, 0, "hill/plan") and job.seconds > 0
    text = client.get(f"/job?number={number}").text
    assert "pitplan shells hill/project.toml --out=hill/plan --no-figures" in text and "verifying" in text
    assert "/result?name=hill/plan" in text and (root / "hill/plan/plan.json").is_file()
    assert Jobs(root).usual_seconds(job) is None
    again = ended(root, run(client, command="shells", verify="on"))
    assert Jobs(root).usual_seconds(again) == job.seconds


def test_a_refusal_is_shown_with_its_words(root, client):
    number = run(client, command="shells", set="economics.minning_cost = 3")
    job = ended(root, number)
    assert (job.status, job.code) == (FAILED, 1)
    assert "did you mean mining_cost?" in client.get(f"/job?number={number}").text


def sleeping(root, monkeypatch, code="import time; time.sleep(60)"):
    """Runs some Python in place of pitplan; gives the jobs."""
    found = Jobs(root)
    module = root / "stub" / "pitplan"
    module.mkdir(parents=True, exist_ok=True)
    (module / "__init__.py").write_text("")
    (module / "__main__.py").write_text(code)
    text = (
        Path(jobs_of.__file__)
        .with_name("job_runner.py")
        .read_text()
        .replace('"-P", "-m", "pitplan"', f'{str(module / "__main__.py")!r}')
    )
    (root / "stub" / "runner.py").write_text(text.replace("from .jobs", "from pitplan.web.jobs"))
    monkeypatch.setattr(
        jobs_of.subprocess,
        "Popen",
        lambda words, **options: POPEN([sys.executable, "-P", str(root / "stub" / "runner.py"), *words[4:]], **options),
    )
    return found


def until(found, number, status, seconds=20):
    end = time.monotonic() + seconds
    while found.read(number).status != status:
        found.pump()
        assert time.monotonic() < end, found.read(number)
        time.sleep(0.02)


def test_jobs_run_one_after_the_other_and_are_cancelled(root, monkeypatch):
    found = sleeping(root, monkeypatch)
    first, second, third = (found.ask(("check", str(n)), "hill/project.toml", "").number for n in range(3))
    until(found, first, RUNNING)
    assert [found.read(it).status for it in (second, third)] == [WAITING, WAITING]
    found.cancel(second)
    assert found.read(second).status == CANCELLED
    found.cancel(first)
    until(found, first, CANCELLED)
    found.pump()
    until(found, third, RUNNING)
    found.cancel(third)
    until(found, third, CANCELLED)
    found.cancel(third)
    assert found.log(second) == ""
    assert found.read(third).code != 0


def test_a_job_goes_on_without_its_server_and_another_one_finds_it(root, monkeypatch):
    found = sleeping(root, monkeypatch, "import time; time.sleep(1.5); print('the end')")
    number = found.ask(("check",), "hill/project.toml", "").number
    until(found, number, RUNNING)
    other = Jobs(root)
    assert other.read(number).status == RUNNING
    other.pump()
    until(other, number, DONE)
    assert other.answer(number) == "the end\n"


def test_two_servers_run_a_job_once(root, monkeypatch):
    found = sleeping(root, monkeypatch, "import os, time; open('runs', 'a').write('x'); time.sleep(0.5)")
    number = found.ask(("check",), "hill/project.toml", "").number
    other = Jobs(root)
    other.start(other.read(number))
    assert ended(root, number).status == DONE
    for runner in (*found.runners, *other.runners):
        assert runner.wait(20) == 0
    assert (root / "runs").read_text() == "x"


def test_a_killed_runner_is_lost_and_the_next_job_runs(root, monkeypatch):
    found = sleeping(root, monkeypatch)
    number = found.ask(("check",), "hill/project.toml", "").number
    until(found, number, RUNNING)
    state = found.state(number)
    os.kill(state["runner"], signal.SIGKILL)
    until(found, number, LOST)
    assert jobs_of.is_alive(state) is False and jobs_of.is_alive(state | {"runner": os.getpid()}) is False
    found.cancel(number)
    for line in subprocess.run(
        ["pgrep", "-f", str(root / "stub" / "pitplan")], capture_output=True, text=True
    ).stdout.split():
        os.kill(int(line), signal.SIGKILL)
    again = sleeping(root, monkeypatch, "print(1)").ask(("check",), "hill/project.toml", "")
    assert ended(root, again.number).status == DONE


@pytest.mark.parametrize("number", ["", "x", "-1", "1e3", "99999999999", "7"])
def test_a_job_that_there_is_not(client, number):
    assert client.get(f"/job?number={number}").status_code == 404


def test_cut_files_of_jobs_and_results_stop_no_page(root, client):
    number = run(client, command="check")
    ended(root, number)
    folder = Jobs(root).of(number)
    (folder / "state.json").write_text('{"status": "run')
    assert Jobs(root).read(number).status == WAITING
    (folder / "job.json").write_text("{")
    (root / "cut").mkdir()
    (root / "cut" / "plan.json").write_text("[1")
    assert client.get("/").status_code == client.get("/jobs").status_code == 200
    assert client.get("/result?name=cut").status_code == 404


def test_events_tell_of_a_job_until_its_end(root, client):
    number = run(client, command="check")
    ended(root, number)
    lines = client.get(f"/job/events?number={number}").text.split("\n\n")
    states = [json.loads(it.removeprefix("data: ")) for it in lines if it]
    assert states[-1]["status"] == DONE and states[-1]["seconds"] > 0


# ---- the server


@pytest.fixture
def served(root):
    """A server in a process of its own; gives the process, its address and its token."""
    words = [sys.executable, "-P", "-m", "pitplan", "serve", str(root), "--no-browser"]
    process = subprocess.Popen(
        words, stderr=subprocess.PIPE, text=True, env={**os.environ, "PYTHONPATH": str(paths.PACKAGES)}
    )
    first, address = process.stderr.readline(), process.stderr.readline().strip()
    assert first == f"pitplan serves {root}\n"
    yield process, address.partition("/enter")[0], address.partition("token=")[2]
    process.kill()
    process.communicate()


def cookie_of(address, token):
    """The cookie of a browser that enters by the token."""
    until_true(lambda: socket.create_connection(tuple(address.removeprefix("http://").split(":"))).close() is None)
    return httpx.get(f"{address}/enter", params={"token": token}).headers["set-cookie"].partition(";")[0]


def test_two_hundred_requests_at_a_time_while_a_job_runs(root, served):
    process, address, token = served

    async def ask_all():
        async with httpx.AsyncClient(base_url=address, timeout=60) as client:
            for _ in range(100):
                try:
                    await client.get("/enter", params={"token": token})
                    break
                except httpx.ConnectError:
                    await asyncio.sleep(0.1)
            form = {"project": "hill/project.toml", "command": "shells", "verify": "on"}
            started = await client.post("/run", data=form, headers={"origin": address})
            pages = ["/", "/jobs", "/job?number=1", "/project?name=hill/project.toml"]
            found = await asyncio.gather(*(client.get(pages[number % 4]) for number in range(200)))
            return started.status_code, {answer.status_code for answer in found}

    assert asyncio.run(ask_all()) == (303, {200})
    assert ended(root, 1).status == DONE
    process.send_signal(signal.SIGINT)
    assert process.wait(20) in (0, 130)


def test_a_client_that_first_sends_all_of_a_refused_file_reads_why(root, served):
    """As a proxy does, over a connection of its own. The folder of unfinished files cannot be made; a server that answers and closes would reset the
    connection in the middle of the file."""
    _, address, token = served
    host, size = address.removeprefix("http://"), 40_000_000
    heads = [f"Host: {host}", f"Origin: {address}", f"Cookie: {cookie_of(address, token)}"]
    heads += [f"Content-Length: {size}", "Connection: close", "", ""]
    unfinished = root / import_pages.UNFINISHED
    unfinished.parent.mkdir(exist_ok=True)
    unfinished.write_text("")
    with socket.create_connection(tuple(host.split(":")), timeout=20) as client:
        client.sendall("\r\n".join(["PUT /import/file?folder=new&file=b.csv HTTP/1.1", *heads]).encode())
        for _ in range(size // 1_000_000):
            client.sendall(b"1,2,3\n" * 166_666 + b"\n\n\n\n")
        answer = ""
        while not answer.endswith("permissions"):
            assert (part := client.recv(10_000)), answer
            answer += part.decode()
    assert answer.startswith("HTTP/1.1 400 ") and "new/b.csv: cannot be written: File exists: free space" in answer
    assert not (root / "new").exists()


def test_a_block_model_that_is_cut_off_leaves_nothing(root, served):
    """The browser goes away in the middle of a file."""
    _, address, token = served
    host = address.removeprefix("http://")
    heads = [f"Host: {host}", f"Origin: {address}", f"Cookie: {cookie_of(address, token)}"]
    request = ["PUT /import/file?folder=new&file=b.csv HTTP/1.1", *heads, "Content-Length: 9000000", "", ""]
    waiting = root / import_pages.UNFINISHED
    with socket.create_connection(tuple(host.split(":")), timeout=20) as browser:
        browser.sendall("\r\n".join(request).encode() + b"x" * 3_000_000)
        until_true(lambda: any(it.stat().st_size for it in waiting.glob("*/part")))
        assert not (root / "new").exists()
    until_true(lambda: not list(waiting.iterdir()))
    assert not (root / "new").exists() and Jobs(root).all() == []


def until_true(condition, seconds=20):
    end = time.monotonic() + seconds
    while not condition():
        assert time.monotonic() < end
        time.sleep(0.02)


def test_a_port_that_is_taken_is_refused_with_a_remedy():
    with listening(0) as bound:
        port = bound.getsockname()[1]
        assert bound.getsockname()[0] == "127.0.0.1"
        with pytest.raises(PlanError, match=f"--port {port}: cannot listen there .*: give another port, or 0"):
            listening(port)


def test_a_connection_waits_for_the_server_after_the_address_is_printed():
    with listening(0) as bound, socket.create_connection(bound.getsockname(), timeout=5) as found:
        assert found.getpeername() == bound.getsockname()


def test_a_folder_that_there_is_not(capsys, tmp_path):
    from pitplan.cli import main

    assert main(["serve", str(tmp_path / "none"), "--no-browser"]) == 1
    assert "is no folder: give one with projects" in capsys.readouterr().err
    with pytest.raises(SystemExit):
        main(["serve", "--port", "70000"])
    assert "expected a whole number from 0 to 65535" in capsys.readouterr().err


def test_places_outside_are_not_there(root):
    with pytest.raises(NotThere):
        Workspace(root).place("../secret.csv")
    assert Workspace(root).name(Workspace(root).place("hill")) == "hill"
