"""The browser application behind a reverse proxy: the names that it answers to, its Unix socket, and the nginx of docs/planning/browser.md."""

import json
import os
import re
import shutil
import signal
import socket
import subprocess
import sys
import threading
import time

import httpx
import pytest
from conftest import PROJECT, rows
from helpers.documentation import ROOT
from starlette.testclient import TestClient

from pitplan import PlanError
from pitplan.cli import main
from pitplan.core import paths
from pitplan.web import jobs
from pitplan.web.security import Access
from pitplan.web.server import listening_at, make_app

HOST = "mine-server"
OWN = {"origin": f"https://{HOST}"}
needs_nginx = pytest.mark.skipif(
    shutil.which("nginx") is None or shutil.which("openssl") is None,
    reason="needs the Debian packages nginx-light, openssl",
)


@pytest.fixture
def client(tmp_path):
    found = TestClient(make_app(tmp_path, Access(0, host=HOST)), base_url=f"https://{HOST}")
    found.follow_redirects = False
    return found


# ---- names and origins


def test_the_proxy_decides_who_enters(client):
    answer = client.get("/")
    assert answer.status_code == 200 and "set-cookie" not in answer.headers
    assert client.get("/enter").status_code == 404


@pytest.mark.parametrize("origin", ["http://mine-server", "https://evil.example", "https://mine-server:8443", "null"])
def test_another_site_changes_nothing(client, origin):
    assert client.post("/run", data={"command": "check"}, headers={"origin": origin}).status_code == 403
    assert client.post("/run", data={"command": "check"}).status_code == 403
    assert client.post("/run", data={"command": "check"}, headers=OWN).status_code != 403


@pytest.mark.parametrize("host", ["evil.example", "127.0.0.1", "mine-server:8443", "mine-server.evil.example"])
def test_a_foreign_host_is_refused(client, host):
    answer = client.get("/", headers={"host": host})
    assert answer.status_code == 421 and "answers only to mine-server" in answer.text


def test_a_host_may_have_a_port_and_capitals(tmp_path):
    access = Access(0, host="Mine.Local:8443")
    assert access.hosts == {"mine.local:8443"} and access.address == "https://Mine.Local:8443/"


# ---- the socket


def test_the_socket_is_for_its_user_and_group_alone(tmp_path):
    path = tmp_path / "mines.socket"
    with listening_at(path):
        assert path.stat().st_mode & 0o777 == 0o660
        with pytest.raises(
            PlanError, match=r"--socket .*/mines.socket: cannot listen there \(Address already in use\)"
        ):
            listening_at(path)
    # That of a server that was killed is replaced.
    assert path.exists()
    listening_at(path).close()


@pytest.mark.parametrize(
    ("name", "why"),
    [("file", "Address already in use"), ("none/s", "No such file or directory"), ("x" * 120, "AF_UNIX path too long")],
)
def test_a_place_without_a_socket_is_refused(tmp_path, name, why):
    (tmp_path / "file").write_text("kept")
    with pytest.raises(PlanError, match=rf"cannot listen there \({why}\): give another file, in a folder that you may"):
        listening_at(tmp_path / name)
    assert (tmp_path / "file").read_text() == "kept"


@pytest.mark.parametrize(
    ("words", "why"),
    [
        (["--host", "mine"], "--host: requires --socket too: a reverse proxy has this name"),
        (["--socket", "s"], "--socket: requires --host too"),
        (["--host", "mine", "--socket", "s", "--port", "8"], "--port 8: the server listens at --socket s: give one"),
    ],
)
def test_options_that_do_not_go_together_are_named(tmp_path, capsys, words, why):
    assert main(["serve", str(tmp_path), *words]) == 1
    assert why in capsys.readouterr().err


# ---- the recipe


@pytest.fixture(scope="module")
def recipe(tmp_path_factory):
    """nginx with the configuration of the page, over a server of a folder with a project. Yields its address and certificate."""
    top = tmp_path_factory.mktemp("proxy")
    mines = top / "mines"
    mines.mkdir()
    (mines / "project.toml").write_text(PROJECT)
    rows(3, 3, 2).to_csv(mines / "blocks.csv", index=False)
    certify(top)
    with socket.socket() as free:
        free.bind(("127.0.0.1", 0))
        port = free.getsockname()[1]
    text = re.search(r"```nginx\n(.*?)```", (ROOT / "docs/planning/browser.md").read_text(), re.DOTALL)[1]
    for old, new in {
        "listen 443 ssl": f"listen 127.0.0.1:{port} ssl",
        "server_name mine-server": "server_name localhost",
        "/etc/ssl/certs/mine-server.pem": f"{top}/cert.pem",
        "/etc/ssl/private/mine-server.key": f"{top}/key.pem",
        "/etc/nginx/pitplan.users": f"{top}/users",
        "/srv/pitplan/mines.socket": f"{top}/mines.socket",
    }.items():
        assert old in text
        text = text.replace(old, new)
    places = "".join(f"{it}_temp_path {top}/{it};" for it in ("client_body", "proxy", "fastcgi", "uwsgi", "scgi"))
    (top / "nginx.conf").write_text(
        f"daemon off; pid {top}/pid; events {{}}\nhttp {{ access_log off; {places}\n{text} }}\n"
    )
    for log in (top / "log", top / "served"):
        log.touch()
    environment = {**os.environ, "PYTHONPATH": str(paths.PACKAGES)}
    words = ["serve", "mines", "--host", f"localhost:{port}", "--socket", "mines.socket"]
    # As root nginx's workers have another user.
    top.chmod(0o755)
    with open(top / "served", "w") as said:
        server = subprocess.Popen(
            [sys.executable, "-P", "-m", "pitplan", *words], cwd=top, stderr=said, env=environment
        )
    user = ["-g", "user root;"] if os.getuid() == 0 else []
    proxy = subprocess.Popen(["nginx", "-e", str(top / "log"), "-c", str(top / "nginx.conf"), *user])
    base = f"https://localhost:{port}"
    try:
        until = time.monotonic() + 30
        while base not in (top / "served").read_text() or not (top / "pid").exists():
            assert time.monotonic() < until, (top / "log").read_text() + (top / "served").read_text()
            time.sleep(0.05)
        yield base, top
    finally:
        proxy.terminate()
        server.send_signal(signal.SIGINT)
        assert server.wait(30) in (0, 130) and proxy.wait(30) == 0
    assert not (top / "mines.socket").exists()


def certify(top):
    """Writes a certificate for localhost, its key, and the password of ana."""
    words = ["openssl", "req", "-x509", "-newkey", "ec", "-pkeyopt", "ec_paramgen_curve:prime256v1", "-nodes"]
    words += ["-keyout", "key.pem", "-out", "cert.pem", "-days", "2", "-subj", "/CN=localhost"]
    words += ["-addext", "subjectAltName=DNS:localhost"]
    subprocess.run(words, cwd=top, check=True, capture_output=True, timeout=60)
    crypt = ["openssl", "passwd", "-6", "correct horse battery"]
    hashed = subprocess.run(crypt, check=True, capture_output=True, text=True, timeout=60).stdout
    (top / "users").write_text(f"ana:{hashed}")


def browser_of(recipe, password="correct horse battery"):
    base, top = recipe
    return httpx.Client(base_url=base, verify=str(top / "cert.pem"), timeout=30, auth=("ana", password))


@needs_nginx
def test_a_team_enters_through_nginx(recipe):
    base, top = recipe
    with browser_of(recipe) as browser:
        answer = browser.get("/")
        assert answer.status_code == 200 and "Test hill" in answer.text
        assert answer.headers["strict-transport-security"] == "max-age=31536000"
        assert "frame-ancestors 'none'" in answer.headers["content-security-policy"]
        page = browser.get("/project", params={"name": "project.toml"}).text
        seen = re.search(r'name="seen" value="([^"]*)"', page)[1]
        form = {"project": "project.toml", "seen": seen, "text": PROJECT.replace("Test hill", "Best hill")}
        assert browser.post("/project/save", data=form, headers={"origin": "https://evil.example"}).status_code == 403
        assert "Test hill" in (top / "mines/project.toml").read_text()
        saved = browser.post("/project/save", data=form, headers={"origin": base})
        assert saved.status_code == 303 and saved.headers["location"].startswith("/project?name=project.toml")
        assert "Best hill" in (top / "mines/project.toml").read_text()
    with pytest.raises(httpx.HTTPError):
        httpx.get(base.replace("https", "http"), timeout=10).raise_for_status()


@needs_nginx
def test_nginx_refuses_a_wrong_password_and_pitplan_another_name(recipe):
    with browser_of(recipe, "wrong") as browser:
        assert browser.get("/").status_code == 401
    with browser_of(recipe) as browser:
        assert browser.get("/", headers={"host": "evil.example"}).status_code == 421


@needs_nginx
def test_a_file_larger_than_the_default_of_nginx_is_taken(recipe):
    base, top = recipe
    table = "x,y,z,cu\n" + "".join(
        f"{x},{y},{z},0.5\n" for z in range(10, 60, 10) for y in range(100) for x in range(400)
    )
    assert len(table) > 2 << 20
    with browser_of(recipe) as browser:
        url = "/import/file?folder=pit&file=blocks.csv"
        answer = browser.put(url, content=table.encode(), headers={"origin": base})
        assert answer.status_code == 201, answer.text
        assert (top / "mines/pit/blocks.csv").read_text() == table


@needs_nginx
def test_news_of_a_job_come_while_it_runs(recipe):
    """nginx does not wait for more of an answer that has no end. The job runs as long as this process."""
    folder = recipe[1] / "mines" / jobs.FOLDER / "5000"
    folder.mkdir(parents=True)
    job = {"number": 5000, "words": ["check", "x"], "project": "x", "folder": "", "asked": "2026-01-01T00:00:00"}
    (folder / jobs.JOB).write_text(json.dumps(job))
    state = {"status": jobs.RUNNING, "runner": os.getpid(), "began": jobs.begun_at(os.getpid())}
    (folder / jobs.STATE).write_text(json.dumps(state))
    with browser_of(recipe) as browser, browser.stream("GET", "/job/events?number=5000") as events:
        assert json.loads(next(events.iter_lines()).removeprefix("data: "))["status"] == jobs.RUNNING
    shutil.rmtree(folder)


@needs_nginx
def test_many_requests_of_one_address_are_slowed_down(recipe):
    """A browser that guesses passwords gets the status 503 of nginx, before the password is compared."""
    found = set()

    def guess():
        with browser_of(recipe, "wrong") as browser:
            for _ in range(400):
                if 503 not in found:
                    found.add(browser.get("/").status_code)

    threads = [threading.Thread(target=guess) for _ in range(5)]
    for it in threads:
        it.start()
    for it in threads:
        it.join()
    assert found == {401, 503}
