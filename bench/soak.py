#!/usr/bin/env python3
"""Asks `pitplan serve` by many clients at once for pages, saves, uploads, jobs and refusals, and prints its memory and the times of answers.

    bench/soak.py --requests 100000 --clients 50 --pause 1
    bench/soak.py --job-pages 50

Each client saves a project of its own. The results that are shown are those of examples/plan, which is planned first. After each answer a client
pauses for an exponential time of this mean. A person reads for longer; without a pause the clients measure the greatest rate of the server.

With --job-pages it prints the share of a processor that the server takes while N browsers watch one job, with 2,000 jobs that have ended.
"""

import argparse
import http.client
import json
import os
import pathlib
import random
import re
import shutil
import subprocess
import sys
import tempfile
import threading
import time
from collections import Counter
from concurrent.futures import ThreadPoolExecutor
from dataclasses import dataclass, field
from urllib.parse import quote, urlencode

ROOT = pathlib.Path(__file__).resolve().parent.parent
sys.path.insert(0, str(ROOT / "python"))

from pitplan.web import jobs

PITPLAN = (sys.executable, str(ROOT / "tools" / "pitplan"))
# How often each kind of request is drawn, of 1,000.
MIX = {"page": 660, "table": 20, "save": 100, "upload": 18, "job": 2, "refusal": 200}
TABLE = "mine/plan/tables/blocks.csv"
PAGES = (
    "/",
    "/jobs",
    "/project?name=mine/project.toml",
    "/result?name=mine/plan",
    "/blocks?name=mine/plan",
    "/static/app.css",
)
FORM = {"Content-Type": "application/x-www-form-urlencoded"}
ENDED_JOBS, WATCHED = 2_000, 20.0


@dataclass
class Server:
    """A server, and what was seen of it: the seconds of answers by kind of request, their statuses, and its memory in MB over time."""

    process: subprocess.Popen[str]
    port: int
    cookie: str
    seconds: dict[str, list[float]] = field(default_factory=lambda: {kind: [] for kind in MIX})
    statuses: Counter[tuple[str, int]] = field(default_factory=Counter)
    memory: list[float] = field(default_factory=list)

    def megabytes(self) -> float:
        text = pathlib.Path(f"/proc/{self.process.pid}/status").read_text()
        return int(re.search(r"VmRSS:\s+(\d+)", text)[1]) / 1024

    def processor_seconds(self) -> float:
        fields = pathlib.Path(f"/proc/{self.process.pid}/stat").read_text().rpartition(")")[2].split()
        return (int(fields[11]) + int(fields[12])) / os.sysconf("SC_CLK_TCK")

    def sample(self, ended: threading.Event) -> None:
        while not ended.wait(0.5):
            self.memory.append(self.megabytes())


class Client:
    """A browser that keeps its connection, with a project of its own."""

    def __init__(self, server: Server, number: int) -> None:
        self.server, self.number, self.random = server, number, random.Random(number)
        self.connection = http.client.HTTPConnection("127.0.0.1", server.port, timeout=120)
        self.project = f"own_{number}/project.toml"
        self.headers = {"Cookie": server.cookie, "Origin": f"http://127.0.0.1:{server.port}"}

    def ask(self, kind: str, method: str, path: str, body: bytes = b"", **headers: str) -> str:
        """Asks, and notes the time and the status."""
        before = time.monotonic()
        try:
            status, text = self.asked(method, path, body, headers)
        except (http.client.HTTPException, ConnectionError):
            status, text = 0, ""
        self.server.seconds[kind].append(time.monotonic() - before)
        self.server.statuses[kind, status] += 1
        return text

    def asked(self, method: str, path: str, body: bytes, headers: dict[str, str]) -> tuple[int, str]:
        """Asks again, as browsers do, if the server has closed the connection while the client paused."""
        for is_last in (False, True):
            try:
                self.connection.request(method, path, body or None, {**self.headers, **headers})
                answer = self.connection.getresponse()
                return answer.status, answer.read().decode(errors="replace")
            except (http.client.HTTPException, ConnectionError):
                self.connection.close()
                if is_last:
                    raise

    def once(self) -> None:
        getattr(self, self.random.choices(list(MIX), list(MIX.values()))[0])()

    def page(self) -> None:
        self.ask("page", "GET", self.random.choice(PAGES))

    def table(self) -> None:
        self.ask("table", "GET", f"/table?name={quote(TABLE)}")

    def save(self) -> None:
        text = self.ask("page", "GET", f"/project?name={quote(self.project)}")
        seen = re.search(r'name="seen" value="([^"]*)"', text)
        project = (ROOT / "examples/plan/project.toml").read_text() + f"# {self.random.random()}\n"
        form = urlencode({"project": self.project, "seen": seen[1] if seen else "", "text": project})
        self.ask("save", "POST", "/project/save", form.encode(), **FORM)

    def upload(self) -> None:
        """A file of the wrong kind, which is refused when it has been received."""
        content = self.random.randbytes(50_000)
        self.ask("upload", "PUT", f"/import/file?folder=own_{self.number}&file=model.exe", content)

    def job(self) -> None:
        form = {"project": self.project, "command": "check"}
        self.ask("job", "POST", "/run", urlencode(form).encode(), **FORM)

    def refusal(self) -> None:
        """A stranger, a page of another site, a path out of the folder, a page that is missing, or a form that is too large."""
        path, headers, body = self.random.choice(
            [
                ("/", {"Cookie": "a=b"}, b""),
                ("/run", {"Origin": "http://example.org"}, b"command=check"),
                ("/table?name=../../etc/passwd", {}, b""),
                ("/project?name=nowhere/project.toml", {}, b""),
                ("/run", FORM, b"a=" + b"x" * 70_000),
            ]
        )
        self.ask("refusal", "POST" if body else "GET", path, body, **headers)


def started(folder: pathlib.Path) -> Server:
    words = [*PITPLAN, "serve", str(folder), "--no-browser"]
    process = subprocess.Popen(words, stdout=subprocess.DEVNULL, stderr=subprocess.PIPE, text=True)
    address = next(found for line in process.stderr if (found := re.search(r"http://127.0.0.1:(\d+)(/enter\S+)", line)))
    connection = http.client.HTTPConnection("127.0.0.1", int(address[1]), timeout=60)
    connection.request("GET", address[2])
    cookie = connection.getresponse().getheader("Set-Cookie").partition(";")[0]
    return Server(process, int(address[1]), cookie)


def prepared(folder: pathlib.Path, clients: int) -> None:
    example = ROOT / "examples" / "plan"
    for name in ("mine", *(f"own_{number}" for number in range(clients))):
        (folder / name).mkdir()
        for file in ("project.toml", "blocks.csv", "topography.csv", "slopes.csv"):
            if (example / file).exists():
                shutil.copy(example / file, folder / name / file)
    project = str(folder / "mine/project.toml")
    subprocess.run(
        [*PITPLAN, "shells", project, "--out", str(folder / "mine/plan"), "--quiet", "--no-figures"],
        check=True,
        stdout=subprocess.DEVNULL,
    )


def share(values: list[float], part: float) -> float:
    return sorted(values)[min(len(values) - 1, int(part * len(values)))] if values else 0.0


def print_results(server: Server, taken: float, processor: float) -> None:
    count = sum(server.statuses.values())
    print(
        f"{count:,} requests in {taken:.0f} s, {count / taken:.0f} a second; {1000 * processor / count:.1f} ms of a processor each; "
        f"load of the machine {os.getloadavg()[0]:.1f}\n\n| request | answers | median, ms | 99 %, ms | longest, ms | statuses |"
    )
    print("|---|---|---|---|---|---|")
    for kind, values in server.seconds.items():
        statuses = ", ".join(
            f"{status}: {count:,}" for (of, status), count in sorted(server.statuses.items()) if of == kind
        )
        times = " | ".join(
            f"{1000 * it:,.0f}" for it in (share(values, 0.5), share(values, 0.99), max(values, default=0.0))
        )
        print(f"| {kind} | {len(values):,} | {times} | {statuses} |")
    every = [it for values in server.seconds.values() for it in values]
    tenth = max(1, len(server.memory) // 10)
    print(
        f"\n99 % of all answers within {1000 * share(every, 0.99):,.0f} ms. Memory: {server.memory[0]:,.0f} MB at first, "
        f"{max(server.memory[:tenth]):,.0f} in the first tenth, {max(server.memory):,.0f} at most, {server.memory[-1]:,.0f} at the end"
    )


def soak(folder: pathlib.Path, requests: int, clients: int, pause: float) -> None:
    """Asks, and prints the times of answers and the memory."""
    prepared(folder, clients)
    server, ended = started(folder), threading.Event()
    threading.Thread(target=server.sample, args=(ended,), daemon=True).start()
    threading.Thread(target=server.process.stderr.read, daemon=True).start()
    before, processor = time.monotonic(), server.processor_seconds()

    def all_of(client: Client) -> None:
        while sum(map(len, list(server.seconds.values()))) < requests:
            client.once()
            time.sleep(client.random.expovariate(1 / pause) if pause else 0)

    try:
        with ThreadPoolExecutor(clients) as pool:
            list(pool.map(all_of, [Client(server, number) for number in range(clients)]))
        ended.set()
        print_results(server, time.monotonic() - before, server.processor_seconds() - processor)
    finally:
        server.process.terminate()
        server.process.wait(30)


def watch(folder: pathlib.Path, pages: int) -> None:
    """Opens pages of a job that runs, and prints the share of a processor that the server takes."""
    with subprocess.Popen(["sleep", "600"]) as runner:
        try:
            running = {"status": jobs.RUNNING, "runner": runner.pid, "began": jobs.begun_at(runner.pid)}
            ended = {"status": jobs.DONE, "ended": "2026-01-01T00:00:05", "code": 0}
            for number in range(1, ENDED_JOBS + 2):
                of = folder / jobs.FOLDER / str(number)
                of.mkdir(parents=True)
                job = {"number": number, "words": ["check", "x"], "project": "x", "folder": "", "asked": "2026-01-01T00:00:00"}
                (of / jobs.JOB).write_text(json.dumps(job))
                state = {"started": "2026-01-01T00:00:00", **(ended if number <= ENDED_JOBS else running)}
                (of / jobs.STATE).write_text(json.dumps(state))
            (of / jobs.LOG).write_text("reading .. 1.0 s\nchecking ..\n" * 200)
            server = started(folder)
            clients = [Client(server, number) for number in range(pages)]
            for client in clients:
                client.connection.request("GET", f"/job/events?number={ENDED_JOBS + 1}", headers=client.headers)
                client.connection.getresponse().readline()
            # The server reads the jobs that have ended once, and removes those beyond the most that it keeps.
            time.sleep(5)
            before = server.processor_seconds()
            time.sleep(WATCHED)
            share = (server.processor_seconds() - before) / WATCHED
            print(f"{pages} pages of a job, {ENDED_JOBS:,} ended jobs: {100 * share:.1f} % of a processor, {server.megabytes():,.0f} MB")
            server.process.terminate()
            for client in clients:
                client.connection.close()
            server.process.wait(30)
        finally:
            runner.terminate()


def main() -> None:
    parser = argparse.ArgumentParser(description=__doc__, formatter_class=argparse.RawDescriptionHelpFormatter)
    parser.add_argument("--requests", type=int, default=100_000)
    parser.add_argument("--clients", type=int, default=50)
    parser.add_argument("--pause", type=float, default=0.0, metavar="SECONDS", help="mean pause of a client after an answer")
    parser.add_argument("--job-pages", type=int, default=0, metavar="N", help="time pages of a job instead")
    asked = parser.parse_args()
    with tempfile.TemporaryDirectory() as temporary:
        folder = pathlib.Path(temporary)
        if asked.job_pages:
            watch(folder, asked.job_pages)
        else:
            soak(folder, asked.requests, asked.clients, asked.pause)


if __name__ == "__main__":
    main()
