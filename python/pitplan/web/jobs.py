"""Jobs: commands that run as child processes, one after the other, with their state in files."""

from __future__ import annotations

import json
import os
import re
import shutil
import signal
import subprocess
import sys
import threading
from contextlib import suppress
from dataclasses import asdict, dataclass, replace
from datetime import datetime
from pathlib import Path
from typing import Any, Optional

from pitplan.core import paths
from pitplan.core.atomic_files import write_json
from pitplan.errors import PlanError

from .workspace import NotThere

# Below the folder that is served.
FOLDER = ".pitplan-serve/jobs"
JOB, STATE, LOG, ANSWER, CANCEL, CLAIM = "job.json", "state.json", "log", "answer", "cancel", "claimed"
REMOVED = "removed"
WAITING, RUNNING, DONE, FAILED, CANCELLED, LOST = "waiting", "running", "done", "failed", "cancelled", "lost"
ENDED = (DONE, FAILED, CANCELLED, LOST)
# The most ended jobs that are kept.
MOST_ENDED = 1_000
# The commands that import a block model, and that write a file for other programs.
IMPORT, EXPORT = "init", "export"
# A line of the log that names a step, and the seconds that it took if it has ended.
STEP = re.compile(r"^(?P<what>.+?) \.\.(?:.*?)(?: (?P<seconds>\d+\.\d) s)?$")


@dataclass(frozen=True)
class JobStep:
    """A step of a job, and the seconds that it took; None while it goes on."""

    what: str
    seconds: Optional[float]


@dataclass(frozen=True)
class Job:
    """A command that was asked for.

    Attributes
    ----------
    number : int
        From 1.
    words : tuple of str
        The words after `pitplan`.
    project : str
        The name of its project.
    folder : str
        The name of its output folder; empty if it has none.
    asked : str
        When, in ISO format.
    removes : str
        The name of the file that is removed unless the job succeeds, and its folder if that is empty then; empty without one.
    status : str
        WAITING, RUNNING, or how it ended.
    started, ended : str
        When, in ISO format; empty before.
    code : int, optional
        The exit status of the command.
    """

    number: int
    words: tuple[str, ...]
    project: str
    folder: str
    asked: str
    removes: str = ""
    status: str = WAITING
    started: str = ""
    ended: str = ""
    code: Optional[int] = None

    def in_state(self, state: dict[str, Any]) -> Job:
        return replace(self, **{name: state[name] for name in ("status", "started", "ended", "code") if name in state})

    @property
    def has_ended(self) -> bool:
        return self.status in ENDED

    @property
    def seconds(self) -> Optional[float]:
        """How long it took; None before its end."""
        try:
            return (datetime.fromisoformat(self.ended) - datetime.fromisoformat(self.started)).total_seconds()
        except (TypeError, ValueError):
            return None


class Jobs:
    """The jobs of a folder that is served, in which commands run. Raises PlanError if others may read or write the folder of the jobs, and this user
    cannot change that."""

    def __init__(self, root: Path) -> None:
        self.root, self.folder = root, root / FOLDER
        self.runners: list[subprocess.Popen[bytes]] = []
        # Jobs that have ended do not change. All are read when the queue is read first.
        self.ended: dict[int, Job] = {}
        self.lock = threading.RLock()
        demand_private(self.folder)

    def ask(self, words: tuple[str, ...], project: str, folder: str, removes: str = "") -> Job:
        """Adds a job to the queue and returns it; one that imports begins without waiting."""
        with self.lock:
            self.folder.parent.mkdir(mode=0o700, exist_ok=True)
            demand_private(self.folder)
            self.folder.mkdir(exist_ok=True)
            number = 1 + max(self.numbers(), default=0)
            while True:
                try:
                    self.of(number).mkdir()
                    break
                except FileExistsError:
                    number += 1
            job = Job(number, words, project, folder, now(), removes)
            write_json(self.of(number) / JOB, asdict(job))
            if words[0] == IMPORT:
                # No import waits for the run of another mine.
                self.start(job)
            self.pump()
            return self.read(number)

    def of(self, number: int) -> Path:
        return self.folder / str(number)

    def all(self) -> list[Job]:
        """Returns all jobs, the newest first."""
        found = []
        for number in sorted(self.numbers(), reverse=True):
            with suppress(NotThere):
                found.append(self.read(number))
        return found

    def numbers(self) -> list[int]:
        try:
            return [int(name) for name in os.listdir(self.folder) if name.isascii() and name.isdigit()]
        except OSError:
            return []

    def read(self, number: int) -> Job:
        """Returns a job with its state. Raises NotThere if it does not exist."""
        known = self.ended.get(number)
        if known is None:
            known = self.read_files(number)
            if known.status in (DONE, FAILED, CANCELLED):
                self.ended[number] = known
        return known

    def read_files(self, number: int) -> Job:
        """Returns a job with its state from its files. Raises NotThere if it does not exist."""
        try:
            said: dict[str, Any] = json.loads((self.of(number) / JOB).read_text(encoding="utf-8"))
            said["words"] = tuple(said["words"])
            job = Job(**said)
        except (OSError, ValueError, TypeError, KeyError) as error:
            raise NotThere(f"job {number}: does not exist: open a job from the list of jobs") from error
        state = self.state(number)
        if state is None:
            return replace(job, status=CANCELLED) if (self.of(number) / CANCEL).exists() else job
        job = job.in_state(state)
        if job.status == RUNNING and not is_alive(state):
            # It may have ended since its state was read.
            job = job.in_state(self.state(number) or state)
            return replace(job, status=LOST) if job.status == RUNNING else job
        return job

    def state(self, number: int) -> Optional[dict[str, Any]]:
        """Returns what the runner of a job has written; None before it runs."""
        try:
            return dict(json.loads((self.of(number) / STATE).read_text(encoding="utf-8")))
        except (OSError, ValueError):
            return None

    def pump(self) -> None:
        """Starts the oldest job that waits, unless one runs, and removes the oldest jobs that have ended beyond MOST_ENDED."""
        with self.lock:
            self.runners = [it for it in self.runners if it.poll() is None]
            jobs = self.all()
            for job in jobs:
                if job.status == LOST and job.removes:
                    self.remove(job)
            for job in [it for it in jobs if it.has_ended][MOST_ENDED:]:
                shutil.rmtree(self.of(job.number), ignore_errors=True)
                self.ended.pop(job.number, None)
            if self.runners or any(job.status == RUNNING for job in jobs):
                return
            waiting = [job for job in jobs if job.status == WAITING]
            if waiting:
                self.start(waiting[-1])

    def remove(self, job: Job) -> None:
        """Removes, once, the file of a job whose runner was killed before it could."""
        try:
            (self.of(job.number) / REMOVED).touch(exist_ok=False)
        except OSError:
            return
        remove_file(self.root / job.removes)

    def start(self, job: Job) -> None:
        """Starts the runner of a job, which goes on without the server. A job that another user has written is not run."""
        if (self.of(job.number) / JOB).stat().st_uid != os.getuid():
            (self.of(job.number) / CANCEL).touch()
            return
        words = [sys.executable, "-P", "-m", "pitplan.web.job_runner", str(self.of(job.number)), str(self.root)]
        beside = os.pathsep.join([str(paths.PACKAGES), *filter(None, [os.environ.get("PYTHONPATH")])])
        runner = subprocess.Popen(
            words,
            cwd=self.root,
            env={**os.environ, "PYTHONPATH": beside},
            stdin=subprocess.DEVNULL,
            stdout=subprocess.DEVNULL,
            stderr=subprocess.DEVNULL,
            start_new_session=True,
        )
        self.runners.append(runner)

    def cancel(self, number: int) -> None:
        """Ends a job: takes it from the queue, or interrupts its command. Raises NotThere if it does not exist."""
        job = self.read(number)
        if job.has_ended:
            return
        (self.of(number) / CANCEL).touch()
        state = self.state(number)
        if state is not None and is_alive(state):
            with suppress(ProcessLookupError):
                os.kill(int(state["runner"]), signal.SIGTERM)

    def log(self, number: int) -> str:
        """Returns what the command of a job has written to standard error."""
        return text_of(self.of(number) / LOG)

    def answer(self, number: int) -> str:
        """Returns what the command of a job has printed."""
        return text_of(self.of(number) / ANSWER)

    def usual_seconds(self, job: Job) -> Optional[float]:
        """Returns how long the last such job took that succeeded; None without one."""
        if not self.ended:
            self.all()
        same = (DONE, job.words[:1], job.project)
        before = [
            it
            for it in list(self.ended.values())
            if it.number < job.number and (it.status, it.words[:1], it.project) == same
        ]
        return max(before, key=lambda it: it.number).seconds if before else None


def demand_private(folder: Path) -> None:
    """Lets nobody but its owner read or write the folder of jobs, if it exists. Raises PlanError if it belongs to another user."""
    top = folder.parent
    try:
        state = top.stat()
    except OSError:
        return
    if state.st_uid != os.getuid():
        raise PlanError(
            f"{top}: belongs to another user, whose jobs would run as yours: remove it, or serve another folder"
        )
    if state.st_mode & 0o077:
        top.chmod(0o700)


def steps_of(log: str) -> list[JobStep]:
    """Returns the steps of a log, the last one without seconds if it goes on."""
    found: dict[str, JobStep] = {}
    for line in log.splitlines():
        step = STEP.match(line)
        if step:
            seconds = None if step["seconds"] is None else float(step["seconds"])
            found[step["what"]] = JobStep(step["what"], seconds)
    return list(found.values())


def remove_file(file: Path) -> None:
    """Removes a file, and its folder if that is empty then."""
    with suppress(OSError):
        file.unlink()
        file.parent.rmdir()


def now() -> str:
    return datetime.now().isoformat(timespec="milliseconds")


def text_of(file: Path) -> str:
    """Returns the text of a file; empty if it cannot be read."""
    try:
        return file.read_text(encoding="utf-8", errors="replace")
    except OSError:
        return ""


def begun_at(process: int) -> str:
    """Returns when a process began, in ticks since the machine's start; empty if it has ended."""
    fields = text_of(Path(f"/proc/{process}/stat")).rpartition(")")[2].split()
    # A process that has ended, and that nobody has waited for, does nothing any more.
    return "" if not fields or fields[0] == "Z" else fields[19]


def is_alive(state: dict[str, Any]) -> bool:
    """Returns whether the runner that wrote a state is alive; another process may have got its number since."""
    began = begun_at(int(state.get("runner", 0)))
    return bool(began) and began == state.get("began")
