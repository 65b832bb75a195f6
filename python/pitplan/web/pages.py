"""The pages: each answers a request, in a thread of its own, so that no request waits for another."""

from __future__ import annotations

import asyncio
import json
import shlex
import sys
import threading
import time
from collections.abc import AsyncIterator, Awaitable, Callable, Mapping
from dataclasses import asdict, dataclass, replace
from pathlib import Path
from typing import TYPE_CHECKING, Any, Optional
from urllib.parse import parse_qsl, quote

from jinja2 import Environment, FileSystemLoader, StrictUndefined
from starlette.concurrency import run_in_threadpool
from starlette.requests import ClientDisconnect, Request
from starlette.responses import (
    FileResponse,
    HTMLResponse,
    PlainTextResponse,
    RedirectResponse,
    Response,
    StreamingResponse,
)
from starlette.routing import Route

from pitplan.core import layout, paths
from pitplan.core.atomic_files import hash_of
from pitplan.errors import PlanError

from . import project_text, results_page, run_form
from .grids import FormGrid
from .jobs import DONE, EXPORT, IMPORT, Job, Jobs, steps_of
from .project_text import Editor, Forms
from .run_form import COMMANDS, OPTIONS, AskedCommand, WrongForm
from .security import SANDBOX
from .values_form import FormValues
from .workspace import RECORDS, FileCache, NotThere, Workspace, shown

# Charts need pandas, which is loaded when a page needs it.
if TYPE_CHECKING:
    from .charts import Chart

TEMPLATES = paths.PACKAGE / "templates" / "web"
SCRIPT = "text/javascript; charset=utf-8"
STATIC = {"app.css": "text/css; charset=utf-8"} | {
    name: SCRIPT for name in ("app.js", "import.js", "roles.js", "grid.js", "blocks.js", "areas.js", "chart.js")
}
# What a browser shows of the files of results; all others are downloaded.
SHOWN = {
    ".png": "image/png",
    ".svg": "image/svg+xml",
    ".html": "text/html; charset=utf-8",
    ".txt": "text/plain; charset=utf-8",
}
MOST_BYTES = 64 * 1024
# How many projects and charts are kept, and how many pages of tables, of some megabytes each.
MOST_KEPT, MOST_TABLES = 64, 4
# How often the events of a job look for news, in seconds.
PACE = 0.5
# Seconds in which a browser must send a form.
PATIENCE = 30.0
# What answers a request: in a thread, or in the event loop if it reads or writes a stream.
Answer = Callable[[Request], Response]
Streaming = Callable[[Request], Awaitable[Response]]


@dataclass(frozen=True)
class News:
    """The state of a job as JSON, whether the job has ended, and when both were read, by the monotonic clock."""

    state: str
    has_ended: bool
    at: float

    @property
    def is_fresh(self) -> bool:
        return time.monotonic() - self.at < PACE


class Pages:
    """The pages of a folder, with the version of pitplan at the foot of each."""

    def __init__(self, workspace: Workspace, jobs: Jobs, version: str) -> None:
        self.workspace, self.jobs = workspace, jobs
        self.known_forms: FileCache[Forms] = FileCache(MOST_KEPT)
        self.tables: FileCache[bytes] = FileCache(MOST_TABLES)
        self.charts: FileCache[list[Chart]] = FileCache(MOST_KEPT)
        # Of each job that a page shows.
        self.latest_news: dict[int, News] = {}
        self.reading = threading.Lock()
        self.statics = {name: (TEMPLATES / name).read_bytes() for name in STATIC}
        self.templates = Environment(
            loader=FileSystemLoader(TEMPLATES),
            autoescape=True,
            undefined=StrictUndefined,
            trim_blocks=True,
            lstrip_blocks=True,
            auto_reload=False,
        )
        self.templates.filters |= {
            "path": quote,
            "command": lambda words: shlex.join(["pitplan", *words]),
            "ago": short_time,
            "grouped": results_page.grouped,
        }
        self.templates.globals |= {"version": version}

    @property
    def routes(self) -> list[Route]:
        return [
            Route("/", self.answering(self.home)),
            Route("/project", self.answering(self.project)),
            Route("/run", self.answering(self.run), methods=["POST"]),
            Route("/jobs", self.answering(self.all_jobs)),
            Route("/job", self.answering(self.job)),
            Route("/job/events", self.answering(self.events)),
            Route("/job/cancel", self.answering(self.cancel), methods=["POST"]),
            Route("/result", self.answering(self.result)),
            Route("/table", self.answering(self.table)),
            Route("/file", self.answering(self.file)),
            Route("/static/{name}", self.answering(self.static)),
        ]

    def answering(self, answer: Answer, most: int = MOST_BYTES) -> Streaming:
        """Returns the endpoint of an answer that is computed in a thread, with a page in place of an error. A form that is posted has at most `most`
        bytes."""
        computed = threaded(answer, most)

        async def answered(request: Request) -> Response:
            try:
                return await computed(request)
            except Exception as error:
                return await run_in_threadpool(self.error, *status_of(error, request))

        return answered

    def page(self, template: str, status: int = 200, **parts: Any) -> Response:
        return HTMLResponse(self.templates.get_template(template).render(**parts), status_code=status)

    def error(self, status: int, why: str, text: str = "") -> Response:
        """Returns a page that says why something is not possible, with a text that would be lost."""
        return self.page("error.html", status, title="Not possible", why=shown(why), text=text)

    # ---- projects and results

    def home(self, request: Request) -> Response:
        """The projects and the results of the folder."""
        projects, results = self.workspace.projects(), self.workspace.results()
        running = [job for job in self.jobs.all() if not job.has_ended]
        return self.page(
            "home.html", title="Projects", root=self.workspace.root, projects=projects, results=results, running=running
        )

    def project(self, request: Request) -> Response:
        """A project, the forms that run it, and its text."""
        name = request.query_params.get("name", "")
        path, saved = self.project_path(name), request.query_params.get("saved")
        forms = self.forms(path, name)
        editor = replace(forms.editor, said="Saved." if saved == "text" and not forms.editor.wrong else "")
        values = FormValues(forms.fields, said=saved if saved in ("values", "schedule") else "")
        grid = forms.grids.get(saved or "")
        return self.project_page(name, editor, values=values, grid=replace(grid, said="Saved.") if grid else None)

    def forms(self, path: Path, name: str) -> Forms:
        """Returns the forms of a project's file. Its name is that from the folder that is served."""
        return self.known_forms.of(
            path, [path], lambda: project_text.read(path, name), keeps=lambda found: found.is_of_one_file
        )

    def project_path(self, name: str) -> Path:
        """Returns the path of a project. Raises NotThere if it does not exist."""
        path = self.workspace.place(name)
        if path.suffix != ".toml" or not self.workspace.project_in(path):
            raise NotThere(f"{name}: is no project: it has no section [table]")
        return path

    def project_page(
        self,
        name: str,
        editor: Editor,
        status: int = 200,
        values: Optional[FormValues] = None,
        *,
        grid: Optional[FormGrid] = None,
    ) -> Response:
        """Returns the page of a project with a text in its editor, and with the numbers and the grids of the file, or others in their place."""
        path = self.workspace.place(name)
        found, forms = self.workspace.project_in(path), self.forms(path, name)
        folders = {
            command.name: run_form.default_folder(forms.project, command, self.workspace)
            for command in COMMANDS.values()
        }
        results = [it for it in self.workspace.results() if it.project == name]
        jobs = [job for job in self.jobs.all() if job.project == name][:10]
        figure = layout.figure_of_model(path)
        return self.page(
            "project.html",
            status,
            title=found[0].title if found[0].is_readable else name,
            project=found[0],
            editor=editor,
            values=values or FormValues(forms.fields),
            grids=forms.grids | ({grid.kind.name: grid} if grid else {}),
            figure=self.workspace.name(figure) if figure.is_file() else "",
            commands=list(COMMANDS.values()),
            options=OPTIONS,
            chosen=run_form.CHOSEN,
            folders=folders,
            results=results,
            jobs=jobs,
        )

    def run(self, request: Request) -> Response:
        """Starts a command, or shows it."""
        form = form_of(request)
        asked = run_form.read(form, self.workspace)
        return self.started(asked, form)

    def started(self, asked: AskedCommand, form: Mapping[str, str]) -> Response:
        """Starts a command; if its form asks so, shows it instead."""
        if form.get("show") == "on":
            return self.page(
                "command.html", title="Command", words=asked.words, project=asked.project, root=self.workspace.root
            )
        job = self.jobs.ask(asked.words, asked.project, asked.folder)
        return RedirectResponse(f"/job?number={job.number}", status_code=303)

    def result(self, request: Request) -> Response:
        name = request.query_params.get("name", "")
        folder = self.workspace.place(name)
        found = self.workspace.result(folder)
        return self.page(
            "result.html",
            title=f"{found.kind}: {found.name}",
            result=found,
            page=results_page.page_of(folder, self.workspace, self.charts),
            seen=hash_of(self.workspace.place(found.project)) if found.project else "",
            formats=results_page.WORDS,
        )

    def table(self, request: Request) -> Response:
        """A table, to sort, filter and copy."""
        name = request.query_params.get("name", "")
        path = self.workspace.place(name)
        if path.suffix != ".csv":
            raise NotThere(f"{name}: is no table")
        number = request.query_params.get("page", "")
        page = int(number) if number.isascii() and number.isdigit() and len(number) < 10 else 1
        run = results_page.project_of(path)
        files = [path, run] if run.is_file() else [path]
        return HTMLResponse(self.tables.of((path, page), files, lambda: self.page_of_table(path, name, max(1, page))))

    def page_of_table(self, path: Path, name: str, page: int) -> bytes:
        table, head = results_page.read_table(path, page), results_page.head_of(path)
        return self.page("table.html", title=path.name, name=name, table=table, head=head).body

    def file(self, request: Request) -> Response:
        """A file of an output folder: figures and pages are shown, all others are downloaded."""
        path = self.workspace.place(request.query_params.get("name", ""))
        if not path.is_file() or not (self.is_result(path) or self.is_of_model(path)):
            raise NotThere(f"{path.name}: is no file of an output folder")
        kind = SHOWN.get(path.suffix)
        if kind is None:
            return FileResponse(path, filename=path.name)
        headers = {"Content-Security-Policy": SANDBOX} if path.suffix in (".html", ".svg") else {}
        return FileResponse(path, media_type=kind, headers=headers)

    def is_result(self, path: Path) -> bool:
        """Returns whether a file belongs to an output folder."""
        above = [it for it in path.parents if it.is_relative_to(self.workspace.root)]
        return any((it / record).is_file() for it in above for record in RECORDS)

    def is_of_model(self, path: Path) -> bool:
        """Returns whether a file is the figure of the block model of a project."""
        return any(layout.figure_of_model(it) == path for it in path.parent.glob("*.toml"))

    def static(self, request: Request) -> Response:
        name = request.path_params["name"]
        if name not in STATIC:
            raise NotThere(f"{name}: no such file")
        return Response(self.statics[name], media_type=STATIC[name])

    # ---- jobs

    def all_jobs(self, request: Request) -> Response:
        return self.page("jobs.html", title="Jobs", jobs=self.jobs.all())

    def job(self, request: Request) -> Response:
        """A job with its progress, which the page keeps up to date."""
        job = self.jobs.read(number_of(request.query_params.get("number", "")))
        is_import = job.words[0] == IMPORT
        title = f"Import of {job.folder}" if is_import else f"Job {job.number}: {job.words[0]}"
        return self.page("job.html", title=title, job=job, state=self.state_of(job), is_import=is_import)

    def events(self, request: Request) -> Response:
        """The progress of a job as server-sent events, until it has ended."""
        job = self.jobs.read(number_of(request.query_params.get("number", "")))
        # A proxy sends each event at once.
        headers = {"X-Accel-Buffering": "no"}
        return StreamingResponse(self.news(job.number), media_type="text/event-stream", headers=headers)

    async def news(self, number: int) -> AsyncIterator[str]:
        """Yields the state of a job whenever it is another."""
        last = ""
        while True:
            found = self.latest_news.get(number)
            if not found or not found.is_fresh:
                found = await run_in_threadpool(self.latest, number)
            if found.state != last:
                last = found.state
                yield f"data: {last}\n\n"
            if found.has_ended:
                return
            await asyncio.sleep(PACE)

    def latest(self, number: int) -> News:
        """Returns the news of a job. All pages of the job share them while they are fresh."""
        with self.reading:
            found = self.latest_news.get(number)
            if found and found.is_fresh:
                return found
            job = self.jobs.read(number)
            found = self.latest_news[number] = News(json.dumps(self.state_of(job)), job.has_ended, time.monotonic())
            for other in [it for it, old in self.latest_news.items() if found.at - old.at > PATIENCE]:
                del self.latest_news[other]
            return found

    def state_of(self, job: Job) -> dict[str, Any]:
        log = self.jobs.log(job.number)
        return {
            "status": job.status,
            "steps": [asdict(step) for step in steps_of(log)],
            "log": log[-20_000:],
            "answer": self.jobs.answer(job.number)[-20_000:],
            "started": job.started,
            "seconds": job.seconds,
            "usual": self.jobs.usual_seconds(job),
            "folder": job.folder if self.has_next(job) else "",
            "file": self.file_of(job),
        }

    def file_of(self, job: Job) -> str:
        """Returns the name of the file that an export has written; empty without one."""
        if job.words[0] != EXPORT or job.status != DONE:
            return ""
        lines = self.jobs.answer(job.number).strip().splitlines()
        try:
            path = self.workspace.place(lines[-1] if lines else "")
        except NotThere:
            return ""
        return self.workspace.name(path) if path.is_file() and self.is_result(path) else ""

    def has_next(self, job: Job) -> bool:
        """Returns whether a page shows what a job has written."""
        if job.words[0] == IMPORT:
            return job.status == DONE
        return bool(job.folder) and any((self.workspace.root / job.folder / record).is_file() for record in RECORDS)

    def cancel(self, request: Request) -> Response:
        number = number_of(form_of(request).get("number", ""))
        self.jobs.cancel(number)
        return RedirectResponse(f"/job?number={number}", status_code=303)


class PageGroup:
    """Some of the pages, which share templates, projects and jobs with all others."""

    def __init__(self, pages: Pages) -> None:
        self.pages, self.workspace, self.jobs = pages, pages.workspace, pages.jobs

    def posted(self, path: str, answer: Answer, most: int = MOST_BYTES) -> Route:
        """Returns the route of a form, with a page in place of an error."""
        return Route(path, self.pages.answering(answer, most), methods=["POST"])


def threaded(answer: Answer, most: int = MOST_BYTES) -> Streaming:
    """Returns what reads the form of a request and then answers it in a thread, since an answer may read files for long."""

    async def answered(request: Request) -> Response:
        if request.method == "POST":
            request.state.form = await read_form(request, most)
        return await run_in_threadpool(answer, request)

    return answered


def in_words(answer: Streaming) -> Streaming:
    """Returns the endpoint of an answer with words in place of an error, which a script shows."""

    async def answered(request: Request) -> Response:
        try:
            return await answer(request)
        except Exception as error:
            status, why = status_of(error, request)
            return PlainTextResponse(why, status_code=400 if status == 404 else status)

    return answered


def status_of(error: Exception, request: Request) -> tuple[int, str]:
    """Returns the status and the words for an error. One that nobody expects is noted on standard error, in one line."""
    if isinstance(error, NotThere):
        return 404, str(error)
    if isinstance(error, WrongForm):
        return 422, str(error)
    if isinstance(error, PlanError):
        return 400, str(error)
    if isinstance(error, ClientDisconnect):
        return 400, "The request was cut off"
    why = " ".join(f"{type(error).__name__}: {error}".split())[:200]
    print(f"pitplan serve: {request.method} {request.url.path}: {why}", file=sys.stderr, flush=True)
    return 500, "This page cannot be shown: the server has noted why where it was started"


def form_of(request: Request) -> dict[str, str]:
    form: dict[str, str] = request.state.form
    return form


async def read_form(request: Request, most: int = MOST_BYTES) -> dict[str, str]:
    """Reads the fields of a form. Raises WrongForm if it is too long, takes too long or is no text."""
    body = bytearray()
    try:
        async with asyncio.timeout(PATIENCE):
            async for part in request.stream():
                body += part
                if len(body) > most:
                    raise WrongForm(f"The form is longer than {most:,} bytes")
    except TimeoutError as error:
        raise WrongForm(f"The form was not sent within {PATIENCE:.0f} seconds") from error
    try:
        return dict(parse_qsl(body.decode("utf-8"), keep_blank_values=True, strict_parsing=bool(body)))
    except ValueError as error:
        raise WrongForm("The form cannot be read") from error


def number_of(text: str) -> int:
    """Returns the number of a job. Raises NotThere if the text is no number."""
    if not (text.isascii() and text.isdigit() and len(text) < 10):
        raise NotThere(f"job {text}: found no number, expected the number of a job: open it from the list of jobs")
    return int(text)


def short_time(iso: Optional[str]) -> str:
    """Returns a time of the ISO format to the second."""
    return (iso or "").replace("T", " ").partition(".")[0]
