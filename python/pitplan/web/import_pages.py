"""The pages that import a block model: the form, the file that it sends, what the file was recognised as, and other roles for its columns."""

from __future__ import annotations

import json
import os
from collections.abc import AsyncIterator, Mapping
from contextlib import suppress
from dataclasses import dataclass
from functools import cache, cached_property
from pathlib import Path
from typing import TYPE_CHECKING, Any

from starlette.concurrency import run_in_threadpool
from starlette.requests import ClientDisconnect, Request
from starlette.responses import JSONResponse, RedirectResponse, Response
from starlette.routing import Route

from pitplan.core import staging
from pitplan.core.atomic_files import hash_of
from pitplan.errors import WARNING, PlanError

from .jobs import DONE, IMPORT, Job
from .pages import MOST_BYTES, PageGroup, form_of, in_words, number_of, threaded
from .run_form import WrongForm, plain
from .workspace import FileCache, NotThere, Workspace

# The modules of block models need pandas, which is loaded when a page needs it.
if TYPE_CHECKING:
    from pitplan.blockmodel.guesses import Role, TableRows

# The names of fields that hold the role of a column begin with this, those of options of the command with the other.
PREFIX, OPTION = "role:", "--role="


@cache
def groups() -> dict[str, list[tuple[str, str]]]:
    """Returns the roles to choose from, by their keys and in words, in groups."""
    from pitplan.blockmodel.guesses import METALS, ROLE_WORDS, Role
    from pitplan.config.economics import GRADE_SIGNS

    def named(*keys: str) -> list[tuple[str, str]]:
        return [(key, ROLE_WORDS[key]) for key in keys]

    grades = {
        f"Grade, {sign}": [(Role(metal, unit).text, f"grade of {metal}, {sign}") for metal in METALS.values()]
        for unit, sign in GRADE_SIGNS.items()
    }
    return {
        "": named("unused"),
        "Place": named("x", "y", "z", "xinc", "yinc", "zinc"),
        "Amount": named("tonnes", "density", "volume", "rock_percent", "mcaf", "pcaf"),
        "Code": named("id", "rock_type", "domain", "class"),
        **grades,
    }


@dataclass(frozen=True)
class Recognised:
    """What `pitplan init` found in a block model.

    Attributes
    ----------
    columns : list of dict
        Column, role, unit, nulls, least, mean, greatest, why and set (the role as `--role` has it), as texts.
    figure : str
        The path of the figure from the folder that is served; empty without one.
    project_hash : str
        SHA-256 of the project as written.
    """

    notes: list[str]
    warnings: list[str]
    columns: list[dict[str, str]]
    figure: str
    project_hash: str


# The formats that are taken, by their endings.
ENDINGS = (".csv", ".csv.gz", ".zip", ".omf", ".dm")
# The most bytes of a file, and of a part that is written.
MOST_OF_FILE, PART = 4 << 30, 1 << 20
MOST_LETTERS = 100
PROJECT = "project.toml"
# Below the folder that is served: files that are not whole yet.
UNFINISHED = ".pitplan-serve/uploads"


@dataclass(frozen=True)
class Upload:
    """A file that is to be sent.

    Attributes
    ----------
    root : Path
        The folder that is served.
    folder : str
        The folder of the new mine, directly below it.
    file : str
        The name of the file there.
    """

    root: Path
    folder: str
    file: str

    @property
    def path(self) -> Path:
        return self.root / self.folder / self.file

    @property
    def project(self) -> Path:
        return self.root / self.folder / PROJECT


def upload_of(workspace: Workspace, folder: str, file: str) -> Upload:
    """Returns the upload of a file into a folder. Raises WrongForm, with the field and the remedy, if a name is wrong or taken, or the format is not
    in ENDINGS."""
    folder, file = folder.strip(), with_small_ending(file.strip())
    demand_name("Name of the mine", folder, "north-hill")
    demand_name("Block model", file, "blocks.csv")
    if not file.endswith(ENDINGS) or file in ENDINGS:
        raise WrongForm(
            f"Block model: {file}: expected a file that ends in {', '.join(ENDINGS[:-1])} or {ENDINGS[-1]}: "
            "export the block model as CSV"
        )
    upload = Upload(workspace.root, folder, file)
    demand_room(workspace, upload)
    return upload


def with_small_ending(file: str) -> str:
    """Returns the name of a file with the ending of its format in small letters, by which it is read."""
    ending = next((it for it in ENDINGS if file.lower().endswith(it)), "")
    return file[: len(file) - len(ending)] + ending


def demand_name(field: str, name: str, example: str) -> None:
    """Raises WrongForm if a text cannot be the name of a file or folder."""
    remedy = f"give a name such as {example}"
    if not name:
        raise WrongForm(f"{field}: found nothing, expected a name: {remedy}")
    if "/" in name or "\\" in name:
        raise WrongForm(f"{field}: {name}: expected a name without / and \\: {remedy}")
    if name.startswith("."):
        raise WrongForm(f"{field}: {name}: expected a name that does not begin with a dot: {remedy}")
    if not name.isprintable() or "\ufffd" in name:
        raise WrongForm(f"{field}: {name!r}: expected letters that can be printed: {remedy}")
    if len(name) > MOST_LETTERS:
        raise WrongForm(f"{field}: found {len(name)} letters, expected at most {MOST_LETTERS}: {remedy}")


def demand_room(workspace: Workspace, upload: Upload) -> None:
    """Raises WrongForm if something is in the place of the folder, of the file or of the project."""
    place = workspace.root / upload.folder
    if not os.path.lexists(place):
        return
    other = "give another name"
    try:
        is_folder = workspace.place(upload.folder).is_dir()
    except NotThere as error:
        raise WrongForm(
            f"Name of the mine: {upload.folder}: is a link that leads out of the folder that is served: {other}"
        ) from error
    if not is_folder:
        raise WrongForm(f"Name of the mine: {upload.folder}: is a file: {other}")
    for path in (upload.project, upload.path):
        if os.path.lexists(path):
            raise WrongForm(f"Name of the mine: {upload.folder}: has a file {path.name} already: {other}")


def demand_size(length: int) -> None:
    """Raises WrongForm if a file is too large."""
    if length > MOST_OF_FILE:
        raise WrongForm(
            f"Block model: has more than {MOST_OF_FILE >> 30} GiB: pack it as .csv.gz, or copy it into the folder "
            "that is served and run pitplan init"
        )


async def receive(parts: AsyncIterator[bytes], workspace: Workspace, upload: Upload) -> None:
    """Writes a file as it comes. It has its name only when it is whole; of one that is cut nothing is left. Raises WrongForm if it is empty or too
    large, or if its place has been taken, and PlanError if it cannot be written."""
    unfinished = workspace.root / UNFINISHED
    try:
        unfinished.mkdir(parents=True, exist_ok=True)
        staging.clean(unfinished)
        with staging.stage_in(unfinished) as stage:
            partial = stage / "part"
            if not await write_parts(parts, partial):
                raise WrongForm("Block model: is empty: export it again")
            settle(partial, workspace, upload)
    except OSError as error:
        raise PlanError(
            f"{upload.folder}/{upload.file}: cannot be written: {error.strerror or error}: free space, or check the permissions"
        ) from error


async def drain(parts: AsyncIterator[bytes]) -> None:
    """Reads what is still sent of a file that is refused, up to MOST_OF_FILE, since a browser shows the answer only after it has sent all."""
    count = 0
    with suppress(ClientDisconnect):
        async for part in parts:
            count += len(part)
            if count > MOST_OF_FILE:
                return


async def write_parts(parts: AsyncIterator[bytes], path: Path) -> int:
    """Writes the bytes to a file, in threads of their own, and returns how many. Raises WrongForm if they are too many."""
    count, held = 0, bytearray()
    with open(path, "xb") as file:
        async for part in parts:
            count += len(part)
            demand_size(count)
            held += part
            if len(held) >= PART:
                await run_in_threadpool(file.write, bytes(held))
                held.clear()
        await run_in_threadpool(file.write, bytes(held))
    return count


def settle(partial: Path, workspace: Workspace, upload: Upload) -> None:
    """Gives a whole file its name, in place of nothing. Raises WrongForm if another has taken it."""
    demand_room(workspace, upload)
    with staging.made(upload.path.parent):
        try:
            os.link(partial, upload.path)
        except FileExistsError:
            demand_room(workspace, upload)
        except OSError:
            # A file system without hard links.
            os.rename(partial, upload.path)
        with suppress(FileNotFoundError):
            partial.unlink()


class ImportPages(PageGroup):
    """The pages of an import, and of a change of roles."""

    @cached_property
    def rows(self) -> FileCache[TableRows]:
        """The rows of the file that was read last: a change of a role does not read it again."""
        return FileCache(1)

    @property
    def routes(self) -> list[Route]:
        return [
            Route("/import", self.pages.answering(self.form)),
            Route("/import/check", in_words(threaded(self.check))),
            Route("/import/file", in_words(self.file), methods=["PUT"]),
            Route("/imported", self.pages.answering(self.imported)),
            Route("/import/preview", in_words(threaded(self.preview, 16 * MOST_BYTES)), methods=["POST"]),
            self.posted("/import/roles", self.write_roles, 16 * MOST_BYTES),
        ]

    def form(self, request: Request) -> Response:
        return self.pages.page(
            "import.html",
            title="Import a block model",
            root=self.workspace.root,
            endings=ENDINGS,
            most=MOST_OF_FILE >> 30,
        )

    def check(self, request: Request) -> Response:
        """Checks names and size before a file is sent."""
        demand_size(size_of(request.query_params.get("size", "")))
        self.upload_of(request)
        return Response(status_code=204)

    async def file(self, request: Request) -> Response:
        """Takes a file, and starts the job that recognises it."""
        upload = await run_in_threadpool(self.upload_of, request)
        demand_size(size_of(request.headers.get("content-length", "0")))
        parts = request.stream()
        try:
            await receive(parts, self.workspace, upload)
        except ClientDisconnect as error:
            raise WrongForm(f"Block model: {upload.file}: was cut off: import it again") from error
        except PlanError:
            # A browser that still sends the file shows no answer.
            await drain(parts)
            raise
        job = await run_in_threadpool(self.asked, upload)
        return JSONResponse({"next": f"/job?number={job.number}"}, status_code=201)

    def asked(self, upload: Upload) -> Job:
        """Starts the job that recognises a file."""
        table, project = (self.workspace.name(path) for path in (upload.path, upload.project))
        words = (IMPORT, plain(table), f"--out={project}", "--figures", "--json")
        return self.jobs.ask(words, project, upload.folder, removes=table)

    def upload_of(self, request: Request) -> Upload:
        given = request.query_params
        return upload_of(self.workspace, given.get("folder", ""), given.get("file", ""))

    def imported(self, request: Request) -> Response:
        """The block model of an import that has succeeded."""
        job = self.jobs.read(number_of(request.query_params.get("number", "")))
        return self.pages.page(
            "imported.html",
            title=f"Block model of {job.folder}",
            job=job,
            found=self.recognised(job),
            groups=groups(),
        )

    def recognised(self, job: Job) -> Recognised:
        """Returns what the job of an import has found. Raises NotThere if it is no import, or has not succeeded."""
        if job.words[0] != IMPORT or job.status != DONE:
            raise NotThere(f"job {job.number}: is not a successful import")
        try:
            said: dict[str, Any] = json.loads(self.jobs.answer(job.number))
            parts = said["notes"], said["warnings"], said["columns"], said["figure"] or "", said["sha256"]
            return Recognised(*parts)
        except (ValueError, KeyError, TypeError) as error:
            raise NotThere(f"job {job.number}: its answer cannot be read: open its project") from error

    def preview(self, request: Request) -> Response:
        """The project that follows from other roles, which nothing writes: its text, the columns, and the warnings."""
        from pitplan.blockmodel import guesses, wizard

        form = form_of(request)
        job = self.jobs.read(number_of(form.get("number", "")))
        roles, file = self.roles_of(job, form), self.workspace.place(job.words[1].removeprefix("./"))
        model = guesses.model_of(self.rows.of(file, [file], lambda: guesses.rows_of(file)), roles)
        text, found = wizard.project_of(model, self.workspace.root / job.project)
        warnings = [it.removeprefix(WARNING) for it in found.warnings]
        return JSONResponse({"text": text, "columns": found.records, "warnings": warnings})

    def write_roles(self, request: Request) -> Response:
        """Starts the job that writes the project again with other roles."""
        form = form_of(request)
        job = self.jobs.read(number_of(form.get("number", "")))
        roles = self.roles_of(job, form)
        path = self.workspace.place(job.project)
        if hash_of(path) != self.recognised(job).project_hash:
            raise WrongForm(
                f"{job.project}: has changed since the block model was imported: change its columns in its text, "
                "or import the file under another name"
            )
        words = [f"{OPTION}{column}={role.text}" for column, role in roles.items()]
        words = [IMPORT, job.words[1], f"--out={job.project}", *words, "--replace", "--figures", "--json"]
        again = self.jobs.ask(tuple(words), job.project, job.folder)
        return RedirectResponse(f"/job?number={again.number}", status_code=303)

    def roles_of(self, job: Job, form: Mapping[str, str]) -> dict[str, Role]:
        """Returns the roles of a form that differ from the guesses, and those that the import had. Raises PlanError if one is wrong."""
        from pitplan.blockmodel.guesses import demand_each_once, role_of_text

        texts = dict(word.removeprefix(OPTION).rpartition("=")[::2] for word in job.words if word.startswith(OPTION))
        for it in self.recognised(job).columns:
            text = form.get(PREFIX + it["column"], it["set"])
            if text != it["set"]:
                texts[it["column"]] = text
        roles = {column: role_of_text(column, text) for column, text in texts.items()}
        demand_each_once(roles)
        return roles


def size_of(text: str) -> int:
    """Returns a number of bytes. Raises WrongForm if the text is no number."""
    if not (text.isascii() and text.isdigit() and len(text) < 20):
        raise WrongForm(f"Block model: found a size of {text[:20]!r}, expected a number of bytes")
    return int(text)
