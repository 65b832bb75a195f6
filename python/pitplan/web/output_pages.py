"""What follows a result: its 3D view, exports, and comparisons with other runs."""

from __future__ import annotations

from collections.abc import Mapping

from starlette.requests import Request
from starlette.responses import RedirectResponse, Response
from starlette.routing import Route

from pitplan.core.revenue_factors import factor_text
from pitplan.results import names

from . import results_page
from .jobs import EXPORT
from .pages import PageGroup, form_of
from .results_page import WORDS
from .run_form import AskedCommand, WrongForm, plain
from .values_form import NUMBER
from .workspace import NotThere, Workspace

STAGES = ("revenue_factor", "pushback", "year")
GROUNDS = ("pit", "ground")
# The fields of a comparison; how the names of those begin that choose runs, each with the folder as its value.
BASE, FOLDER, BRIDGE, OTHER = "base", "folder", "bridge", "other-"


class OutputPages(PageGroup):
    """The answers to forms of results."""

    @property
    def routes(self) -> list[Route]:
        return [
            self.posted("/result/view", self.view),
            self.posted("/result/export", self.export),
            Route("/compare", self.pages.answering(self.runs), methods=["GET"]),
            self.posted("/compare", self.compare),
        ]

    def view(self, request: Request) -> Response:
        """Starts the command that writes the 3D view."""
        folder, project = self.folder_of(form_of(request))
        job = self.jobs.ask(("view", plain(folder)), project, folder)
        return RedirectResponse(f"/job?number={job.number}", status_code=303)

    def export(self, request: Request) -> Response:
        form = form_of(request)
        folder, project = self.folder_of(form)
        selected = results_page.record_of(self.workspace.root / folder).get("shells", {}).get("selected")
        if selected:
            form = {"factor": factor_text(float(selected)), **{name: it for name, it in form.items() if it}}
        words = export_words(form)
        return self.pages.started(AskedCommand((EXPORT, plain(folder), *words), project, folder), form)

    def folder_of(self, form: Mapping[str, str]) -> tuple[str, str]:
        """Returns the name of the output folder of a form, and that of its project. Raises NotThere if it has no plan."""
        folder = self.workspace.place(form.get("name", ""))
        name = self.workspace.name(folder)
        found = self.workspace.result(folder)
        if not (folder / names.RECORD).is_file():
            raise NotThere(f"{name}: is no output folder with a plan: run shells, pushbacks or schedule")
        return name, found.project

    def runs(self, request: Request) -> Response:
        """The runs that can be compared: those of a plan."""
        found = [it for it in self.workspace.results() if (self.workspace.root / it.name / names.RECORD).is_file()]
        return self.pages.page("compare.html", title="Compare runs", results=found)

    def compare(self, request: Request) -> Response:
        """Starts the comparison of runs."""
        form = form_of(request)
        return self.pages.started(comparison(form, self.workspace), form)


def export_words(form: Mapping[str, str]) -> list[str]:
    """Returns the options of an export. Raises WrongForm if one is wrong, with the field."""
    from pitplan.export.registry import OF_ONE, SURFACES

    kind, of, ground = form.get("to", ""), form.get("of", STAGES[0]), form.get("surface", GROUNDS[0])
    for field, given, options in (("Format", kind, tuple(WORDS)), ("Of", of, STAGES), ("Surface", ground, GROUNDS)):
        if given not in options:
            raise WrongForm(f"{field}: found {given[:20]!r}, expected one of {', '.join(options)}")
    words = [f"--to={kind}"]
    if kind not in OF_ONE:
        return words
    factor = form.get("factor", "")
    if factor and of == STAGES[0]:
        if not NUMBER.fullmatch(factor):
            raise WrongForm(f"Revenue factor: found {factor[:20]!r}, expected a number such as 0.80")
        words.append(f"--revenue-factor={factor}")
    words += [f"--of={of}"] if of != STAGES[0] else []
    is_ground = ground == GROUNDS[1] and kind in SURFACES
    words += ["--surface=ground"] if is_ground else []
    return words + (["--smooth"] if is_ground and form.get("smooth") == "on" else [])


def comparison(form: Mapping[str, str], workspace: Workspace) -> AskedCommand:
    """Returns the command of a form that compares runs. Raises WrongForm if no base is chosen, if there is nothing to compare it with, or if the
    folder of the comparison is wrong, and NotThere if a run does not exist."""
    base = form.get(BASE, "")
    if not base:
        raise WrongForm("Base: found none, expected one of the runs: choose the one that the others are compared with")
    others = [value for name, value in form.items() if name.startswith(OTHER) and value != base]
    if not others:
        raise WrongForm("Compared with the base: found no run, expected at least one other than the base: choose one")
    if len(others) > names.MOST_COMPARED:
        raise WrongForm(f"Compared with the base: found {len(others)} runs, expected at most {names.MOST_COMPARED}")
    folders = [plain(workspace.name(workspace.place(it))) for it in (base, *others)]
    given = form.get(FOLDER, "").strip() or f"{base}-compared"
    path = (workspace.root / given).resolve()
    if not path.is_relative_to(workspace.root) or any(
        part.startswith(".") for part in path.relative_to(workspace.root).parts
    ):
        raise WrongForm(
            f"Output folder: {given}: expected a folder below the one that is served: give its path from there"
        )
    if path.is_file() or path == workspace.root or any(path == workspace.place(it) for it in (base, *others)):
        raise WrongForm(f"Output folder: {given}: is a file or one of the runs: give another name")
    folder = plain(workspace.name(path))
    words = ("compare", *folders, f"--out={folder}", *(() if form.get(BRIDGE) == "on" else ("--no-bridge",)))
    return AskedCommand(words, "", folder)
