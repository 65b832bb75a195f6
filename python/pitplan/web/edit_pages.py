"""The answers to the editor of a project, and to the forms, grids and charts that change its text."""

from __future__ import annotations

from collections.abc import Callable, Mapping
from dataclasses import replace
from pathlib import Path
from typing import Any
from urllib.parse import quote

from starlette.requests import Request
from starlette.responses import RedirectResponse, Response
from starlette.routing import Route
from tomlkit.items import Table

from pitplan.config import toml_text
from pitplan.config.project_writer import shown as toml_of
from pitplan.errors import PlanError

from . import grids, project_text, values_form
from .draft import Draft, Path as Place
from .grids import KINDS
from .pages import PageGroup, form_of
from .project_text import Changed, Editor, Forms
from .run_form import WrongForm
from .values_form import NUMBER, FormValues
from .workspace import NotThere

# A letter of the text has up to twelve in the form; a grid has a thousand rows.
MOST_OF_TEXT, MOST_OF_GRID = 12 * project_text.MOST_LETTERS, 4 << 20


class EditPages(PageGroup):
    """The answers to the editor, and to what changes its text."""

    @property
    def routes(self) -> list[Route]:
        return [
            self.posted("/project/check", self.check, MOST_OF_TEXT),
            self.posted("/project/save", self.save, MOST_OF_TEXT),
            self.posted("/project/values", self.values),
            self.posted("/project/grid", self.grid, MOST_OF_GRID),
            self.posted("/project/name-process", self.name_process),
            self.posted("/project/shell", self.choose),
        ]

    def check(self, request: Request) -> Response:
        """Checks the text, and shows it again."""

        def shown(name: str, path: Path, editor: Editor) -> Response:
            return self.pages.project_page(name, replace(editor, said="No errors. The text is not saved yet."))

        return self.answered(request, shown)

    def save(self, request: Request) -> Response:
        """Saves the text if it is a project; otherwise shows it again."""

        def save(name: str, path: Path, editor: Editor) -> Response:
            try:
                project_text.save(path, name, editor)
            except PlanError as error:
                return self.pages.project_page(name, replace(editor, wrong=str(error)), status_of(error))
            return saved(name, "text", "editor")

        return self.answered(request, save)

    def answered(self, request: Request, act: Callable[[str, Path, Editor], Response]) -> Response:
        """Returns the answer of `act` to a text that is a project; otherwise the page with the text and its error."""
        form = form_of(request)
        name = form.get("project", "")
        editor = Editor(project_text.sent(form.get("text", "")), form.get("seen", ""), is_unsaved=True)
        try:
            path = self.pages.project_path(name)
        except NotThere as error:
            # A page with the text, so that nothing is lost.
            return self.pages.error(404, str(error), editor.text)
        found = project_text.judged(editor, path, name)
        return self.pages.project_page(name, found, 422) if found.wrong else act(name, path, found)

    def values(self, request: Request) -> Response:
        """Saves the text of the file with the numbers of the form; if they are refused it shows them again."""
        form = form_of(request)

        def change(forms: Forms) -> str:
            return values_form.changed(forms.editor.text, forms.fields, values_form.typed(forms.fields, form))

        def again(forms: Forms, error: PlanError) -> dict[str, Any]:
            typed = values_form.typed(forms.fields, form)
            return {"values": FormValues(typed, wrong=str(error), form=form.get("form", "values"))}

        shown = "schedule" if form.get("form") == "schedule" else "values"
        return self.rewritten(form, change, again) or saved(form["project"], shown)

    def grid(self, request: Request) -> Response:
        """Saves the text of the file with the rows of a grid; if they are refused it shows them again."""
        form = form_of(request)
        name, kind = form.get("project", ""), form.get("grid", "")
        path = self.pages.project_path(name)
        if kind not in KINDS:
            raise WrongForm(f"Grid: found {kind[:40]!r}, expected one of {', '.join(KINDS)}")
        typed: list[grids.FormGrid] = []

        def change(forms: Forms) -> str:
            typed.append(grids.typed(forms.grids[kind], form))
            project_text.demand_seen(path, name, form.get("seen", ""))
            return grids.changed(forms.editor.text, forms.grids[kind], typed[0], name)

        def again(forms: Forms, error: PlanError) -> dict[str, Any]:
            return {"grid": replace(typed[0] if typed else forms.grids[kind], wrong=str(error))}

        return self.rewritten(form, change, again) or saved(name, kind)

    def name_process(self, request: Request) -> Response:
        """Gives the only process a name, so that others can be added; if that is refused it says why."""
        form = form_of(request)
        name = form.get("project", "")
        path = self.pages.project_path(name)

        def change(forms: Forms) -> str:
            project_text.demand_seen(path, name, form.get("seen", ""))
            return with_named_process(forms.editor.text, form.get("name", "").strip())

        def again(forms: Forms, error: PlanError) -> dict[str, Any]:
            return {"grid": replace(forms.grids["processes"], wrong=str(error))}

        return self.rewritten(form, change, again) or saved(name, "processes")

    def rewritten(
        self,
        form: Mapping[str, str],
        change: Callable[[Forms], str],
        again: Callable[[Forms, PlanError], dict[str, Any]],
    ) -> Response | None:
        """Saves the text that `change` makes of a project's file. If it is refused, returns the page of the project with the parts of `again`."""
        name, seen = form.get("project", ""), form.get("seen", "")
        path = self.pages.project_path(name)
        forms = self.pages.forms(path, name)
        if forms.editor.wrong:
            return self.pages.project_page(name, forms.editor, 422)
        try:
            self.write(path, name, Editor(change(forms), seen))
        except PlanError as error:
            editor = replace(forms.editor, seen=seen)
            return self.pages.project_page(name, editor, status_of(error), **again(forms, error))
        return None

    def choose(self, request: Request) -> Response:
        """Writes the shell that was chosen on the chart, or the shells of pushbacks, into the project."""
        form = form_of(request)
        name = form.get("project", "")
        path = self.pages.project_path(name)
        editor = project_text.demanded(project_text.opened(path, name), path, name)
        factors = [it for it in form.get("factors", "").split(",") if it]
        project_text.demand_seen(path, name, form.get("seen", ""))
        if form.get("use") == "pushbacks":
            text = with_pushbacks(editor.text, factors)
        else:
            text = with_shell(editor.text, factors[0] if len(factors) == 1 else "")
        self.write(path, name, Editor(text, form.get("seen", "")))
        return saved(name, "schedule")

    def write(self, path: Path, name: str, editor: Editor) -> None:
        """Saves a text. Raises PlanError if it is no project, or if the file has changed."""
        project_text.save(path, name, project_text.demanded(editor, path, name))


def status_of(error: PlanError) -> int:
    return 409 if isinstance(error, Changed) else 422


def saved(name: str, kind: str, place: str = "") -> Response:
    """Returns the way to the page of a project, at the form that was saved."""
    return RedirectResponse(f"/project?name={quote(name)}&saved={kind}#{place or kind}", status_code=303)


MOST_FACTORS = 100
# The keys of one process without a name, and those of its entry in [[processes]].
MOVED: dict[Place, Place] = {
    ("economics", "processing_cost"): ("cost",),
    ("shells", "processing_capacity"): ("capacity",),
    ("schedule", "feed"): ("feed",),
}


def with_shell(text: str, factor: str) -> str:
    """Returns a project's text with a selected shell. Raises WrongForm if the revenue factor is no number."""
    demand_number(factor)
    draft = Draft(text)
    draft.set(("shells", "selected"), factor)
    return draft.text


def with_pushbacks(text: str, factors: list[str]) -> str:
    """Returns a project's text whose pushbacks have these revenue factors, in place of a count or tonnes. Raises WrongForm if one is no number."""
    if not factors or len(factors) > MOST_FACTORS:
        raise WrongForm(
            f"Pushbacks: found {len(factors)} shells, expected 1 to {MOST_FACTORS}: click bars of the chart"
        )
    for factor in factors:
        demand_number(factor)
    draft = Draft(text)
    if not isinstance(draft.at(("pushbacks",)) or {}, dict):
        raise WrongForm("Pushbacks: [pushbacks] is not written as a section: change it in the text")
    draft.set(("pushbacks", "revenue_factors"), f"[{', '.join(sorted(factors, key=float))}]")
    for key in ("count", "tonnes", "ultimate_pit"):
        draft.remove(("pushbacks", key))
    return draft.text


def demand_number(factor: str) -> None:
    if not NUMBER.fullmatch(factor) or len(factor) > 10:
        raise WrongForm(
            f"Shell: found {factor[:10]!r}, expected a revenue factor such as 0.80: click a bar of the chart"
        )


def with_named_process(text: str, process: str) -> str:
    """Returns a project's text whose only process has a name, so that others can be added.

    Its cost, capacity, recoveries and limits on head grades move to `[[processes]]`. Raises WrongForm if the project names processes already,
    or if the name is empty.
    """
    draft, data = Draft(text), toml_text.parsed(text, "project")
    if draft.at(("processes",)) is not None:
        raise WrongForm("Processes: the project names them already: add a row to the grid")
    if not process:
        raise WrongForm("Name of the process: found nothing, expected a name such as mill")
    metals = draft.at(("metals",)) or []
    moved = MOVED | {
        ("metals", k, "recovery"): ("recovery", str(metal.get("name", k + 1))) for k, metal in enumerate(metals)
    }
    keys: dict[Place, str] = {("name",): toml_of(process)}
    for place, key in moved.items():
        if draft.at(place) is not None:
            keys[key] = written(draft, data, place)
    for place in moved:
        draft.remove(place)
    draft.insert(("processes",), 0, keys)
    return draft.text


def written(draft: Draft, data: Any, place: Place) -> str:
    """Returns the value of a key as the text has it, on one line."""
    item = draft.at(place)
    text = "" if item is None or isinstance(item, Table) else item.as_string().strip()
    if text and "\n" not in text:
        return text
    for key in place:
        data = data[key]
    return toml_of(data)
