"""One function a subcommand: it takes the options, calls the command and prints its answer. It returns the exit status if that is not 0.

Each imports its command itself, so that a subcommand loads only the libraries that it uses, and help loads none.
"""

from __future__ import annotations

import json
import math
from argparse import Namespace
from collections.abc import Callable
from decimal import Decimal
from pathlib import Path
from typing import TYPE_CHECKING, Any

from minelib.ending import tell
from pitplan.core.progress import Progress, on_standard_error, silent
from pitplan.errors import WARNING, PlanError

if TYPE_CHECKING:
    from pandas import DataFrame

    from pitplan.blockmodel.guesses import GuessedModel
    from pitplan.config.project import Project
    from pitplan.core.atomic_files import NotedPath
    from pitplan.report.columns import Columns, Display
    from pitplan.studies.scenarios.result import ScenarioResult

    from ..commands.writing import Writing


# The project if none is named.
PROJECT = Path("project.toml")


def progress_of(options: Namespace) -> Progress:
    return silent if options.quiet else on_standard_error()


def project_of(options: Namespace) -> Project:
    """Reads the project, with the keys that are set and the solver that is asked for."""
    from dataclasses import replace

    from pitplan.config.project import load

    if options.project == PROJECT and not PROJECT.exists():
        why = "is not in this folder: name the project, or write one for your block model: pitplan init TABLE"
        raise PlanError(f"{PROJECT}: {why}")
    overrides = getattr(options, "set", [])
    return replace(load(options.project, overrides=overrides), solver=getattr(options, "solver", None))


def writing_of(options: Namespace) -> Writing:
    from ..commands.writing import Writing

    return Writing(progress_of(options), not options.no_verify, not getattr(options, "no_figures", False))


def draw_block_model(model: GuessedModel, path: Path) -> None:
    """Draws a block model; matplotlib is imported only now."""
    from pitplan.figures.geology import write_block_model

    write_block_model(model, path)


def print_answer(table: DataFrame, columns: Columns, folder: Path, options: Namespace, of_shells: bool = False) -> None:
    """Prints an answer's table and the path of its report, and its notes on standard error; of shells also the selected one."""
    from pitplan.report.columns import cells_of, selected_line
    from pitplan.results.folder import read_record
    from pitplan.results.names import REPORT

    record = read_record(folder)
    selected = record["shells"]["selected"] if of_shells else None
    if not options.json:
        print_table([heading for _, heading, _, _ in columns], cells_of(table, columns))
    print_notes(record["notes"], options)
    if options.json:
        print_json(table, folder / REPORT, **({"selected": selected} if of_shells else {}))
        return
    if selected is not None:
        print(selected_line(table, columns, selected))
    print(folder / REPORT)


def print_json(table: DataFrame, path: Path, **more: Any) -> None:
    """Prints a table and the path of its file as one JSON object: `{"path": .., "table": [{column: value, ..}, ..]}`, with what is given more. Numbers
    are not rounded, and one that is missing is null."""
    rows = [{name: plain_of(value) for name, value in row.items()} for row in table.to_dict("records")]
    print(json.dumps({"path": str(path), **more, "table": rows}, indent=2, ensure_ascii=False))


def plain_of(value: Any) -> Any:
    """Returns a field as JSON has it."""
    if isinstance(value, Decimal):
        return str(value)
    value = value.item() if hasattr(value, "item") else value
    return None if isinstance(value, float) and not math.isfinite(value) else value


def print_path(path: NotedPath, options: Namespace) -> None:
    """Prints a path, and the notes on it on standard error."""
    print_notes(list(path.notes), options)
    print(path)


def print_notes(notes: list[str], options: Namespace) -> None:
    """Prints notes on standard error, and after an empty line all warnings; with --quiet warnings alone."""
    warnings = [note for note in notes if note.startswith(WARNING)]
    plain = [] if getattr(options, "quiet", False) else [note for note in notes if note not in warnings]
    for note in [*plain, *([""] if plain and warnings else []), *warnings]:
        tell(note)


def print_frame(table: DataFrame) -> None:
    """Prints a table with its texts to the left and its numbers to two decimals, and an empty line."""
    columns = []
    for name in table:
        is_number = table[name].dtype.kind in "if"
        texts = [number_of(value) if is_number else str(value) for value in table[name]]
        wide = max(map(len, [str(name), *texts]))
        columns.append([text.rjust(wide) if is_number else text.ljust(wide) for text in [str(name), *texts]])
    for line in zip(*columns):
        print("  ".join(line).rstrip())
    print()


def number_of(value: float) -> str:
    if math.isnan(value):
        return "-"
    return f"{value:,.0f}" if float(value).is_integer() else f"{value:,.2f}"


def print_table(headings: list[str], rows: list[list[str]]) -> None:
    """Prints columns, aligned to the right, under two lines of headings."""
    upper = [heading.split(", ")[0] for heading in headings]
    lower = [heading.split(", ")[1] if ", " in heading else "" for heading in headings]
    lines = [upper, lower, *rows]
    wide = [max(len(line[k]) for line in lines) for k in range(len(headings))]
    for line in lines:
        print("  ".join(field.rjust(width) for field, width in zip(line, wide)))


def init(options: Namespace) -> None:
    from pitplan.blockmodel import wizard
    from pitplan.blockmodel.guesses import roles_of_words

    project_file = options.out or options.table.parent / "project.toml"
    draw, roles = draw_block_model if options.figures else None, roles_of_words(options.role)
    written = wizard.write_project(options.table, project_file, draw, roles=roles, replaces=options.replace)
    print_notes(written.lines, options)
    print(json.dumps(written.as_json, indent=2, ensure_ascii=False) if options.json else project_file)


def doctor(options: Namespace) -> int:
    from .. import __version__
    from ..commands import doctor as doctoring

    found = doctoring.findings(__version__)
    if options.json:
        print(json.dumps(doctoring.as_records(found), indent=2, ensure_ascii=False))
    else:
        print("\n".join(doctoring.lines_of(found)))
    return int(any(it.is_wrong for it in found))


def check(options: Namespace) -> None:
    from pitplan.commands.plans import check as check_project

    project = project_of(options)
    print_notes(check_project(project, progress_of(options)), options)
    print(f"{project.path}: no errors")


def prepare(options: Namespace) -> None:
    from pitplan.commands.plans import write_plan

    project = project_of(options)
    folder = options.out or project.folder
    print_notes(write_plan(project, folder, progress_of(options))["notes"], options)
    print(folder)


def answered(
    options: Namespace, write: Callable[..., DataFrame], columns: Display, name: str, *, of_shells: bool = False
) -> Path:
    """Writes an answer into the folder that is asked for, by default `name` in the project's output folder, and prints its table, notes and the
    path of its report. Returns the folder."""

    project = project_of(options)
    folder = options.out or project.folder / name
    table = write(project, folder, writing_of(options))
    print_answer(table, columns.of(table, project), folder, options, of_shells)
    return folder


def shells(options: Namespace) -> None:
    from pitplan.commands.plans import write_shells
    from pitplan.report.columns import OF_SHELLS

    answered(options, write_shells, OF_SHELLS, "", of_shells=True)


def pit(options: Namespace) -> None:
    from pitplan.commands.plans import write_pit
    from pitplan.report.columns import OF_SHELLS, cells_of
    from pitplan.results.folder import read_record

    from ..results import names

    project = project_of(options)
    folder = options.out or project.folder / "pit"
    table = write_pit(project, options.revenue_factor, folder, writing_of(options))
    print_notes(read_record(folder)["notes"], options)
    if options.json:
        print_json(table, folder / names.PITS)
        return
    columns = OF_SHELLS.of(table, project)
    lines = [[name, *row] for name, row in zip(table["fixed_blocks"], cells_of(table, columns))]
    print_table(["fixed, blocks", *(heading for _, heading, _, _ in columns)], lines)
    print(folder / names.PITS)


def pushbacks(options: Namespace) -> None:
    from pitplan.commands.plans import write_pushbacks
    from pitplan.report.columns import OF_PUSHBACKS

    answered(options, write_pushbacks, OF_PUSHBACKS, "pushbacks")


def schedule(options: Namespace) -> None:
    """Raises KeyboardInterrupt after the best schedule is written if the search was interrupted."""
    from functools import partial

    from pitplan.core.atomic_files import read_json
    from pitplan.report.columns import OF_BLOCKS, OF_METHODS
    from pitplan.results import names

    from ..commands.schedule import write_block_schedule, write_schedule

    if options.by == "block":
        write, columns, name, record = write_block_schedule, OF_BLOCKS, "block_schedule", names.BLOCK_SCHEDULE
    else:
        write, columns, name, record = write_schedule, OF_METHODS, "schedule", names.SCHEDULE_RECORD
    folder = answered(options, partial(write, certificate=options.certificate), columns, name)
    if read_json(folder / record)["interrupted"]:
        raise KeyboardInterrupt


def sensitivity(options: Namespace) -> None:
    from pitplan.core.atomic_files import read_json
    from pitplan.report import columns as report
    from pitplan.studies.dask_pool import Where
    from pitplan.studies.sensitivity import RECORD, TABLE

    from ..commands.sensitivity import write_sensitivity

    project = project_of(options)
    folder = options.out or project.folder / "sensitivity"
    where = Where(options.on, options.workers) if options.on else None
    cases = write_sensitivity(project, folder, where, writing_of(options))
    print_notes(read_json(folder / RECORD)["notes"], options)
    if options.json:
        print_json(cases, folder / TABLE)
        return
    table = report.of_cases(cases)
    columns = report.OF_CASES.of(table, project)
    print_table([heading for _, heading, _, _ in columns], report.cells_of(table, columns))
    print(folder / TABLE)


def compare(options: Namespace) -> None:
    from pitplan.results import names

    from ..commands.compare import compare as write_comparison

    found = write_comparison(options.folders, options.out, not options.no_bridge, writing_of(options))
    if options.json:
        print_json(found.results, found.folder / names.COMPARED_RESULTS)
        return
    for table in (found.inputs, found.results, *([] if found.bridge is None else [found.bridge])):
        print_frame(table)
    print(found.folder)


def scenarios(options: Namespace) -> None:
    from pitplan.studies.scenarios.run import Request

    from ..commands.scenarios import write_scenarios

    request = Request(options.on, options.workers, options.revenue_factor, options.partial, options.by)
    print_scenarios(write_scenarios(project_of(options), options.out, request, writing_of(options)), options)


def gather(options: Namespace) -> None:
    from pitplan.studies.scenarios.run import Request

    from ..commands.scenarios import gather as gather_answers

    request = Request(revenue_factor=options.revenue_factor, partial=options.partial)
    print_scenarios(gather_answers(options.folder, request, writing_of(options)), options)


def print_scenarios(result: ScenarioResult, options: Namespace) -> None:
    """Prints the notes, and the folder or the script to start."""
    print_notes(list(result.notes), options)
    print(result.start or result.folder)


def scenario(options: Namespace) -> int:
    from pitplan.commands.scenarios import solve_scenario

    outcome = solve_scenario(options.folder, options.number)
    if outcome.why:
        tell(f"pitplan: {outcome.why}")
    return outcome.status


def report(options: Namespace) -> None:
    from pitplan.commands.outputs import write_report

    print(write_report(options.folder, options.sensitivity, progress_of(options)))


def view(options: Namespace) -> None:
    from pitplan.commands.outputs import view as write_view

    print(write_view(options.folder, progress_of(options), options.out))


def export(options: Namespace) -> None:
    from pitplan.commands.outputs import write_export
    from pitplan.results.pit_states import Shape

    shape = Shape(options.of, options.surface, options.smooth, options.revenue_factor)
    print_path(write_export(options.folder, options.to, shape, progress_of(options), out=options.out), options)


def audit(options: Namespace) -> None:
    from pitplan.commands.outputs import audit as write_audit

    print_path(write_audit(options.folder, options.revenue_factor, progress_of(options), options.out), options)


def verify(options: Namespace) -> None:
    """Prints a line for each rule that holds, and the verdict. Raises PlanError if one does not."""
    from pitplan.commands.verification import demand, verify as recalculate
    from planaudit.rules import as_lines

    rules = recalculate(options.folder)
    demand(rules)
    print(*as_lines(rules), sep="\n")


def serve(options: Namespace) -> None:
    from pitplan.core.libraries import demand_modules

    from .. import __version__

    demand_modules({"starlette": "python3-starlette", "uvicorn": "python3-uvicorn"}, "pitplan serve")
    from ..web.server import Proxy, serve

    if (options.host is None) != (options.socket is None):
        given, other = ("--host", "--socket") if options.host else ("--socket", "--host")
        raise PlanError(
            f"{given}: requires {other} too: a reverse proxy has this name, and reaches the server by this socket"
        )
    if options.socket and options.port:
        raise PlanError(f"--port {options.port}: the server listens at --socket {options.socket}: give one of both")
    proxy = Proxy(options.host, options.socket) if options.host else None
    is_opened = not options.no_browser
    serve(options.folder, options.port, __version__, proxy, opens=is_opened, inputs=tuple(options.inputs))


def schema(options: Namespace) -> None:
    from pitplan.config.project import schema as of_project

    print(json.dumps(of_project(), indent=1, default=float))


def completion(options: Namespace) -> None:
    from .completions import script

    print(script(options.shell), end="")


def convert(options: Namespace) -> None:
    import minelib

    for note in minelib.convert(options.files, options.out)["notes"]:
        tell(note)
    print(options.out)
