"""The arguments of `pitplan`, and its subcommands as a table.

Words that other modules define stand here too, so that help needs none of these modules; tests compare them.
"""

from __future__ import annotations

import argparse
from argparse import ArgumentParser, ArgumentTypeError
from collections.abc import Callable, Mapping
from dataclasses import dataclass
from decimal import Decimal, InvalidOperation
from difflib import get_close_matches
from functools import cache
from pathlib import Path
from typing import Any, Optional

from minelib.__main__ import add_arguments as add_minelib
from pitplan.core.revenue_factors import BASE_PRICE, factor_text, of_decimal

from .. import __version__
from . import subcommands

SOLVERS = ("library", "program")
FORMATS = ("table", "csv", "xlsx", "vti", "vtu", "omf", "dm", "dxf", "stl", "obj", "gpkg", "str", "lines")
STAGES = ("revenue_factor", "pushback", "year")
SURFACES = ("pit", "ground")
SHELLS = ("bash", "zsh", "fish")


def where_of(text: str) -> str:
    if text in ("local", "slurm", "parallel") or "://" in text:
        return text
    raise ArgumentTypeError(f'found "{text}", expected local, tcp://host:port, slurm or parallel')


def scheduler_of(text: str) -> str:
    if text == "local" or "://" in text:
        return text
    raise ArgumentTypeError(f'found "{text}", expected local or tcp://host:port')


def factor_of(text: str) -> float:
    try:
        return of_decimal(Decimal(text))
    except (InvalidOperation, ValueError):
        said = f'found "{text}", expected a revenue factor from 0 to 100 with at most three decimals, such as 0.80'
        raise ArgumentTypeError(said) from None


def port_of(text: str) -> int:
    """Returns a port of this machine, or 0 for any free one."""
    if not (text.isascii() and text.isdigit() and int(text) <= 65_535):
        raise ArgumentTypeError(f"found {text!r}, expected a whole number from 0 to 65535")
    return int(text)


def positive(text: str) -> int:
    if not text.isdigit() or int(text) < 1:
        raise ArgumentTypeError(f'found "{text}", expected a whole number from 1 on')
    return int(text)


@dataclass(frozen=True)
class Argument:
    """An argument of a subcommand: its names, and how argparse reads it."""

    names: tuple[str, ...]
    reading: Mapping[str, Any]


def argument(*names: str, help: str, **reading: Any) -> Argument:
    """Returns an argument with a value, such as `--out FOLDER`."""
    return Argument(names, {"help": help, **reading})


def flag(name: str, help: str) -> Argument:
    """Returns an option without a value."""
    return Argument((name,), {"action": "store_true", "help": help})


def folder(help: str) -> Argument:
    return argument("folder", type=Path, metavar="FOLDER", help=help)


def out(default: str) -> Argument:
    return argument("--out", type=Path, metavar="FOLDER", help=f"write into this folder (default: {default})")


def revenue_factor(help: str, **reading: Any) -> Argument:
    """Returns the option that names a shell."""
    return argument("--revenue-factor", "--rf", type=factor_of, metavar="FACTOR", help=help, **reading)


def factor(verb: str) -> Argument:
    default = f"{factor_text(BASE_PRICE)}, the base price"
    text = f"{verb} the pit of this revenue factor, from 0 to 100 with at most three decimals (default: {default})"
    return revenue_factor(text, default=BASE_PRICE)


PROJECT = argument(
    "project",
    type=Path,
    nargs="?",
    default=subcommands.PROJECT,
    metavar="PROJECT",
    help="project file (default: project.toml)",
)
SET = argument(
    "--set",
    action="append",
    default=[],
    metavar="KEY=VALUE",
    help="set a key of the project for this run, such as economics.mining_cost=2.6 or metals.copper.price=9000 (may be repeated)",
)
QUIET = flag("--quiet", "print warnings and errors alone to standard error")
WRITING = (QUIET, flag("--no-verify", "skip the independent recalculation of the results; the report says so"))
NO_FIGURES = flag("--no-figures", "draw no figures, and remove those of an earlier run from the folder")
JSON = flag("--json", "print the main table as JSON, unrounded, with the path of the report or table")
SOLVER = argument(
    "--solver",
    choices=SOLVERS,
    help="solve with the library, in memory, or with the program, on files that it keeps; both give the same results "
    "(default: the one that PITSHELL_LIBRARY or PITSHELL names, otherwise the library if it is installed, otherwise the program)",
)
WORKERS = argument(
    "--workers",
    type=positive,
    metavar="NUMBER",
    help="use this number of processes with --on local, 1 or more (default: one per processor)",
)
GATHERING = (
    revenue_factor(
        "draw the probabilities of the shell of this revenue factor; not by block (default: the project's selected one, otherwise 1.00)"
    ),
    flag("--partial", "write the tables even if some scenarios have no result"),
)
PLAN_FOLDER = folder("output folder of shells, pushbacks or schedule")
SCENARIOS_FOLDER = folder("folder that pitplan scenarios wrote")


@dataclass(frozen=True)
class Subcommand:
    """A subcommand: what it does, its arguments, and what its own help says besides.

    The function of its name in `subcommands` runs it. `nested` adds subcommands of its own.
    """

    does: str
    arguments: tuple[Argument, ...] = ()
    more: str = ""
    nested: Optional[Callable[[ArgumentParser], None]] = None


def solving(default: str, *more: Argument, draws: bool = True) -> tuple[Argument, ...]:
    """Returns the arguments of a subcommand that solves a project and writes into a folder."""
    figures = (NO_FIGURES,) if draws else ()
    return (PROJECT, SET, out(default), *WRITING, JSON, *figures, SOLVER, *more)


def add_convert(sub: ArgumentParser) -> None:
    kinds = sub.add_subparsers(dest="kind", required=True, metavar="KIND", help="minelib")
    text = "convert MineLib's .upit, .cpit, .pcpsp, .prec and .blocks files, as published"
    add_minelib(kinds.add_parser("minelib", help=text, description=text))


SET_UP = {
    "init": Subcommand(
        "write a project for a block model, with each guess marked",
        (
            argument("table", type=Path, metavar="TABLE", help="block model (.csv, .csv.gz, .zip, .omf, .dm)"),
            argument(
                "--out",
                type=Path,
                metavar="FILE",
                help="write the project to this file (default: project.toml next to the table)",
            ),
            argument(
                "--role",
                action="append",
                default=[],
                metavar="COLUMN=ROLE",
                help="give a column a role in place of the guess (repeatable): unused, tonnes, domain, copper:percent ..",
            ),
            flag("--replace", "replace the project if it exists"),
            flag("--figures", "draw histograms of grades and density, a plan and a section, next to the project"),
            flag(
                "--json", "print the columns, notes and warnings as JSON, with the paths of the project and the figure"
            ),
        ),
        "The project runs without editing. Exports of Vulcan, Datamine, Surpac and Leapfrog are recognised. "
        "Print a table of the columns, their nulls, and warnings.",
    ),
    "check": Subcommand(
        "read and validate a project and its files, without solving",
        (PROJECT, SET, QUIET),
        "Print the notes of a run, and write nothing.",
    ),
    "schema": Subcommand(
        "print the JSON Schema of a project",
        (),
        "Name the file in the first line of a project, #:schema project.schema.json, and editors complete and check its keys.",
    ),
    "completion": Subcommand(
        "print the completion script of a shell",
        (argument("shell", choices=SHELLS, help="shell that reads the script"),),
        'The packages install it; otherwise, in bash: eval "$(pitplan completion bash)".',
    ),
    "doctor": Subcommand(
        "print versions, and what is missing with the remedy",
        (flag("--json", "print the parts as JSON"),),
        "Import each library, and solve a mine of two blocks. Exit with status 1 if a part is missing that every command needs.",
    ),
}
PLAN = {
    "prepare": Subcommand(
        "write the solver's input files and plan.json, without solving",
        (PROJECT, SET, out("the project's output folder"), QUIET),
        "plan.json counts what was rounded, removed and clipped.",
    ),
    "shells": Subcommand(
        "find the nested pit shells; write tables, figures and the report", solving("the project's output folder")
    ),
    "pit": Subcommand(
        "solve one pit with the constraints and without",
        solving("pit in the project's output folder", factor("solve"), draws=False),
        "Compare the two pits: the difference in value is the cost of the constraints.",
    ),
    "pushbacks": Subcommand(
        "divide a pit into pushbacks; write tables, figures and the report",
        solving("pushbacks in the project's output folder"),
    ),
    "schedule": Subcommand(
        "schedule pushbacks or blocks by year or period",
        solving(
            "schedule in the project's output folder, or block_schedule",
            argument(
                "--by",
                choices=("pushback", "block"),
                default="pushback",
                help="schedule the benches of pushbacks (pushback), or single blocks (block), each with an upper bound on the NPV "
                "(default: pushback)",
            ),
            flag(
                "--certificate",
                "write problem, schedule and prices of its limits into the folder certificate; pitschedule proves value and bound "
                "if it is installed",
            ),
        ),
        "Write tables, figures and the report. Ctrl-C ends a programme that is being solved, and the best schedule so far is written.",
    ),
}
STUDIES = {
    "sensitivity": Subcommand(
        "vary prices, costs, recoveries, slope angles and capacities",
        solving(
            "sensitivity in the project's output folder",
            argument(
                "--on",
                type=scheduler_of,
                metavar="WHERE",
                help="solve the cases on local (processes of this machine, by Dask) or tcp://host:port (a Dask scheduler) "
                "(default: one process for each processor, without Dask)",
            ),
            WORKERS,
        ),
        "Find the selected shell of each case. Draw tornado and spider plots, and the hill of value if the project has one. "
        "Cases that the folder has already are not solved again.",
    ),
    "compare": Subcommand(
        "compare runs: inputs, results, periods, and an NPV bridge",
        (
            argument(
                "folders",
                type=Path,
                nargs="+",
                metavar="FOLDER",
                help="output folders of shells, or of schedule; the first is the base",
            ),
            out("comparison next to the first folder"),
            QUIET,
            JSON,
            NO_FIGURES,
            flag("--no-verify", "skip the independent recalculation of the steps of the bridge"),
            flag("--no-bridge", "compare the tables only, and run nothing; inputs may have changed since"),
        ),
        "The first folder is the base. For the bridge each changed input is applied in turn, and the plan is made again.",
    ),
    "scenarios": Subcommand(
        "solve realisations of the grades at several price decks",
        (
            *(PROJECT, SET, out("scenarios in the project's output folder, or block_scenarios"), *WRITING),
            *(NO_FIGURES, SOLVER),
            argument(
                "--by",
                choices=("pit", "block"),
                default="pit",
                help="solve the pits of each scenario (pit), or schedule its blocks and make one schedule for all (block) (default: pit)",
            ),
            argument(
                "--on",
                default="local",
                type=where_of,
                metavar="WHERE",
                help="solve on local (processes of this machine) or tcp://host:port (a Dask scheduler), or write lists of jobs for "
                "slurm or parallel (default: local)",
            ),
            WORKERS,
            *GATHERING,
        ),
        "Write inclusion probabilities, or with --by block a schedule of each scenario and one common schedule.",
    ),
    "gather": Subcommand(
        "write tables and figures of scenarios that jobs have solved",
        (SCENARIOS_FOLDER, *WRITING, NO_FIGURES, *GATHERING),
    ),
    "scenario": Subcommand(
        "solve one scenario of a folder",
        (
            SCENARIOS_FOLDER,
            argument("number", type=positive, metavar="NUMBER", help="the scenario, from 1"),
            QUIET,
        ),
        "Exit status: 0, the solver's own 1 to 4, 5 if pitplan refuses, or 75 if the program was killed, so that another try may help. "
        "The lists of jobs of Slurm and GNU parallel call it.",
    ),
}
OUTPUTS = {
    "report": Subcommand(
        "write the report again, with the sensitivity that was run since",
        (
            PLAN_FOLDER,
            QUIET,
            argument(
                "--sensitivity",
                type=Path,
                metavar="FOLDER",
                help="show the sensitivity in this folder (default: sensitivity in the project's output folder, if its inputs are the same)",
            ),
        ),
    ),
    "view": Subcommand(
        "write an interactive 3D page of a plan",
        (
            PLAN_FOLDER,
            argument(
                "--out", type=Path, metavar="FILE", help="write the page to this file (default: view.html in FOLDER)"
            ),
            QUIET,
        ),
        "It shows shells, pushbacks and years, with sections, and the row of a block that you click. Requires libjs-three.",
    ),
    "export": Subcommand(
        "write pits, pushbacks or years for other programs",
        (
            PLAN_FOLDER,
            argument(
                "--out",
                type=Path,
                metavar="PLACE",
                help="write to this file, or for stl and obj of pushbacks or years into this folder (default: in FOLDER, named by the format)",
            ),
            QUIET,
            argument(
                "--to",
                required=True,
                choices=FORMATS,
                metavar="FORMAT",
                help=f"write this format: {FORMATS[0]} (your own table with the revenue factor, pushback and year of each block), "
                f"{', '.join(FORMATS[1:-1])} or {FORMATS[-1]}",
            ),
            factor("export"),
            argument(
                "--of",
                choices=STAGES,
                default=STAGES[0],
                help="export the pit of --revenue-factor (revenue_factor), or the pit at the end of each pushback or year "
                "(default: revenue_factor)",
            ),
            argument(
                "--surface",
                choices=SURFACES,
                default=SURFACES[0],
                help="with dxf, stl and obj: export the mined blocks (pit), or the open surface of the ground with the pit in it (ground) "
                "(default: pit)",
            ),
            flag("--smooth", "smooth the steps of blocks by half a block at most; requires --surface ground"),
        ),
    ),
    "audit": Subcommand(
        "write a folder with which others can check one shell",
        (
            PLAN_FOLDER,
            argument("--out", type=Path, metavar="TARGET", help="write this folder (default: audit-FACTOR in FOLDER)"),
            QUIET,
            revenue_factor("write the shell of this revenue factor", required=True),
        ),
    ),
    "verify": Subcommand(
        "recalculate the results of a folder independently",
        (folder("output folder of shells, pit, pushbacks, schedule, sensitivity, scenarios or gather"),),
        "Print the differences found; exit with status 1 if there are any.",
    ),
}
OTHER_FORMATS = {
    "convert": Subcommand("convert published files of MineLib to those of pitshell", nested=add_convert),
}
BROWSER = {
    "serve": Subcommand(
        "show and run the projects of a folder in the browser",
        (
            argument(
                "folder",
                nargs="?",
                type=Path,
                default=Path("."),
                metavar="FOLDER",
                help="folder with projects (default: this one)",
            ),
            argument(
                "--port", type=port_of, default=0, metavar="N", help="port, 0 to 65535 (default: 0, any free one)"
            ),
            flag("--no-browser", "print the address only"),
            argument(
                "--inputs",
                type=Path,
                action="append",
                default=[],
                metavar="FOLDER",
                help="folder, besides FOLDER, in which the inputs of its projects may lie (repeatable)",
            ),
            argument(
                "--host",
                metavar="NAME",
                help="name, or NAME:PORT, by which browsers reach a reverse proxy over HTTPS; requires --socket",
            ),
            argument(
                "--socket",
                type=Path,
                metavar="FILE",
                help="listen at this Unix socket, for the proxy, in place of a port; requires --host",
            ),
        ),
        "Only this machine reaches it, by the address with the token that is printed, unless a reverse proxy shows it to a team. "
        "Jobs go on after Ctrl-C.",
    ),
}
# As the help lists them.
GROUPS = {
    "set up": SET_UP,
    "plan": PLAN,
    "studies": STUDIES,
    "outputs": OUTPUTS,
    "other formats": OTHER_FORMATS,
    "browser": BROWSER,
}

DESCRIPTION = (
    "Plan an open-pit mine: from a block model, prices, costs and slope angles to pit shells, pushbacks and schedules."
)
START = "Start with a block model: pitplan init model.csv"
# The column at which the words on a subcommand begin.
INDENT = 15


class Parser(argparse.ArgumentParser):
    """A parser whose errors name the subcommand, and the word that was probably meant."""

    def parse_args(self, args: Any = None, namespace: Any = None) -> Any:
        """Parses all arguments. An unknown one is an error of its subcommand."""
        options, unknown = self.parse_known_args(args, namespace)
        if unknown:
            sub: Parser = getattr(options, "parser", self)
            near = get_close_matches(unknown[0].partition("=")[0], sub._option_string_actions, 1)
            meant = f": did you mean {near[0]}?" if near else f" (see {sub.prog} -h)"
            sub.error(f"unknown argument {unknown[0]}{meant}")
        return options

    def _check_value(self, action: argparse.Action, value: Any) -> None:
        """Raises ArgumentError for a word that is not one of the choices, with the choice that is most like it."""
        choices = [str(it) for it in action.choices or ()]
        near = get_close_matches(str(value), choices, 1)
        if near and value not in choices:
            raise argparse.ArgumentError(action, f"unknown choice {value}: did you mean {near[0]}?")
        super()._check_value(action, value)


@cache
def parser() -> Parser:
    """Returns the parser of the whole command line, which is made once for all calls in a process."""
    usage = "pitplan [-h] [--version] SUBCOMMAND ..."
    description = f"{DESCRIPTION}\n{START}"
    top = Parser(
        prog="pitplan", usage=usage, description=description, formatter_class=argparse.RawDescriptionHelpFormatter
    )
    top.add_argument("--version", action="version", version=f"pitplan {__version__}", help="print the version and exit")
    actions = top.add_subparsers(
        dest="command", required=True, metavar="SUBCOMMAND", help=argparse.SUPPRESS, prog=top.prog
    )
    lines: list[str] = []
    for title, group in GROUPS.items():
        lines += ["", f"{title}:"]
        for name, it in group.items():
            lines.append(f"  {name:<{INDENT - 2}}{it.does}")
            add(
                actions.add_parser(name, description=f"{it.does[0].upper()}{it.does[1:]}. {it.more}".rstrip()), name, it
            )
    top.epilog = "\n".join(lines[1:])
    return top


def add(sub: Parser, name: str, subcommand: Subcommand) -> None:
    for it in subcommand.arguments:
        sub.add_argument(*it.names, **it.reading)
    if subcommand.nested is not None:
        subcommand.nested(sub)
    sub.set_defaults(run=getattr(subcommands, name), parser=sub)
