"""The form that starts a command: what may be chosen, and the words of the command line that follow."""

from __future__ import annotations

from collections.abc import Mapping
from dataclasses import dataclass
from typing import Optional

from pitplan.config.project import Project, load
from pitplan.errors import PlanError

from .workspace import NotThere, Workspace, is_text

SET, FIGURES, VERIFY, BY_BLOCK, CERTIFICATE = "set", "figures", "verify", "by_block", "certificate"
WRITES = (SET, FIGURES, VERIFY)


@dataclass(frozen=True)
class Command:
    """A subcommand that pages start.

    Attributes
    ----------
    does : str
        What it does, for the planner.
    options : tuple of str
        What may be chosen.
    folder : str, optional
        Its output folder, below that of the project; "." is that folder itself, "" none.
    """

    name: str
    does: str
    options: tuple[str, ...]
    folder: str = ""


COMMANDS = {
    command.name: command
    for command in (
        Command("check", "Check the project and its input, without solving", (SET,)),
        Command("shells", "Find pit shells, and select one by NPV", WRITES, "."),
        Command("pushbacks", "Divide the selected pit into pushbacks", WRITES, "pushbacks"),
        Command("schedule", "Schedule pushbacks, or blocks, by period", (*WRITES, BY_BLOCK, CERTIFICATE), "schedule"),
        Command("sensitivity", "Vary prices, costs, recoveries, slopes and capacity", WRITES, "sensitivity"),
    )
}
# What each option is called on pages.
OPTIONS = {
    FIGURES: "Draw figures",
    VERIFY: "Verify the results independently",
    BY_BLOCK: "By block, without pushbacks",
    CERTIFICATE: "Let pitschedule prove the schedule",
}
# Those that are chosen at first.
CHOSEN = (FIGURES, VERIFY)


class WrongForm(PlanError):
    """A form that cannot be run."""


@dataclass(frozen=True)
class AskedCommand:
    words: tuple[str, ...]
    project: str
    folder: str


def read(form: Mapping[str, str], workspace: Workspace) -> AskedCommand:
    """Returns the command of a form. Raises WrongForm, with the field and the remedy, if the command, the output folder or a number is wrong, and
    NotThere if there is no such project."""
    name = form.get("project", "")
    path = workspace.place(name)
    command = COMMANDS.get(form.get("command", ""))
    if command is None:
        raise WrongForm(f"Command: found {form.get('command', '')!r}, expected one of {', '.join(COMMANDS)}")
    words = [command.name, plain(name)]
    chosen = {option for option in command.options if form.get(option) == "on"}
    folder = ""
    if command.folder:
        is_block = BY_BLOCK in chosen
        folder = folder_of(
            form.get("folder", "").strip(), load(path), "block_schedule" if is_block else command.folder, workspace
        )
        words.append(f"--out={folder}")
    words += [f"--set={it}" for it in settings(form.get(SET, ""))] if SET in command.options else []
    words += ["--no-figures"] if FIGURES in command.options and FIGURES not in chosen else []
    words += ["--no-verify"] if VERIFY in command.options and VERIFY not in chosen else []
    words += ["--by=block"] if BY_BLOCK in chosen else []
    words += ["--certificate"] if CERTIFICATE in chosen else []
    return AskedCommand(tuple(words), name, folder)


def plain(name: str) -> str:
    """Returns a path as a word that is no option."""
    return f"./{name}" if name.startswith("-") else name


def folder_of(given: str, project: Project, below: str, workspace: Workspace) -> str:
    """Returns the output folder of a command by its name: the one that is given, otherwise that of the project's command. Raises WrongForm if it
    leads out of the folder that is served, is hidden, or is a file."""
    path = workspace.root / given if given else project.folder / below
    try:
        resolved = path.resolve()
        is_file = resolved.is_file()
    except (OSError, ValueError, RuntimeError) as error:
        raise WrongForm(f"Output folder: {given[:60]!r}: is no name of a folder: give another name") from error
    if not resolved.is_relative_to(workspace.root) or resolved == workspace.root:
        raise WrongForm(
            f"Output folder: {given or project.folder}: expected a folder below the one that is served: give its path from there"
        )
    if any(part.startswith(".") for part in resolved.relative_to(workspace.root).parts):
        raise WrongForm(f"Output folder: {given}: expected a name that does not begin with a dot")
    if is_file or not is_text(given):
        raise WrongForm(f"Output folder: {given}: is a file: give another name")
    return plain(workspace.name(resolved))


def settings(text: str) -> list[str]:
    """Returns the keys that are set for the run, one a line. Raises WrongForm for a line that sets none."""
    found = [line.strip() for line in text.splitlines() if line.strip()]
    for number, line in enumerate(found, 1):
        if "=" not in line:
            raise WrongForm(
                f"Changed keys, line {number}: found {line!r}, expected KEY = VALUE, such as metals.copper.price = 9000"
            )
    return ["=".join(part.strip() for part in line.split("=", 1)) for line in found]


def default_folder(project: Optional[Project], command: Command, workspace: Workspace) -> str:
    """Returns the output folder that a command has by default; empty if the project cannot be read, or has it elsewhere."""
    try:
        return folder_of("", project, command.folder, workspace) if project and command.folder else ""
    except (PlanError, NotThere):
        return ""
