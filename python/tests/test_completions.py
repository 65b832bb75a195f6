"""The shells' completions of `pitplan`: the files that are installed are those that its parser gives, and each shell completes by them."""

import argparse
import shutil
import subprocess
from pathlib import Path

import pytest
from conftest import ROOT

from pitplan.cli import completions, main
from pitplan.cli.parser import SHELLS, parser

FILES = {
    shell: ROOT / "completions" / name for shell, name in zip(SHELLS, ("pitplan.bash", "_pitplan", "pitplan.fish"))
}


def subparsers(top: argparse.ArgumentParser) -> dict[str, argparse.ArgumentParser]:
    return next(action.choices for action in top._actions if isinstance(action, argparse._SubParsersAction))


def spellings(top: argparse.ArgumentParser) -> set[str]:
    """The options of a parser, without those of one dash."""
    return {word for action in top._actions for word in action.option_strings if word.startswith("--")}


@pytest.fixture
def place(tmp_path) -> Path:
    """A folder with a project, a table and the folder of a plan."""
    for name in ("project.toml", "blocks.csv"):
        (tmp_path / name).touch()
    (tmp_path / "plan").mkdir()
    return tmp_path


def offered(place: Path, *words: str) -> set[str]:
    """What bash offers for the last of these words, as readline divides them, in a folder."""
    script = 'source "$0"; COMP_WORDS=("$@"); COMP_CWORD=$(($# - 1)); _pitplan; printf "%s\\n" "${COMPREPLY[@]}"'
    ran = subprocess.run(
        ["bash", "-c", script, FILES["bash"], "pitplan", *words], cwd=place, capture_output=True, text=True, check=True
    )
    assert ran.stderr == ""
    return {word for word in ran.stdout.splitlines() if word}


@pytest.mark.parametrize("shell", SHELLS)
def test_the_files_are_those_of_the_parser(shell, capsys):
    """After a change: for each shell, pitplan completion SHELL > FILE."""
    assert main(["completion", shell]) == 0
    assert FILES[shell].read_text() == capsys.readouterr().out == completions.script(shell)


def test_bash_completes_subcommands_and_the_options_of_each(place):
    subs = subparsers(parser())
    assert offered(place, "") == {*subs, *spellings(parser()), "-h"}
    assert offered(place, "s") == {name for name in subs if name.startswith("s")}
    for name, sub in subs.items():
        own = spellings(sub) | ({"--out"} if name == "convert" else set())
        assert offered(place, name, "--") == own


@pytest.mark.parametrize(
    ("words", "expected"),
    [
        (["shells", ""], "project.toml plan"),
        (["view", ""], "plan"),
        (["init", ""], "project.toml blocks.csv plan"),
        (["init", "b"], "blocks.csv"),
        (["completion", ""], "bash zsh fish"),
        (["export", "plan", "--to", "v"], "vti vtu"),
        (["export", "--of", ""], "revenue_factor pushback year"),
        (["schedule", "project.toml", "--by", ""], "pushback block"),
        (["scenarios", "project.toml", "--by", ""], "pit block"),
        (["export", "plan", "--out", "b"], "blocks.csv"),
        (["audit", "plan", "--out", ""], "plan"),
        (["report", "plan", "--sensitivity", ""], "plan"),
        (["pit", "project.toml", "--rf", ""], ""),
        (["export", "--to", "csv", ""], "plan"),
        (["shells", "--quiet", ""], "project.toml plan"),
        (["shells", "--set", "economics.mining_cost", "=", "2", ""], "project.toml plan"),
        (["scenarios", "--on", "tcp", ":", "//host", ":", "8786", ""], "project.toml plan"),
        (["verify", "plan", ""], "-h --help"),
        (["scenario", "plan", ""], ""),
        (["convert", ""], "minelib"),
        (["convert", "minelib", "blocks.csv", ""], "project.toml blocks.csv plan"),
        (["nothing", ""], ""),
    ],
)
def test_bash_completes_arguments_and_the_values_of_options(place, words, expected):
    assert offered(place, *words) == {*expected.split()}


def test_a_path_whose_kind_is_unknown_is_an_error():
    """So that each new argument that is a path completes paths."""
    top = argparse.ArgumentParser()
    top.add_argument("place", type=Path, metavar="SOMEWHERE")
    with pytest.raises(KeyError, match="SOMEWHERE"):
        completions.kind_of(top._actions[-1])


@pytest.mark.skipif(not shutil.which("fish"), reason="fish is not installed")
def test_fish_completes_each_subcommand(place):
    for name, sub in subparsers(parser()).items():
        line = f"source {FILES['fish']}; complete -C 'pitplan {name} --'"
        ran = subprocess.run(["fish", "--no-config", "-c", line], cwd=place, capture_output=True, text=True, check=True)
        own = spellings(sub) | ({"--out"} if name == "convert" else set())
        assert {word for word in ran.stdout.split() if word.startswith("--")} == own


@pytest.mark.skipif(not shutil.which("zsh"), reason="zsh is not installed")
def test_zsh_reads_its_file():
    subprocess.run(["zsh", "-n", FILES["zsh"]], check=True, timeout=60)
