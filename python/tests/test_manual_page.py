"""The manual page is that of the parser: each subcommand and option of the command line, and no others."""

import argparse
import re
import runpy
import subprocess
import sys

import pytest
from conftest import ROOT

from pitplan.cli import parser as arguments
from pitplan.core.revenue_factors import BASE_PRICE
from pitplan.export import registry
from pitplan.results import pit_states
from pitplan.solver import choice

PAGE = ROOT / "man" / "pitplan.1"
TOOL = ROOT / "tools" / "make_manual.py"
# convert minelib has a command line of its own (python/minelib), with --out alone.
OF_CONVERT = {"--out"}


def subparsers(parser: argparse.ArgumentParser) -> dict[str, argparse.ArgumentParser]:
    return next(action.choices for action in parser._actions if isinstance(action, argparse._SubParsersAction))


def options(parser: argparse.ArgumentParser) -> set[str]:
    return {word for action in parser._actions for word in action.option_strings if word.startswith("--")}


def test_the_page_has_each_subcommand_and_option_and_no_others():
    top = arguments.parser()
    text = PAGE.read_text().replace("\\-", "-")
    listed = text.partition(".SH SUBCOMMANDS")[2].partition(".SH OPTIONS")[0]
    assert set(re.findall(r'^\.BI "?(\w+)', listed, re.MULTILINE)) == set(subparsers(top))
    known = options(top).union(*(options(sub) for sub in subparsers(top).values())) | OF_CONVERT
    named = text.partition(".SH OPTIONS")[2].partition(".SH EXIT STATUS")[0]
    assert set(re.findall(r"--[a-z][a-z-]*", named)) == known


def test_the_page_is_made_from_the_parser():
    ran = subprocess.run([sys.executable, TOOL, "--check"], capture_output=True, text=True)
    assert (ran.returncode, ran.stdout, ran.stderr) == (0, "", "")


@pytest.fixture
def manual(monkeypatch):
    """The page that the tool makes of a template."""
    monkeypatch.setattr(sys, "path", list(sys.path))
    made = runpy.run_path(str(TOOL))
    return lambda template: made["manual"](made["parts"](), template)


def test_the_page_has_words_of_the_help_and_of_the_template(manual):
    page = manual("@options\n@more smooth\nIt is slow.\n@end\n.SH END\n")
    assert re.search(r"^\\fB\\-\\-smooth\\fR\nSmooth .*\n\[\\fBexport\\fR\]\nIt is slow\.\n\.TP\n", page, re.MULTILINE)
    assert page.endswith(".SH END\n") and "@" not in page
    assert re.search(r"^\\fB\\-\\-to\\fR \\fIFORMAT\\fR\n.* Required\.\n", page, re.MULTILINE)


def test_an_argument_that_may_be_left_out_is_in_brackets(manual):
    lines = manual("@synopsis\n@subcommands\n@end\n").splitlines()
    assert lines.count(".I [FOLDER]") == 1 and '.BI serve " [FOLDER]"' in lines
    assert ".I FOLDER ..." in lines and '.BI verify " FOLDER"' in lines


def test_the_template_cannot_add_to_an_option_that_the_parser_lacks(manual):
    with pytest.raises(SystemExit, match="@options has no @more smoth"):
        manual("@options\n@more smoth\nIt is slow.\n@end\n")


def test_the_page_is_shown_without_warnings():
    shown = subprocess.run(
        ["man", "--warnings", "-l", PAGE],
        capture_output=True,
        text=True,
        env={"MANWIDTH": "100", "PATH": "/usr/bin:/bin"},
    )
    assert shown.returncode == 0 and shown.stderr == ""
    assert "pitplan init [--out FILE] [--role COLUMN=ROLE] [--replace] [--figures]" in shown.stdout
    assert re.search(r"pitplan audit [^A-Z]*\[--out TARGET\] \[--quiet\] --revenue-factor FACTOR FOLDER", shown.stdout)


def test_help_lists_each_subcommand_once():
    top = arguments.parser()
    listed = [line.split()[0] for line in top.format_help().splitlines() if re.match(r"  [a-z]+ +[a-z]", line)]
    assert [line for line in top.format_help().splitlines() if len(line) > 80 and line.startswith("  ")] == []
    assert listed == list(subparsers(top)) and "usage: pitplan [-h] [--version] SUBCOMMAND ..." in top.format_help()
    assert subparsers(top)["shells"].format_usage().startswith("usage: pitplan shells [-h]")


def test_the_words_of_options_are_those_of_the_modules():
    assert arguments.FORMATS == tuple(registry.WRITERS)
    assert arguments.STAGES == (pit_states.FACTOR, pit_states.PUSHBACK, pit_states.YEAR)
    assert arguments.SURFACES == (pit_states.PIT, pit_states.GROUND)
    assert (arguments.SOLVERS, arguments.BASE_PRICE) == (choice.BY, BASE_PRICE)


def test_help_says_what_each_option_is_for_and_which_folder_is_taken(tmp_path):
    subs = subparsers(arguments.parser())
    silent = [
        (name, action.dest)
        for name, sub in subs.items()
        for action in sub._actions
        if not action.help and name != "convert"
    ]
    assert silent == []
    # As --out of the page says, under OPTIONS.
    for name in ("pit", "pushbacks", "schedule", "sensitivity"):
        assert f"(default: {name} in the project's output folder" in " ".join(subs[name].format_help().split())
