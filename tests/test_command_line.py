"""What the command line takes, what it refuses with status 2, and the words of help."""

import pathlib
import re
import shutil
import subprocess

import pytest

from conftest import TOP, Mine

# What the program says of itself and of mistakes: each command behind a dollar sign, and then its status, and all that it says.
STORED = pathlib.Path(__file__).with_name("stored_words.txt")
SOLVE = ["solve", "--model", "mine.upit", "--prec", "mine.prec"]
SHELLS = ["shells", "--blocks", "mine.blocks", "--prec", "mine.prec", "--revenue", "0", "--cost", "1", "--factors", "1000"]


@pytest.mark.parametrize(
    ("words", "line"),
    [
        ([*SOLVE, "--mode", "Single"], "pitshell: mode is single, parts or shared\n"),
        ([*SHELLS, "--mode", ""], "pitshell: mode is single, parts or shared\n"),
        ([*SOLVE, "--mode", "parts", "--budget", "1"], "pitshell: parts takes no budget\n"),
        ([*SHELLS, "--mode", "parts", "--budget", "1"], "pitshell: parts takes no budget\n"),
    ],
)
def test_words_that_do_not_go_together(mine: Mine, words: list[str], line: str) -> None:
    before = {file.name for file in mine.folder.iterdir()}
    assert mine.run(*words) == (2, "", line)
    assert {file.name for file in mine.folder.iterdir()} == before


@pytest.mark.parametrize(
    "words",
    [
        [],
        ["dig"],
        ["solve"],
        ["solve", "--model", "mine.upit"],
        [*SOLVE, "--prec", "mine.prec"],
        [*SOLVE, "--modle", "mine.upit"],
        [*SOLVE, "--budget", "many"],
        [*SOLVE, "--budget", "-1"],
        [*SOLVE, "mine.upit"],
        ["check", "--model", "mine.upit", "--prec", "mine.prec"],
        [*SHELLS, "--fixed", "mine.prec"],
        [*SOLVE, "--fixed"],
        [*SOLVE, "--pit"],
        [*SHELLS, "--pit", "least", "--pit", "greatest"],
    ],
)
def test_mistakes_write_nothing_to_standard_output(mine: Mine, words: list[str]) -> None:
    status, out, err = mine.run(*words)
    assert (status, out) == (2, "")
    assert err


# The first numbers outside each range; other tests give the last ones inside. A budget may be any number of 64 bits.
OUTSIDE = [
    (SOLVE, "--workers", "0", "0 is not in 1..=64"),
    (SOLVE, "--workers", "65", "65 is not in 1..=64"),
    (SOLVE, "--progress", "0", "0 is not in 1..=86400"),
    (SOLVE, "--progress", "86401", "86401 is not in 1..=86400"),
    (SOLVE, "--budget", "18446744073709551616", "number too large to fit in target type"),
    (SHELLS, "--revenue", "64", "64 is not in 0..=63"),
    (SHELLS, "--cost", "64", "64 is not in 0..=63"),
    (SHELLS, "--workers", "65", "65 is not in 1..=64"),
    (SHELLS, "--budget", "18446744073709551616", "number too large to fit in target type"),
]


@pytest.mark.parametrize(("call", "option", "number", "line"), OUTSIDE)
def test_a_number_outside_its_range_is_refused(mine: Mine, call: list[str], option: str, number: str, line: str) -> None:
    place = call.index(option) if option in call else len(call)
    status, out, err = mine.run(*call[:place], option, number, *call[place + 2 :])
    assert (status, out) == (2, "")
    assert err.startswith(f"error: invalid value '{number}' for '{option} ") and err.splitlines()[0].endswith(line)


def stored_words() -> dict[str, str]:
    told = re.split(r"^\$ pitshell ?", STORED.read_text(), flags=re.MULTILINE)[1:]
    return dict(text.split("\n", 1) for text in told)


@pytest.mark.parametrize("command", stored_words())
def test_help_and_mistakes_in_their_stored_words(mine: Mine, command: str) -> None:
    status, out, err = mine.run(*command.split())
    assert f"status {status}\n{out}{err}" == stored_words()[command]
    assert not out or not err


def test_a_mistyped_option_is_told_the_closest_one(mine: Mine) -> None:
    assert "  tip: a similar argument exists: '--model'\n" in mine.run("solve", "--modle", "mine.upit")[2]
    assert "  tip: a similar argument exists: '--mode'\n" in mine.run(*SOLVE, "--mod", "single")[2]
    assert "  tip: a similar argument exists: '--fixed'\n" in mine.run(*SOLVE, "--fixd", "mine.fixed")[2]


@pytest.mark.parametrize("words", [["--factors", "-1"], ["--factors=-1"]])
def test_a_negative_factor_is_refused_however_it_is_given(mine: Mine, words: list[str]) -> None:
    assert mine.run(*SHELLS[:-2], *words) == (1, "", "error 5: not a whole number in factors item 1\n")


def test_an_argument_that_is_no_text(mine: Mine) -> None:
    words = ["solve", "--model", b"mine\xff.upit", "--prec", "mine.prec"]
    assert mine.run(*words) == (2, "", "pitshell: an argument is not UTF-8\n")


@pytest.mark.parametrize("words", [["--help"], ["help"], ["solve", "--help"], ["shells", "--help"], ["check", "--help"], ["replay", "--help"]])
def test_help_goes_to_standard_output_and_names_the_statuses(mine: Mine, words: list[str]) -> None:
    status, out, err = mine.run(*words)
    assert (status, err) == (0, "")
    assert "Usage: pitshell" in out
    for line in ("0  the answer was written", "2  the command line is wrong", "3  the budget is used up", "4  the answer is no"):
        assert line in out


@pytest.mark.parametrize(
    ("subcommand", "options"),
    [
        ("solve", ["--model", "--prec", "--fixed", "--mode", "--workers", "--budget", "--pit", "--journal", "--certificate", "--progress", "--stats"]),
        ("shells", ["--blocks", "--prec", "--revenue", "--cost", "--factors", "--mode", "--workers", "--budget", "--pit", "--progress", "--stats"]),
        ("check", ["--model", "--prec", "--fixed", "--certificate"]),
        ("replay", ["--model", "--prec", "--fixed", "--journal"]),
    ],
)
def test_help_names_each_option(mine: Mine, subcommand: str, options: list[str]) -> None:
    _, out, _ = mine.run(subcommand, "--help")
    named = {word for word in out.split() if word.startswith("--")}
    assert named >= set(options)
    assert named <= {*options, "--help"}


def test_version_is_the_release(mine: Mine) -> None:
    assert mine.run("--version") == (0, "pitshell 0.2.0\n", "")
    assert "\n## [0.2.0]" in (TOP / "CHANGELOG.md").read_text()


@pytest.mark.skipif(not shutil.which("rt"), reason="no toolchain here")
def test_what_was_built_names_the_toolchain() -> None:
    told = (TOP / "build" / "pitshell.version").read_text().splitlines()
    toolchain = subprocess.run(["rt", "version"], capture_output=True, text=True, check=True).stdout.strip()
    assert told[0] == "pitshell 0.2.0"
    assert told[-1] == f"proved with {toolchain}"
