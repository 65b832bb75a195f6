"""The examples of README, of the guide and of the manual page, run as they stand there."""

import pathlib
import re
import shutil
import subprocess

import pytest
from conftest import PROGRAM, TOP


def told_by_shell(command: str, folder: pathlib.Path) -> str:
    ran = subprocess.run(["sh", "-c", command], cwd=folder, capture_output=True, text=True, check=True, timeout=60)
    return ran.stdout + ran.stderr


def runs_in(block: str) -> list[tuple[str, str]]:
    """The commands of a block, behind `$ `, and what each shows."""
    return [(piece.partition("\n")[0], piece.partition("\n")[2]) for piece in re.split(r"^\$ ", block, flags=re.MULTILINE)[1:]]


def test_the_first_example_of_readme(tmp_path: pathlib.Path) -> None:
    section = (TOP / "README.md").read_text().partition("\n## A first answer\n")[2].partition("\n## ")[0]
    commands, shown = re.findall(r"^```(?:sh)?\n(.*?)^```", section, re.MULTILINE | re.DOTALL)
    assert told_by_shell(re.sub(r"^pitshell", str(PROGRAM), commands, flags=re.MULTILINE), tmp_path) == shown
    for name in ("mine.upit", "mine.prec"):
        assert (tmp_path / name).read_text() == (TOP / "examples" / "first_pit" / name).read_text()


def blocks_of_guide() -> list[str]:
    """The blocks of the guide, as somebody types them who has the program and the checkers on the path."""
    text = (TOP / "docs" / "GUIDE.md").read_text()
    blocks = [block for _, block in re.findall(r"^```(\w*)\n(.*?)^```$", text, re.MULTILINE | re.DOTALL)]
    as_here = {r"\bpitshell (?=solve|shells|check)": f"{PROGRAM} ", r"^(?=check_certificate)": f"{TOP / 'tools'}/"}
    for pattern, words in as_here.items():
        blocks = [re.sub(pattern, words, block, flags=re.MULTILINE) for block in blocks]
    return blocks


@pytest.fixture
def with_examples(tmp_path: pathlib.Path) -> pathlib.Path:
    shutil.copytree(TOP / "examples", tmp_path / "examples")
    return tmp_path


def test_the_shells_of_the_guide(with_examples: pathlib.Path) -> None:
    _, command, shown = blocks_of_guide()[:3]
    assert told_by_shell(command, with_examples).startswith(shown)


def test_the_certificate_of_the_guide_is_confirmed_twice(with_examples: pathlib.Path) -> None:
    (block,) = [it for it in blocks_of_guide() if "--certificate mine.cert >" in it]
    assert told_by_shell(block, with_examples) == "yes\nyes\n"


def test_the_other_runs_of_the_guide(with_examples: pathlib.Path) -> None:
    runs = [run for block in blocks_of_guide() for run in runs_in(block)]
    assert [told_by_shell(command, with_examples) for command, _ in runs] == [shown for _, shown in runs]
    assert len(runs) == 3


def test_the_example_of_the_manual(tmp_path: pathlib.Path) -> None:
    text = (TOP / "man" / "pitshell.1").read_text()
    block = text.partition(".SH EXAMPLES")[2].partition(".nf\n.RS\n")[2].partition(".RE")[0]
    runs = runs_in(block.replace("\\-", "-").replace("\\e", "\\"))
    assert len(runs) == 4
    for command, shown in runs:
        assert told_by_shell(re.sub(r"^pitshell", str(PROGRAM), command), tmp_path) == shown


def made(*words: object, folder: pathlib.Path) -> tuple[int, str]:
    """The status of a tool that makes mines, and its last line on standard error."""
    ran = subprocess.run([str(word) for word in words], cwd=folder, capture_output=True, text=True, timeout=60)
    return ran.returncode, "".join(ran.stderr.splitlines()[-1:])


def test_mines_are_made_in_new_folders_and_refused_in_a_sentence(tmp_path: pathlib.Path) -> None:
    mine, table = TOP / "tools" / "make_mine.py", TOP / "tools" / "make_table.py"
    assert made(mine, "--blocks", 27, "--out", "a/b/mine", folder=tmp_path) == (0, "")
    assert sorted(path.name for path in (tmp_path / "a" / "b").iterdir()) == ["mine.blocks", "mine.prec", "mine.upit"]
    assert made(mine, "--blocks", 0, "--out", "mine", folder=tmp_path) == (2, "make_mine.py: error: --blocks is a number from 1 on")
    said = "make_table.py: error: --columns, --rows and --levels are numbers from 1 on"
    assert made(table, "--rows", 0, "--out", "t.csv", folder=tmp_path) == (2, said)
    (tmp_path / "file").touch()
    for tool in (mine, table):
        status, last = made(tool, "--out", "file/x", folder=tmp_path)
        assert status == 1 and last in ("file: File exists", "file/x: Not a directory")
