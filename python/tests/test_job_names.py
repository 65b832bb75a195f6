"""Folders of jobs with hostile names: whichever shell or scheduler reads the scripts, the folder comes out whole and nothing else is run."""

import os
import shutil
import subprocess
from pathlib import Path
from types import SimpleNamespace

import pytest

from pitplan import PlanError
from pitplan.studies.scenarios import run as scenario_run

# A name that a shell, GNU parallel or Slurm could take apart; those with touch show it by a file.
NAMES = [
    *("my plan", "two  blanks", " before", "behind ", "a\ttab", "~", "-rf", "#comment", "a=b", "*", "?", "[a-z]", "!!"),
    *(
        "it's",
        'a"quote',
        "a'b\"c",
        "a\\b",
        "\\",
        "$HOME",
        "$(touch RUN)",
        "`touch RUN`",
        "a;touch RUN",
        "a|touch RUN",
        "a&touch RUN",
        "a||touch RUN",
    ),
    *("a>RUN", "a<RUN", "(touch RUN)", "{}", "{1}{.}{/}{#}{%}", '{= system("touch RUN") =}', "Größe 1:5"),
]
# Four folders within each other, of which no two leave a quote open.
NESTED = ["/".join(NAMES[number::8]) for number in range(8)]
SCENARIOS = [SimpleNamespace(number=1), SimpleNamespace(number=2)]


def test_there_are_as_many_names_as_are_promised():
    assert len(set(NAMES)) == 32


@pytest.fixture
def written(tmp_path, monkeypatch):
    """Writes the scripts of a folder; gives the one to start. Python is one that notes what it is handed."""
    python = tmp_path / "python"
    python.write_text('#!/bin/sh\nprintf "%s\\n" "$@" "" >> "$NOTED"\n')
    python.chmod(0o755)
    monkeypatch.setattr(scenario_run.sys, "executable", str(python))
    monkeypatch.setattr(scenario_run.choice, "place_of", lambda solver: ("PITSHELL", Path("/bin/true")))
    (tmp_path / "here").mkdir()

    def write(kind, name):
        folder = tmp_path / name
        folder.mkdir(parents=True, exist_ok=True)
        return scenario_run.write(kind, folder, SCENARIOS, None)

    return write


def run(place, script, *options, **variables):
    """What Python was handed, one list a call, by a script that is started in an empty folder, where nothing may appear."""
    here, noted = place / "here", place / "noted"
    environment = {**os.environ, **variables, "NOTED": str(noted)}
    subprocess.run(
        ["sh", str(script), *options], cwd=here, env=environment, check=True, capture_output=True, timeout=60
    )
    assert list(here.iterdir()) == [] and not list(place.rglob("RUN"))
    return sorted(call.splitlines() for call in noted.read_text().split("\n\n")[:-1])


@pytest.mark.skipif(not shutil.which("parallel"), reason="needs the Debian package parallel")
@pytest.mark.parametrize("name", NESTED)
def test_gnu_parallel_runs_the_scenarios_of_each_folder(tmp_path, written, name):
    start = written("parallel", name)
    folder = str(tmp_path / name)
    assert run(tmp_path, start, "--jobs", "1") == [
        ["-P", "-m", "pitplan", "gather", folder],
        ["-P", "-m", "pitplan", "scenario", folder, "1"],
        ["-P", "-m", "pitplan", "scenario", folder, "2"],
    ]
    assert sorted(it.name for it in (tmp_path / name).iterdir()) == [
        "joblog.txt",
        "jobs.txt",
        "scenario.sh",
        "start.sh",
    ]


def slurms_words(line):
    """The words of an #SBATCH line as sbatch reads them: quotes group, a backslash quotes the next sign, # begins a comment."""
    word, words, quote, escaped = "", [], "", False
    for sign in line.removeprefix("#SBATCH") + " ":
        if escaped:
            word, escaped = word + sign, False
        elif sign == "\\":
            escaped = True
        elif sign == quote:
            quote = ""
        elif not quote and sign in "\"'":
            quote = sign
        elif not quote and sign == "#":
            break
        elif not quote and sign.isspace():
            words, word = words + [word] * bool(word), ""
        else:
            word += sign
    return words


@pytest.mark.parametrize("name", NAMES)
def test_slurm_runs_the_scenarios_of_each_folder(tmp_path, written, name):
    if set(name) & set("%\\"):
        with pytest.raises(
            PlanError,
            match="a folder of jobs may not have a line's end, a % or a backslash in its name: name another by --out",
        ):
            written("slurm", name)
        return
    start = written("slurm", name)
    folder = tmp_path / name
    words = [
        slurms_words(line) for line in (folder / "array.sbatch").read_text().splitlines() if line.startswith("#SBATCH")
    ]
    assert (
        [f"--output={folder}/slurm-%a.log"] in words and ["--array=1-2"] in words and all(len(it) == 1 for it in words)
    )
    assert f"--output={folder}/gather.log" in slurms_words((folder / "gather.sbatch").read_text().splitlines()[3])
    (tmp_path / "sbatch").write_text('#!/bin/sh\nprintf "%s\\n" "$@" "" >> "$NOTED"\necho 7\n')
    (tmp_path / "sbatch").chmod(0o755)
    assert run(tmp_path, start, PATH=f"{tmp_path}:{os.environ['PATH']}") == [
        ["--dependency=afterany:7", str(folder / "gather.sbatch")],
        ["--parsable", str(folder / "array.sbatch")],
    ]
    (tmp_path / "noted").unlink()
    assert run(tmp_path, folder / "array.sbatch", SLURM_ARRAY_TASK_ID="2") == [
        ["-P", "-m", "pitplan", "scenario", str(folder), "2"]
    ]
    (tmp_path / "noted").unlink()
    assert run(tmp_path, folder / "gather.sbatch") == [["-P", "-m", "pitplan", "gather", str(folder)]]


def test_names_that_no_script_can_hold_are_refused(written):
    for kind in ("slurm", "parallel"):
        with pytest.raises(
            PlanError,
            match=r"two\\nlines': a folder of jobs may not have a line's end.* in its name: name another by --out",
        ):
            written(kind, "two\nlines")
        with pytest.raises(PlanError, match="a folder of jobs must have a name in UTF-8: name another by --out"):
            written(kind, os.fsdecode(b"lat\xedn"))
    assert written("parallel", "50 %").exists()


def test_a_module_where_a_script_is_started_is_not_run(tmp_path, monkeypatch):
    monkeypatch.setattr(scenario_run.choice, "place_of", lambda solver: ("PITSHELL", Path("/bin/true")))
    scenario_run.write("parallel", tmp_path, SCENARIOS, None)
    for name in ("pandas.py", "pitplan/__init__.py", "encodings/__init__.py"):
        (tmp_path / name).parent.mkdir(exist_ok=True)
        (tmp_path / name).write_text("import sys\nsys.exit('the module of the folder was run')\n")
    ran = subprocess.run(["sh", tmp_path / "scenario.sh", "1"], cwd=tmp_path, capture_output=True, text=True)
    assert (
        ran.stderr == f"pitplan: {tmp_path / 'scenarios.json'}: cannot be read: run pitplan scenarios first\n"
        and ran.returncode == 5
    )
