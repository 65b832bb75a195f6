"""The library and the program write the same; which of them solved is told, and an answer that one has begun no other goes on with."""

import json
import os
import signal
import subprocess
import sys
import time
from dataclasses import replace
from decimal import Decimal
from pathlib import Path

import numpy as np
import pytest
from conftest import PROJECT, ROOT, files_in, rows
from helpers.constraints import FIXED_SECTION, ores_and_fixed, with_section
from helpers.scenarios import COLUMNS, PRICES, UPRIGHT, pillar
from helpers.verified import TEXT, deposit
from helpers.verified_scenarios import SETS, simulated
from helpers.writings import PLAIN, UNVERIFIED

import pitplan
from pitplan import PlanError, ProgramError, load
from pitplan.blockmodel import reader
from pitplan.cli import main
from pitplan.commands import drawing
from pitplan.core.atomic_files import hash_of
from pitplan.precedences import PrecedenceRows
from pitplan.solver import choice, library, mine_files, program
from pitplan.solver.problem import counted_rows
from pitplan.studies import sensitivity
from pitplan.studies.scenarios import prepare, store, worker

pitshell = pytest.importorskip("pitshell", reason="make library builds it")

EXAMPLES = ROOT / "examples"
# What tells the solver, or is the program's own.
RECORDS = {"plan.json", "scenarios.json", "sensitivity.json", "report.html", "tables/schedule.xlsx"}
RECORDS |= {"solver/starts.npy", "solver/needs.npy", *mine_files.IN_FOLDER}
# Folders whose files are compared by themselves, or are the record of a run.
OWN = ("cases/", "done/", "failed/", "realisations/", "audit-")


def written(folder: Path) -> dict[str, bytes]:
    """The files of a folder that must be the same by either solver."""
    return {name: held for name, held in files_in(folder).items() if name not in RECORDS and not name.startswith(OWN)}


def by_both(tmp_path: Path, command: str, project: Path, *options: str) -> tuple[Path, Path]:
    """The folders of a command that the library and the program have solved; their files are the same."""
    places = {by: tmp_path / f"{command}-{by}" for by in choice.BY}
    for by, place in places.items():
        assert main([command, str(project), "--out", str(place), "--solver", by, "--quiet", *options]) == 0
    found = {by: written(place) for by, place in places.items()}
    assert found["library"].keys() == found["program"].keys()
    assert [name for name, text in found["library"].items() if text != found["program"][name]] == []
    return places["library"], places["program"]


def without_solver(path: Path) -> dict:
    """A record without what names the solver or its files."""
    record = json.loads(path.read_text())
    for told in (record, record.get("shells", {})):
        told.pop("solver", None)
    record["files"] = {name: digest for name, digest in record["files"].items() if name not in mine_files.IN_FOLDER}
    return record


CONE = ('pattern = "1:5"', "azimuths = [[0, 42], [120, 55]]")


@pytest.fixture(params=["free", "fixed"])
def hill(plan_folder, request):
    """The project of a hill of 475 blocks with two metals, without constraints and with them."""
    text = TEXT if request.param == "fixed" else TEXT.partition("\n[constraints]")[0]
    return plan_folder(deposit(), text, CONE)


@pytest.mark.slow
def test_figures_are_the_same_to_the_byte(tmp_path, plan_folder):
    arrays, _ = by_both(tmp_path, "shells", plan_folder(deposit(), TEXT, CONE), "--no-verify")
    assert {"figures/plans.png", "figures/sections.png"} <= written(arrays).keys()


def test_shells_are_the_same_to_the_byte(tmp_path, hill):
    arrays, texts = by_both(tmp_path, "shells", hill, "--no-figures")
    assert {"tables/blocks.csv", "tables/shells.csv", "tables/years.csv"} <= written(arrays).keys()
    assert without_solver(arrays / "plan.json") == without_solver(texts / "plan.json")
    fixed = (
        {"solver/mine.fixed", "solver/rest.blocks", "solver/rest.prec", "solver/pit.upit"}
        if load(hill).constraints
        else set()
    )
    assert set(mine_files.of_program(texts)) == {
        "solver/mine.blocks",
        "solver/mine.upit",
        "solver/mine.prec",
        "solver/shells.txt",
        *fixed,
    }
    assert mine_files.of_program(arrays) == ()
    told = [json.loads((place / "plan.json").read_text())["shells"]["solver"] for place in (arrays, texts)]
    hashes = [hash_of(file) for file in (pitshell.LIBRARY, program.program())]
    assert [(it["by"], it["sha256"]) for it in told] == [("library", hashes[0]), ("program", hashes[1])]
    assert all(it["proved"] for it in told)
    for place, it in zip((arrays, texts), told):
        page = (place / "report.html").read_text()
        assert (
            it["sha256"] in page
            and f"Proved for the {it['by']}, given" in page
            and ("solver/mine.prec" in page) == (it["by"] == "program")
        )


def test_the_report_of_a_solver_that_no_build_recorded_claims_no_proof(tmp_path, hill, monkeypatch):
    copy = tmp_path / "pitshell"
    copy.write_bytes(program.program().read_bytes() + b"\n")
    copy.chmod(0o755)
    monkeypatch.setenv("PITSHELL", str(copy))
    assert (
        main(["shells", str(hill), "--out", str(tmp_path / "out"), "--solver", "program", "--quiet", "--no-figures"])
        == 0
    )
    page = " ".join((tmp_path / "out" / "report.html").read_text().split())
    said = f"Not known to be proved: no build of this installation recorded the SHA-256 of the program, {hash_of(copy)[:12]}"
    assert said in page and "Proved for the" not in page and "Not proved either: how" in page


def test_a_pit_with_fixed_blocks_and_without_is_the_same(tmp_path, plan_folder):
    arrays, _ = by_both(tmp_path, "pit", plan_folder(deposit(), TEXT, CONE))
    assert {"tables/blocks.csv", "tables/pits.csv", "project-as-run.toml"} == written(arrays).keys()


@pytest.mark.slow
def test_pushbacks_and_their_schedule_are_the_same(tmp_path, hill):
    """Of a division that asks the solver again and again for shells of other factors."""
    with open(hill, "a") as file:
        file.write("\n[pushbacks]\ncount = 3\nmin_mining_width = 20\n[schedule]\nbench_lag = 1\n")
    arrays, _ = by_both(tmp_path, "schedule", hill, "--no-figures")
    assert {"tables/pushbacks.csv", "tables/schedule.csv", "schedule.json", "tables/blocks.csv"} <= written(
        arrays
    ).keys()


def test_a_sensitivity_is_the_same_and_keeps_answers_apart(plan_folder, tmp_path):
    text = with_section(FIXED_SECTION) + '\n[sensitivity]\nchanges = [-0.1]\nparameters = ["price", "slopes"]\n'
    path = plan_folder(ores_and_fixed(), text, UPRIGHT)
    arrays, texts = by_both(tmp_path, "sensitivity", path, "--no-figures")
    assert {"tables/blocks.csv", "tables/sensitivity.csv"} <= written(arrays).keys()
    answers = [{it.name for it in (place / "cases").iterdir()} for place in (arrays, texts)]
    assert len(answers[0]) == len(answers[1]) == 3 and not answers[0] & answers[1]


def test_scenarios_are_the_same_and_keep_answers_apart(tmp_path, plan_folder):
    pytest.importorskip("distributed", reason="needs the Debian package python3-distributed")
    path = plan_folder(simulated(), TEXT + '[scenarios]\ncolumns = { copper = "cu_*" }\n' + SETS, CONE)
    arrays, texts = by_both(tmp_path, "scenarios", path, "--workers", "1", "--no-figures")
    assert {
        "tables/probability.csv",
        "tables/scenarios.csv",
        "tables/quantiles.csv",
        "gathered.json",
        "tables/blocks.csv",
    } <= written(arrays).keys()
    answers = [{it.name for it in (place / "done").iterdir()} for place in (arrays, texts)]
    assert len(answers[0]) == len(answers[1]) > 3 and not answers[0] & answers[1]
    assert (
        (arrays / "solver/needs.npy").is_file()
        and not (arrays / "solver/mine.prec").exists()
        and (texts / "solver/mine.prec").is_file()
    )


def test_rows_are_the_lines_of_the_program_s_files(tmp_path, hill):
    """Of the whole mine, and of what fixed blocks leave of it."""
    plan = pitplan.Plan.from_project(hill)
    written = mine_files.write(plan, tmp_path)
    for precedences, name in (
        (plan.precedences, "mine.prec"),
        (plan.precedences_of_rest, "rest.prec" if plan.settled else "mine.prec"),
    ):
        found, pairs = counted_rows(precedences, plan)
        lines = (list(map(int, line.split())) for line in open(tmp_path / name))
        listed = {block: needed for block, _, *needed in lines}
        starts, ends = found.starts[:-1].tolist(), found.starts[1:].tolist()
        assert [listed.get(node, []) for node in range(len(starts))] == [
            found.precedences[a:b].tolist() for a, b in zip(starts, ends)
        ]
        assert pairs == written or plan.settled
        assert found.starts.dtype == found.precedences.dtype == np.uint32


def test_too_many_needs_are_refused_before_anything_is_solved(plan_folder, tmp_path, monkeypatch):
    plan = pitplan.Plan.from_project(replace(load(plan_folder(deposit(), TEXT, CONE)), solver="library"))
    counted = counted_rows(plan.precedences, plan)[1]
    pairs = counted.written + counted.processing
    for module in ("pitplan.solver.problem", "pitplan.plan"):
        monkeypatch.setattr(f"{module}.MOST_PAIRS", pairs)
    assert plan.shells().table["blocks"].sum() > 0
    for module in ("pitplan.solver.problem", "pitplan.plan"):
        monkeypatch.setattr(f"{module}.MOST_PAIRS", pairs - 1)
    said = rf"{pairs:,} precedences, and the solver takes at most {pairs - 1:,}: reduce \[slopes\] precedence_benches, or a smaller model"
    with pytest.raises(PlanError, match=said):
        plan.shells().solution


def test_arrays_are_handed_over_as_they_are(monkeypatch):
    """What is held twice would be tens of megabytes of a large mine."""
    given = []
    monkeypatch.setattr(pitshell._nesting._library, "shells", lambda *words: given.extend(words) or 0)
    revenue, cost = np.array([0, 5], dtype=np.int64), np.array([3, 0], dtype=np.int64)
    listed = PrecedenceRows(np.array([0, 0, 1], dtype=np.uint32), np.array([0], dtype=np.uint32))
    library.shells((revenue, cost), listed, (0.5, 1.0))
    for array in (revenue, cost, listed.starts, listed.precedences):
        assert any(array is it for it in given)


def test_shells_of_arrays_by_hand():
    """Ore of 5 under waste of 3: mined at 1.0 and worth 2 there; at 0.7 it is worth half a unit."""
    millions = np.array([[0, 5_000_000], [3_000_000, 0]])
    listed = PrecedenceRows(np.array([0, 0, 1], dtype=np.uint32), np.array([0], dtype=np.uint32))
    found = library.shells((millions[0], millions[1]), listed, (0.5, 0.7, 1.0))
    assert found.entry.tolist() == [0.7, 0.7] and found.answer is None
    assert found.worth.to_dict() == {0.5: 0, 0.7: Decimal("0.5"), 1.0: 2} and found.nodes.to_dict() == {
        0.5: 0,
        0.7: 2,
        1.0: 2,
    }
    must_mine = library.pit(np.array([-3 * 10**9, 2 * 10**9]), listed, np.array([0, 1], dtype=np.uint8), 0.7)
    assert must_mine.entry.tolist() == [0.7, 0.7] and must_mine.worth[0.7] == -1 and must_mine.nodes[0.7] == 2


def lines_of(tmp_path, *lines):
    """The program's files of two blocks, of which these lines say what needs what."""
    (tmp_path / "mine.blocks").write_text("0 0 0 0 0 3\n1 0 0 1 5 0\n")
    (tmp_path / "mine.prec").write_text("".join(f"{line}\n" for line in lines))
    return tmp_path / "mine.blocks", tmp_path / "mine.prec", (1.0,)


@pytest.mark.parametrize(
    ("lines", "starts", "precedences", "said"),
    [
        (["0 1 1", "1 1 0"], [0, 1, 2], [1, 0], "error 14: cycle"),
        (["0 1 7"], [0, 1, 1], [7], "error 8: predecessor out of range"),
        (["0 2 1 1"], [0, 2, 2], [1, 1], "error 10: predecessor named twice"),
    ],
)
def test_refusals_are_those_of_the_program(tmp_path, lines, starts, precedences, said):
    told = []
    listed = PrecedenceRows(np.array(starts, dtype=np.uint32), np.array(precedences, dtype=np.uint32))
    amounts = np.array([0, 5]), np.array([3, 0])
    for solve in (
        lambda: program.solve_files(*lines_of(tmp_path, *lines)),
        lambda: library.shells(amounts, listed, (1.0,)),
    ):
        with pytest.raises(ProgramError, match=f"^pitshell shells ended with status 1: {said}") as refused:
            solve()
        told.append((type(refused.value), refused.value.status, worker.status_of(refused.value)))
    assert told[0] == told[1] == (ProgramError, 1, 1)


def test_a_block_that_must_be_dug_and_may_not_be_is_refused_as_by_the_program():
    listed = PrecedenceRows(np.array([0, 0, 1], dtype=np.uint32), np.array([0], dtype=np.uint32))
    with pytest.raises(
        ProgramError, match="^pitshell solve ended with status 1: error 21: fixed blocks clash at block 0$"
    ):
        library.pit(np.array([-1, 1]), listed, np.array([2, 1], dtype=np.uint8), 1.0)


MEMORY = """
import resource, numpy as np
from pitplan import ProgramError
from pitplan.precedences import PrecedenceRows
from pitplan.solver import library
nodes = 4_000_000
amounts = np.ones(nodes, dtype=np.int64)
rows = PrecedenceRows(np.arange(nodes + 1, dtype=np.uint32).clip(1) - 1, np.arange(nodes - 1, dtype=np.uint32))
rows.starts[-1] = nodes - 1
library.loaded()
held = int(open("/proc/self/statm").read().split()[0]) * resource.getpagesize()
resource.setrlimit(resource.RLIMIT_AS, (held + 2**27,) * 2)
try:
    library.shells((amounts, amounts), rows, (1.0,))
except ProgramError as error:
    print(error.status, error)
"""


def by_itself(text: str, **options) -> subprocess.Popen:
    """A script in an interpreter of its own, which heeds interruptions."""
    heeding = {"preexec_fn": lambda: signal.signal(signal.SIGINT, signal.default_int_handler)}
    environment = {**os.environ, "PYTHONPATH": str(ROOT / "python")}
    return subprocess.Popen(
        [sys.executable, "-c", text], env=environment, stdout=subprocess.PIPE, text=True, **heeding, **options
    )


def test_memory_that_is_refused_is_the_program_s_status_of_it():
    out, _ = by_itself(MEMORY).communicate(timeout=60)
    assert out == "1 pitshell shells ended with status 1: error 1: no memory\n"


@pytest.mark.slow
@pytest.mark.parametrize(
    ("asked", "status", "said"), [(signal.SIGINT, 130, "pitplan: interrupted"), (signal.SIGTERM, 143, None)]
)
def test_a_solve_that_takes_long_is_ended_at_once(plan_folder, asked, status, said):
    """A single column of blocks, the deeper half ore, takes the library seconds, and time that grows with the square of its depth."""
    deep = 100_000
    table = rows(1, 1, deep, cu=lambda i, j, k: 2 if k < deep // 2 else 0)
    path = plan_folder(
        table, PROJECT, UPRIGHT, ("precedence_benches = 3", "precedence_benches = 1"), ("[0.5, 1.0, 1.5]", "[1.0]")
    )
    words = [
        sys.executable,
        str(ROOT / "tools" / "pitplan"),
        "shells",
        str(path),
        "--solver",
        "library",
        "--no-figures",
    ]
    ran = subprocess.Popen(
        words, stderr=subprocess.PIPE, text=True, preexec_fn=lambda: signal.signal(signal.SIGINT, signal.SIG_DFL)
    )
    told = ""
    while not told.endswith("by the library .."):
        told += ran.stderr.read(1)
    time.sleep(0.1)
    began = time.monotonic()
    assert ran.poll() is None
    ran.send_signal(asked)
    _, err = ran.communicate(timeout=30)
    assert time.monotonic() - began < 10 and ran.returncode == status
    assert err.strip().splitlines()[-1:] == ([said] if said else [])
    assert not (path.parent / "plan").exists()


def test_what_is_asked_for_solves_else_what_is_named_else_the_library(monkeypatch):
    for name in ("PITSHELL", "PITSHELL_LIBRARY"):
        monkeypatch.delenv(name, raising=False)
    assert [choice.chosen(by).by for by in ("program", "library", None)] == ["program", "library", "library"]
    assert choice.chosen("library").version == f"libpitshell {pitplan.__version__}"
    monkeypatch.setattr(library, "package", lambda: None)
    library.identity.cache_clear()
    assert choice.chosen().by == "program"
    with pytest.raises(
        ProgramError, match=r"there is no libpitshell.so: .*, build it by make library, or name it by PITSHELL_LIBRARY"
    ):
        choice.chosen("library")
    monkeypatch.setenv("PITSHELL_LIBRARY", "/nowhere/libpitshell.so")
    with pytest.raises(ProgramError, match="there is no libpitshell.so"):
        choice.chosen()
    monkeypatch.undo()
    monkeypatch.delenv("PITSHELL_LIBRARY", raising=False)
    monkeypatch.setenv("PITSHELL", str(program.program()))
    assert choice.chosen().by == "program"
    monkeypatch.setenv("PITSHELL_LIBRARY", str(pitshell.LIBRARY))
    assert choice.chosen().by == "library"
    with pytest.raises(PlanError, match="solver: found magic, expected one of library, program"):
        choice.chosen("magic")


def test_a_library_that_cannot_be_loaded_is_named(tmp_path):
    """Instead of going on with the program, which would not be told."""
    broken = tmp_path / "libpitshell.so"
    broken.write_text("no library")
    environment = {**os.environ, "PITSHELL_LIBRARY": str(broken)}
    words = [
        sys.executable,
        str(ROOT / "tools" / "pitplan"),
        "shells",
        str(EXAMPLES / "plan" / "project.toml"),
        "--out",
        str(tmp_path),
    ]
    ran = subprocess.run(words, env=environment, capture_output=True, text=True)
    assert (
        ran.returncode == 1
        and f"libpitshell.so cannot be loaded: {broken}: " in ran.stderr
        and ran.stderr.count("\n") == 1
    )


def test_both_packages_are_of_one_release():
    assert pitshell.__version__ == pitplan.__version__


def test_an_audit_of_what_the_library_solved_writes_the_mine_itself(tmp_path, plan_folder):
    """Blocks, needs and fixed blocks are those that the program would have read."""
    words = ("--no-verify", "--no-figures")
    arrays, texts = by_both(tmp_path, "shells", plan_folder(deposit(), TEXT, CONE), *words)
    first, second = (pitplan.audit(place, 0.5) for place in (arrays, texts))
    for name in ("shell.upit", "shell.prec", "shell.fixed", "pit.txt", "shell.cert"):
        assert (first / name).read_bytes() == (second / name).read_bytes(), name
    environment = {**os.environ, "PITSHELL": str(program.program()), "PYTHON": sys.executable}
    ran = subprocess.run(["sh", str(first / "check.sh")], env=environment, capture_output=True, text=True)
    assert ran.stdout == "hashes: yes\npitshell check: yes\ncheck_certificate.py: yes\n", ran.stderr
    record = json.loads((first / "audit.json").read_text())
    assert (record["solver"]["by"], record["program"]) == ("library", program.identity())


@pytest.fixture
def solved_by_library(plan_folder):
    path = plan_folder(
        ores_and_fixed(), with_section(FIXED_SECTION + 'as_mined = "mined.csv"\ntopography = "blocks"\n')
    )
    (path.parent / "mined.csv").write_text("x,y,z\n0,0,900\n")
    pitplan.write_shells(replace(load(path), solver="library"), writing=UNVERIFIED)
    return path.parent


def test_an_audit_is_of_the_project_that_was_run(solved_by_library, tmp_path):
    """A planner who goes on adds sections to the same file: the audit of the shells is what it was."""
    path, folder = solved_by_library / "project.toml", solved_by_library / "plan"
    first = pitplan.audit(folder, 1.0, out=tmp_path / "first")
    text = path.read_text()
    path.write_text(text.replace("[economics]", "[economics]\ncapex = 1000", 1) + "[pushbacks]\ncount = 2\n")
    second = pitplan.audit(folder, 1.0, out=tmp_path / "second")
    for name in ("shell.upit", "shell.prec", "shell.fixed", "pit.txt", "shell.cert", "audit.json"):
        assert (first / name).read_bytes() == (second / name).read_bytes(), name


@pytest.mark.parametrize("name", ["blocks.csv", "mined.csv"])
def test_an_audit_is_refused_where_what_the_mine_was_made_of_has_changed(solved_by_library, name):
    with open(solved_by_library / name, "a") as file:
        file.write("\n")
    with pytest.raises(PlanError, match=f"{name}: has changed since .* was written: run pitplan again"):
        pitplan.audit(solved_by_library / "plan", 1.0)
    assert not (solved_by_library / "plan" / "audit-1.00").exists() or not list(
        (solved_by_library / "plan" / "audit-1.00").iterdir()
    )


def test_files_of_an_earlier_run_by_the_program_are_taken_away(plan_folder):
    """They would be another mine's beside the new tables; a run that is refused takes none away."""
    path = plan_folder(rows(4, 4, 3, cu=lambda i, j, k: 6 * ((i, j, k) == (2, 2, 1))))
    project, bare = load(path), pitplan.Writing(verifies=False, figures=False)
    pitplan.write_shells(replace(project, solver="program"), writing=bare)
    there = {"solver/mine.blocks", "solver/mine.upit", "solver/mine.prec", "solver/shells.txt"}
    assert set(mine_files.of_program(project.folder)) == there
    with pytest.MonkeyPatch.context() as patch:
        patch.setattr(drawing, "draw", lambda *_: (_ for _ in ()).throw(PlanError("no pictures")))
        with pytest.raises(PlanError, match="no pictures"):
            pitplan.write_shells(replace(project, solver="library"), writing=pitplan.Writing(verifies=False))
    assert set(mine_files.of_program(project.folder)) == there
    pitplan.write_shells(replace(project, solver="library"), writing=bare)
    assert mine_files.of_program(project.folder) == () and pitplan.verify(project.folder)


def other_library(monkeypatch):
    monkeypatch.setattr(library, "identity", lambda: {"version": "libpitshell 9", "sha256": "f" * 64})


def test_a_worker_with_another_library_solves_nothing(plan_folder, monkeypatch):
    """Nor goes it on with its program."""
    project = replace(load(plan_folder(pillar(), COLUMNS, UPRIGHT)), solver="library")
    shared = prepare.prepare(project, project.folder, pitplan.core.progress.silent)
    assert shared.solver.by == "library" and worker.solve(str(shared.folder), 1).status == 0
    other_library(monkeypatch)
    outcome = worker.solve(str(shared.folder), 2)
    said = "the library here (libpitshell 9, SHA-256 ffffffffffff..) differs from the one that began this"
    assert outcome.status == 5 and said in outcome.why
    monkeypatch.undo()
    monkeypatch.setattr(library, "package", lambda: None)
    assert "there is no libpitshell.so" in worker.solve(str(shared.folder), 2).why and len(shared.missing()) == 2


def test_cases_of_a_sensitivity_are_not_begun_with_another_library(plan_folder, monkeypatch):
    project = load(plan_folder(rows(3, 1, 2, cu=lambda i, j, k: 3), PROJECT))
    asked = sensitivity.SensitivityInput(project, reader.read(project).frame, choice.chosen("library"))
    assert sensitivity.find(sensitivity.Case(), asked).row["blocks"] == 6
    other_library(monkeypatch)
    with pytest.raises(ProgramError, match="the library here .* differs from the one that began this"):
        sensitivity.find(sensitivity.Case(), asked)


@pytest.mark.parametrize("kind", ["slurm", "parallel"])
@pytest.mark.parametrize("by", choice.BY)
def test_jobs_name_the_solver_and_find_it(plan_folder, kind, by):
    pytest.importorskip("distributed")
    path = plan_folder(pillar(), PRICES, UPRIGHT)
    found = pitplan.write_scenarios(
        replace(load(path), solver=by), load(path).folder, pitplan.Request(where=kind), writing=PLAIN
    )
    named = {
        "library": f"PITSHELL_LIBRARY={pitshell.LIBRARY.resolve()} ",
        "program": f"PITSHELL={program.program().resolve()} ",
    }
    script = (found.folder / "scenario.sh").read_text()
    assert named[by] in script
    alone = {"PATH": "/usr/bin:/bin", "HOME": "/"}
    assert subprocess.run(["sh", str(found.folder / "scenario.sh"), "1"], env=alone).returncode == 0
    assert len(store.read_shared(found.folder).missing()) == 5
