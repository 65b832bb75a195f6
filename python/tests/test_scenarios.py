"""Scenarios of small mines: probabilities by hand and by trying all sets, resuming, and how failures are kept apart."""

import io
import json
import os
import subprocess
import sys
from contextlib import nullcontext
from decimal import Decimal

import numpy as np
import pandas as pd
import pytest
from conftest import PROJECT, rows
from helpers.random_tests import examples
from helpers.scenarios import COLUMNS, MODELS, PRICES, UPRIGHT, hill, pillar, prepared, solved_in_turn, write_models
from helpers.shells import BOX, CLOSED, best_by_trying
from helpers.writings import PLAIN
from hypothesis import given, strategies as st

import pitplan
from pitplan import MissingPackage, PlanError, ProgramError, Request, load
from pitplan.cli import main
from pitplan.cli.parser import parser
from pitplan.commands import scenarios
from pitplan.core.progress import Progress
from pitplan.figures import scenarios as maps
from pitplan.studies import dask_pool
from pitplan.studies.scenarios import pit_probability, run, store, worker


def test_probabilities_by_hand(plan_folder):
    gathered = solved_in_turn(prepared(plan_folder(pillar(), COLUMNS, UPRIGHT)))
    # Mining costs 200 a block, processing 1000. At revenue factor 0.50 the first model's metal yields 3000, and the pit 1400; at
    # 1.0 the second yields 1600, and the pit nothing; at 1.5 2400, and the pit 800.
    assert gathered.share.tolist() == [[1 / 3, 1 / 3, 2 / 3]] * 3
    table = gathered.table.set_index(["realisation", "revenue_factor"])
    assert table["value_at_revenue_factor"]["sim_1"].map(Decimal).tolist() == [1400, 4400, 7400]
    assert table["value_at_revenue_factor"]["sim_2"].map(Decimal).tolist() == [0, 0, 800]
    assert table["tonnes"]["sim_2"].tolist() == [0, 0, 300] and table["blocks"]["sim_3"].tolist() == [0, 0, 0]


def test_the_least_factor_of_all_is_a_factor(plan_folder):
    """At a thousandth of eight millions the metal of the first model yields 6000, and that of the second 1600, which is what its pit costs."""
    changes = [UPRIGHT, ("price = 8000", "price = 8_000_000"), ("[0.5, 1.0, 1.5]", "[0.001, 0.002, 1.0]")]
    gathered = solved_in_turn(prepared(plan_folder(pillar(), COLUMNS, *changes)))
    assert gathered.share.tolist() == [[1 / 3, 2 / 3, 2 / 3]] * 3
    assert gathered.table.set_index(["realisation", "revenue_factor"])["blocks"]["sim_1"].tolist() == [3, 3, 3]


def test_prices_make_scenarios_and_quantiles_by_hand(plan_folder):
    gathered = solved_in_turn(prepared(plan_folder(pillar(), PRICES, UPRIGHT)))
    # At 12,000 a tonne the second model's metal yields 2400 at revenue factor 1.00.
    assert gathered.share[:, 1].tolist() == [3 / 6] * 3
    table = pit_probability.quantiles(gathered.table).set_index(["price_copper", "revenue_factor"])
    tonnes = table.loc[(12000, 1.0)]
    assert tonnes["realisations"] == 3 and tonnes["tonnes_mean"] == 200 and tonnes["tonnes_quantile_0.5"] == 300
    # Tonnes 0, 300, 300: a tenth lies a fifth of the way from the first to the second.
    assert tonnes["tonnes_quantile_0.1"] == pytest.approx(60) and tonnes["tonnes_greatest"] == 300
    assert table.loc[(8000, 1.0), "value_at_revenue_factor_greatest"] == 4400


def test_a_block_that_pays_at_the_greatest_price_alone_keeps_its_needs(plan_folder):
    poor = pillar().assign(sim_1=[0.15, 0, 0], sim_2=[0.15, 0, 0], sim_3=[0.15, 0, 0])
    gathered = solved_in_turn(prepared(plan_folder(poor, PRICES.replace("12_000", "20_000"), UPRIGHT)))
    # 0.075 t of metal: at 20,000 and revenue factor 1.50 it yields 2250, of which 1000 go to processing and 600 to mining three.
    dear = gathered.table[(gathered.table["price_copper"] == 20000) & (gathered.table["revenue_factor"] == 1.5)]
    assert dear["blocks"].tolist() == [3, 3, 3] and dear["value_at_revenue_factor"].map(Decimal).tolist() == [650] * 3
    assert gathered.share.tolist() == [[0, 0, 0.5]] * 3


cells = st.sampled_from([0, 0, 0, 0.1, 0.3, 0.5, 1, 2, 4])
boxes = st.lists(cells, min_size=9, max_size=9)
moneys = st.tuples(st.sampled_from([4000, 8000, 20000]), st.sampled_from([0, 3000]), st.booleans())


def values_by_hand(grades, price, selling, factor, fixed):
    """100 t a block: mining 200, processing 1000, and half a tonne of metal for each per cent."""
    metal = [Decimal(str(grade)) / 2 for grade in grades]
    gains = [tonnes * (price * Decimal(str(factor)) - selling) - 1000 for tonnes in metal]
    is_ore = [tonnes * (price - selling) > 1000 if fixed else gain > 0 for tonnes, gain in zip(metal, gains)]
    return [(gain if ore else Decimal(0)) - 200 for gain, ore in zip(gains, is_ore)]


@examples(10)
@given(boxes, boxes, moneys)
def test_every_scenario_is_the_best_of_all_closed_sets(tmp_path_factory, one, other, money):
    """The needs are written once for all, whatever the grades, the prices, the selling cost and the cut-off."""
    price, selling, fixed = money
    table = rows(*BOX).drop(columns=["cu"])
    for name, grades in (("sim_a", one), ("sim_b", other)):
        table[name] = [grades[(2 - k) * 3 + i] for k in range(3) for i in range(3)]
    text = PRICES.replace("12_000", str(price)).replace("price = 8000", f"price = 8000\nselling_cost = {selling}")
    text = text.replace("[[metals]]", 'cutoff = "base_price"\n[[metals]]') if fixed else text
    place = tmp_path_factory.mktemp("box")
    (place / "project.toml").write_text(text)
    table.to_csv(place / "blocks.csv", index=False)
    shared = prepared(place / "project.toml")
    solved_in_turn(shared)
    for scenario in shared.scenarios:
        places, answer = pit_probability.read_answer(shared, scenario)
        entry = np.zeros(9, int)
        entry[shared.grid.rows] = places
        grades = {"sim_a": one, "sim_b": other}[scenario.realisation]
        for number, factor in enumerate((0.5, 1.0, 1.5), 1):
            values = values_by_hand(grades, Decimal(scenario.prices["copper"]), selling, factor, fixed)
            worth, pit = best_by_trying(CLOSED, values)
            assert set(np.flatnonzero((entry > 0) & (entry <= number))) == pit
            assert Decimal(answer["value_at_revenue_factor"][number - 1]) == worth


def test_models_of_a_folder_may_have_their_rows_in_any_order(plan_folder):
    table, model = hill()
    path = plan_folder(table, MODELS)
    write_models(path, by_id=model[["name", "cu"]].sample(frac=1, random_state=1))
    write_models(path, by_place=model[["x", "y", "z", "cu"]].sample(frac=1, random_state=2))
    shared = prepared(path)
    assert [scenario.realisation for scenario in shared.scenarios] == ["by_id", "by_place"]
    for scenario in shared.scenarios:
        assert shared.grades(scenario)[:, 0].tolist() == (np.arange(12) / 10).tolist()


def test_models_are_named_by_their_whole_files_and_no_two_alike(plan_folder):
    table, model = hill()
    path = plan_folder(table, MODELS)
    write_models(path, **{name: model[["name", "cu"]] for name in ("sim.1", "sim.2", "sim")})
    assert [scenario.realisation for scenario in prepared(path).scenarios] == ["sim.1", "sim.2", "sim"]
    model[["name", "cu"]].to_csv(path.parent / "realisations" / "sim.2.csv.gz", index=False)
    with pytest.raises(
        PlanError,
        match="realisations/sim.2.csv.gz: is a realisation of the same name as sim.2.csv: remove or rename one of them",
    ):
        prepared(path)


def test_centres_of_a_model_may_lie_off_by_the_tolerance_and_no_more(plan_folder):
    table, model = hill()
    by_place = model[["x", "y", "z", "cu"]]
    for tolerance, fits, off in (("0", 0.0, 0.25), ("0.25", 0.25, 0.5)):
        path = plan_folder(table, MODELS, ("size = [10, 10, 10]", f"size = [10, 10, 10]\ntolerance = {tolerance}"))
        write_models(path, only=by_place.assign(y=by_place["y"] + fits))
        assert prepared(path).scenarios[0].realisation == "only"
        write_models(path, only=by_place.assign(y=by_place["y"] - off))
        with pytest.raises(PlanError, match="row 2 column x, y, z: no block of "):
            prepared(path)


@pytest.mark.parametrize(
    "bend, words",
    [
        (
            lambda m: m.assign(name=["nobody", *m["name"][1:]]),
            "row 2 column name: nobody is not the id of a block of {table}",
        ),
        (lambda m: m.drop(columns="name").assign(x=m["x"] + 1), "row 2 column x, y, z: no block of "),
        (lambda m: m[~m["name"].isin(["b1-0-0", "b2-1-1"])], "2 blocks are missing, first that of {table} row 3"),
        (lambda m: pd.concat([m, m[:1]]), "row 14: the block is in another row too: expected each block once"),
        (lambda m: m.assign(cu=[-0.5, *m["cu"][1:]]), "row 2 column cu: -0.5 is negative"),
        (lambda m: m.assign(cu=["", *m["cu"][1:]]), "row 2 column cu: is empty"),
        (lambda m: m.drop(columns="cu"), "row 1: there is no column cu; "),
    ],
)
def test_a_model_that_does_not_fit_is_named_by_file_and_row(plan_folder, bend, words):
    table, model = hill()
    path = plan_folder(table, MODELS)
    write_models(path, bent=bend(model))
    with pytest.raises(PlanError) as said:
        prepared(path)
    assert str(said.value).startswith(f"{path.parent}/realisations/bent.csv") and words.format(
        table=path.parent / "blocks.csv"
    ) in str(said.value)
    assert not (path.parent / "plan" / "scenarios.json").exists()


@pytest.mark.parametrize(
    "text, words",
    [
        (PROJECT, r"\[scenarios\] is missing: it names the realisations"),
        (
            PROJECT + "[scenarios]\n",
            r"\[scenarios\] realisations: give exactly one of realisations, a folder, and columns",
        ),
        (MODELS, "realisations: has no realisation: expected a .csv or .csv.gz file for each"),
        (COLUMNS.replace("sim_", "none_"), r"blocks.csv row 1: no column is called none_\*"),
        (
            COLUMNS.replace("copper = ", "gold = "),
            r"\[scenarios\]: found gold, expected one of the \[\[metals\]\]: copper",
        ),
        (PROJECT + "[scenarios]\ncolumns = {}\n", r"\[scenarios\] columns: name the columns of at least one metal"),
        (PRICES.replace("12_000", "-1"), r"\[scenarios.prices 2\] copper: found -1, expected 0 or more"),
    ],
)
def test_scenarios_that_cannot_be_are_refused(plan_folder, text, words):
    with pytest.raises(PlanError, match=words):
        prepared(plan_folder(pillar(), text))


def test_finished_scenarios_are_not_solved_again_and_new_models_are(plan_folder):
    table, model = hill()
    path = plan_folder(table, MODELS)
    write_models(path, first=model, second=model.assign(cu=model["cu"] * 2))
    shared = prepared(path)
    solved_in_turn(shared)
    written = {answer: answer.stat().st_mtime_ns for answer in (shared.folder / "done").iterdir()}
    write_models(path, another=model.assign(cu=9.0))
    shared = prepared(path)
    assert [scenario.realisation for scenario in shared.missing()] == ["another"]
    solved_in_turn(shared)
    assert {answer: answer.stat().st_mtime_ns for answer in written} == written
    # Another price, wall, factor or cost is another answer.
    changes = [
        ("price = 8000", "price = 8001"),
        ('pattern = "1:5"', "angle = 60"),
        ("mining_cost = 2", "mining_cost = 3"),
    ]
    for change in [*changes, ("[0.5, 1.0, 1.5]", "[0.5, 1.0]")]:
        text = path.read_text()
        path.write_text(text.replace(*change))
        assert len(prepared(path).missing()) == 3
        path.write_text(text)
    assert prepared(path).missing() == []


@pytest.fixture
def broken_program(tmp_path, monkeypatch):
    """A program that says its version, and ends its shells as a test wants it to."""

    def end(how):
        script = tmp_path / "broken"
        script.write_text(f'#!/bin/sh\n[ "$1" = --version ] && echo broken && exit 0\necho some words >&2\n{how}\n')
        script.chmod(0o755)
        monkeypatch.setenv("PITSHELL", str(script))

    return end


@pytest.mark.parametrize(
    "how, status, noted",
    [
        ("exit 1", 1, 1),
        ("exit 2", 2, 2),
        ("exit 3", 3, 3),
        ("exit 4", 4, 4),
        ("kill -9 $$", 75, -9),
        ("exit 137", 75, 137),
    ],
)
def test_the_program_s_statuses_are_kept_apart(plan_folder, broken_program, capsys, how, status, noted):
    broken_program(how)
    shared = prepared(plan_folder(pillar(), COLUMNS))
    assert main(["scenario", str(shared.folder), "2"]) == status
    assert capsys.readouterr().err.startswith("pitplan: sim_2: pitshell shells")
    record = json.loads(next((shared.folder / "failed").iterdir()).read_text())
    assert record["status"] == noted and record["label"] == "sim_2" and "some words" in record["why"]
    assert worker.Outcome(2, status, "", 0).is_final == (status != 75)
    # There are no others that could be gathered.
    with pytest.raises(
        PlanError, match="3 of 3 scenarios have no result, first sim_1: was not solved: run them again$"
    ):
        pit_probability.gather(shared, partial=True)


def test_a_changed_or_missing_folder_is_status_5(plan_folder):
    shared = prepared(plan_folder(pillar(), COLUMNS))
    assert worker.solve(str(shared.folder), 4).why.endswith("has no scenario 4")
    assert worker.solve(str(shared.folder / "nowhere"), 1).status == 5
    precedences = "solver/needs.npy" if shared.solver.by == "library" else "solver/mine.prec"
    (shared.folder / precedences).write_text("")
    worker.shared_of.cache_clear()
    outcome = worker.solve(str(shared.folder), 1)
    assert outcome.status == 5 and f"{precedences}: has changed since scenarios.json was written" in outcome.why


def test_a_worker_of_another_version_refuses_the_folder(plan_folder, monkeypatch):
    shared = prepared(plan_folder(pillar(), COLUMNS))
    monkeypatch.setattr(store, "release", lambda: "9.8.7")
    worker.shared_of.cache_clear()
    outcome = worker.solve(str(shared.folder), 1)
    said = (
        f"pitplan {pitplan.__version__} wrote it, and {os.uname().nodename} has 9.8.7: install one version on all hosts"
    )
    assert outcome.status == 5 and said in outcome.why
    assert not shared.answer(shared.scenarios[0]).exists()


def test_what_went_wrong_is_told_by_status(plan_folder, monkeypatch):
    ended = [
        worker.Outcome(1, 0, "", 1.0),
        worker.Outcome(2, 3, "sim_2: exhausted", 1.0),
        worker.Outcome(3, 75, "gone", 1.0),
    ]
    monkeypatch.setattr(dask_pool, "run", lambda *_: ended)
    project = load(plan_folder(pillar(), COLUMNS))
    with pytest.raises(PlanError) as said:
        pitplan.write_scenarios(project, project.folder, Request(workers=0), writing=PLAIN)
    assert str(said.value) == (
        "1 solved (status 0); 1 out of budget (status 3): sim_2: exhausted; 1 killed repeatedly (status 75): gone: "
        "run again, or gather the others with --partial"
    )


def test_some_answers_are_gathered_on_request_alone(plan_folder, with_blank_figures):
    shared = prepared(plan_folder(pillar(), COLUMNS, UPRIGHT))
    assert [worker.solve(str(shared.folder), number).status for number in (1, 3)] == [0, 0]
    with pytest.raises(PlanError, match="1 of 3 scenarios have no result, first sim_2: was not solved"):
        pitplan.gather(shared.folder)
    notes = pitplan.gather(shared.folder, Request(partial=True, revenue_factor=1.5)).notes
    assert "WARNING: 1 scenarios have no result and are left out of all tables and figures" in notes
    blocks = pd.read_csv(shared.folder / "tables/probability.csv")
    assert (
        blocks["name"].tolist() == ["b0-0-2", "b0-0-1", "b0-0-0"] and blocks["probability_1.50"].tolist() == [0.5] * 3
    )
    for name in scenarios.PICTURES.values():
        assert (shared.folder / name).is_file()
    with pytest.raises(PlanError, match="revenue factor 0.70 is not among the revenue factors 0.50, 1.00, 1.50"):
        pitplan.gather(shared.folder, Request(revenue_factor=0.7))


def test_pictures_of_scenarios_are_those_that_the_project_asks_for(plan_folder, monkeypatch):
    """Three blocks over each other: of the three levels the lowest is asked for."""
    shown = []
    monkeypatch.setattr(maps, "write_plans", lambda likely, path: shown.append(likely))
    shared = prepared(plan_folder(pillar(), COLUMNS + '[figures]\nlevels = [5]\nformats = ["svg"]\n', UPRIGHT))
    solved_in_turn(shared)
    monkeypatch.setattr(maps, "write_sections", lambda likely, path: None)
    pitplan.gather(shared.folder)
    assert maps.LikelyScene(shown[0]).levels == [2]
    assert (
        b"<svg" in (shared.folder / "figures/spread.svg").read_bytes()[:500]
        and (shared.folder / "figures/spread.png").is_file()
    )


def test_a_picture_beyond_the_model_is_refused_before_a_model_is_read(plan_folder):
    path = plan_folder(pillar(), COLUMNS + "[figures]\nnorth = 11\n", UPRIGHT)
    with pytest.raises(PlanError, match=r"\[figures\] north: 11 is beyond the model, from 0 to 10 m"):
        prepared(path)
    assert not (load(path).folder / "realisations").exists()


def test_the_image_has_the_probabilities_of_all_cells(plan_folder):
    vtk = pytest.importorskip("vtk", reason="needs the Debian package python3-vtk9")
    shared = prepared(plan_folder(pillar(), COLUMNS, UPRIGHT))
    gathered = solved_in_turn(shared)
    assert scenarios.write_image(shared, gathered, shared.folder) == []
    reader = vtk.vtkXMLImageDataReader()
    reader.SetFileName(str(shared.folder / "probability.vti"))
    reader.Update()
    found = reader.GetOutput().GetCellData().GetArray("probability_1.50")
    assert [found.GetValue(k) for k in range(3)] == pytest.approx([2 / 3] * 3)


@pytest.mark.parametrize("kind", ["slurm", "parallel"])
def test_lists_of_jobs_are_shell_and_name_what_is_missing(plan_folder, kind):
    path = plan_folder(pillar(), COLUMNS, UPRIGHT)
    assert worker.solve(str(prepared(path).folder), 1).status == 0
    result = pitplan.write_scenarios(load(path), load(path).folder, Request(where=kind), writing=PLAIN)
    folder = load(path).folder
    assert result.notes[-1] == "1 of 3 scenarios have a result already"
    assert result.start == folder / "start.sh" and (folder / "jobs.txt").read_text() == "2\n3\n"
    names = ["start.sh", "scenario.sh"] + (["array.sbatch", "gather.sbatch"] if kind == "slurm" else [])
    for name in names:
        subprocess.run(["sh", "-n", str(folder / name)], check=True)
        assert (folder / name).stat().st_mode & 0o777 == 0o755
    assert (folder / "jobs.txt").stat().st_mode & 0o777 == 0o644


def test_a_task_of_slurm_solves_its_lines(plan_folder, monkeypatch):
    monkeypatch.setattr(run, "MOST_TASKS", 2)
    folder = prepared(plan_folder(pillar(), COLUMNS)).folder
    shared = store.read_shared(folder)
    run.write("slurm", folder, shared.scenarios, shared.solver)
    assert "#SBATCH --array=1-2\n" in (folder / "array.sbatch").read_text()
    script = folder / "array.sbatch"
    subprocess.run(["sh", str(script)], check=True, env={**os.environ, "SLURM_ARRAY_TASK_ID": "2"})
    assert [scenario.number for scenario in store.read_shared(folder).missing()] == [1, 3]
    # Three lines for two tasks: the first takes the third line too.
    (folder / "scenario.sh").write_text('echo "$1"\n')
    task = {**os.environ, "SLURM_ARRAY_TASK_ID": "1"}
    ran = subprocess.run(["sh", str(script)], check=True, env=task, capture_output=True, text=True)
    assert ran.stdout == "1\n3\n"


@pytest.mark.parametrize(
    "status, restarts, requeued", [(0, 0, 0), (1, 0, 0), (3, 0, 0), (75, 0, 1), (137, 2, 1), (137, 3, 0)]
)
def test_a_slurm_task_gives_itself_back_only_where_it_was_killed(plan_folder, tmp_path, status, restarts, requeued):
    path = plan_folder(pillar(), COLUMNS)
    folder = prepared(path).folder
    shared = store.read_shared(folder)
    run.write("slurm", folder, shared.missing(), shared.solver)
    (folder / "scenario.sh").write_text(f"exit {status}\n")
    for name, text in {"scontrol": f'echo "$@" >> {tmp_path}/asked', "sleep": ""}.items():
        (tmp_path / name).write_text(f"#!/bin/sh\n{text}\n")
        (tmp_path / name).chmod(0o755)
    task = {"SLURM_ARRAY_JOB_ID": "7", "SLURM_ARRAY_TASK_ID": "2", "SLURM_RESTART_COUNT": str(restarts)}
    environment = {**os.environ, **task, "PATH": f"{tmp_path}:{os.environ['PATH']}"}
    ran = subprocess.run(["sh", str(folder / "array.sbatch")], env=environment, capture_output=True)
    asked = (tmp_path / "asked").read_text() if (tmp_path / "asked").exists() else ""
    assert ran.returncode == status and asked == "requeue 7_2\n" * requeued


@pytest.fixture(scope="module")
def dask_threads():
    """A scheduler with one worker in this process, which a test may bend."""
    distributed = pytest.importorskip("distributed", reason="needs the Debian package python3-distributed")
    with distributed.Client(processes=False, n_workers=1, threads_per_worker=1, dashboard_address=None) as client:
        yield distributed, client


@pytest.mark.filterwarnings("ignore:make_current is deprecated:DeprecationWarning")
@pytest.mark.parametrize("deaths, status", [(0, 0), (2, 0), (3, 75)])
def test_dask_tries_a_killed_scenario_again(dask_threads, plan_folder, monkeypatch, deaths, status):
    shared = prepared(plan_folder(pillar(), COLUMNS))
    tries = []

    def dying(folder, number):
        tries.append(number)
        killed = number == 2 and tries.count(2) <= deaths
        return worker.Outcome(number, worker.LOST if killed else 0, "killed" if killed else "", 0.0)

    monkeypatch.setattr(worker, "solve", dying)
    ended = {it.number: it for it in dask_pool.outcomes_of(*dask_threads, shared.folder, shared.scenarios)}
    assert {number: outcome.status for number, outcome in ended.items()} == {1: 0, 2: status, 3: 0}
    assert tries.count(2) == min(deaths + 1, 3) and tries.count(1) == 1
    assert ended[2].why == ("killed: tried 3 times" if status else "")


@pytest.mark.parametrize(("count", "told"), [(20, [2, 4, 6, 8, 10, 12, 14, 16, 18, 20]), (3, [1, 2, 3])])
def test_each_tenth_of_the_scenarios_is_told(monkeypatch, tmp_path, count, told):
    pytest.importorskip("distributed")
    monkeypatch.setattr(dask_pool, "client_of", lambda *_: nullcontext())
    monkeypatch.setattr(dask_pool, "outcomes_of", lambda *given: iter(given[-1]))
    said = io.StringIO()
    assert dask_pool.run(dask_pool.Where("local"), tmp_path, list(range(count)), Progress(said)) == list(range(count))
    assert said.getvalue().startswith(f"solving {count} scenarios .. " + " ".join(map(str, told)) + " ")


def test_a_missing_dask_is_named_by_its_package(plan_folder, monkeypatch):
    project = load(plan_folder(pillar(), COLUMNS))
    monkeypatch.setitem(sys.modules, "distributed", None)
    with pytest.raises(MissingPackage, match="needs the Debian package python3-distributed: apt-get install"):
        pitplan.write_scenarios(project, project.folder, Request(workers=0), writing=PLAIN)
    with pytest.raises(PlanError, match="revenue factor 0.70 is not among the revenue factors 0.50, 1.00, 1.50"):
        pitplan.write_scenarios(project, project.folder, Request(revenue_factor=0.7), writing=PLAIN)


def test_a_scheduler_that_is_not_there_is_named(plan_folder):
    pytest.importorskip("distributed", reason="needs the Debian package python3-distributed")
    load(plan_folder(pillar(), COLUMNS))
    with pytest.raises(PlanError, match="nowhere://x: no Dask scheduler answers there"):
        pitplan.write_scenarios(plan_folder(pillar(), COLUMNS), request=Request("nowhere://x"), writing=PLAIN)


def likely(folder):
    return (
        pd.read_csv(folder / "tables/probability.csv")[["probability_0.50", "probability_1.00", "probability_1.50"]]
        .to_numpy()
        .tolist()
    )


def test_answers_are_gathered_from_the_command_line(plan_folder, capsys):
    """The first and the third model alone, then all."""
    shared = prepared(plan_folder(pillar(), COLUMNS, UPRIGHT))
    for number in (1, 3):
        assert worker.solve(str(shared.folder), number).status == 0
    words = ["gather", str(shared.folder), "--quiet", "--no-figures"]
    assert main(words) == 1
    assert "1 of 3 scenarios have no result, first sim_2: was not solved" in capsys.readouterr().err
    assert main([*words, "--partial"]) == 0
    said = capsys.readouterr()
    assert said.out == f"{shared.folder}\n"
    assert "WARNING: 1 scenarios have no result and are left out of all tables and figures" in said.err
    assert likely(shared.folder) == [[0.5, 0.5, 0.5]] * 3
    assert worker.solve(str(shared.folder), 2).status == 0
    assert main([*words, "--revenue-factor", "0.50"]) == 0
    assert likely(shared.folder) == [pytest.approx([1 / 3, 1 / 3, 2 / 3], abs=1e-6)] * 3


@pytest.mark.parametrize("kind", ["slurm", "parallel"])
def test_no_lists_of_jobs_are_written_where_all_is_answered(plan_folder, kind):
    path = plan_folder(pillar(), COLUMNS, UPRIGHT)
    solved_in_turn(prepared(path))
    result = pitplan.write_scenarios(load(path), load(path).folder, Request(where=kind), writing=PLAIN)
    assert (result.folder, result.start) == (load(path).folder, None)
    assert result.notes[-1] == "3 of 3 scenarios have a result already"
    assert (load(path).folder / "tables/quantiles.csv").exists() and not (load(path).folder / "jobs.txt").exists()


def test_cost_that_rises_with_the_level_is_one_for_all_scenarios(plan_folder):
    """Mining costs 200, 225 and 250 from the top down, in every model, though in the third nothing is ore."""
    change = ("mining_cost = 2", "mining_cost = 2\nmining_cost_per_bench = 0.25")
    gathered = solved_in_turn(prepared(plan_folder(pillar(), COLUMNS, UPRIGHT, change)))
    worth = gathered.table.set_index(["realisation", "revenue_factor"])["value_at_revenue_factor"].map(Decimal)
    assert worth["sim_1"].tolist() == [3000 - 1675, 6000 - 1675, 9000 - 1675]
    assert worth["sim_2"].tolist() == [0, 0, 2400 - 1675] and worth["sim_3"].tolist() == [0, 0, 0]


@pytest.mark.parametrize(
    ("error", "status"),
    [
        (PlanError("refused"), 5),
        (ProgramError("there is no program"), 5),
        *((ProgramError("ended", status), status) for status in (1, 2, 3, 4)),
        *((ProgramError("ended", status), 75) for status in (-9, 0, 5, 137)),
    ],
)
def test_a_scenario_has_the_status_of_the_program_s_own(error, status):
    assert worker.status_of(error) == status


@pytest.mark.parametrize(
    ("words", "said"),
    [
        (
            ["scenarios", "project.toml", "--on", "cloud"],
            'found "cloud", expected local, tcp://host:port, slurm or parallel',
        ),
        (["scenarios", "project.toml", "--workers", "0"], 'found "0", expected a whole number from 1 on'),
        (["scenarios", "project.toml", "--workers", "-1"], 'found "-1", expected a whole number from 1 on'),
        (["scenario", "folder", "0"], 'found "0", expected a whole number from 1 on'),
        (["scenario", "folder", "one"], 'found "one", expected a whole number from 1 on'),
    ],
)
def test_a_mistake_on_the_command_line_is_told(capsys, words, said):
    with pytest.raises(SystemExit) as ended:
        main(words)
    assert ended.value.code == 2 and said in capsys.readouterr().err


@pytest.mark.parametrize("where", ["local", "slurm", "parallel", "tcp://host:8786"])
def test_where_scenarios_are_solved_is_a_word_or_an_address(where):
    assert parser().parse_args(["scenarios", "project.toml", "--on", where, "--workers", "1"]).on == where


def test_a_broken_folder_of_scenarios_is_named(plan_folder, tmp_path):
    shared = prepared(plan_folder(pillar(), COLUMNS))
    solved_in_turn(shared)
    answer = shared.answer(shared.scenarios[1])
    answer.write_bytes(b"nothing")
    with pytest.raises(
        PlanError, match=f"{answer}: is not a result of sim_.*: remove it, and run pitplan scenarios again"
    ):
        pit_probability.gather(shared)
    with pytest.raises(PlanError, match="nowhere/scenarios.json: cannot be read: run pitplan scenarios first"):
        store.read_shared(tmp_path / "nowhere")
    (shared.folder / "scenarios.json").write_text("{}")
    with pytest.raises(PlanError, match="scenarios.json: is not a record of scenarios"):
        store.read_shared(shared.folder)


def test_a_folder_of_jobs_whose_name_no_script_can_hold_is_refused(plan_folder, tmp_path):
    shared = prepared(plan_folder(pillar(), COLUMNS))
    with pytest.raises(PlanError, match="may not have a line's end, a % or a backslash in its name"):
        run.write("slurm", tmp_path / "50 %", shared.scenarios, shared.solver)


def test_workers_that_cannot_import_pitplan_end_it_all(plan_folder):
    scenario = prepared(plan_folder(pillar(), COLUMNS)).scenarios[1]
    with pytest.raises(PlanError, match=r"Dask's workers cannot import pitplan \(no pitplan\)"):
        dask_pool.lost(ImportError("no pitplan"), scenario)
    ended = dask_pool.lost(RuntimeError("gone"), scenario)
    assert (ended.number, ended.status, ended.why) == (2, 75, "sim_2: its worker was lost: gone: tried 3 times")


def test_lists_of_models_that_differ_in_length_are_refused(plan_folder):
    second = '[[metals]]\nname = "gold"\ncolumn = "au"\nunit = "percent"\nprice = 1\nrecovery = 1\n[slopes]'
    text = COLUMNS.replace('copper = "sim_*"', 'copper = "sim_*", gold = ["sim_1", "sim_2"]')
    with pytest.raises(
        PlanError,
        match=r"\[scenarios\] columns: expected the same number of columns for each metal: 3 of copper, 2 of gold",
    ):
        prepared(plan_folder(pillar(), text, ("[slopes]", second)))


def test_probabilities_are_told_without_the_image_where_vtk_is_missing(plan_folder, monkeypatch):
    shared = prepared(plan_folder(pillar(), COLUMNS, UPRIGHT))
    solved_in_turn(shared)
    monkeypatch.setitem(sys.modules, "vtk", None)
    (note,) = pitplan.gather(shared.folder, writing=PLAIN).notes
    assert note.startswith("probability.vti was not written: ") and "python3-vtk9" in note
    assert (
        likely(shared.folder)[0] == pytest.approx([1 / 3, 1 / 3, 2 / 3], abs=1e-6)
        and not (shared.folder / "probability.vti").exists()
    )
