"""The second look at scenarios: what is right passes, and each kind of wrong answer, wrong table and mistake in the code is found."""

import json
import shutil

import numpy as np
import pandas as pd
import pytest
from conftest import rows
from helpers.random_tests import examples
from helpers.scenarios import COLUMNS, MODELS, PRICES, UPRIGHT, hill, pillar, prepared, solved_in_turn, write_models
from helpers.verified import TEXT
from helpers.verified_scenarios import SETS, answer_of, bend, simulated
from helpers.writings import PLAIN, UNVERIFIED
from hypothesis import HealthCheck, given, strategies as st

import pitplan
from pitplan import PlanError, Request
from pitplan.cli import main
from pitplan.studies.scenarios import realisations, worker
from planaudit import AuditError
from planaudit.studies.realisations import read
from planaudit.studies.scenarios import Verification, verify


@pytest.fixture(scope="module")
def gathered(tmp_path_factory):
    place = tmp_path_factory.mktemp("simulated")
    simulated().to_csv(place / "blocks.csv", index=False)
    (place / "project.toml").write_text(TEXT + '[scenarios]\ncolumns = { copper = "cu_*" }\n' + SETS)
    shared = prepared(place / "project.toml")
    solved_in_turn(shared)
    notes = pitplan.gather(shared.folder, writing=PLAIN).notes
    assert not any("left out" in note for note in notes)
    return place


@pytest.fixture
def copied(gathered, tmp_path):
    """The folder of the scenarios in a place of the test's own."""
    return shutil.copytree(gathered, tmp_path / "mine") / "plan"


def wrong(folder):
    return {rule.name for rule in verify(folder) if rule.differences}


RULES = [
    "blocks",
    "missing blocks",
    "slope error",
    "scenarios",
    "slopes",
    "constraints",
    "shells",
    "values",
    "probability",
    "tables",
]


def test_what_is_right_is_told_rule_by_rule(copied, capsys):
    assert main(["verify", str(copied)]) == 0
    *lines, verdict = capsys.readouterr().out.splitlines()
    assert verdict == f"verified: all {len(RULES)} rules hold"
    assert [line.split(":")[0] for line in lines] == RULES
    assert (
        "values: in 6 of 6 solved scenarios: the solver's value of each shell equals the sum over its blocks"
        in lines[7]
    )
    said = json.loads((copied / "gathered.json").read_text())
    assert said["answers"] == [1, 2, 3, 4, 5, 6] and said["verified"] == lines


def test_a_run_may_leave_it_out_and_says_so(copied, capsys):
    (copied / "tables/probability.csv").unlink()
    assert main(["gather", str(copied), "--no-verify", "--no-figures"]) == 0
    assert f"the results were not verified: run pitplan verify {copied}\n" in capsys.readouterr().err
    assert json.loads((copied / "gathered.json").read_text())["verified"] == []
    assert wrong(copied) == set()


def test_a_folder_in_which_nothing_is_gathered_is_named(copied):
    (copied / "tables/probability.csv").unlink()
    with pytest.raises(AuditError, match="probability.csv: cannot be read: run pitplan scenarios or gather first"):
        verify(copied)


def mine_no_more(places):
    """Leaves a block that is dug at the first factor and not forced, so that others of its pit stand below it."""
    bent = places.copy()
    bent[np.flatnonzero(places == 1)[-1]] = 0
    return bent


def a_hundredth_more(worth):
    return np.array([*worth[:-1], f"{float(worth[-1]) + 0.01:.6f}"])


@pytest.mark.parametrize(
    ("changed", "found"),
    [
        ({"places": mine_no_more}, {"slopes", "shells", "values", "probability", "tables"}),
        ({"value_at_revenue_factor": a_hundredth_more}, {"values", "tables"}),
        ({"table": lambda it: it * 1.001}, {"shells", "tables"}),
    ],
)
def test_each_wrong_answer_is_found_and_not_gathered(copied, capsys, changed, found):
    bend(answer_of(copied, 1), **changed)
    assert found <= wrong(copied)
    before = (copied / "tables/probability.csv").read_bytes(), (copied / "gathered.json").read_bytes()
    assert main(["gather", str(copied), "--quiet", "--no-figures"]) == 1
    assert "pitplan: verification failed: " in capsys.readouterr().err
    assert before == ((copied / "tables/probability.csv").read_bytes(), (copied / "gathered.json").read_bytes())


def test_a_block_that_comes_in_at_no_factor_is_found(copied, capsys):
    bend(answer_of(copied, 1), places=lambda it: it + 7 * (it == 3))
    (rule,) = [rule for rule in verify(copied) if rule.name == "tables"]
    assert rule.differences[0] == "scenario 1, cu_a at copper 8000, gold 60: a block has none of the revenue factors"
    assert main(["gather", str(copied), "--quiet", "--no-figures"]) == 1
    assert "it holds other blocks or factors: remove it, and run pitplan scenarios again" in capsys.readouterr().err


@pytest.mark.parametrize(("one", "other"), [(1, 2), (1, 3), (4, 6)])
def test_the_answer_of_another_scenario_is_found(copied, one, other):
    """That of the same model at other prices, and that of another model at the same prices, under the key of the one."""
    with np.load(answer_of(copied, other)) as answer:
        arrays = {**answer, "key": answer_of(copied, one).stem}
    np.savez_compressed(answer_of(copied, one), **arrays)
    assert main(["gather", str(copied), "--quiet", "--no-verify", "--no-figures"]) == 0
    assert "values" in wrong(copied)


def test_a_barred_block_that_is_dug_is_found(copied):
    never = np.flatnonzero(simulated()["never"] == 1)[0]

    def mined(places):
        return np.where(np.arange(len(places)) == never, 1, places).astype(places.dtype)

    bend(answer_of(copied, 2), places=mined)
    (rule,) = [rule for rule in verify(copied) if rule.name == "constraints"]
    assert rule.differences == (
        "scenario 2, cu_a at copper 11000.5, gold 45: block b10-0-0 is excluded, and is mined from revenue factor 0.50",
    )


@pytest.mark.parametrize(
    ("file", "column", "rule"),
    [
        ("tables/probability.csv", "probability_1.00", "probability"),
        ("tables/probability.csv", "id", "blocks"),
        *(
            ("tables/scenarios.csv", name, "tables")
            for name in (
                "price_gold",
                "blocks",
                "tonnes",
                "head_grade_gold",
                "undiscounted_cash_flow",
                "value_at_revenue_factor",
            )
        ),
        *(
            ("tables/quantiles.csv", name, "tables")
            for name in ("realisations", "tonnes_mean", "undiscounted_cash_flow_least", "recovered_gold_quantile_0.1")
        ),
        *(
            ("tables/quantiles.csv", f"value_at_revenue_factor_{name}", "tables")
            for name in ("quantile_0.5", "quantile_0.9", "greatest")
        ),
    ],
)
def test_each_number_that_is_bent_is_found(copied, file, column, rule):
    """A hundredth more in the last row that has the number."""
    table = pd.read_csv(copied / file, dtype={"value_at_revenue_factor": str})
    at = table.index[pd.to_numeric(table[column]) > 0][-1]
    bent = float(table.loc[at, column]) + (1 if column in ("blocks", "id", "realisations") else 0.01)
    table.loc[at, column] = f"{bent:.6f}" if column == "value_at_revenue_factor" else bent
    table.to_csv(copied / file, index=False)
    assert wrong(copied) == {rule}


def test_a_probability_that_is_bent_is_named(copied):
    table = pd.read_csv(copied / "tables/probability.csv")
    at = table.index[table["probability_1.50"] == 0.5][0]
    name = table["name"][at]
    table.loc[at, "probability_1.50"] += 0.01
    table.to_csv(copied / "tables/probability.csv", index=False)
    (rule,) = [rule for rule in verify(copied) if rule.differences]
    assert (rule.name, rule.count, rule.differences) == (
        "probability",
        1,
        (f"block {name}: probability_1.50 0.51 for 0.5",),
    )


@pytest.mark.parametrize(
    ("change", "said"),
    [
        (
            lambda it: it["scenarios"][1]["prices"].update(copper="9000"),
            "scenarios.json lists cu_a at {'copper': '9000', 'gold': '45'} for ",
        ),
        (lambda it: it["scenarios"][1].update(realisation="cu_b"), "scenarios.json lists cu_b at "),
        (lambda it: it["scenarios"].pop(), "scenarios.json lists 5 scenarios, and realisations and price decks make 6"),
        (lambda it: it["revenue_factors"].pop(), "scenarios.json lists the revenue factors 0.50, 1.00"),
    ],
)
def test_a_list_of_other_scenarios_is_found(copied, change, said):
    path = copied / "scenarios.json"
    record = json.loads(path.read_text())
    change(record)
    path.write_text(json.dumps(record))
    (rule,) = [rule for rule in verify(copied) if rule.name == "scenarios"]
    assert rule.differences[0].startswith(said)


def test_a_table_that_has_changed_is_found(copied):
    path = copied.parent / "blocks.csv"
    table = pd.read_csv(path)
    ore = table.index[table["cu_b"] > 0.5][0]
    table.assign(cu_b=table["cu_b"].where(table.index != ore, 1.0)).to_csv(path, index=False)
    assert wrong(copied) == {"shells", "values"}
    table[table.index != ore].to_csv(path, index=False)
    with pytest.raises(
        AuditError, match="probability.csv: 1 of its blocks are not in the table: has the table changed since?"
    ):
        verify(copied)


def test_models_of_a_folder_are_read_by_id_and_by_place(plan_folder):
    table, model = hill()
    path = plan_folder(table, MODELS + "[[scenarios.prices]]\ncopper = 40_000\n")
    write_models(path, by_id=model[["name", "cu"]].sample(frac=1, random_state=1))
    write_models(path, by_place=model[["x", "y", "z", "cu"]].sample(frac=1, random_state=2))
    folder = prepared(path).folder
    solved_in_turn(prepared(path))
    pitplan.gather(folder, writing=UNVERIFIED)
    assert wrong(folder) == set()
    models = read(folder, folder)
    assert [models.grades(scenario.model)[:, 0].tolist() for scenario in models.scenarios] == [
        (np.arange(12) / 10).tolist()
    ] * 2
    write_models(path, by_id=model[["name", "cu"]].assign(name=model["name"][::-1].to_numpy()))
    assert wrong(folder) == {"shells", "values"}
    write_models(path, by_id=model[["name", "cu"]].assign(name=["nobody", *model["name"][1:]]))
    with pytest.raises(AuditError, match="by_id.csv: 1 of its blocks are not in the table: has it changed since?"):
        verify(folder)


@pytest.mark.parametrize("column", ["name", "place"])
def test_rows_of_a_model_that_are_taken_in_their_own_order_are_found(plan_folder, monkeypatch, column):
    """A mistake that no price and no sum shows which takes the model as it was read."""
    table, model = hill()
    path = plan_folder(table, MODELS + "[[scenarios.prices]]\ncopper = 40_000\n")
    mixed = model.sample(frac=1, random_state=3)
    write_models(path, mixed=mixed[["name", "cu"] if column == "name" else ["x", "y", "z", "cu"]])
    for reader in ("rows_by_id", "rows_by_place"):
        monkeypatch.setattr(realisations, reader, lambda frame, *_: np.arange(len(frame)))
    folder = prepared(path).folder
    solved_in_turn(prepared(path))
    with pytest.raises(PlanError, match="values: scenario 1, mixed at copper 40000: revenue factor"):
        pitplan.gather(folder, writing=PLAIN)
    assert not (folder / "tables/probability.csv").exists()


def test_prices_that_are_passed_over_are_found(plan_folder, monkeypatch):
    monkeypatch.setattr(worker, "priced", lambda project, prices: project)
    shared = prepared(plan_folder(pillar(), PRICES, UPRIGHT))
    solved_in_turn(shared)
    # At 12,000 the metal of sim_1, 0.75 t, yields 4500 at revenue factor 0.50, and the pit 2900.
    with pytest.raises(
        PlanError,
        match="values: scenario 2, sim_1 at copper 12000: revenue factor 0.50: value_at_revenue_factor 1400.* for 2900",
    ):
        pitplan.gather(shared.folder, writing=PLAIN)


def test_a_cost_that_is_counted_from_another_level_is_found(plan_folder, monkeypatch):
    """Ore lies at the floor of three levels. Beside it are five, of rock T whose metal yields 1400 a block, which is what processing it
    costs: by floats it yields a hair more."""
    table = rows(1, 1, 3).drop(columns="cu").assign(sim_1=[1.5, 0, 0], sim_2=[0.4, 0, 0])
    side = (
        rows(1, 1, 5, rock=lambda i, j, k: "T")
        .drop(columns="cu")
        .assign(name=list("abcde"), x=95.0, sim_1=0.35, sim_2=0.2)
    )
    assert 100 * 0.35 * 0.01 * 0.5 * 8000 > 1400
    costs = (
        "mining_cost = 2\nprocessing_cost = 10",
        "mining_cost = 2\nmining_cost_per_bench = 0.25\nprocessing_cost = { R = 10, T = 14 }",
    )
    text = (COLUMNS, UPRIGHT, costs, ("file =", 'missing_blocks = "air"\nfile ='))
    path = plan_folder(pd.concat([table, side]), *text)
    shared = prepared(path)
    solved_in_turn(shared)
    pitplan.gather(shared.folder, writing=PLAIN)
    # 30 m is the top of the three blocks that ore needs, and 50 m that of the model, from which they cost 0.5, 0.75 and 1 more a tonne.
    assert pd.read_csv(shared.folder / "tables/scenarios.csv")["value_at_revenue_factor"][1] == 4400 - 50 - 75 - 100
    monkeypatch.setattr("pitplan.economics.weighing.reference_level", lambda *_: 2)
    shutil.rmtree(shared.folder / "done")
    shared = prepared(path)
    solved_in_turn(shared)
    with pytest.raises(PlanError, match="values: scenario 1, sim_1: revenue factor 0.50: value_at_revenue_factor "):
        pitplan.gather(shared.folder, writing=PLAIN)


def test_ten_scenarios_of_more_are_looked_at_evenly(plan_folder):
    """Of twelve; one that is not among the ten still has to add up and to be counted."""
    sets = "".join(f"[[scenarios.prices]]\ncopper = {price}\n" for price in (8000, 9000, 10_000, 12_000))
    shared = prepared(plan_folder(pillar(), COLUMNS + sets, UPRIGHT))
    solved_in_turn(shared)
    pitplan.gather(shared.folder, writing=UNVERIFIED)
    sample = Verification(read(shared.folder, shared.folder)).sample
    assert [scenario.number for scenario in sample] == [1, 2, 3, 5, 6, 7, 8, 10, 11, 12]
    assert all(
        "in 10 of 12 solved scenarios: " in rule.holds
        for rule in verify(shared.folder)
        if rule.name in ("slopes", "constraints", "shells", "values")
    )
    bend(answer_of(shared.folder, 4), places=lambda it: np.array([0, *it[1:]], dtype=it.dtype))
    assert wrong(shared.folder) == {"probability", "tables"}


def test_sets_of_prices_that_name_other_metals_are_kept_apart(plan_folder):
    sets = "[[scenarios.prices]]\ncopper = 8000\n[[scenarios.prices]]\ncopper = 8000\ngold = 90\n"
    shared = prepared(plan_folder(simulated(), TEXT + '[scenarios]\ncolumns = { copper = "cu_*" }\n' + sets))
    solved_in_turn(shared)
    pitplan.gather(shared.folder, writing=UNVERIFIED)
    assert wrong(shared.folder) == set()


def test_answers_that_were_not_gathered_are_named(plan_folder):
    shared = prepared(plan_folder(pillar(), COLUMNS, UPRIGHT))
    assert [worker.solve(str(shared.folder), number).status for number in (1, 3)] == [0, 0]
    pitplan.gather(shared.folder, Request(partial=True), writing=PLAIN)
    assert wrong(shared.folder) == set() and json.loads((shared.folder / "gathered.json").read_text())["answers"] == [
        1,
        3,
    ]
    assert worker.solve(str(shared.folder), 2).status == 0
    (rule,) = [rule for rule in verify(shared.folder) if rule.name == "tables"]
    assert (
        rule.differences[0]
        == "scenarios.csv: scenario 2 has an answer or rows there, not both: run pitplan gather again"
    )


def test_a_density_and_ground_without_rows_are_looked_at(plan_folder):
    """A block in the middle of a pillar has no row: it is 90 t of rock. The others are of 1 t a cubic metre, the topmost half of one."""
    table = pillar().drop(columns="tonnes").assign(dens=1.0, vol=[100, 100, 0.5])
    rock = 'density = "dens"\nvolume = "vol"\nmissing_blocks = { tonnes = 90, rock_type = "R", domain = "1" }\nfile ='
    shared = prepared(plan_folder(table[table["name"] != "b0-0-1"], COLUMNS, UPRIGHT, ("file =", rock)))
    solved_in_turn(shared)
    pitplan.gather(shared.folder, writing=UNVERIFIED)
    assert wrong(shared.folder) == set()
    assert pd.read_csv(shared.folder / "tables/scenarios.csv")["value_at_revenue_factor"][0] == 1400 + 20 + 199


def test_a_folder_that_is_none_of_scenarios_is_named(copied, tmp_path):
    with pytest.raises(
        AuditError, match="nowhere/scenarios.json: cannot be read: run pitplan scenarios or gather first"
    ):
        verify(tmp_path / "nowhere")
    record = json.loads((copied / "scenarios.json").read_text())
    for name in ("revenue_factors", "grid", "project"):
        (copied / "scenarios.json").write_text(json.dumps({key: value for key, value in record.items() if key != name}))
        with pytest.raises(
            AuditError, match=f"plan: not an output folder of pitplan scenarios and pitplan gather: '{name}' is missing"
        ):
            verify(copied)
    (copied / "scenarios.json").write_text("no record")
    with pytest.raises(AuditError, match="scenarios.json: cannot be read as JSON"):
        verify(copied)


def test_answers_that_are_none_are_named(copied):
    answer_of(copied, 3).write_bytes(b"nothing")
    with pytest.raises(AuditError, match=r"\.npz: is not a result of scenario 3, cu_b at copper 8000"):
        verify(copied)
    bend(answer_of(copied, 2), places=lambda it: it[1:])
    with pytest.raises(AuditError, match=r"\.npz: found 458 blocks, expected the 459 of the table"):
        verify(copied)


@examples(2, suppress_health_check=[HealthCheck.function_scoped_fixture])
@given(
    st.integers(0, 10**6),
    st.sampled_from(["per_revenue_factor", "base_price"]),
    st.sampled_from(["per_bench = 0.25", "by_elevation = [[10, 0.7], [40, 0.1]]"]),
)
def test_random_scenarios_are_right(plan_folder, seed, cutoff, deeper):
    """Uneven ground, rocks, fixed blocks, two regions, three models by place in a folder, of which one has no gold, at two sets of prices."""
    rng = np.random.default_rng(seed)
    table = rows(8, 7, 5, region=lambda i, j, k: "12"[int(i > 4)], rock=lambda i, j, k: "RS"[int(k > 2)]).drop(
        columns="cu"
    )
    ground = rng.integers(3, 6, (8, 7))[(table["x"] // 10).astype(int), (table["y"] // 10).astype(int)]
    table = table.assign(must=(rng.random(len(table)) < 0.01).astype(int), never=0)[table["z"] < 10 * ground]
    domains = '[[slopes.domains]]\ndomain = "1"\nangle = 42\n[[slopes.domains]]\ndomain = "2"\nazimuths = [[0, 60], [180, 35]]'
    changes = [
        ('[[slopes.domains]]\npattern = "1:5"', domains),
        ("mining_cost_per_bench = 0.25", f'cutoff = "{cutoff}"\nmining_cost_{deeper}'),
    ]
    path = plan_folder(table, TEXT + '[scenarios]\nrealisations = "realisations"\n' + SETS, *changes)
    shutil.rmtree(path.parent / "realisations", ignore_errors=True)
    shutil.rmtree(path.parent / "plan", ignore_errors=True)
    for number in range(3):
        some = rng.random((2, len(table))) < 0.06
        grades = {
            "cu": np.where(some[0], rng.random(len(table)).round(3) * 8, 0.0),
            "au": np.where(some[1] & (number > 0), 2.5, 0.0),
        }
        write_models(
            path, **{f"m{number}": table[["x", "y", "z"]].assign(**grades).sample(frac=1, random_state=number)}
        )
    solved_in_turn(prepared(path))
    pitplan.gather(prepared(path).folder, writing=UNVERIFIED)
    assert wrong(path.parent / "plan") == set()


def test_tables_and_models_that_are_gone_are_named(copied, plan_folder):
    (copied / "tables/quantiles.csv").unlink()
    with pytest.raises(AuditError, match="plan/tables/quantiles.csv: cannot be read: No such file or directory"):
        verify(copied)
    table, model = hill()
    path = plan_folder(table, MODELS)
    write_models(path, only=model)
    solved_in_turn(prepared(path))
    pitplan.gather(prepared(path).folder, writing=PLAIN)
    shutil.rmtree(path.parent / "realisations")
    with pytest.raises(AuditError, match="/realisations: cannot be read: No such file or directory"):
        verify(path.parent / "plan")


def test_blocks_that_come_in_at_factor_1_are_dug(plan_folder):
    """At a thousandth of eight millions the first model's metal yields 6000, and its pit costs 1600."""
    changes = [UPRIGHT, ("price = 8000", "price = 8_000_000"), ("[0.5, 1.0, 1.5]", "[0.001, 0.002, 1.0]")]
    shared = prepared(plan_folder(pillar(), COLUMNS, *changes))
    solved_in_turn(shared)
    pitplan.gather(shared.folder, writing=UNVERIFIED)
    assert wrong(shared.folder) == set()
    assert pd.read_csv(shared.folder / "tables/probability.csv")["probability_0.001"].tolist() == pytest.approx(
        [1 / 3] * 3, abs=1e-6
    )


def test_ore_that_pays_nothing_once_it_is_rounded_is_none(plan_folder):
    """3,000,000 t of 0.25 % yield 3,750 t of copper: 30,000,000.00375, which is rounded to what processing costs."""
    table = rows(2, 1, 3, tonnes=lambda i, j, k: 3_000_000).drop(columns="cu")
    table = table.assign(sim_1=[6.0, 0, 0, 0, 0, 0.25])[table["name"] != "b0-0-2"]
    more = "mining_cost = 2\nmining_cost_per_bench = 0.5\ndecimals = 2"
    shared = prepared(
        plan_folder(table, COLUMNS, UPRIGHT, ("price = 8000", "price = 8000.000001"), ("mining_cost = 2", more))
    )
    solved_in_turn(shared)
    pitplan.gather(shared.folder, writing=UNVERIFIED)
    assert wrong(shared.folder) == set()
    # 90,000 t of copper; a tonne costs 10 to process, and to mine 2.5 and 3 in blocks whose tops are 10 and 20 m below that of the model.
    worth = pd.read_csv(shared.folder / "tables/scenarios.csv").set_index("revenue_factor")["undiscounted_cash_flow"]
    assert worth[1.0] == pytest.approx(90_000 * 8000.000001 - 3_000_000 * (10 + 2.5 + 3), abs=0.01)


def test_quantiles_of_one_model_are_its_own_amounts(plan_folder):
    """At revenue factor 1.00 its pit has three blocks of 100 t and is worth 4400."""
    shared = prepared(plan_folder(pillar().drop(columns=["sim_2", "sim_3"]), COLUMNS, UPRIGHT))
    solved_in_turn(shared)
    pitplan.gather(shared.folder, writing=UNVERIFIED)
    assert wrong(shared.folder) == set()
    row = pd.read_csv(shared.folder / "tables/quantiles.csv").set_index("revenue_factor").loc[1.0]
    parts = ("mean", "least", "quantile_0.1", "quantile_0.5", "quantile_0.9", "greatest")
    assert [(row[f"tonnes_{part}"], row[f"undiscounted_cash_flow_{part}"]) for part in parts] == [(300, 4400)] * 6
