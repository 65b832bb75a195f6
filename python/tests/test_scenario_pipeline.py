"""Scenarios of reblocked and cut models and of several processes: each is the plan of its own grades and prices, block for block."""

from dataclasses import replace
from decimal import Decimal

import numpy as np
import pandas as pd
import pytest
from conftest import PROJECT, rows
from helpers.random_tests import examples
from helpers.writings import PLAIN, UNVERIFIED
from hypothesis import HealthCheck, given, strategies as st

import pitplan
from pitplan import PlanError, load, verify as verify_folder
from pitplan.blockmodel import reblock, topography
from pitplan.core.progress import silent
from pitplan.economics import block_values
from pitplan.solver import problem
from pitplan.solver.choice import LIBRARY, PROGRAM
from pitplan.studies.scenarios import pit_probability, prepare, realisations, worker
from planaudit import AuditError
from planaudit.inputs.reblocking import mean_grades
from planaudit.studies.scenarios import verify

SOME = examples(5, suppress_health_check=[HealthCheck.function_scoped_fixture])
COLUMNS = '[scenarios]\ncolumns = { copper = "cu_*" }\n'
SETS = COLUMNS + "[[scenarios.prices]]\ncopper = 4000\n[[scenarios.prices]]\ncopper = 11_000\ngold = 80\n"
MODELS = '[scenarios]\nrealisations = "realisations"\n'
GOLD = '[[metals]]\nname = "gold"\ncolumn = "au"\nunit = "gram_per_tonne"\nprice = 40\nrecovery = 0.5\n[slopes]\n'
REBLOCK = ('file = "blocks.csv"', 'file = "blocks.csv"\nreblock = [2, 2, 1]')
CORNER = ('file = "blocks.csv"', 'file = "blocks.csv"\nreblock = { size = [20, 20, 20], corner = [-10, 0, 0] }')
TOPOGRAPHY = ('file = "blocks.csv"', 'file = "blocks.csv"\ntopography = "ground.csv"')
ANY_SIZE = ("size = [10, 10, 10]\n", "tolerance = 0.01\n")
MINED = '[constraints]\nmust_mine = "must"\nexclude = "never"\nas_mined = "mined.csv"\n'
WHOLE = MINED + 'topography = "blocks"\n'


def mine(seed, shape=(6, 4, 3)):
    """Random grades of copper in three realisations, gold in the table, two rocks, uneven tonnes and a few fixed blocks."""
    random = np.random.default_rng(seed)
    table = rows(*shape).drop(columns="cu")
    count = len(table)
    some = random.random((count, 3)) < 0.4
    grades = np.where(some, random.integers(1, 300, (count, 3)) / 100, 0)
    table = table.assign(**dict(zip(("cu_a", "cu_b", "cu_c"), grades.T)))
    table["au"] = np.where(random.random(count) < 0.3, random.integers(1, 40, count) / 10, 0)
    table["rock"] = random.choice(["R", "S"], count)
    table["tonnes"] = random.integers(500, 1500, count) / 10
    # Blocks that must be mined are on the upper level, and those that may not be on the two below.
    table["must"] = ((random.random(count) < 0.1) & (table["z"] == 25)).astype(int)
    table["never"] = ((table["x"] == 55) & (table["y"] == 5) & (table["z"] < 20)).astype(int)
    return table


def with_processes(seed, count, cutoff="per_revenue_factor"):
    """Changes of a project to several processes with random costs and recoveries."""
    random = np.random.default_rng(seed)
    text = ""
    for number in range(count):
        copper, other, gold = (random.integers(0, 11, 3) / 10).tolist()
        text += f'[[processes]]\nname = "p{number}"\ncost = {random.integers(0, 25)}\ncapacity = 1000\n'
        text += f"recovery = {{ copper = {{ R = {copper}, S = {other} }}, gold = {gold} }}\n"
    return [
        ("processing_cost = 10\n", f'cutoff = "{cutoff}"\nmining_cost_per_bench = 0.1\nmining_cost_reference = 20\n'),
        ("recovery = 0.5\n[slopes]\n", "recovery = 0.5\n" + GOLD),
        ("processing_capacity = 100\n", ""),
        ("[slopes]\nprecedence_benches", text + "[slopes]\nprecedence_benches"),
    ]


def of_processes(text):
    """The text without the recoveries and the cost of a single process."""
    return text.replace("recovery = 0.5\n", "")


def write_surface(path, height):
    x, y = (axis.ravel() for axis in np.meshgrid(np.arange(-20, 101, 5.0), np.arange(-20, 81, 5.0)))
    pd.DataFrame({"x": x, "y": y, "z": [height(*place) for place in zip(x, y)]}).to_csv(path, index=False)


def ground(x, y):
    """A slope within the upper level of three."""
    return 30 - 0.12 * x - 0.03 * y


def write_surfaces(place, depth=7.0):
    write_surface(place / "ground.csv", ground)
    write_surface(place / "mined.csv", lambda x, y: ground(x, y) - (depth if 10 <= x <= 30 and 10 <= y <= 30 else 0))


def prepared(path, solver=None):
    project = replace(load(path), solver=solver)
    return prepare.prepare(project, project.folder, silent)


def alone(path, scenario, table, grades):
    """The plan of a scenario as a project of its own."""
    project = load(path)
    project = replace(realisations.priced(project, scenario.priced()), scenarios=None)
    return pitplan.Plan.from_project(project, table.assign(cu=grades[scenario.realisation]))


def demand_plans_of_their_own(path, table, grades, solver=None):
    """Each scenario has the pits, the processes of blocks, the amounts and the values of the plan of its own grades and prices."""
    shared = prepared(path, solver)
    assert len(shared.scenarios) >= len(grades)
    for scenario in shared.scenarios:
        own = alone(path, scenario, table, grades)
        expected = own.shells().solution
        cells = own.shells().cells
        assert shared.grid.as_json() == own.grid.as_json() and (shared.grid.rows == own.grid.rows).all()

        assert worker.solve(str(shared.folder), scenario.number).status == 0, scenario.label
        places, answer = pit_probability.read_answer(shared, scenario)
        assert [0, *own.project.shells.revenue_factors] == [0, *shared.record["revenue_factors"]]
        factors = np.array([0, *own.project.shells.revenue_factors])
        assert (factors[places] == cells.factor[own.grid.rows]).all(), scenario.label
        assert [Decimal(it) for it in answer["value_at_revenue_factor"]] == expected.worth.tolist()
        amounts = own.shells().amounts
        pd.testing.assert_frame_equal(answer[list(amounts)].astype(float), amounts.astype(float), check_exact=True)

        plan = worker.plan_of(shared, scenario)
        found = problem.joined(worker.shells_of(shared, plan), plan.settled, plan.values)
        assert (pitplan.Shells(plan, found).cells.processed == cells.processed).all()
        demand_same_steps(plan, found, own, expected)
    return shared


def demand_same_steps(plan, found, own, expected):
    """The steps of a plan and the factors at which they pay are those of its own; other nodes are in no pit."""
    count, is_step = plan.grid.count, plan.values.steps.way >= 0
    for name in ("block", "way", "revenue", "cost"):
        assert (getattr(plan.values.steps, name)[is_step] == getattr(own.values.steps, name)).all()
    assert (found.entry[count:][is_step] == expected.entry[count:]).all()
    assert (found.entry[count:][~is_step] == 0).all()
    assert (plan.values.mining == own.values.mining).all()


def grades_of(table):
    return {name: table[name].to_numpy() for name in ("cu_a", "cu_b", "cu_c")}


@SOME
@given(
    st.integers(0, 10**6),
    st.sampled_from([2, 3]),
    st.sampled_from(["per_revenue_factor", "per_revenue_factor", "base_price"]),
)
def test_scenarios_of_processes_are_plans_of_their_own(plan_folder, seed, count, cutoff):
    table = mine(seed)
    path = plan_folder(table, of_processes_text(seed, count, cutoff, SETS))
    demand_plans_of_their_own(path, table, grades_of(table))


SMELTER = """price = 8000
smelter = { processes = "all", concentrate_grade = 26, payable = 0.965, minimum_deduction = 1.1, treatment_charge = 90, refining_charge = 160, \
price_participation = { base = 7000, share = 0.07 }, moisture = 0.08, freight = 55, penalties = [{ column = "as_ppm", steps = [[900, 40]] }] }
""".replace(
    "\\\n", ""
)


@SOME
@given(st.integers(0, 10**6), st.integers(1, 2))
def test_scenarios_with_smelter_terms_are_plans_of_their_own(plan_folder, seed, count):
    """At 4,000 the price participation is a credit, at 11,000 a charge; penalties follow from the grades of each realisation."""
    table = mine(seed).assign(as_ppm=np.random.default_rng(seed).integers(0, 60, 72))
    change = ("price = 8000\n", SMELTER.replace('processes = "all", ', "" if count == 1 else 'processes = "all", '))
    if count == 1:
        path = plan_folder(table, PROJECT + SETS.replace("\ngold = 80", ""), change)
    else:
        path = plan_folder(table, of_processes_text(seed, count, "per_revenue_factor", SETS, change))
    shared = demand_plans_of_their_own(path, table, grades_of(table))
    pitplan.gather(shared.folder, writing=UNVERIFIED)
    assert not [rule.name for rule in verify_folder(shared.folder) if rule.differences]


def of_processes_text(seed, count, cutoff, more, *changes):
    """A project of several processes."""
    text = PROJECT + more
    for old, new in [*with_processes(seed, count, cutoff), *changes]:
        assert text.count(old) == 1, old
        text = text.replace(old, new)
    return of_processes(text)


@SOME
@given(st.integers(0, 10**6), st.booleans(), st.booleans())
def test_scenarios_of_reblocked_models_are_plans_of_their_own(plan_folder, seed, by_corner, has_processes):
    table, changes = mine(seed), [CORNER, ANY_SIZE] if by_corner else [REBLOCK, ANY_SIZE]
    if has_processes:
        path = plan_folder(table, of_processes_text(seed, 2, "per_revenue_factor", SETS, *changes))
    else:
        path = plan_folder(table, PROJECT + COLUMNS, *changes)
    demand_plans_of_their_own(path, table, grades_of(table))


@SOME
@given(st.integers(0, 10**6), st.booleans())
def test_scenarios_of_models_that_a_topography_cuts_are_plans_of_their_own(plan_folder, tmp_path, seed, has_processes):
    write_surfaces(tmp_path)
    table = mine(seed)
    text = of_processes_text(seed, 3, "per_revenue_factor", SETS) if has_processes else PROJECT + COLUMNS
    demand_plans_of_their_own(plan_folder(table, text, TOPOGRAPHY), table, grades_of(table))


@SOME
@given(st.integers(0, 10**6), st.sampled_from([3.0, 7.0, 14.0]), st.booleans())
def test_scenarios_of_mines_with_an_as_mined_surface_are_plans_of_their_own(plan_folder, tmp_path, seed, depth, cut):
    write_surfaces(tmp_path, depth)
    table, changes = mine(seed), [TOPOGRAPHY] if cut else []
    text = of_processes_text(seed, 2, "per_revenue_factor", SETS + (MINED if cut else WHOLE))
    demand_plans_of_their_own(plan_folder(table, text, *changes), table, grades_of(table))


@pytest.mark.parametrize("solver", [LIBRARY, PROGRAM])
def test_all_together_with_missing_blocks(plan_folder, tmp_path, solver):
    """Reblocked, cut by the ground and by an as-mined surface, in three processes, with rock where rows are missing."""
    write_surfaces(tmp_path)
    rock = 'missing_blocks = { tonnes = 300, rock_type = "R", domain = "1" }\n'
    both = ('file = "blocks.csv"\n', f'file = "blocks.csv"\nreblock = [2, 2, 1]\ntopography = "ground.csv"\n{rock}')
    table = mine(5)
    table = table[~((table["x"] < 20) & (table["y"] > 20) & (table["z"] < 20))].reset_index(drop=True)
    text = of_processes_text(5, 3, "per_revenue_factor", SETS + MINED, both, ANY_SIZE)
    shared = demand_plans_of_their_own(plan_folder(table, text), table, grades_of(table), solver)
    pitplan.gather(shared.folder, writing=UNVERIFIED)
    assert len(shared.frame) == 18
    said = {rule.name: rule.differences for rule in verify(shared.folder)}
    assert {"reblocked", "as mined", "values", "constraints", "missing blocks"} <= set(said) and not any(said.values())


def write_models(path, table):
    """Three tables of grades with rows in orders of their own: by id, by centre, and by both."""
    (path.parent / "realisations").mkdir()
    for number, name in enumerate(("cu_a", "cu_b", "cu_c")):
        model = table[["name", "x", "y", "z"]].assign(cu=table[name], au=table["au"])
        model = model.drop(columns=[["x", "y", "z"], ["name"], []][number]).sample(frac=1, random_state=number)
        model.to_csv(path.parent / "realisations" / f"{name}.csv", index=False)


@pytest.mark.parametrize("change", [REBLOCK, CORNER])
def test_rows_of_models_are_those_of_the_table_before_reblocking(plan_folder, change):
    table = mine(11)
    path = plan_folder(table, of_processes_text(11, 2, "per_revenue_factor", MODELS, change, ANY_SIZE))
    write_models(path, table)
    shared = demand_plans_of_their_own(path, table, grades_of(table))
    pitplan.gather(shared.folder, writing=UNVERIFIED)
    assert not [rule.name for rule in verify(shared.folder) if rule.differences]


@pytest.mark.parametrize(
    ("bend", "said"),
    [
        (
            lambda it: it.assign(name=["1-1-1", *it["name"][1:]]),
            "cu_a.csv row 2 column name: 1-1-1 is not the id of a block of ",
        ),
        (lambda it: it[1:], "cu_a.csv: 1 blocks are missing, first that of "),
        (lambda it: it.drop(columns="name").assign(x=it["x"] + 0.02), "column x, y, z: no block of "),
    ],
)
def test_a_model_that_does_not_fit_the_rows_before_reblocking_is_named(plan_folder, bend, said):
    table = mine(11)
    path = plan_folder(table, PROJECT + MODELS, REBLOCK, ANY_SIZE)
    (path.parent / "realisations").mkdir()
    model = table[["name", "x", "y", "z"]].assign(cu=1)
    bend(model).to_csv(path.parent / "realisations" / "cu_a.csv", index=False)
    with pytest.raises(PlanError) as error:
        prepared(path)
    assert said in str(error.value) and "reblocked" not in str(error.value)


def test_reblocked_grades_by_hand(plan_folder):
    """Four blocks of 100, 300, 200 and 400 t in one: 1, 0, 2 and 0.5 % are 0.7 %; 1 % in the third alone is 0.2 %."""
    tonnes = [100, 300, 200, 400]
    table = rows(2, 2, 1, tonnes=lambda i, j, k: tonnes[i + 2 * j]).drop(columns="cu")
    table = table.assign(cu_a=[1, 0, 2, 0.5], cu_b=[0, 0, 1, 0])
    shared = prepared(plan_folder(table, PROJECT + COLUMNS, REBLOCK))
    assert [shared.grades(it).tolist() for it in shared.scenarios] == [[[0.7]], [[0.2]]]
    assert shared.frame["tonnes"].tolist() == [1000]


def test_shared_nodes_by_hand(plan_folder):
    """Two processes and a block that is rich in one realisation, poor in another and barren in the third."""
    table = rows(1, 1, 2).drop(columns="cu").assign(cu_a=[0.8, 0], cu_b=[0.06, 0], cu_c=[0.0, 0])
    two = '[[processes]]\nname = "leach"\ncost = 3\ncapacity = 9\nrecovery = { copper = 0.4 }\n'
    two += '[[processes]]\nname = "mill"\ncost = 13\ncapacity = 9\nrecovery = { copper = 0.9 }\n[slopes]\n'
    changes = [("processing_cost = 10\n", ""), ("recovery = 0.5\n", ""), ("processing_capacity = 100\n", "")]
    shared = prepared(plan_folder(table, PROJECT + COLUMNS, *changes, ("[slopes]\n", two)))
    assert shared.ore.tolist() == [1, 1]
    steps = [worker.plan_of(shared, it).values.steps for it in shared.scenarios]
    # 100 t of 0.8 % leached for 2560 at 300; the mill adds 3200 for 1000. Of 0.06 % 192 and 240. No copper: no step.
    assert [[int(it) // 10**6 for it in found.revenue] for found in steps] == [[2560, 3200], [192, 240], [0, 0]]
    assert [[int(it) // 10**6 for it in found.cost] for found in steps] == [[300, 1000], [300, 1000], [0, 0]]
    assert [found.way.tolist() for found in steps] == [[0, 1], [0, 1], [-1, -1]]


def test_a_block_with_more_steps_than_shared_nodes_is_named():
    steps = block_values.Steps(*(np.array([3, 3]),) * 4)
    for block in ([3], [2, 3], [3, 4], []):
        with pytest.raises(PlanError, match="cell 3 has more steps than nodes that scenarios share"):
            steps.on(np.array(block, dtype=np.int64))
    assert steps.on(np.array([1, 3, 3, 3, 5])).revenue.tolist() == [0, 3, 3, 0, 0]


def test_each_input_is_part_of_the_key(plan_folder, tmp_path):
    """The ground, the surface, reblocking and processes: with another of any of these no answer is taken for that of before."""
    write_surfaces(tmp_path)
    table = mine(3)
    both = ('file = "blocks.csv"\n', 'file = "blocks.csv"\nreblock = [2, 2, 1]\ntopography = "ground.csv"\n')

    def keys(old="", new=""):
        text = of_processes_text(3, 2, "per_revenue_factor", COLUMNS + MINED, both, ANY_SIZE)
        assert not old or text.count(old) >= 1
        path = plan_folder(table, text.replace(old, new, 1) if old else text)
        return tuple(it.key for it in prepared(path).scenarios)

    first = keys()
    assert keys() == first and keys("capacity = 1000", "capacity = 2000") == first
    text = of_processes_text(3, 2, "per_revenue_factor", COLUMNS + MINED, both, ANY_SIZE)
    cost = next(line for line in text.split("\n") if line.startswith("cost = "))
    recovery = next(line for line in text.split("\n") if line.startswith("recovery = { copper"))
    changed = [
        keys("reblock = [2, 2, 1]", "reblock = [2, 1, 1]"),
        keys("reblock = [2, 2, 1]", "reblock = { size = [20, 20, 10], corner = [0, 0, 0] }"),
        keys(cost, cost + ".5"),
        keys(recovery, "recovery = { copper = 0.31 }"),
        keys('as_mined = "mined.csv"\n', ""),
        keys('name = "p0"', 'name = "q0"'),
    ]
    write_surface(tmp_path / "ground.csv", lambda x, y: ground(x, y) - 1)
    changed.append(keys())
    write_surfaces(tmp_path, 8.0)
    changed.append(keys())
    write_surfaces(tmp_path)
    assert keys() == first
    # A file that says the same in other words may be another survey.
    (tmp_path / "mined.csv").write_text((tmp_path / "mined.csv").read_text() + "\n")
    changed.append(keys())
    for number in range(len(first)):
        found = [keys_of[number] for keys_of in (first, *changed)]
        assert len(set(found)) == len(found)


def test_a_fixed_cutoff_keeps_the_precedences_of_blocks_that_pay_in_another_process(plan_folder):
    """At the reference price the gold process is the better one if a block has copper and gold; at twice the price the copper process is.

    There a block with copper alone yields 200 - 90, with gold alone 120 - 40, and costs 100 to mine: so it pays with copper alone.
    """
    table = rows(3, 1, 2, rock=lambda i, j, k: "R" if k else "S").drop(columns="cu")
    ore = (table["name"] == "b1-0-0").astype(float)
    table = table.assign(cu_a=ore, cu_b=0.0, cu_c=0.0, au_a=0.0, au_b=ore, au_c=0.0)
    two = '[[processes]]\nname = "flotation"\ncost = 0.9\ncapacity = 9\nrecovery = { copper = 1 }\n'
    two += '[[processes]]\nname = "leach"\ncost = 0.4\ncapacity = 9\nrecovery = { gold = 1 }\n[slopes]\n'
    changes = [
        ("mining_cost = 2\nprocessing_cost = 10\n", 'mining_cost = { R = 0.01, S = 1 }\ncutoff = "base_price"\n'),
        ("price = 8000\nrecovery = 0.5\n", "price = 100\n"),
        ("processing_capacity = 100\n", ""),
        ("[0.5, 1.0, 1.5]", "[1.0, 2.0]"),
        ("[slopes]\n", GOLD.replace("price = 40\nrecovery = 0.5\n", "price = 0.6\n").replace("[slopes]\n", two)),
    ]
    models = '[scenarios]\ncolumns = { copper = "cu_*", gold = "au_*" }\n'
    shared = prepared(plan_folder(table, PROJECT + models, *changes))
    for scenario in shared.scenarios:
        assert worker.solve(str(shared.folder), scenario.number).status == 0
    worth = [
        pit_probability.read_answer(shared, it)[1]["value_at_revenue_factor"].map(Decimal).tolist()
        for it in shared.scenarios
    ]
    assert worth == [[0, 7], [0, 0], [0, 0]]


def test_schedules_by_block_refuse_minimums_before_anything_is_read(plan_folder):
    text = of_processes_text(1, 2, "per_revenue_factor", COLUMNS).replace(
        "discount_rate = 0.1", "discount_rate = 0.1\nmining_capacity = 5000"
    )
    path = plan_folder("no table", text + "[schedule]\nyears = 3\nminimum = { feed = 10 }\n")
    with pytest.raises(PlanError, match=r"\[schedule\] minimum: a common schedule cannot meet it"):
        prepare.prepare(load(path), path.parent / "by_block", silent, "block")


@pytest.mark.parametrize("change", [REBLOCK, CORNER])
def test_schedules_by_block_of_reblocked_and_mined_models_are_right(plan_folder, tmp_path, change):
    """What a block holds and earns in each scenario is that of the plan of its own grades, and all that is written is verified."""
    # It imports the library.
    from pitplan.studies.scenarios.blocks.problem import SentBlocks

    write_surfaces(tmp_path)
    table, (file, reblocked) = mine(4), change
    changes = [(file + "\n", reblocked + '\ntopography = "ground.csv"\n'), ANY_SIZE]
    years = ("processing_capacity = 100", "processing_capacity = 2000\nmining_capacity = 4000")
    path = plan_folder(table, PROJECT + COLUMNS + MINED, *changes, years)
    project = load(path)
    shared = prepare.prepare(project, tmp_path / "by_block", silent, "block")
    cells = shared.grid.rows
    for scenario in shared.scenarios:
        found = SentBlocks.of_plan(worker.plan_of(shared, scenario), cells).own
        own = SentBlocks.of_plan(alone(path, scenario, table, grades_of(table)), cells).own
        assert (found.pays == own.pays).all() and found.pays.any()
        assert all((found.flows[name] == own.flows[name]).all() for name in (*found.flows, *own.flows))
    for job in shared.jobs:
        assert worker.solve(str(shared.folder), job.number).why == ""
    pitplan.gather(shared.folder, writing=UNVERIFIED)
    said = {rule.name: rule.differences for rule in verify_folder(shared.folder)}
    assert {"reblocked", "as mined", "block value", "one schedule"} <= set(said) and not any(said.values())


def one_step_a_block(steps, block):
    first = np.flatnonzero(np.diff(steps.block, prepend=-1))
    at = np.searchsorted(block, steps.block[first])
    columns = [np.zeros(len(block), dtype=np.int64) for _ in range(3)]
    for column, values in zip(columns, (steps.way, steps.revenue, steps.cost)):
        column[at] = values[first]
    return block_values.Steps(block, *columns)


@pytest.mark.parametrize(
    ("place", "name", "wrong", "found"),
    [
        # Means that are not weighted by tonnes.
        (
            reblock.Parts,
            "grades",
            lambda parts, grades: pd.DataFrame(grades).groupby(parts.block).mean().round(9).to_numpy(),
            {"reblocked", "shells", "values"},
        ),
        # Rows that are cut by nothing.
        (topography, "cut_by_topography", lambda frame, grid, project, file: (frame, []), {"topography"}),
        # Steps without the last one of each block.
        (block_values.Steps, "on", one_step_a_block, {"values"}),
    ],
)
def test_what_is_prepared_wrongly_is_found(plan_folder, tmp_path, monkeypatch, place, name, wrong, found):
    write_surfaces(tmp_path)
    both = ('file = "blocks.csv"\n', 'file = "blocks.csv"\nreblock = [2, 2, 1]\ntopography = "ground.csv"\n')
    table = mine(8)
    path = plan_folder(table, of_processes_text(8, 3, "per_revenue_factor", MODELS, both, ANY_SIZE))
    write_models(path, table)
    monkeypatch.setattr(place, name, wrong)
    shared = prepared(path)
    for scenario in shared.scenarios:
        assert worker.solve(str(shared.folder), scenario.number).status == 0
    monkeypatch.undo()
    pitplan.gather(shared.folder, writing=UNVERIFIED)
    assert {rule.name for rule in verify(shared.folder) if rule.differences} == found


def test_grades_that_are_kept_of_other_blocks_are_found(plan_folder):
    table = mine(8)
    path = plan_folder(table, PROJECT + COLUMNS, REBLOCK, ANY_SIZE)
    shared = prepared(path)
    for scenario in shared.scenarios:
        assert worker.solve(str(shared.folder), scenario.number).status == 0
    pitplan.gather(shared.folder, writing=PLAIN)
    file = shared.folder / "realisations" / f"{shared.scenarios[1].grades}.npy"
    grades = np.load(file)
    row = int(np.flatnonzero(grades[:, 0] == 0)[0]) if (grades[:, 0] == 0).any() else 0
    np.save(file, grades + 2e-9 * (np.arange(len(grades)) == row)[:, None])
    (rule,) = [rule for rule in verify(shared.folder) if rule.differences]
    assert rule.name == "reblocked" and rule.count == 1 and "scenario 2, cu_b: block " in rule.differences[0]
    np.save(file, grades[1:])
    with pytest.raises(AuditError, match="has grades of 17 blocks, and the table 18"):
        verify(shared.folder)
    file.write_bytes(b"no grades")
    with pytest.raises(AuditError, match="cannot be read as grades"):
        verify(shared.folder)


@given(st.integers(0, 10**6))
def test_means_of_grades_are_exact_where_two_are_as_near(seed):
    """Of two rows of the same tonnes half of the sums of grades in units of the ninth decimal are odd."""
    random = np.random.default_rng(seed)
    table = rows(6, 4, 2, tonnes=lambda i, j, k: 0.1 + 0.2 * k)
    grades = random.integers(0, 10**4, (len(table), 2)) / 10**9 + random.integers(0, 100, (len(table), 1))
    place = np.ravel_multi_index(
        [table[axis].to_numpy().astype(int) // side for axis, side in zip("zyx", (10, 20, 20))], (2, 2, 3)
    )
    blocks, block = np.unique(place, return_inverse=True)
    expected = reblock.Parts(block, len(blocks), table["tonnes"].to_numpy()).grades(grades)
    centres = table.assign(block=block).groupby("block")[["x", "y", "z"]].mean()
    grid = {"shape": (2, 2, 3), "origin": (10.0, 10.0, 15.0), "size": (20.0, 20.0, 10.0)}
    columns = {name: name for name in ("x", "y", "z", "tonnes")}
    assert (mean_grades(table, centres, grades, columns, grid) == expected).all()


def test_blocks_that_are_left_as_mined_wrongly_are_found(plan_folder, tmp_path, monkeypatch):
    write_surfaces(tmp_path, 14.0)
    table = mine(8).assign(cu_a=0, cu_b=0, cu_c=0.01)
    path = plan_folder(table, PROJECT + COLUMNS + MINED, TOPOGRAPHY)
    monkeypatch.setattr(topography, "MINED", 2.0)
    shared = prepared(path)
    for scenario in shared.scenarios:
        assert worker.solve(str(shared.folder), scenario.number).status == 0
    monkeypatch.undo()
    pitplan.gather(shared.folder, writing=UNVERIFIED)
    assert "constraints" in {rule.name for rule in verify(shared.folder) if rule.differences}
