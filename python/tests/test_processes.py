"""Several processes: steps between them by hand, the greatest of all lines, and that no block is counted twice."""

from dataclasses import replace

import numpy as np
import pandas as pd
import pytest
from conftest import PROJECT, rows
from helpers.processes import LEACH_AND_MILL, WITH, deposit
from helpers.verified import differing
from helpers.writings import PLAIN, UNVERIFIED
from hypothesis import given, strategies as st

import pitplan
from pitplan import PlanError, verify, write_schedule
from pitplan.economics import block_values
from pitplan.economics.block_values import Way, best_way, steps_of
from pitplan.pits import best_worst_case, ore_kinds
from pitplan.solver import mine_files


def ways_of(*lines):
    """Processes of one cell, by revenue and cost."""
    return tuple(Way(str(k), np.array([revenue]), np.array([cost]), {}) for k, (revenue, cost) in enumerate(lines))


@pytest.mark.parametrize(
    ("lines", "steps"),
    [
        # The first pays from 0.5 on; the second adds 10 for 10, so from 1 on.
        ([(10, 5), (20, 15)], [(0, 10, 5), (1, 10, 10)]),
        ([(20, 15), (10, 5)], [(1, 10, 5), (0, 10, 10)]),
        # It is better from where it pays: the first is never used.
        ([(10, 8), (20, 15)], [(1, 20, 15)]),
        ([(10, 5), (10, 4)], [(1, 10, 4)]),
        ([(10, 5), (20, 10)], [(1, 20, 10)]),
        ([(20, 10), (10, 5)], [(0, 20, 10)]),
        # Of three that in the middle lies below the line from the first to the last.
        ([(10, 1), (20, 9), (30, 15)], [(0, 10, 1), (2, 20, 14)]),
        ([(10, 0), (0, 0), (30, 15)], [(0, 10, 0), (2, 20, 15)]),
        ([(0, 0), (0, 0)], []),
    ],
)
def test_steps_by_hand(lines, steps):
    found = steps_of(ways_of(*lines))
    assert list(zip(found.way, found.revenue, found.cost)) == steps


@pytest.mark.parametrize(
    ("lines", "best"),
    [
        ([(10, 5), (10, 5)], 0),
        ([(10, 5), (20, 15)], 0),
        ([(20, 15), (10, 5)], 1),
        ([(10, 5), (20, 14)], 1),
        ([(20, 15), (10, 5), (10, 5)], 1),
    ],
)
def test_of_equals_the_least_revenue_and_then_the_first_is_best(lines, best):
    assert best_way(ways_of(*lines), 1.0).tolist() == [best]


lines = st.lists(
    st.tuples(st.integers(0, 40), st.integers(0, 40)).map(lambda it: it if it[0] else (0, 0)), min_size=1, max_size=5
)


@given(lines, st.integers(0, 4000))
def test_steps_that_pay_add_up_to_the_best_process(lines, factor):
    """At every factor, and the steps that pay are the first ones: so that no block is processed twice."""
    ways = ways_of(*lines)
    steps = steps_of(ways)
    gains = factor * steps.revenue - 1000 * steps.cost
    pays = gains > 0
    assert pays.tolist() == sorted(pays, reverse=True)
    assert gains[pays].sum() == max(0, *(factor * revenue - 1000 * cost for revenue, cost in lines))
    if pays.any():
        revenue, cost = lines[steps.way[pays][-1]]
        assert (
            (steps.revenue[pays].sum(), steps.cost[pays].sum())
            == (revenue, cost)
            == lines[best_way(ways, factor / 1000)[0]]
        )


@pytest.mark.parametrize(("lines", "best"), [([(10, 5), (20, 15)], 0), ([(20, 15), (10, 5)], 1)])
def test_of_processes_that_are_worth_as_much_it_is_the_one_of_least_revenue(lines, best):
    """At the price as given both gain 5, and the step from one to the other nothing."""
    assert best_way(ways_of(*lines), 1.0).tolist() == [best]


def one_column():
    """100 t of 0.8 % of rock R: leached for 2560 at 300, milled for 5760 at 1300; from a factor of 0.3125 on the mill is better."""
    return rows(1, 1, 2, cu=lambda i, j, k: 0 if k else 0.8)


def test_nodes_by_hand(plan_folder, tmp_path):
    path = plan_folder(one_column(), PROJECT, *WITH)
    plan = pitplan.Plan.from_project(path)
    mine_files.write(plan, tmp_path)
    lines = (tmp_path / mine_files.BLOCKS).read_text().splitlines()
    assert lines == ["0 0 0 1 0 200", "1 0 0 0 0 200", "2 0 0 0 2560 300", "3 0 0 0 3200 1000"]
    assert (tmp_path / mine_files.PREC).read_text().splitlines() == ["1 1 0", "2 1 1", "3 1 2"]
    block = plan.blocks.set_index("name").loc["b0-0-0"]
    told = [
        "revenue_leach",
        "processing_cost_leach",
        "revenue_mill",
        "processing_cost_mill",
        "revenue",
        "processing_cost",
    ]
    assert block[told].tolist() == [2560, 300, 5760, 1300, 5760, 1300]
    assert (
        "1 potential ore blocks have a processing node, and 1 more for processes that are better at higher prices; the cut-off is re-evaluated at every revenue factor"
        in plan.notes
    )
    assert plan.project.shells.processing_capacity == 400


def test_nodes_of_a_block_that_must_be_dug_by_hand(plan_folder, tmp_path):
    """Its first step needs nothing more, the second still the first."""
    table = one_column().assign(must=[1, 0])
    plan = pitplan.Plan.from_project(plan_folder(table, PROJECT + '[constraints]\nmust_mine = "must"\n', *WITH))
    mine_files.write(plan, tmp_path)
    assert (tmp_path / mine_files.REST_BLOCKS).read_text().splitlines()[2:] == ["2 0 0 0 2560 300", "3 0 0 0 3200 1000"]
    assert (tmp_path / mine_files.REST_PREC).read_text().splitlines() == ["3 1 2"]


@pytest.mark.parametrize(("grade", "process", "ore"), [(0.8, "mill", 100), (0.2, "leach", 100), (0.05, "", 0)])
def test_the_process_of_a_block_by_hand(plan_folder, grade, process, ore):
    """Of 0.2 % leach gains 640 - 300, the mill 1440 - 1300; 0.05 % pay nowhere. Digging is demanded."""
    table = rows(1, 1, 2, cu=lambda i, j, k: 0 if k else grade, must=lambda i, j, k: 1 - k)
    path = plan_folder(table, PROJECT + '[constraints]\nmust_mine = "must"\n', *WITH)
    shell = pitplan.write_shells(path, writing=PLAIN).set_index("revenue_factor").loc[1.0]
    blocks = pd.read_csv(path.parent / "plan" / "tables/blocks.csv", keep_default_na=False).set_index("name")
    assert blocks["process"].tolist() == ["", process] and shell["feed_tonnes"] == ore
    assert {name: shell[f"feed_tonnes_{name}"] for name in ("leach", "mill")} == {
        name: ore * (name == process) for name in ("leach", "mill")
    }


def test_worth_by_hand_at_each_factor(plan_folder):
    """Two blocks are dug for 400. At 0.3 leaching 768 - 300 is worth more than milling 1728 - 1300, at 0.5 milling 2880 - 1300."""
    path = plan_folder(one_column(), PROJECT, *WITH, ("[0.5, 1.0, 1.5]", "[0.27, 0.3, 0.5, 1.0]"))
    shells = pitplan.write_shells(path, writing=PLAIN).set_index("revenue_factor")
    assert [float(worth) for worth in shells["value_at_revenue_factor"]] == [0, 768 - 700, 2880 - 1700, 5760 - 1700]
    assert shells["undiscounted_cash_flow"].tolist() == [0, 4060, 4060, 4060] and shells[
        "processed_at_revenue_factor"
    ].tolist() == [
        0,
        100,
        100,
        100,
    ]


MORE = [
    *WITH,
    ("mining_cost = 2\n", "mining_cost = 0.3\nmining_recovery = 0.97\ndilution = 0.05\ndecimals = 2\n"),
    ("[0.5, 1.0, 1.5]", "[0.2, 0.3, 0.5, 1.0, 1.5]"),
]


def solved(plan_folder):
    path = plan_folder(deposit(), PROJECT, *MORE)
    pitplan.write_shells(path, writing=UNVERIFIED)
    return path.parent / "plan"


def wrong(folder):
    return {rule.name for rule in verify(folder) if rule.differences}


def test_the_second_look_agrees_and_each_process_has_ore(plan_folder):
    folder = solved(plan_folder)
    assert wrong(folder) == set()
    shells = pd.read_csv(folder / "tables/shells.csv").set_index("revenue_factor")
    assert (shells.loc[1.0, ["feed_tonnes_leach", "feed_tonnes_mill"]] > 100).all()
    assert shells["feed_tonnes"].tolist() == pytest.approx(
        (shells["feed_tonnes_leach"] + shells["feed_tonnes_mill"]).tolist()
    )
    # Some blocks are leached at a low price and milled at the given one.
    plan = pitplan.Plan.from_project(folder.parent / "project.toml")
    assert (np.diff(plan.values.processed) == 0).sum() > 5


def test_each_process_keeps_its_capacity(plan_folder):
    folder = solved(plan_folder)
    years = pd.read_csv(folder / "tables/years.csv")
    assert years["feed_tonnes_mill"].max() == pytest.approx(100) and years["feed_tonnes_leach"].max() <= 300 + 1e-6


@pytest.mark.parametrize("cutoff", ["per_revenue_factor", "base_price"])
def test_shells_are_those_of_the_best_process_at_each_factor(plan_folder, cutoff):
    """One factor after the other, each block with one node that has what its best process is worth there."""
    path = plan_folder(deposit(), PROJECT, *MORE, ("decimals = 2\n", f'decimals = 2\ncutoff = "{cutoff}"\n'))
    plan = pitplan.Plan.from_project(path)
    entry = plan.shells().cells.factor
    for factor in plan.project.shells.revenue_factors:
        best = best_way(plan.values.by_process, factor if cutoff == "per_revenue_factor" else 1.0)
        alone = tuple(
            replace(
                way,
                **{
                    name: np.choose(best, [getattr(it, name) for it in plan.values.by_process])
                    for name in ("revenue", "cost")
                },
            )
            for way in plan.values.by_process[:1]
        )
        one = replace(plan, values=replace(plan.values, by_process=alone, best=np.zeros_like(best)))
        one = replace(
            one, project=replace(plan.project, shells=replace(plan.project.shells, revenue_factors=(factor,)))
        )
        inside = one.shells().solution.entry[: plan.grid.count] > 0
        assert ((entry > 0) & (entry <= factor)).tolist() == inside.tolist()


@pytest.mark.parametrize("column", ["process", "revenue_leach", "processing_cost_mill", "revenue"])
def test_what_is_bent_in_blocks_is_found(plan_folder, column):
    folder = solved(plan_folder)
    table = pd.read_csv(folder / "tables/blocks.csv", keep_default_na=False)
    at = table.index[table["process"] == "mill"][0]
    table.loc[at, column] = "leach" if column == "process" else table.loc[at, column] + 0.02
    table.to_csv(folder / "tables/blocks.csv", index=False)
    assert differing(folder, "money")


def worst_way(ways, factor):
    return 1 - best_way(ways, factor / 1000)


def both(ways):
    """Each process as a node of the block's own value: a block may be processed twice."""
    parts = [(np.flatnonzero(way.revenue > 0), number) for number, way in enumerate(ways)]
    block = np.concatenate([block for block, _ in parts])
    number = np.concatenate([np.full(len(block), number) for block, number in parts])
    order = np.argsort(block, kind="stable")
    block, number = block[order], number[order]
    return block_values.Steps(
        block, number, *(np.stack([getattr(way, name) for way in ways])[number, block] for name in ("revenue", "cost"))
    )


@pytest.mark.parametrize(("name", "planted", "rule"), [("best_way", worst_way, "money"), ("steps_of", both, "values")])
def test_other_processes_and_blocks_that_are_processed_twice_are_found(plan_folder, monkeypatch, name, planted, rule):
    monkeypatch.setattr(block_values, name, planted)
    assert rule in wrong(solved(plan_folder))


def test_a_capacity_that_is_passed_over_is_found(plan_folder, monkeypatch):
    shipped = best_worst_case.best_shares
    monkeypatch.setattr(
        best_worst_case,
        "best_shares",
        lambda feed, gain, takes, capacity: shipped(feed, gain, takes, 10 * capacity),
    )
    assert differing(solved(plan_folder), "years")


def test_ore_that_goes_elsewhere_than_is_best_is_found(plan_folder, monkeypatch):
    shipped = best_worst_case.best_shares
    monkeypatch.setattr(best_worst_case, "best_shares", lambda *ore: 0.9 * shipped(*ore))
    assert differing(solved(plan_folder), "years")


def test_a_mine_that_waits_for_each_process_is_found(plan_folder, monkeypatch):
    """By the years of a small leach, which pays to be passed by."""
    waits = ore_kinds.OreKinds.waits
    monkeypatch.setattr(ore_kinds.OreKinds, "waits", lambda self, settings: waits(self, settings)[-1:])
    path = plan_folder(deposit(), PROJECT, *MORE, ("capacity = 300", "capacity = 2"))
    pitplan.write_shells(path, writing=UNVERIFIED)
    assert differing(path.parent / "plan", "years")


@pytest.mark.parametrize("capacity", ["1", "30", "300"])
def test_a_leach_beside_the_mill_never_lowers_the_npv(plan_folder, capacity):
    """A mine may leave a small process idle, and need not wait for it."""
    path = plan_folder(deposit(), PROJECT, *MORE, ("capacity = 300", f"capacity = {capacity}"))
    both = pitplan.write_shells(path, writing=PLAIN).set_index("revenue_factor")
    leach = LEACH_AND_MILL.split("[[processes]]")[1]
    alone = pitplan.write_shells(
        plan_folder(deposit(), PROJECT, *MORE, ("[[processes]]" + leach, "")), writing=PLAIN
    ).set_index("revenue_factor")
    assert both["npv_best"].max() >= alone["npv_best"].max() - 0.01
    assert both["npv_worst"].max() >= alone["npv_worst"].max() - 0.01


def test_a_process_twice_with_half_of_the_capacity_is_one_process(plan_folder):
    mill = LEACH_AND_MILL.split("[[processes]]")[2].removesuffix("[slopes]\n")
    half = mill.replace("capacity = 100", "capacity = 50")
    twice = ("[[processes]]" + mill, "[[processes]]" + half + "[[processes]]" + half.replace('"mill"', '"other"'))
    once = pitplan.write_shells(plan_folder(deposit(), PROJECT, *MORE), writing=PLAIN).set_index("revenue_factor")
    found = pitplan.write_shells(plan_folder(deposit(), PROJECT, *MORE, twice), writing=PLAIN).set_index(
        "revenue_factor"
    )
    for name in ("npv_best", "npv_worst", "years"):
        assert found[name].tolist() == pytest.approx(once[name].tolist())


def test_pushbacks_and_schedules_keep_to_the_capacities(plan_folder):
    text = "[pushbacks]\ncount = 2\n[schedule]\nbench_lag = 1\nramp_up = [0.5, 1.0]\n[shells]"
    ways = write_schedule(plan_folder(deposit(), PROJECT, *MORE, ("[shells]", text)), writing=PLAIN)
    assert ways["method"].tolist() == ["rule", "lp"] and (ways["optimality_gap"] >= -1e-9).all()


@pytest.mark.parametrize(
    ("changes", "said"),
    [
        (WITH[1:], r"\[economics\] processing_cost: give the cost of each of the \[\[processes\]\], not this"),
        (
            [WITH[0], *WITH[2:]],
            r"\[metals 1\] recovery: give the recoveries of each of the \[\[processes\]\], not this",
        ),
        (
            [*WITH[:2], WITH[3]],
            r"\[shells\] processing_capacity: give capacity of each of the \[\[processes\]\], not this",
        ),
        ([*WITH, ('name = "mill"', 'name = "leach"')], r"two \[\[processes\]\] have one name"),
        ([*WITH, ('name = "mill"', 'name = "the mill"')], 'found "the mill", expected one word'),
        (
            [*WITH, ("{ copper = 0.4 }", "{ gold = 0.4 }")],
            r"\[\[processes\]\] leach recovery: found gold, expected one of the \[\[metals\]\]: copper",
        ),
        (
            [*WITH, ("[shells]", "[pushbacks]\ncount = 2\n[schedule]\nprocessing_capacity = 2\n[shells]")],
            r"\[schedule\] processing_capacity is of one process",
        ),
    ],
)
def test_what_is_wrong_is_named(plan_folder, changes, said):
    with pytest.raises(PlanError, match=said):
        pitplan.load(plan_folder(one_column(), PROJECT, *changes))
