"""Random small projects with every feature at once: what pitplan writes is what an oracle of the tests' own finds (tests/oracle)."""

import csv
from fractions import Fraction

import pytest
from helpers.random_tests import seeds
from helpers.writings import PLAIN
from oracle import closures, pits, projects, tables
from oracle.mine import Mine

import pitplan

PUSHBACKS = "[pushbacks]\nrevenue_factors = [0.5, 1.0]\n"
CONSTRAINTS = '[constraints]\nmust_mine = "must"\nexclude = "never"\n'
CLASH = "is must-mine and depends on|is both must-mine and excluded"
# Decimals of columns in files; of the others three. Sums of floats keep a billionth of themselves.
DECIMALS = {"strip_ratio": 6, "years": 6, "value_at_revenue_factor": 9, "revenue_factor": 3}
KEPT = 1e-9


def written(folder, seed, more=""):
    """The mine of a seed, whose files are written into a folder."""
    drawn = projects.draw(seed)
    (folder / "project.toml").write_text(drawn.text + more)
    for name, text in drawn.files.items():
        (folder / name).write_text(text)
    return Mine(folder / "project.toml")


def rows_of(path):
    with open(path, newline="") as file:
        return list(csv.DictReader(file))


def differences(expected, row):
    """The numbers of a row of a file that are not the expected ones to the decimals of their columns."""
    found = {}
    for name, number in expected.items():
        if number is None:
            right = row[name] == ""
        else:
            decimals = DECIMALS.get(name, 6 if name.startswith("head_grade") else 3)
            right = row[name] != "" and abs(float(row[name]) - number) <= 0.5001 * 10**-decimals + KEPT * abs(number)
        if not right:
            found[name] = (number, row[name])
    return found


def demand_rows(expected, rows):
    assert len(rows) == len(expected)
    assert [it for it in (differences(want, row) for want, row in zip(expected, rows)) if it] == []


def demand_blocks(mine, factors, shells, path):
    """Each block has its exact money, and the least revenue factors at which it is mined and processed."""
    rows = {row["name"]: row for row in rows_of(path)}
    assert rows.keys() == {block.name for block in mine.blocks.values()} and len(rows) == len(mine.blocks)
    for place, block in mine.blocks.items():
        row = rows[block.name]
        least = [factor for factor, shell in zip(factors, shells) if place in shell]
        pays = [factor for factor in least if pits.is_processed(mine, place, factor)]
        best = mine.best_way(place, Fraction(1))
        expected = {
            "tonnes": block.tonnes,
            "mining_cost": mine.mining[place],
            "revenue": best.revenue,
            "processing_cost": best.cost,
            "revenue_factor": min(least, default=0),
            "process_revenue_factor": min(pays, default=0),
        }
        assert {name: Fraction(row[name]) for name in expected} == expected, block.name


def demand_years(expected, rows):
    found = {(row["case"], float(row["revenue_factor"]), int(row.get("year") or row["period"])): row for row in rows}
    assert found.keys() == expected.keys()
    money = ("fixed_cost", "capex")
    for key, row in found.items():
        wanted = {name: number for name, number in expected[key].items() if name in row or name not in money}
        assert not any(expected[key][name] for name in money if name not in row)
        assert differences(wanted, row) == {}, key


@pytest.mark.slow
@pytest.mark.parametrize("seed", seeds(20, 1000))
def test_a_plan_is_the_oracles(tmp_path, seed):
    """Shells or pushbacks with their tables, block for block and year for year; the verification accepts them."""
    with_pushbacks = seed % 3 == 2
    mine = written(tmp_path, seed, PUSHBACKS if with_pushbacks else "")
    factors = [Fraction("0.5"), Fraction(1)] if with_pushbacks else pits.factors_of(mine)
    shells = pits.shells_of(mine, factors)
    if shells is None:
        with pytest.raises(pitplan.PlanError, match=CLASH):
            pitplan.write_shells(tmp_path / "project.toml", writing=PLAIN)
        return
    if with_pushbacks:
        kept = pits.growing(mine, factors, shells)
        factors, shells = list(kept), list(kept.values())
        if not kept:
            with pytest.raises(pitplan.PlanError, match="is empty"):
                pitplan.write_pushbacks(tmp_path / "project.toml", writing=PLAIN)
            return
    write = pitplan.write_pushbacks if with_pushbacks else pitplan.write_shells
    write(tmp_path / "project.toml", tmp_path / "out", writing=PLAIN)
    folder = tmp_path / "out" / "tables"
    demand_blocks(mine, factors, shells, folder / "blocks.csv")
    expected = tables.Shells(mine, factors, shells)
    demand_rows(expected.rows(), rows_of(folder / "shells.csv"))
    demand_years(expected.years(), rows_of(folder / "years.csv"))
    if with_pushbacks:
        demand_rows(tables.pushbacks(mine, shells), rows_of(folder / "pushbacks.csv"))


@pytest.mark.slow
@pytest.mark.parametrize("seed", seeds(5, 200))
def test_a_pit_with_its_constraints_and_without_is_the_oracles(tmp_path, seed):
    mine = written(tmp_path, seed, "" if "[constraints]" in projects.draw(seed).text else CONSTRAINTS)
    factors = [factor for factor in pits.factors_of(mine) if factor <= 1]
    kept, free = (pits.shells_of(mine, factors, is_free) for is_free in (False, True))
    if kept is None:
        with pytest.raises(pitplan.PlanError, match=CLASH):
            pitplan.write_pit(tmp_path / "project.toml", writing=PLAIN)
        return
    pitplan.write_pit(tmp_path / "project.toml", folder=tmp_path / "out", writing=PLAIN)
    rows = rows_of(tmp_path / "out" / "tables" / "pits.csv")
    assert [row["fixed_blocks"] for row in rows] == ["kept", "free"]
    demand_rows([tables.Shells(mine, factors, shells).row(len(factors)) for shells in (kept, free)], rows)


@pytest.mark.parametrize("seed", range(20))
def test_maximum_flow_and_trying_every_set_agree(seed):
    """The oracle's own two ways to a pit, and its two maximum flows."""
    rng = projects.Random(seed)
    precedences = {at: [to for to in range(at) if rng.random() < 0.25] for at in range(10)}
    values = {at: rng.randint(-5, 5) for at in precedences}
    pit = closures.least_best_by_trying(values, precedences)
    assert closures.least_best_pit(values, precedences) == pit
    assert closures.least_best_pit({at: value * 10**12 for at, value in values.items()}, precedences) == pit
