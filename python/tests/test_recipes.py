"""Each recipe of docs/planning/recipes.md on the small hill of docs/recipes: its lines, in the project, by its command."""

import re
import shutil
from collections import defaultdict
from math import isclose

import pandas as pd
import pytest
from conftest import ROOT
from helpers.documentation import blocks, commands
from helpers.writings import UNVERIFIED

import pitplan
from pitplan.cli import main

DOCS = ROOT / "docs"
BASE = (DOCS / "recipes" / "project.toml").read_text(encoding="utf-8")
SECTIONS = re.split(r"^## ", (DOCS / "planning" / "recipes.md").read_text(encoding="utf-8"), flags=re.MULTILINE)[1:]
RECIPES = {title.lower(): text for title, _, text in (section.partition("\n") for section in SECTIONS)}
TABLE = pd.read_csv(DOCS / "recipes" / "blocks.csv")
ORE = TABLE.set_index("id")
# Sums of files are rounded.
MORE = 1 + 1e-6


def added(project, recipe):
    """Returns the text of a project to which a reader has added the lines of a recipe, as its page says."""
    for where, lines in re.findall(
        r"(?:^((?:Below|In place of|At the end)[^\n]*:)\n\n)?```toml\n(.*?)```", recipe, re.MULTILINE | re.DOTALL
    ):
        below = re.search(r"Below `(\[+[\w.]+\]+)`", where)
        for names, section in re.findall(r"((?:`\w+`(?: and |, )?)+)(?: of `(\[+\w+\]+)`)?", where):
            for name in re.findall(r"`(\w+)`", names):
                project = without(project, section or below[1], name)
        head, sign, rest = project.partition(f"\n{below[1]}\n") if below else (project, "\n", "")
        assert sign
        project = f"{head}{sign}{lines}{rest}"
    return project


def without(project, section, key):
    """Returns the text without the line of a key of a section."""
    head, sign, rest = project.partition(f"\n{section}\n")
    ours, end, others = rest.partition("\n[")
    kept = [line for line in ours.split("\n") if not line.startswith(f"{key} = ")]
    assert sign and len(kept) == ours.count("\n")
    return head + sign + "\n".join(kept) + end + others


@pytest.fixture(scope="module")
def answers(tmp_path_factory):
    """The output folder of a recipe by its title, each made once."""
    made = {}

    def answer(title):
        if title not in made:
            made[title] = answer_of(title, tmp_path_factory.mktemp("recipe"))
        return made[title]

    return answer


def answer_of(title, place):
    write_project(RECIPES[title], place)
    return answered(*command_of(title), place)


def command_of(title):
    """Returns the words of the command of a recipe."""
    (command,) = [words for block in blocks(RECIPES[title]) for words in commands(block.text)]
    return command[0], command[1:]


def answered(subcommand, words, place):
    """The output folder of a command on the hill's project in a folder."""
    file, *more = words
    assert file == "project.toml"
    bare = ["--no-figures"] if subcommand in ("shells", "pushbacks", "schedule", "sensitivity", "scenarios") else []
    assert main([subcommand, str(place / file), *more, "--out", str(place / "out"), "--quiet", *bare]) == 0
    return place / "out"


def write_project(recipe, place):
    shutil.copytree(DOCS / "recipes", place, dirs_exist_ok=True)
    (place / "project.toml").write_text(added(BASE, recipe), encoding="utf-8")


@pytest.fixture(scope="module")
def plain(tmp_path_factory):
    """The output folder of a subcommand on the hill's own project, each made once; that of shells for a pit or a sensitivity,
    which need lines of their own or take long."""
    made = {}

    def answer(subcommand):
        name = {"pit": "shells", "sensitivity": "shells"}.get(subcommand, subcommand)
        if name not in made:
            place = tmp_path_factory.mktemp("plain")
            write_project("", place)
            getattr(pitplan, f"write_{name}")(place / "project.toml", place / "out", writing=UNVERIFIED)
            made[name] = place / "out"
        return made[name]

    return answer


def test_the_page_has_twenty_recipes():
    assert len(RECIPES) == 20 and CHECKS.keys() == RECIPES.keys()


@pytest.mark.parametrize("title", RECIPES)
def test_the_lines_of_a_recipe_can_be_added_to_a_project(title, tmp_path, capsys):
    """As the page says where; `check` reads the whole project, with the options of the recipe's command."""
    write_project(RECIPES[title], tmp_path)
    _, words = command_of(title)
    settings = [word for before, word in zip(words, words[1:]) if before == "--set"]
    options = [word for setting in settings for word in ("--set", setting)]
    assert main(["check", str(tmp_path / "project.toml"), *options, "--quiet"]) == 0, capsys.readouterr().err
    assert settings or "toml" in {block.language for block in blocks(RECIPES[title])}


@pytest.mark.parametrize("title", RECIPES)
def test_the_recipe_does_what_it_says(title, answers):
    CHECKS[title](answers(title))


@pytest.mark.parametrize("title", RECIPES)
def test_the_check_sees_that_the_lines_are_missing(title, plain):
    folder = plain(command_of(title)[0])
    with pytest.raises((AssertionError, KeyError, FileNotFoundError)):
        CHECKS[title](folder)


def table(folder, name):
    return pd.read_csv(folder / "tables" / f"{name}.csv")


def blocks_of(folder):
    return table(folder, "blocks").set_index("planner_id")


def mined(folder):
    """The blocks in the largest shell, by the table's own columns."""
    found = blocks_of(folder)
    return ORE.loc[found.index[found["revenue_factor"] > 0]]


def lease(folder):
    pit = mined(folder)
    assert len(pit) > 30 and pit["x"].max() < 1080 and (TABLE["x"] > 1080).any()


def contract(folder):
    factors = blocks_of(folder)["revenue_factor"]
    due = ORE.index[ORE["contract"] > 0]
    above = [it for it in ORE.index if any(on_top(it, block) for block in due)]
    assert len(due) == 2 and (factors[[*due, *above]] == 0.4).all()


def on_top(block, other):
    """Whether a block lies on another, by their ids of column, row and bench."""
    (i, j, k), (column, row, bench) = (map(int, it.split("-")) for it in (block, other))
    return (i, j) == (column, row) and k > bench


def plant(folder):
    assert not mined(folder)["plant"].any()
    pits = table(folder, "pits").set_index("fixed_blocks")["undiscounted_cash_flow"]
    assert pits["kept"] < pits["free"]


def as_mined(folder):
    """The cut of the survey is 10 m deep below columns 4 to 6 and rows 3 to 5: the top bench there, at most."""
    tonnes = blocks_of(folder)["tonnes"]
    gone = [it for it in ORE.index if tonnes[it] == 0]
    assert gone and all(it.endswith("-4") for it in gone) and {it.split("-")[0] for it in gone} <= set("3456")
    assert (tonnes[[it for it in ORE.index if not it.endswith("-4")]] == 2600).all()


def pounds(folder):
    assert_net(folder, (3.80 - 0.15) / 0.45359237 * 1000)


def smelter(folder):
    """A dry tonne of 25 % is 0.25 t of copper, so a tonne of copper has 4 of them."""
    assert_net(folder, 0.96 * (8000 - 180) - 4 * 90)


def assert_net(folder, price):
    """Ore that pays earns this for a tonne of recovered copper, less 12 for milling a tonne of it."""
    found = blocks_of(folder)
    due = 2600 * (ORE["cu_pct"] / 100 * ORE["rock"].map({"OX": 0.6, "SUL": 0.85}) * price - 12)
    paying = found.index[found["process_revenue_factor"] > 0]
    assert len(paying) > 20 and (found["revenue"] - found["processing_cost"] - due)[paying].abs().max() < 0.02


def inferred(folder):
    found = blocks_of(folder)
    assert (ORE["class"] == "inferred").sum() > 20
    assert (found["process_revenue_factor"][ORE.index[ORE["class"] == "inferred"]] == 0).all()
    assert table(folder, "shells")["mineralised_waste_tonnes"].max() > 0


def two_processes(folder):
    found = blocks_of(folder)
    used = found["process"].dropna()
    assert set(used) == {"leach", "mill"} and set(ORE["rock"][used.index[used == "leach"]]) == {"OX"}
    value = {"leach": lambda it: 0.5 * 26 * it * 7600 - 4 * 2600, "mill": lambda it: 0.6 * 26 * it * 7600 - 12 * 2600}
    oxide = [it for it in used.index if ORE["rock"][it] == "OX"]
    best = {it: max(value, key=lambda name: value[name](ORE["cu_pct"][it])) for it in oxide}
    assert best == used[oxide].to_dict()


def calculated(folder):
    assert set(blocks_of(folder).index) == set(ORE.index[ORE["z"] > 110])


def merged_blocks(folder):
    found = table(folder, "blocks")
    assert len(found) == len(TABLE.groupby(["z", (TABLE["x"] - 1005) // 20, (TABLE["y"] - 2005) // 20]))
    assert isclose(found["tonnes"].sum(), TABLE["tonnes"].sum())
    assert isclose((found["tonnes"] * found["cu_pct"]).sum(), (TABLE["tonnes"] * TABLE["cu_pct"]).sum(), rel_tol=1e-9)


def specified(folder):
    shells = table(folder, "shells").set_index("revenue_factor")["npv_specified"]
    assert (shells[[0.6, 0.8, 1.0]] > 0).all()


def shovels(folder):
    """Each block of a pushback lies in a square of 3 x 3 blocks of the pushback on its bench; air has room too."""
    found = blocks_of(folder)["pushback"]
    assert table(folder, "pushbacks")["min_width"].min() >= 30
    by_pushback = defaultdict(set)
    for block, number in found[found > 0].items():
        by_pushback[number].add(tuple(map(int, block.split("-"))))
    rock = {tuple(map(int, it.split("-"))) for it in ORE.index}
    for cells in by_pushback.values():
        for i, j, k in cells:
            squares = [
                [(a + da, b + db, k) for da in range(3) for db in range(3)]
                for a in range(i - 2, i + 1)
                for b in range(j - 2, j + 1)
            ]
            assert any(all(it in cells or it not in rock for it in square) for square in squares), (i, j, k)


def ramped(folder):
    feed = milled(folder)
    assert 0 < feed[1] <= 30_000 * MORE and 30_000 < feed[2:].max() <= 60_000 * MORE


def milled(folder, column="year"):
    """Tonnes of feed by period, of the schedule by linear programme."""
    flows = table(folder, "flows")
    return flows[(flows["method"] == "lp") & (flows["destination"] == "mill")].groupby(column)["feed_tonnes"].sum()


def quarters(folder):
    """Four quarters, then years."""
    feed = milled(folder, "period")
    assert feed[:4].max() <= 15_000 * MORE and 15_000 < feed[4:].max() <= 60_000 * MORE


def stockpile(folder):
    flows, balance = table(folder, "flows"), table(folder, "stockpiles")
    flows, balance = flows[flows["method"] == "lp"], balance[balance["method"] == "lp"]
    placed = flows[flows["destination"] == "low_grade"]
    back = flows[flows["source"] == "low_grade"]["feed_tonnes"].sum()
    assert 0 < back <= placed["feed_tonnes"].sum() * MORE and balance["closing_tonnes"].max() <= 100_000
    # Blocks of at most 0.5 %, which are 0.005 t of copper a tonne.
    assert (placed["in_situ_copper"] <= 0.005 * placed["total_tonnes"] * MORE).all()


def arsenic(folder):
    found = blocks_of(folder)
    share = found["share_mill"].fillna(0)
    assert 0 < (share * ORE["as_ppm"]).sum() <= 120 * share.sum() * MORE
    limits = table(folder, "limits")
    used = limits[(limits["method"] == "lp") & (limits["limit"] == "grade_as_ppm_max")]["used"]
    assert 119.9 < used.max() <= 120 * MORE


def oxide(folder):
    flows = table(folder, "flows")
    ore = flows[(flows["destination"] == "mill") & (flows["method"] == "lp")]
    by_rock = ore.pivot_table(index="year", columns="rock", values="feed_tonnes", aggfunc="sum", fill_value=0)
    share = by_rock["OX"] / by_rock.sum(axis=1)
    assert 0.69 < share.max() <= 0.7 * MORE


def two_dumps(folder):
    flows = table(folder, "flows")
    placed = flows[flows["method"] == "lp"].groupby("destination")["total_tonnes"].sum()
    assert "waste" not in placed and placed["far"] > 0 and 149_000 < placed["near"] <= 150_000 * MORE


def paths(folder):
    found, quantiles = table(folder, "price_paths"), table(folder, "price_path_quantiles")
    assert found["path"].nunique() == 50 and len(quantiles) > 0


def varied(folder):
    cases = table(folder, "sensitivity")
    found = {(row.parameter, row.change): row.npv for row in cases.itertuples()}
    assert len(found) == 7 and found["price copper", -0.2] < found["price copper", 0.2]
    assert found["mining_cost", 0.2] < found["mining_cost", -0.2]


CHECKS = {
    "keep the pit within a lease": lease,
    "mine blocks that are under contract": contract,
    "keep the pit away from a plant": plant,
    "start from the surface as mined": as_mined,
    "give prices in usd per pound": pounds,
    "sell concentrate to a smelter": smelter,
    "keep inferred resources out of the mill": inferred,
    "send ore to two processes": two_processes,
    "leave rows out by a column of your own": calculated,
    "merge blocks": merged_blocks,
    "compare a mining sequence of your own": specified,
    "leave room for shovels": shovels,
    "ramp up the mill": ramped,
    "plan the first year by quarter": quarters,
    "stockpile low-grade ore": stockpile,
    "limit arsenic in the mill feed": arsenic,
    "limit the share of oxide": oxide,
    "fill the near dump first": two_dumps,
    "value a schedule on uncertain prices": paths,
    "vary prices and slopes": varied,
}
