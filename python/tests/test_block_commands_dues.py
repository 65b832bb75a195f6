"""`pitplan schedule --by block` with least amounts, sums of columns and fixed blocks: by hand, what is refused, and the second look."""

import json

import pandas as pd
import pytest
from conftest import PROJECT, rows
from helpers.block_commands import WIDE, YEARLY, rewrite, scheduled, with_processes, years_of
from helpers.pushbacks import pillars
from helpers.verified import differing
from helpers.writings import UNVERIFIED

import pitplan
from pitplan import PlanError, load, verify


def years(folder):
    """The year of each pillar's ore."""
    return pd.read_csv(folder / "tables/blocks.csv").set_index("name")["year"][["b0-0-0", "b1-0-0", "b2-0-0"]].tolist()


@pytest.mark.parametrize(
    ("words", "cash"),
    [
        ("years = 3", [4600]),
        ("years = 3\nminimum = { feed = 100 }", [2600, 1400, 600]),
        ("years = 3\nminimum = { total = 200 }", [2600, 1400, 600]),
        # Two pillars in the first year are all that is left: 0.5 t of copper need the richest, and so it waits.
        ("years = 2\nminimum = { copper = 0.5 }", [2600, 2000]),
        # 150 t of ore are the most of the first year, and 100 the least; 200 the least of the second.
        ("years = 2\nminimum = { feed = 200 }\nramp_up = [0.5, 1.0]", [2600, 2000]),
    ],
)
def test_each_least_amount_by_hand(plan_folder, words, cash):
    row, folder = scheduled(plan_folder, f"[schedule]\n{words}\n", WIDE)
    assert years_of(folder)["cash_flow"].tolist() == cash
    assert row["npv"] == pytest.approx(sum(amount / 1.1 ** (year + 1) for year, amount in enumerate(cash)))
    assert row["upper_bound"] >= row["npv"] - 1e-6


def test_what_none_can_keep_is_told(plan_folder):
    with pytest.raises(
        PlanError, match="^infeasible: no schedule meets the minimum of feed_tonnes in years 1, 2, 3, 4$"
    ):
        scheduled(plan_folder, "[schedule]\nyears = 4\nminimum = { feed = 100 }\n", WIDE)


def test_a_block_that_does_not_pay_is_dug_for_a_least_amount(plan_folder):
    """A fourth pillar without ore is outside the pit: 400 t of rock in each of two years need it, at a loss of 400, in the second year."""
    table = rows(4, 1, 2, cu=lambda i, j, k: 0 if k or i == 3 else (1, 0.7, 0.5)[i])
    row, folder = scheduled(plan_folder, "[schedule]\nyears = 2\nminimum = { total = 400 }\n", WIDE, table)
    assert years_of(folder)["cash_flow"].tolist() == [4000, 200]
    assert row["npv"] == pytest.approx(4000 / 1.1 + 200 / 1.21) == pytest.approx(row["upper_bound"])


ARSENIC = {
    "as_kg": lambda i, j, k: 0 if k else (5, 4, 1)[i],
    "as_ppm": lambda i, j, k: 0 if k else (0.05, 0.04, 0.01)[i],
}


@pytest.mark.parametrize("words", ['column = "as_kg"', 'column = "as_ppm"\nper_tonne = true\nname = "as_kg"'])
@pytest.mark.parametrize("of", ["total", "feed"])
def test_a_sum_of_a_column_by_hand(plan_folder, words, of):
    """Of 5, 4 and 1 kg at most 6 a year: the richest and the poorest pillar first, 3200, and then the other, 1400; the other way it were
    2600 and 2000, which is 49.6 less."""
    text = f'[schedule]\nyears = 3\n[[schedule.limits]]\n{words}\nof = "{of}"\nmax = 6\n'
    row, folder = scheduled(plan_folder, text, WIDE, pillars(**ARSENIC))
    assert years(folder) == [1, 2, 1] and row["npv"] == pytest.approx(3200 / 1.1 + 1400 / 1.21)
    assert years_of(folder)["sum_as_kg"].tolist() == pytest.approx([6, 4])
    assert json.loads((folder / "block_schedule.json").read_text())["limits"]["sum_as_kg"] == 6


HALVES = {
    "as_kg": lambda i, j, k: 0 if k else (2, 3, 4, 0, 0, 1)[i],
    "as_ppm": lambda i, j, k: 0 if k else (0.04, 0.06, 0.05, 0.03, 0, 0.02)[i],
}


@pytest.mark.parametrize("words", ['column = "as_kg"', 'column = "as_ppm"\nper_tonne = true\nname = "as_kg"'])
def test_a_sum_of_blocks_that_are_put_together(plan_folder, words):
    """The same three pillars in halves of 50 t each, of 5, 4 and 1 kg in all: the richest and the poorest first. A bent number is found."""
    table = rows(6, 1, 2, tonnes=lambda i, j, k: 50, cu=lambda i, j, k: 0 if k else (1, 0.7, 0.5)[i // 2], **HALVES)
    text = f"[schedule]\nyears = 3\n[[schedule.limits]]\n{words}\nmax = 6\n"
    wide = WIDE.replace('file = "blocks.csv"', 'file = "blocks.csv"\nreblock = [2, 1, 1]')
    row, folder = scheduled(plan_folder, text, wide, table)
    blocks = pd.read_csv(folder / "tables/blocks.csv", dtype={"region": str})
    ore = blocks[blocks["name"].isin(["1-1-1", "2-1-1", "3-1-1"])].sort_values("x")
    assert ore["year"].tolist() == [1, 2, 1] and row["npv"] == pytest.approx(3200 / 1.1 + 1400 / 1.21)
    assert years_of(folder)["sum_as_kg"].tolist() == pytest.approx([6, 4])
    column = "as_kg" if "as_ppm" not in words else "as_ppm"
    blocks.assign(**{column: blocks[column] + 1e-5}).to_csv(folder / "tables/blocks.csv", index=False)
    assert differing(folder, "reblocked")


def test_the_least_of_a_sum_by_hand(plan_folder):
    """At least 3 kg in each of three years do not come of 5, 4 and 1; 1 kg does, one pillar a year."""
    text = '[schedule]\nyears = 3\n[[schedule.limits]]\ncolumn = "as_kg"\nof = "feed"\nmin = {}\n'
    with pytest.raises(PlanError, match="no schedule .*meets the minimum.*sum_as_kg"):
        scheduled(plan_folder, text.format(3.5), WIDE, pillars(**ARSENIC))
    row, folder = scheduled(plan_folder, text.format(1), WIDE, pillars(**ARSENIC))
    assert years(folder) == [1, 2, 3]
    assert json.loads((folder / "block_schedule.json").read_text())["least"] == {"sum_as_kg": 1}


def test_hours_of_one_process(plan_folder):
    """The mill takes 2 hours for the richest and 1 for the others, of 2 a year; leach none. A per cent and tonne earns 40 more in the mill,
    less 10 a tonne: 3000, 1800 and 1000, which are 1500, 1800 and 1000 an hour. So the second is milled and half of the richest.
    """
    hours = pillars(hours=lambda i, j, k: 0 if k else (2, 1, 1)[i])
    text = with_processes().replace("capacity = 100\n", "capacity = 300\n")
    assert text.count("capacity = 300") >= 1
    words = '[schedule]\nyears = 1\n[[schedule.limits]]\ncolumn = "hours"\nof = "mill"\nmax = 2\n'
    _, folder = scheduled(plan_folder, words, text, hours)
    blocks = pd.read_csv(folder / "tables/blocks.csv").set_index("name")
    assert blocks["share_mill"][["b0-0-0", "b1-0-0", "b2-0-0"]].tolist() == pytest.approx([0.5, 1, 0])
    assert years_of(folder)["sum_hours"].tolist() == pytest.approx([2])


def test_barren_rock_is_not_milled_for_a_least_amount(plan_folder):
    """300 t of ore are there; 350 t are not made of waste."""
    text = with_processes()
    with pytest.raises(PlanError, match="^infeasible: no schedule meets the minimum of feed_tonnes in year 1$"):
        scheduled(plan_folder, "[schedule]\nyears = 1\nminimum = { feed = 350 }\n", text)


FIXED = '[constraints]\nmust_mine = "must"\nexclude = "never"\n'


def test_fixed_blocks_by_hand(plan_folder):
    """The fourth pillar holds nothing and must be dug, at a loss of 400: in the last of four years. The richest may not be dug."""
    fixed = {"must": lambda i, j, k: int((i, k) == (3, 0)), "never": lambda i, j, k: int((i, k) == (0, 1))}
    table = rows(4, 1, 2, cu=lambda i, j, k: 0 if k or i == 3 else (1, 0.7, 0.5)[i], **fixed)
    row, folder = scheduled(plan_folder, FIXED + "[schedule]\nyears = 4\n", YEARLY, table)
    blocks = pd.read_csv(folder / "tables/blocks.csv").set_index("name")["year"]
    assert blocks.to_dict() == {
        "b0-0-0": 0,
        "b0-0-1": 0,
        "b1-0-0": 1,
        "b1-0-1": 1,
        "b2-0-0": 2,
        "b2-0-1": 2,
        "b3-0-0": 4,
        "b3-0-1": 4,
    }
    assert row["npv"] == pytest.approx(1400 / 1.1 + 600 / 1.21 - 400 / 1.1**4) == pytest.approx(row["upper_bound"])
    for name in ("b3-0-0", "b0-0-1"):
        kept = (folder / "tables/blocks.csv").read_text()
        rewrite(
            folder / "tables/blocks.csv",
            lambda it: it.__setitem__("year", it["year"].where(it["name"] != name, 0 if name[1] == "3" else 3)),
        )
        assert differing(folder, "block constraints")
        (folder / "tables/blocks.csv").write_text(kept)


def test_fixed_blocks_that_no_year_has_room_for_are_told(plan_folder):
    table = pillars(must=lambda i, j, k: int(k == 0), never=lambda i, j, k: 0)
    with pytest.raises(PlanError, match="^infeasible: no schedule meets the minimum of 3 must-mine blocks$"):
        scheduled(plan_folder, FIXED + "[schedule]\nyears = 2\n", YEARLY, table)


def test_a_year_below_a_least_amount_is_found(plan_folder):
    _, folder = scheduled(plan_folder, "[schedule]\nyears = 3\nminimum = { feed = 100 }\n", WIDE)
    rewrite(folder / "tables/blocks.csv", lambda table: table.__setitem__("year", table["year"].replace({3: 2})))
    assert differing(folder, "block limits", "block value") == {"block limits", "block value"}
    told = json.loads((folder / "block_schedule.json").read_text())
    (folder / "block_schedule.json").write_text(json.dumps(told | {"least": {"feed_tonnes": 50}}))
    assert differing(folder, "block limits")


@pytest.mark.parametrize("name", ["sum_as_kg"])
def test_a_sum_that_is_not_that_of_its_blocks_is_found(plan_folder, name):
    text = '[schedule]\nyears = 3\n[[schedule.limits]]\ncolumn = "as_kg"\nmax = 6\n'
    _, folder = scheduled(plan_folder, text, WIDE, pillars(**ARSENIC))
    rewrite(folder / "tables/years.csv", lambda table: table.__setitem__(name, table[name] + 1))
    assert differing(folder, "block value")


@pytest.mark.parametrize(
    ("words", "said"),
    [
        (
            "minimum = { feed = 100 }",
            r"\[schedule\] years: is missing: the minimum applies to each of these years",
        ),
        ("years = 2\nminimum = { gold = 1 }", r"\[schedule.minimum\]: found gold, expected one of feed, total, copper"),
        ("years = 2\nminimum = { feed = 400 }", r"\[schedule.minimum\] feed: 400 is above the most of a year, 300"),
        ("years = 2\nminimum = { feed = -1 }", r"\[schedule.minimum\] feed: found -1, expected 0 or more"),
        ('[[schedule.limits]]\ncolumn = "cu"', r"\[schedule.limits 1\] max: is missing, and so is min"),
        (
            '[[schedule.limits]]\ncolumn = "cu"\nmax = 1\nof = "mill"',
            r"\[schedule.limits\] cu: of: found mill, expected one of total, feed",
        ),
        (
            '[[schedule.limits]]\ncolumn = "cu"\nmax = 1\nmin = 2',
            r"\[schedule.limits 1\] min: 2 is above the max of 1",
        ),
        (
            '[[schedule.limits]]\ncolumn = "as t"\nmax = 1',
            r'\[schedule.limits 1\] name: found "as t", expected one word',
        ),
        (
            '[[schedule.limits]]\ncolumn = "cu"\nmax = 1\n[[schedule.limits]]\ncolumn = "cu"\nmax = 2',
            r"\[schedule\] limits: two have one name",
        ),
        ('[[schedule.limits]]\ncolumn = "lead"\nmax = 1', "there is no column lead"),
    ],
)
def test_what_is_refused(plan_folder, words, said):
    with pytest.raises(PlanError, match=said):
        scheduled(plan_folder, f"[schedule]\n{words}\n", WIDE)


@pytest.mark.parametrize("name", ["feed", "total"])
def test_a_least_amount_of_a_name_that_is_a_metals_too_is_refused(plan_folder, name):
    path = plan_folder(
        pillars(),
        WIDE.replace('name = "copper"', f'name = "{name}"') + f"[schedule]\nyears = 2\nminimum = {{ {name} = 1 }}\n",
    )
    with pytest.raises(
        PlanError,
        match=rf"\[schedule.minimum\] {name}: is ambiguous: rename the metal or the process",
    ):
        load(path)


def test_a_sum_of_a_name_that_is_a_processes_too_is_refused(plan_folder):
    process = '[[processes]]\nname = "feed"\ncost = 3\ncapacity = 100\nrecovery = { copper = 0.5 }\n'
    text = (
        WIDE.replace("processing_cost = 10\n", "")
        .replace("recovery = 0.5\n", "")
        .replace("processing_capacity = 300\n", "")
        + process
    )
    path = plan_folder(pillars(), text + '[[schedule.limits]]\ncolumn = "cu"\nof = "feed"\nmax = 1\n')
    with pytest.raises(PlanError, match=r"\[schedule.limits\] cu: of feed is ambiguous"):
        load(path)


def test_a_least_amount_to_which_no_block_adds_is_refused(plan_folder):
    """There is rock enough, and no copper in it."""
    with pytest.raises(
        PlanError,
        match="infeasible: no schedule meets the minimums, since no block that adds to them can be mined in time",
    ):
        scheduled(plan_folder, "[schedule]\nyears = 2\nminimum = { copper = 0.1 }\n", WIDE, pillars().assign(cu=0))


def test_an_amount_below_0_is_refused(plan_folder):
    with pytest.raises(PlanError, match="row 2 column as_kg: -1 is negative"):
        scheduled(
            plan_folder,
            '[schedule]\n[[schedule.limits]]\ncolumn = "as_kg"\nmax = 1\n',
            WIDE,
            pillars(as_kg=lambda i, j, k: -1),
        )


def test_pushbacks_keep_minimums_and_sums_too(plan_folder):
    """Three pillars of 100 t of ore in two years: at least 100 t a year, and 30 kg of arsenic, as each of the two last has."""
    words = "[pushbacks]\ncount = 2\n[schedule]\nyears = 2\nminimum = { feed = 100 }\n"
    words += '[[schedule.limits]]\ncolumn = "as_kg"\nof = "feed"\nmax = 30\n'
    path = plan_folder(pillars(as_kg=lambda i, j, k: 0 if k else 30 * min(i, 1)), WIDE + words)
    pitplan.write_schedule(path, writing=UNVERIFIED)
    folder = path.parent / "plan" / "schedule"
    feed = pd.read_csv(folder / "tables/feed.csv").query("method == 'lp'")
    assert feed["feed_tonnes"].tolist() == [200, 100] and not any(rule.differences for rule in verify(folder))
    flows = pd.read_csv(folder / "tables/flows.csv").query("method == 'lp' and destination == 'mill'")
    # The clean ore and half of the two others, which are one bench, in the first year.
    assert flows.groupby("year")["contained_copper"].sum().tolist() == pytest.approx([1 + 0.35 + 0.25, 0.35 + 0.25])


def test_a_hill_with_all_of_it_passes_the_second_look(plan_folder):
    grades = {(3, 4, 1): 6, (7, 4, 1): 2, (5, 2, 2): 0.9, (3, 3, 2): 1.5, (8, 4, 2): 0.8}
    more = {
        "must": lambda i, j, k: int((i, j, k) == (9, 7, 2)),
        "never": lambda i, j, k: int(i == 0),
        "arsenic": lambda i, j, k: 0.1 * i,
    }
    table = rows(11, 9, 4, cu=lambda i, j, k: grades.get((i, j, k), 0), **more)
    words = (
        FIXED
        + "[schedule]\nyears = 5\nmining_capacity = 1200\nminimum = { total = 400 }\n[[schedule.limits]]\ncolumn = 'arsenic'\nmax = 7\n"
    )
    row, folder = scheduled(plan_folder, words, PROJECT, table)
    assert row["npv"] <= row["upper_bound"] and row["years"] == 5
    assert years_of(folder)["total_tonnes"].min() >= 400 and years_of(folder)["sum_arsenic"].max() <= 7 + 1e-9
