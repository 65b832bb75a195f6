"""Limits of head grades and stockpiles that differ by period, against cases worked by hand, and their verification."""

import shutil

import pandas as pd
import pytest
from conftest import PROJECT, rows
from helpers.writings import UNVERIFIED

import pitplan
from pitplan import PlanError, load, verify
from pitplan.config.project import Project
from planaudit.inputs.project_file import entries_of

# 100 t of ore of 0.8 % with 50 ppm of arsenic beside 100 t with 150 ppm earn 20 a tonne each. The mill takes 80 t a year.
HEAD = "[pushbacks]\ncount = 1\nultimate_pit = 1.0\n"
FLAT = PROJECT.replace("processing_capacity = 100", "processing_capacity = 80").replace('pattern = "1:5"', "angle = 90")
BLOCKS = {"cu": lambda i, j, k: 0.8, "arsenic": lambda i, j, k: 50 + 100 * i}


def written_to(place, words, text=FLAT, blocks=None):
    place.mkdir(exist_ok=True)
    rows(2, 1, 1, **(blocks or BLOCKS)).to_csv(place / "blocks.csv", index=False)
    (place / "project.toml").write_text(text + HEAD + words)
    return load(place / "project.toml")


def differences(folder):
    return [text for rule in verify(folder) for text in rule.differences]


def scheduled(place, words, text=FLAT):
    """The row of the linear programme, and the tables of a schedule that the verification finds right."""
    project = written_to(place, words, text)
    found = pitplan.write_schedule(project, writing=UNVERIFIED).set_index("method").loc["lp"]
    folder = project.folder / "schedule"
    assert differences(folder) == []
    return found, {name: table(folder, name) for name in ("feed", "limits", "flows")}


def table(folder, name):
    found = pd.read_csv(folder / f"tables/{name}.csv")
    return found[found["method"] == "lp"].reset_index(drop=True)


# At most 80 ppm in the first two years, 120 in the third, and any grade afterwards.
GRADES = "[schedule]\nyears = 5\n[[periods]]\nyears = 2\nfeed = { arsenic = { max = 80 } }\n[[periods]]\nfeed = { arsenic = { max = 120 } }\n[[periods]]\nfeed = { arsenic = { max = 1000 } }\n"


def test_a_head_grade_by_period_by_hand(tmp_path):
    """A share of the bench has as much dirty ore as clean ore. A tonne of the clean ore takes 3/7 t of dirty ore into the mill in years 1 and 2,
    and 7/3 t in year 3. What is not milled at once is waste. So the value lies between that of 80 ppm in all years and that of no limit.
    """
    found, tables = scheduled(tmp_path, GRADES)
    limits = tables["limits"].query("limit == 'grade_arsenic_max'").set_index("year")
    assert limits["maximum"].tolist()[:3] == [80, 80, 120][: len(limits)] and limits["minimum"].isna().all()
    # A year without feed has no grade.
    assert (limits["used"].fillna(0.0) <= limits["maximum"] * (1 + 1e-6)).all()
    assert (limits["shadow_price"] >= -1e-6).all()
    free, _ = scheduled(tmp_path / "free", "[schedule]\nyears = 5\n")
    tight, _ = scheduled(tmp_path / "tight", "[schedule]\nyears = 5\n[schedule.feed]\narsenic = { max = 80 }\n")
    assert tight["upper_bound"] < found["upper_bound"] < free["upper_bound"]
    assert tight["npv"] < found["npv"] < free["npv"]


def test_a_limit_that_is_the_grade_of_all_ore(tmp_path):
    """All ore has 50 ppm, so a limit of 50 ppm keeps nothing out of the mill."""
    even = BLOCKS | {"arsenic": lambda i, j, k: 50}
    values = []
    for name, words in {"free": "", "even": "[schedule.feed]\narsenic = { max = 50 }\n"}.items():
        project = written_to(tmp_path / name, f"[schedule]\nyears = 5\n{words}", blocks=even)
        values.append(pitplan.write_schedule(project, writing=UNVERIFIED).set_index("method")["npv"].to_dict())
        assert differences(project.folder / "schedule") == []
    assert values[0] == pytest.approx(values[1]) and values[0]["lp"] > 0


@pytest.mark.slow
def test_the_same_limit_in_all_periods_is_that_of_the_feed(tmp_path):
    """Whether the project, the periods, or a table of periods gives it, and beside another minimum."""
    words = "[schedule]\nyears = 5\n"
    one, _ = scheduled(tmp_path / "one", words + "[schedule.feed]\narsenic = { max = 90, min = 60 }\n")
    two, _ = scheduled(tmp_path / "two", words + "[[periods]]\nfeed = { arsenic = { max = 90, min = 60 } }\n")
    mixed = "[schedule.feed]\narsenic = { min = 60 }\n[[periods]]\nfeed = { arsenic = { max = 90 } }\n[[periods]]\nfeed = { arsenic = { max = 90, min = 60 } }\n"
    three, _ = scheduled(tmp_path / "three", words + mixed)
    (tmp_path / "four").mkdir()
    (tmp_path / "four/periods.csv").write_text("feed.arsenic.max,feed.arsenic.min\n90,60\n")
    four, _ = scheduled(tmp_path / "four", words, 'periods = "periods.csv"\n' + FLAT)
    for other in (two, three, four):
        assert other[["npv", "upper_bound"]].tolist() == pytest.approx(one[["npv", "upper_bound"]].tolist(), rel=1e-9)


def test_the_audit_reads_a_table_of_periods(tmp_path):
    """A name after `feed` has parts of its own, a process has none; an empty field is no key."""
    heads = "years,mining_capacity,capacity.mill.a,feed.arsenic.max,feed.arsenic.min,stockpiles.low.capacity"
    (tmp_path / "periods.csv").write_text(f"{heads}\n2,400,80,90,,5\n,,,,60,\n")
    first = {"years": 2, "mining_capacity": 400, "capacity": {"mill.a": 80}}
    first |= {"feed": {"arsenic": {"max": 90}}, "stockpiles": {"low": {"capacity": 5}}}
    assert entries_of("periods.csv", tmp_path.joinpath) == [first, {"feed": {"arsenic": {"min": 60}}}]


PROCESSES = """[[processes]]
name = "mill"
cost = 10
recovery = { copper = 0.5 }
capacity = 80
[processes.feed]
arsenic = { max = 100 }
"""
OF_PROCESS = (
    FLAT.replace("processing_cost = 10\n", "").replace("recovery = 0.5\n", "").replace("processing_capacity = 80\n", "")
)


def test_a_process_by_name_has_the_same_numbers(tmp_path):
    words = "[schedule]\nyears = 5\n[[periods]]\nfeed = {{ {} }}\n[[periods]]\n[[periods]]\nfeed = {{ {} }}\n"
    base = words.replace("years = 5\n", "years = 5\nfeed = {{ arsenic = {{ max = 100 }} }}\n")
    one, _ = scheduled(tmp_path / "one", base.format("arsenic = { max = 70 }", "arsenic = { max = 110 }"))
    two, tables = scheduled(
        tmp_path / "two",
        PROCESSES + words.format("mill = { arsenic = { max = 70 } }", "mill = { arsenic = { max = 110 } }"),
        OF_PROCESS,
    )
    assert two[["npv", "upper_bound"]].tolist() == pytest.approx(one[["npv", "upper_bound"]].tolist(), rel=1e-9)
    limits = tables["limits"].query("limit == 'grade_mill_arsenic_max'")
    assert limits["maximum"].tolist() == [70, 100, 110, 110, 110][: len(limits)]


def test_another_limit_of_a_period_is_found(tmp_path):
    scheduled(tmp_path, GRADES)
    kept = tmp_path / "plan/schedule/project-as-run.toml"
    kept.write_text(kept.read_text().replace("max = 120", "max = 90"))
    said = differences(tmp_path / "plan/schedule")
    assert any("grade_arsenic_max" in text for text in said)


def test_a_price_in_a_period_without_the_limit_is_found(tmp_path):
    scheduled(tmp_path, GRADES)
    path = tmp_path / "plan/schedule/tables/bound.csv"
    found = pd.read_csv(path)
    row = found.index[(found["limit"] == "grade_arsenic_max@120") & (found["year"] == 1)][0]
    found.loc[row, "price"] = 1.0
    found.to_csv(path, index=False)
    assert any("has a price in a year without this limit" in text for text in differences(tmp_path / "plan/schedule"))


# 100 t of ore in one block earn 20 a tonne; the mill takes 40 t a year, so that 60 t wait if all is mined at once, for nothing.
PILE = "[schedule]\nyears = 6\nstockpile = { reclaim_cost = 1, capacity = 50 }\n"
DEEP = {"cu": lambda i, j, k: 0.8 * (2 - k)}


def piled(place, words, opening=""):
    """An upper block of 0.8 % over one of 1.6 %, 100 t each; the first is worth less to the mill, and waits."""
    place.mkdir(exist_ok=True)
    rows(1, 1, 2, **DEEP).to_csv(place / "blocks.csv", index=False)
    pile = PILE.replace("capacity = 50", f"capacity = 50{opening}")
    text = PROJECT.replace("processing_capacity = 100", "processing_capacity = 40")
    (place / "project.toml").write_text(text + HEAD + pile + words)
    project = load(place / "project.toml")
    found = pitplan.write_schedule(project, writing=UNVERIFIED).set_index("method").loc["lp"]
    folder = project.folder / "schedule"
    assert differences(folder) == []
    piles = pd.read_csv(folder / "tables/stockpiles.csv").query("method == 'lp'").reset_index(drop=True)
    return found, piles, table(folder, "limits").query("limit == 'stockpile_stockpile'").reset_index(drop=True)


@pytest.mark.slow
def test_the_capacity_of_a_stockpile_by_period(tmp_path):
    free, _, _ = piled(tmp_path / "free", "")
    words = "[[periods]]\nstockpiles = { stockpile = { max = 12 } }\n[[periods]]\nstockpiles = { stockpile = { max = 30 } }\n[[periods]]\n"
    found, piles, limits = piled(tmp_path / "some", words)
    assert limits["maximum"].tolist() == [12, 30, 50, 50, 50][: len(limits)]
    assert (piles["closing_tonnes"] <= limits["maximum"] + 0.001).all()
    assert piles["closing_tonnes"][1] == pytest.approx(30)
    assert found["upper_bound"] < free["upper_bound"] and found["npv"] < free["npv"]


@pytest.mark.slow
def test_the_minimum_of_a_stockpile_by_period(tmp_path):
    free, before, _ = piled(tmp_path / "free", "")
    words = "[[periods]]\nyears = 5\nstockpiles = { stockpile = { min = 20 } }\n[[periods]]\n"
    found, piles, limits = piled(tmp_path / "some", words)
    assert (piles["closing_tonnes"][:5] >= 20 - 0.001).all() and before["closing_tonnes"].min() < 20
    assert limits["minimum"].tolist() == [20] * 5 + [0] * (len(limits) - 5)
    # What must still lie there in the last of these years costs what it would earn then.
    assert limits["shadow_price"][4] < 0
    assert found["upper_bound"] < free["upper_bound"]


def test_what_lies_there_must_be_reclaimed_in_time(tmp_path):
    """45 t of 0.3 % earn 12 - 10 - 1 a tonne, less than all other ore. 30 may lie there after the first year, and 5 after the second."""
    opening = ', opening = { tonnes = 45, rock_type = "R", cu = 0.3 }'
    words = "[[periods]]\nstockpiles = { stockpile = { max = 30 } }\n[[periods]]\nstockpiles = { stockpile = { max = 5 } }\n"
    found, piles, _ = piled(tmp_path, words, opening)
    assert piles["opening_tonnes"][0] == 45 and piles["closing_tonnes"][:2].tolist() == pytest.approx([30, 5], abs=0.01)
    assert found["npv"] <= found["upper_bound"] + 0.01


@pytest.mark.parametrize(
    ("old", "new", "said"),
    [
        ("max = 50", "max = 40", "holds"),
        ("min = 20", "min = 30", "below its minimum of 30"),
    ],
)
def test_other_limits_of_a_stockpile_are_found(tmp_path, old, new, said):
    words = "[[periods]]\nyears = 5\nstockpiles = { stockpile = { min = 20, max = 50 } }\n[[periods]]\n"
    piled(tmp_path / "mine", words)
    folder = shutil.copytree(tmp_path / "mine", tmp_path / "other") / "plan/schedule"
    kept = folder / "project-as-run.toml"
    assert old in kept.read_text()
    kept.write_text(kept.read_text().replace(old, new))
    assert any(said in text for text in differences(folder))


def test_periods_are_written_with_their_limits(tmp_path):
    words = GRADES.replace("[schedule]\n", "[schedule]\nstockpile = { reclaim_cost = 1 }\n")
    words = words.replace("years = 2\nfeed", "years = 2\nstockpiles = { stockpile = { max = 9 } }\nfeed")
    project = written_to(tmp_path, words)
    again = Project.from_dict(pitplan.config.toml_text.parsed(project.to_toml(), "test"), tmp_path)
    assert again.shells.calendar == project.shells.calendar
    assert (
        again.shells.calendar.periods[0].stockpiles[0].max == 9 and again.shells.calendar.periods[1].feed[0].max == 120
    )


@pytest.mark.parametrize(
    ("words", "processes", "said"),
    [
        ("feed = { arsenic = { most = 1 } }", False, "most: unknown key"),
        ("feed = { arsenic = {} }", False, "[periods 1.feed] arsenic: expected min, max or both"),
        ("feed = { mill = { arsenic = { max = 1 } } }", False, "[[periods]] 1 feed: found mill"),
        ("feed = { arsenic = { max = 1 } }", True, "[[periods]] 1 feed: arsenic is of one process: name the process"),
        ("feed = { leach = { arsenic = { max = 1 } } }", True, "[[periods]] 1 feed: found leach, expected one of mill"),
        ("feed = { mill = { arsenic = { min = 101 } } }", True, "feed: arsenic: min 101 is above max 100"),
        (
            "stockpiles = { other = { max = 1 } }",
            False,
            "[[periods]] 1 stockpiles: found other, expected one of stockpile",
        ),
        ("stockpiles = { stockpile = { min = 51 } }", False, "stockpiles: stockpile: min 51 is above the most"),
        ("stockpiles = { stockpile = 5 }", False, "[periods 1.stockpiles.stockpile] must be a section of its own"),
    ],
)
def test_what_is_refused(tmp_path, words, processes, said):
    with pytest.raises(PlanError) as error:
        text = OF_PROCESS if processes else FLAT
        written_to(tmp_path, (PROCESSES if processes else "") + PILE + f"[[periods]]\n{words}\n", text)
    assert said in str(error.value)


def test_a_minimum_of_a_stockpile_needs_years(tmp_path):
    with pytest.raises(PlanError, match=r"\[\[periods\]\] 1 stockpiles: stockpile: \[schedule\] years is missing"):
        words = PILE.replace("years = 6\n", "") + "[[periods]]\nstockpiles = { stockpile = { min = 1 } }\n"
        written_to(tmp_path, words)
