"""Pushbacks against sums and cones worked by hand, and the second look at them."""

import shutil

import numpy as np
import pandas as pd
import pytest
from conftest import PROJECT, rows
from helpers.pushbacks import GRADES, UPRIGHT, blocks_of, pillars, with_pushbacks, wrong
from helpers.random_tests import examples
from helpers.writings import PLAIN, REPORTED, UNVERIFIED
from hypothesis import given, strategies as st

import pitplan
from pitplan import PlanError, load
from pitplan.cli import main
from pitplan.config.shells import PushbackRules
from pitplan.pushbacks import nested
from pitplan.results.folder import read_record


def test_three_shells_of_like_tonnage_are_three_pushbacks(plan_folder):
    """The greatest factors whose shells have 200 and 400 of 600 t are 0.5 and 0.7."""
    project = load(plan_folder(pillars(), with_pushbacks("count = 3")))
    table = pitplan.write_pushbacks(project, writing=PLAIN).set_index("pushback")
    assert table.index.tolist() == [1, 2, 3] and table["revenue_factor"].tolist() == [0.5, 0.7, 1.0]
    assert table["blocks"].tolist() == [2, 2, 2] and table["tonnes"].tolist() == [200, 200, 200]
    assert table["feed_tonnes"].tolist() == [100, 100, 100] and table["strip_ratio"].tolist() == [1, 1, 1]
    assert table["head_grade_copper"].tolist() == pytest.approx(GRADES) and table[
        "recovered_copper"
    ].tolist() == pytest.approx([0.5, 0.35, 0.25])
    assert table["undiscounted_cash_flow"].tolist() == [2600, 1400, 600]
    folder = project.folder / "pushbacks"
    assert blocks_of(folder)["pushback"].to_dict() == {f"b{i}-0-{k}": i + 1 for i in range(3) for k in range(2)}
    pd.testing.assert_frame_equal(
        pd.read_csv(folder / "tables/pushbacks.csv").set_index("pushback"), table, check_dtype=False
    )
    assert not [
        note
        for note in read_record(folder)["notes"]
        if "pushbacks" in note and "the shells make" in note or "no revenue factor" in note
    ]


@pytest.mark.parametrize(
    ("words", "factors", "told"),
    [
        (
            "tonnes = 300",
            [0.5, 1.0],
            "between revenue factors 0.50 and 0.501 the shells grow by 200 t in one step, from 200 to 400",
        ),
        ("tonnes = 200", [0.5, 0.7, 1.0], None),
        ("tonnes = 1e6", [1.0], None),
        ("count = 5", [0.351, 0.501, 1.0], "the shells make 3 of 5 pushbacks"),
        ("count = 7", [0.351, 0.501, 1.0], "the shells make 3 of 7 pushbacks"),
        ("count = 1", [1.0], None),
        ("count = 2\nultimate_pit = 0.6", [0.5, 0.6], None),
        (
            "revenue_factors = [1.5, 0.351, 0.9]",
            [0.351, 0.9],
            "the shell of revenue factor 1.50 equals the one before and makes no pushback",
        ),
        (
            "revenue_factors = { from = 0.6, to = 0.8, step = 0.1 }",
            [0.6, 0.8],
            "the shell of revenue factor 0.70 equals the one before",
        ),
    ],
)
def test_what_is_asked_for_by_count_tonnes_and_factors(plan_folder, words, factors, told):
    project = load(plan_folder(pillars(), with_pushbacks(words)))
    assert pitplan.write_pushbacks(project, writing=PLAIN)["revenue_factor"].tolist() == factors
    notes = read_record(project.folder / "pushbacks")["notes"]
    found = [
        note
        for note in notes
        if note.startswith(("between revenue factors", "the shell of revenue factor")) or "the shells make" in note
    ]
    assert [told] == [note[: len(told)] for note in found if told in note] if told else found == []


def test_a_jump_is_named_with_its_tonnes(plan_folder):
    """Shells that begin with 900 t at a factor of 0.613, and have 1000 from 0.8 on."""
    asked = []

    def tonnes_at(factors):
        asked.extend(factors)
        return {factor: 0.0 if factor < 0.613 else 900.0 if factor < 0.8 else 1000.0 for factor in factors}

    project = load(plan_folder(pillars(), with_pushbacks("count = 2")))
    found, notes = nested.even_shells(PushbackRules(2, None, None, None), 1.0, tonnes_at, project)
    assert found == {0.613: 900, 1.0: 1000} and len(set(asked)) == len(asked) < 40
    assert notes == [
        "between revenue factors 0.612 and 0.613 the shells grow by 900 t in one step, from 0 to 900; no revenue factor divides it"
    ]


@given(st.lists(st.integers(0, 400), min_size=1, max_size=12), st.integers(1, 9), st.integers(2, 1000))
def test_even_shells_are_the_nearest_of_all_factors(steps, count, last):
    """Of shells that grow by steps at factors spread from 1 on: those of every factor are looked at."""
    grown = {
        factor / 1000: float(sum(step for place, step in enumerate(steps) if factor > 83 * place))
        for factor in range(1, last + 1)
    }
    last /= 1000
    found, notes = nested.even_shells(
        PushbackRules(count, None, None, None),
        last,
        lambda factors: {factor: grown[factor] for factor in factors},
        None,
    )
    whole = grown[last]
    assert max(found) == last and all(grown[factor] == rock for factor, rock in found.items())
    assert list(found.values()) == sorted(set(found.values())) and (whole == 0 or 0 not in found.values())
    for number in range(1, count):
        share = whole * number / count
        nearest = min(abs(rock - share) for rock in grown.values())
        empty = {0.0} & set(grown.values())
        assert nearest == min(abs(rock - share) for rock in empty | set(found.values()))
        assert bool(notes) or nearest <= 0.1 * whole / count


def test_fixed_blocks_are_in_the_first_pushback_and_in_none(plan_folder):
    """The pillar of the poorest ore must be dug, and the richest's may not be: its lower block is left with the upper."""
    table = pillars(must=lambda i, j, k: int((i, k) == (2, 0)), never=lambda i, j, k: int((i, k) == (0, 1)))
    text = with_pushbacks("count = 2") + '[constraints]\nmust_mine = "must"\nexclude = "never"\n'
    project = load(plan_folder(table, text))
    assert pitplan.write_pushbacks(project, writing=PLAIN)["blocks"].tolist() == [2, 2]
    said = blocks_of(project.folder / "pushbacks")["pushback"]
    assert said.to_dict() == {f"b{i}-0-{k}": [0, 2, 1][i] for i in range(3) for k in range(2)}


def test_rows_without_rock_join_no_pieces(plan_folder):
    """Two blocks of ore whose cones meet where the table has rows of no tonnes."""
    table = rows(7, 1, 2, cu=lambda i, j, k: 6 * ((i, k) in ((1, 0), (4, 0))), tonnes=lambda i, j, k: 100 * (k == 0))
    project = load(plan_folder(table, with_pushbacks("revenue_factors = [1.0]", PROJECT)))
    found = pitplan.write_pushbacks(project, writing=UNVERIFIED)
    assert found[["blocks", "pieces"]].values.tolist() == [[2, 2]]
    assert wrong(project.folder / "pushbacks") == {}


def test_the_last_pushback_ends_with_the_shell_that_is_selected(plan_folder):
    """At revenue factor 1.00 the third pillar yields 1420 - 1000 - 2 x 200 = 20: 220 a year after its waste costs 200 at a rate of 10 %. So the mean
    of best and worst case falls, and shells selects the two pillars of a lesser factor."""
    table = rows(3, 1, 2, cu=lambda i, j, k: 0 if k else [1, 0.7, 0.355][i])
    path = plan_folder(table, with_pushbacks("count = 2", UPRIGHT.replace("[0.5, 1.0, 1.5]", "[0.5, 0.8, 1.0, 1.5]")))
    pitplan.write_shells(path, writing=PLAIN)
    selected = read_record(path.parent / "plan")["shells"]["selected"]
    assert selected == 0.8
    assert pitplan.write_pushbacks(path, writing=PLAIN)["revenue_factor"].tolist() == [0.5, 0.8]
    record = read_record(path.parent / "plan" / "pushbacks")
    assert record["shells"]["selected"] == 0.8
    assert (
        "the last pushback ends at the selected shell, revenue factor 0.80; [pushbacks] ultimate_pit sets another"
        in record["notes"]
    )
    # The project may name another, by the pushbacks' key or the shells'.
    for change in (
        with_pushbacks("count = 3\nultimate_pit = 1.0"),
        with_pushbacks("count = 3").replace("discount_rate = 0.1", "discount_rate = 0.1\nselected = 1.0"),
    ):
        assert pitplan.write_pushbacks(plan_folder(table, change), writing=PLAIN)["revenue_factor"].iloc[-1] == 1.0


def test_where_no_shell_pays_the_last_pushback_is_that_of_the_price_as_given(plan_folder):
    """Each year costs more than all ore earns. A schedule that mines nothing is then the best, and an answer."""
    costs = UPRIGHT.replace("mining_cost = 2\n", "mining_cost = 2\nfixed_cost_per_year = 100_000\n").replace(
        "[0.5, 1.0, 1.5]", "[0.1, 0.5, 1.0, 1.5]"
    )
    path = plan_folder(pillars(), with_pushbacks("count = 2", costs))
    assert pitplan.write_pushbacks(path, writing=PLAIN)["revenue_factor"].iloc[-1] == 1.0
    told = "WARNING: no shell has an NPV above 0; the last pushback ends at the shell of revenue factor 1.00"
    assert told in read_record(path.parent / "plan" / "pushbacks")["notes"]
    ways = pitplan.write_schedule(path, writing=PLAIN).set_index("method")
    assert ways.loc["lp", ["npv", "tonnes", "years"]].tolist() == [0, 0, 0]


def test_an_empty_pit_is_refused(plan_folder, capsys):
    path = plan_folder(pillars(), with_pushbacks("count = 2\nultimate_pit = 0.3"))
    assert main(["pushbacks", str(path), "--quiet", "--no-figures"]) == 1
    assert "[pushbacks] the pit of revenue factor 0.30 is empty" in capsys.readouterr().err
    assert not (path.parent / "plan" / "pushbacks" / "tables/pushbacks.csv").exists()


@pytest.mark.parametrize(
    ("words", "said"),
    [
        ("", "[pushbacks] count: give exactly one of count, tonnes, revenue_factors"),
        ("count = 2\ntonnes = 3", "[pushbacks] tonnes: give exactly one of count, tonnes, revenue_factors"),
        ("count = 0", "[pushbacks] count: found 0, expected a whole number from 1 to 100"),
        ("tonnes = 0", "[pushbacks] tonnes: found 0, expected above 0"),
        (
            "tonnes = 1",
            "[pushbacks] tonnes: the pit of 600 t would have 600 pushbacks of 1 t, expected at most 100",
        ),
        (
            "revenue_factors = [0.0, 0.5]",
            "[pushbacks] revenue_factors: found 0, expected 0.001 or more",
        ),
        ("revenue_factors = [500]", "did you mean 0.50?"),
        (
            "revenue_factors = [0.5]\nultimate_pit = 0.9",
            "[pushbacks] ultimate_pit: is the last of the revenue_factors: remove it",
        ),
        ("count = 2\nultimate_pit = 0.0", "[pushbacks] ultimate_pit: found 0, expected 0.001 or more"),
        ("number = 2\ncount = 2", "[pushbacks] number: unknown key"),
    ],
)
def test_what_is_refused(plan_folder, words, said):
    with pytest.raises(PlanError) as error:
        pitplan.write_pushbacks(plan_folder(pillars(), with_pushbacks(words)), writing=PLAIN)
    assert said in str(error.value) and "project.toml" in str(error.value)


def test_a_project_that_asks_for_no_pushbacks_is_told_so(plan_folder):
    with pytest.raises(PlanError, match="project.toml: .pushbacks. is missing"):
        pitplan.write_pushbacks(plan_folder(pillars(), UPRIGHT), writing=PLAIN)


def random_table(seed):
    rng = np.random.default_rng(seed)
    table = rows(8, 7, 4)
    table["cu"] = np.where(rng.random(len(table)) < 0.1, rng.random(len(table)).round(3) * 9, 0.0)
    return table


@examples(5)
@given(st.integers(0, 10**6))
def test_pushbacks_of_random_mines_are_closed_nested_and_even(tmp_path_factory, seed):
    place = tmp_path_factory.mktemp("random")
    random_table(seed).to_csv(place / "blocks.csv", index=False)
    (place / "project.toml").write_text(with_pushbacks("count = 3\nultimate_pit = 1.5", PROJECT))
    project = load(place / "project.toml")
    try:
        table = pitplan.write_pushbacks(project, writing=PLAIN)
    except PlanError as error:
        assert "is empty" in str(error)
        return
    blocks = blocks_of(project.folder / "pushbacks")
    pushback = {tuple(map(int, name[1:].split("-"))): number for name, number in blocks["pushback"].items()}
    for (i, j, k), number in pushback.items():
        above = [(i + a, j + b, k + 1) for a, b in ((0, 0), (1, 0), (-1, 0), (0, 1), (0, -1))]
        assert number == 0 or all(0 < pushback[cell] <= number for cell in above if cell in pushback)
    for number, row in table.set_index("pushback").iterrows():
        mine = blocks[blocks["pushback"] == number]
        assert (row["blocks"], row["tonnes"]) == (len(mine), mine["tonnes"].sum())
        gain = (mine["revenue"] - mine["processing_cost"]).clip(lower=0) - mine["mining_cost"]
        assert row["undiscounted_cash_flow"] == pytest.approx(gain.sum())


@pytest.fixture(scope="module")
def divided(tmp_path_factory):
    place = tmp_path_factory.mktemp("divided")
    table = rows(11, 9, 4, cu=lambda i, j, k: {(3, 4, 1): 6, (7, 4, 1): 2, (5, 2, 2): 0.9}.get((i, j, k), 0))
    table["must"], table["never"] = (table["name"] == "b1-1-3").astype(int), (table["x"] > 100).astype(int)
    table.to_csv(place / "blocks.csv", index=False)
    (place / "project.toml").write_text(
        with_pushbacks("count = 3", PROJECT) + '[constraints]\nmust_mine = "must"\nexclude = "never"\n'
    )
    pitplan.write_pushbacks(place / "project.toml", writing=REPORTED)
    return place


@pytest.fixture
def copied(divided, tmp_path):
    return shutil.copytree(divided, tmp_path / "mine") / "plan" / "pushbacks"


def test_what_is_right_passes(copied, capsys):
    assert wrong(copied) == {}
    assert main(["verify", str(copied)]) == 0
    *told, verdict = capsys.readouterr().out.splitlines()
    assert verdict == f"verified: all {len(told)} rules hold"
    assert [line.split(":")[0] for line in told][-6:] == [
        "pushback of blocks",
        "pushback slopes",
        "pushback constraints",
        "pushbacks",
        "pushback widths",
        "grade tonnage",
    ]
    page = (copied / "report.html").read_text()
    assert "<h2>Pushbacks</h2>" in page and "the pushbacks, the other numbers" in page and "data:image/png" not in page


NUMBERS = "blocks tonnes feed_tonnes waste_tonnes strip_ratio head_grade_copper recovered_copper undiscounted_cash_flow"


@pytest.mark.parametrize(
    ("column", "rule"), [*((name, "pushbacks") for name in NUMBERS.split()), ("revenue_factor", "pushback of blocks")]
)
def test_each_number_of_a_pushback_that_is_bent_is_found(copied, column, rule):
    table = pd.read_csv(copied / "tables/pushbacks.csv")
    table[column] = table[column].astype(float)
    table.loc[table.index[-1], column] += 1 if column in ("blocks", "revenue_factor") else 0.02
    table.to_csv(copied / "tables/pushbacks.csv", index=False)
    assert set(wrong(copied)) == {rule}


@pytest.mark.parametrize(
    ("where", "number", "rules"),
    [
        (lambda it: it["pushback"] == 2, 1, {"pushback of blocks", "pushbacks"}),
        (
            lambda it: (it["pushback"] == 1) & (it["z"] == 35) & (it["must"] == 0),
            3,
            {"pushback of blocks", "pushback slopes", "pushbacks"},
        ),
        (lambda it: it["must"] == 1, 2, {"pushback of blocks", "pushback constraints", "pushbacks"}),
        (lambda it: it["never"] == 1, 1, {"pushback of blocks", "pushback constraints", "pushbacks"}),
        (lambda it: (it["pushback"] == 2) & (it["z"] == 35), 0, {"pushback of blocks", "pushback slopes", "pushbacks"}),
    ],
)
def test_a_block_in_another_pushback_is_found(copied, where, number, rules):
    table = pd.read_csv(copied / "tables/blocks.csv")
    table.loc[table.index[where(table)][0], "pushback"] = number
    table.to_csv(copied / "tables/blocks.csv", index=False)
    assert rules <= set(wrong(copied))


def test_a_pushback_of_a_factor_that_was_not_asked_for_is_found(divided, copied):
    path = copied.parent.parent / "project.toml"
    path.write_text(path.read_text().replace("count = 3", "revenue_factors = [0.4, 1.0]"))
    (rule,) = wrong(copied).values()
    assert rule.name == "pushback of blocks" and "is not in the project" in rule.differences[0]


@pytest.mark.parametrize(
    ("asked", "said"),
    [
        ("count = 3\nultimate_pit = 0.4", "the last pushback is of revenue factor {last:.2f} for 0.40"),
        ("count = 2", "3 pushbacks, expected at most 2"),
        ("revenue_factors = [0.001, 0.4]", "the last pushback is of revenue factor {last:.2f} for 0.40"),
    ],
)
def test_pushbacks_that_the_project_does_not_ask_for_are_found(copied, asked, said):
    path = copied.parent.parent / "project.toml"
    path.write_text(path.read_text().replace("count = 3", asked))
    (rule,) = wrong(copied).values()
    last = pd.read_csv(copied / "tables/pushbacks.csv")["revenue_factor"].max()
    assert rule.name == "pushback of blocks" and said.format(last=last) in rule.differences


def test_a_last_pushback_beyond_the_base_price_is_found(divided, tmp_path):
    """Of a project that names no last shell: `shells` selects none above the base price."""
    path = shutil.copytree(divided, tmp_path / "mine", ignore=shutil.ignore_patterns("plan")) / "project.toml"
    text = path.read_text()
    path.write_text(text.replace("count = 3", "count = 3\nultimate_pit = 1.5"))
    pitplan.write_pushbacks(path, writing=UNVERIFIED)
    path.write_text(text)
    (rule,) = wrong(path.parent / "plan" / "pushbacks").values()
    assert rule.name == "pushback of blocks"
    assert rule.differences == ("the last pushback is of revenue factor 1.50 for 1.00",)


def test_pushbacks_of_a_project_that_asks_for_none_are_found(copied):
    path = copied.parent.parent / "project.toml"
    path.write_text(path.read_text().replace("[pushbacks]\ncount = 3\n", ""))
    assert wrong(copied)["pushback of blocks"].differences == ("the project has no pushbacks",)


def test_nothing_is_written_where_a_pushback_is_wrong(plan_folder, monkeypatch):
    """All blocks of the last pushback in the first."""
    whole = nested.Pushbacks.blocks.fget
    wrong = property(lambda it: whole(it).replace({"pushback": {3: 1}}))
    monkeypatch.setattr(nested.Pushbacks, "blocks", wrong)
    project = load(plan_folder(pillars(), with_pushbacks("count = 3")))
    with pytest.raises(PlanError, match="verification failed"):
        pitplan.write_pushbacks(project, writing=PLAIN)
    assert not (project.folder / "pushbacks" / "tables/pushbacks.csv").exists()


def test_a_column_that_is_called_pushback_is_kept(plan_folder):
    text = with_pushbacks("count = 3").replace('rock_type = "rock"', 'rock_type = "pushback"')
    project = load(plan_folder(pillars().rename(columns={"rock": "pushback"}), text))
    pitplan.write_pushbacks(project, writing=PLAIN)
    blocks = blocks_of(project.folder / "pushbacks")
    assert sorted(set(blocks["pushback"])) == [1, 2, 3] and set(blocks["planner_pushback"]) == {"R"}
