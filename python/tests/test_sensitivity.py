"""What the shown pit hangs on: each case by hand and as a project of its own, and the second look at all of them."""

import json
import shutil

import numpy as np
import pandas as pd
import pytest
from conftest import PROJECT, files_in, rows
from helpers.writings import PLAIN, UNVERIFIED
from matplotlib.figure import Figure

import pitplan
from pitplan import PlanError, Where, load, verify as verify_folder
from pitplan.cli import main
from pitplan.figures import sensitivity as charts
from pitplan.pits import skin
from pitplan.studies import sensitivity

# Two blocks of ore at the surface, each with 1,000 for processing and 200 for mining: one of 24,000, and one of 1,200, which just does not pay.
ORE = {"cu": lambda i, j, k: {(1, 1): 6, (3, 1): 0.3}.get((i, j), 0)}
KEPT = ["kept_undiscounted_cash_flow", "kept_npv_best", "kept_npv_worst", "kept_years"]


def mean_discount(years, rate=0.1):
    return (1 - (1 + rate) ** -years) / (np.log(1 + rate) * years)


def by_case(table):
    return table.set_index(["parameter", "change", "second_parameter", "second_change"])


@pytest.fixture
def small(plan_folder):
    """Writes the project with a section of its own; gives its path."""

    def write(words="", *changes):
        text = PROJECT.replace(
            "processing_capacity = 100", 'processing_capacity = 100\nselected = 1.0\ndiscounting = "continuous"'
        )
        return plan_folder(rows(5, 3, 1, **ORE), f"{text}\n[sensitivity]\n{words}\n", *changes)

    return write


def test_each_number_by_hand(small):
    """What 100 t of the rich block earn in their year, and with the poor one where it pays, in two."""
    table = by_case(pitplan.write_sensitivity(small("changes = [-0.1, 0.1]"), writing=PLAIN))
    assert list(table.index.get_level_values(0)) == [
        "",
        *np.repeat(["price", "mining_cost", "processing_cost", "recovery", "capacity"], 2),
    ]
    worth = {
        ("", 0.0): 22_800,
        ("price", -0.1): 20_400,
        ("price", 0.1): 25_200 + 120,
        ("mining_cost", -0.1): 22_820 + 20,
    }
    worth |= {("mining_cost", 0.1): 22_780, ("processing_cost", -0.1): 22_900 + 100, ("processing_cost", 0.1): 22_700}
    worth |= {
        ("recovery", -0.1): 20_400,
        ("recovery", 0.1): 25_200 + 120,
        ("capacity", -0.1): 22_800,
        ("capacity", 0.1): 22_800,
    }
    assert {key[:2]: row.undiscounted_cash_flow for key, row in table.iterrows()} == pytest.approx(worth)
    years = {key: 2.0 if extra % 100 == 20 or key == ("processing_cost", -0.1) else 1.0 for key, extra in worth.items()}
    years |= {
        ("mining_cost", -0.1): 2.0,
        ("mining_cost", 0.1): 1.0,
        ("capacity", -0.1): 1 / 0.9,
        ("capacity", 0.1): 1 / 1.1,
    }
    assert {key[:2]: row.years for key, row in table.iterrows()} == pytest.approx(years)
    # One bench at one pace: cash flows evenly, and the best case is the worst where one shell is all.
    assert table.loc[("capacity", 0.1, "", 0.0), "npv"] == pytest.approx(22_800 * mean_discount(1 / 1.1))
    assert table.loc[("price", 0.1, "", 0.0), "npv_worst"] == pytest.approx(25_320 * mean_discount(2))


def test_what_the_pit_as_given_earns_stands_beside_it(small):
    """The rich block alone, at the case's numbers."""
    table = by_case(pitplan.write_sensitivity(small("changes = [-0.1, 0.1]"), writing=PLAIN))
    kept = table.xs(("", 0.0), level=("second_parameter", "second_change"))["kept_undiscounted_cash_flow"]
    assert kept["price"].tolist() == pytest.approx([20_400, 25_200]) and kept["mining_cost"].tolist() == pytest.approx(
        [22_820, 22_780]
    )
    assert kept["processing_cost"].tolist() == pytest.approx([22_900, 22_700]) and kept[
        "recovery"
    ].tolist() == pytest.approx([20_400, 25_200])
    assert (table["undiscounted_cash_flow"] >= table["kept_undiscounted_cash_flow"] - 1e-6).all()
    earns = table.loc[("capacity", -0.1, "", 0.0), KEPT[1:]].tolist()
    assert earns == pytest.approx([22_800 * mean_discount(1 / 0.9)] * 2 + [1 / 0.9])


def test_pairs_by_hand(small):
    """Both numbers at once; and each of a pair alone too, though it is not named by itself."""
    table = by_case(
        pitplan.write_sensitivity(
            small('changes = [-0.1, 0.1]\nparameters = "price"\npairs = [["price", "mining_cost"]]'), writing=PLAIN
        )
    )
    worth = table["undiscounted_cash_flow"].to_dict()
    assert len(worth) == 9
    assert worth[("price", 0.1, "mining_cost", 0.1)] == pytest.approx(26_400 - 1000 - 220 + 1320 - 1220)
    assert worth[("price", -0.1, "mining_cost", 0.1)] == pytest.approx(21_600 - 1000 - 220)
    assert worth[("mining_cost", 0.1, "", 0.0)] == pytest.approx(22_780)
    grid = charts.grid_of(table.reset_index(), "price", "mining_cost")
    assert grid.index.tolist() == grid.columns.tolist() == [-0.1, 0.0, 0.1]
    npv = table["npv"].to_dict()
    assert grid.loc[0.1, -0.1] == npv[("price", 0.1, "mining_cost", -0.1)]
    assert (grid.loc[0.0, 0.0], grid.loc[0.0, 0.1], grid.loc[-0.1, 0.0]) == (
        npv[("", 0.0, "", 0.0)],
        npv[("mining_cost", 0.1, "", 0.0)],
        npv[("price", -0.1, "", 0.0)],
    )


# Best and worst case mine the shells of the project's revenue factors, as those of pitplan shells.
COARSE = "largest_increment = 1\n"
RICH = {
    "cu": lambda i, j, k: {(3, 3, 1): 6, (5, 3, 1): 1.1, (3, 5, 2): 0.7, (6, 5, 2): 0.5, (6, 1, 2): 0.3}.get(
        (i, j, k), 0
    ),
    "rock": lambda i, j, k: "RS"[(i + j) % 2],
    "au": lambda i, j, k: 0.9 if (j, k) == (3, 1) else 0,
}
GOLD = '[[metals]]\nname = "gold"\ncolumn = "au"\nunit = "gram_per_tonne"\nprice = 60\nselling_cost = 1.5\nrecovery = 0.6\n[slopes]\n'
WALLS = ("[slopes]\nprecedence_benches = 3\n", GOLD + "precedence_benches = 3\n"), ('pattern = "1:5"', "angle = 45")
MORE = (
    *WALLS,
    ("mining_cost = 2\n", "mining_cost = { R = 2, S = 2.5 }\nmining_cost_per_bench = 0.25\n"),
    ("recovery = 0.5\n", "recovery = { R = 0.95, S = 0.5 }\nselling_cost = 200\n"),
    ("processing_capacity = 100", "processing_capacity = 150\nmining_capacity = 900\nselected = 1.0"),
)


@pytest.mark.parametrize(
    ("number", "share", "changes"),
    [
        ("price", "0.25", (("price = 8000", "price = 10000"), ("price = 60", "price = 75"))),
        ("price copper", "0.25", (("price = 8000", "price = 10000"),)),
        (
            "selling_cost",
            "-0.5",
            (("selling_cost = 200", "selling_cost = 100"), ("selling_cost = 1.5", "selling_cost = 0.75")),
        ),
        ("selling_cost gold", "1", (("selling_cost = 1.5", "selling_cost = 3"),)),
        (
            "recovery",
            "0.1",
            (("R = 0.95, S = 0.5 }\ns", "R = 1, S = 0.55 }\ns"), ("recovery = 0.6", "recovery = 0.66")),
        ),
        ("recovery copper", "-0.2", (("R = 0.95, S = 0.5 }\ns", "R = 0.76, S = 0.4 }\ns"),)),
        (
            "mining_cost",
            "0.2",
            (("R = 2, S = 2.5 }", "R = 2.4, S = 3 }"), ("mining_cost_per_bench = 0.25", "mining_cost_per_bench = 0.3")),
        ),
        ("processing_cost", "0.3", (("processing_cost = 10", "processing_cost = 13"),)),
        ("slopes", "0.2", (("angle = 45", "angle = 54"),)),
        (
            "capacity",
            "-0.2",
            (
                ("processing_capacity = 150", "processing_capacity = 120"),
                ("mining_capacity = 900", "mining_capacity = 720"),
            ),
        ),
    ],
)
def test_a_case_is_the_project_with_this_number_written_there(plan_folder, tmp_path, number, share, changes):
    path = plan_folder(
        rows(9, 8, 4, **RICH),
        PROJECT + f'\n[sensitivity]\nchanges = [{share}]\nparameters = ["{number}"]\n{COARSE}',
        *MORE,
    )
    demand_as_written(path, tmp_path / "other", number, changes)


def demand_as_written(path, other, number, changes):
    """The case of a sensitivity is the project in whose text these changes were made."""
    table = pitplan.write_sensitivity(path, writing=PLAIN)
    shutil.copytree(path.parent, other, ignore=shutil.ignore_patterns("plan"))
    text = path.read_text()
    for old, new in changes:
        assert text.count(old) == 1
        text = text.replace(old, new)
    (other / "project.toml").write_text(text)
    for row, folder in ((0, path), (1, other / "project.toml")):
        shells = (
            pitplan.write_shells(folder, writing=UNVERIFIED)
            .set_index("revenue_factor")
            .loc[1.0]
            .drop("value_at_revenue_factor")
        )
        assert table.iloc[row][shells.index].astype(float).to_dict() == pytest.approx(shells.astype(float).to_dict())
    assert table["kept_undiscounted_cash_flow"].isna().tolist() == [False, number == "slopes"]
    assert table.loc[1, "npv"] != table.loc[0, "npv"]


@pytest.mark.parametrize(
    ("number", "share", "changes"),
    [
        ("recovery", "0.25", (("[0.2, 0.4], [1.0, 0.9]", "[0.2, 0.5], [1.0, 1]"),)),
        ("price", "-0.25", (("price = 8000", "price = 6000"), ("[6000, 10000]", "[4500, 7500]"))),
    ],
)
def test_recovery_by_grade_and_prices_of_years_vary(plan_folder, tmp_path, number, share, changes):
    by_grade = ("recovery = 0.5\n", "recovery = [[0.2, 0.4], [1.0, 0.9]]\nprices = [6000, 10000]\n")
    project = PROJECT + f'\n[sensitivity]\nchanges = [{share}]\nparameters = ["{number}"]\n{COARSE}'
    path = plan_folder(
        rows(9, 8, 4, **RICH),
        project,
        by_grade,
        ("processing_capacity = 100", 'processing_capacity = 100\nselected = 1.0\ndiscounting = "continuous"'),
    )
    demand_as_written(path, tmp_path / "other", number, changes)


def test_fixed_blocks_hold_in_every_case_and_ore_may_be_settled(plan_folder):
    """A block at the corner must be dug and the last column may not be; with ore as it is at the price as given of each case."""
    table = rows(9, 8, 4, **RICH, must=lambda i, j, k: int((i, j, k) == (0, 0, 3)), never=lambda i, j, k: int(i == 8))
    words = '\n[constraints]\nmust_mine = "must"\nexclude = "never"\n[sensitivity]\nchanges = [-0.1]\n'
    path = plan_folder(
        table, PROJECT + words, *MORE, ("processing_cost = 10\n", 'processing_cost = 10\ncutoff = "base_price"\n')
    )
    found = pitplan.write_sensitivity(path, writing=PLAIN)
    shells = pitplan.write_shells(path, writing=UNVERIFIED).set_index("revenue_factor")
    assert found.loc[0, ["blocks", "undiscounted_cash_flow"]].tolist() == pytest.approx(
        shells.loc[1.0, ["blocks", "undiscounted_cash_flow"]].tolist()
    )
    folder = path.parent / "plan" / "sensitivity"
    blocks, record = pd.read_csv(folder / "tables/blocks.csv"), json.loads((folder / "sensitivity.json").read_text())
    for case in record["cases"]:
        entry = np.load(folder / "cases" / f"{case['key']}.npz")["entry"][blocks["id"]]
        assert (entry[blocks["must"] == 1] == 0.001).all() and not entry[blocks["never"] == 1].any()


def test_rows_that_are_put_together_are_varied_as_blocks(plan_folder):
    """Four blocks of 10 m in one of 20: the ore is as it would be in a table of these."""
    table = rows(8, 8, 3, cu=lambda i, j, k: 6 if (i // 2, j // 2, k) == (2, 2, 1) else 0)
    change = ('file = "blocks.csv"', 'file = "blocks.csv"\nreblock = [2, 2, 1]')
    found = pitplan.write_sensitivity(
        plan_folder(table, PROJECT + '\n[sensitivity]\nchanges = [0.1]\nparameters = "price"\n', change), writing=PLAIN
    )
    # Four times 24,000 and 1000 for processing, and of five blocks of 400 t, of which one is over the ore, 800 each.
    assert found["undiscounted_cash_flow"].tolist() == pytest.approx(
        [4 * 24_000 - 4000 - 6 * 800, 4 * 26_400 - 4000 - 6 * 800]
    )


def test_the_base_case_of_the_shells_of_the_project_has_their_values_with_must_mine_blocks(plan_folder):
    """The cone of a must-mine block is in each shell, and is no shell of its own."""
    table = rows(9, 8, 4, **RICH, must=lambda i, j, k: int((i, j, k) == (1, 6, 2)))
    words = f'\n[constraints]\nmust_mine = "must"\n[sensitivity]\nchanges = [0.2]\nparameters = "price"\n{COARSE}'
    path = plan_folder(table, PROJECT + words, *MORE)
    base = pitplan.write_sensitivity(path, writing=PLAIN).iloc[0]
    shells = pitplan.write_shells(path, writing=UNVERIFIED).set_index("revenue_factor").loc[1.0]
    names = ["npv_best", "npv_worst", "undiscounted_cash_flow", "years"]
    assert base[names].tolist() == pytest.approx(shells[names].tolist(), abs=1e-6)


def test_the_revenue_factors_of_the_project_do_not_decide(plan_folder):
    """With shells as fine as can be, NPVs are those of a project with every thousandth as a revenue factor, whatever factors the project has."""
    words = '\n[sensitivity]\nchanges = [0.2]\nparameters = "price"\nlargest_increment = 0.0001\n'
    limits = "processing_capacity = 40\nmining_capacity = 250\nselected = 1.0"
    changes = (*MORE[:-1], ("processing_capacity = 100", limits))
    found = []
    for factors in ("[0.5, 1.0]", "[0.05, 0.3, 0.85, 1.0]"):
        path = plan_folder(rows(9, 8, 4, **RICH), PROJECT + words, *changes, ("[0.5, 1.0, 1.5]", factors))
        found.append(pitplan.write_sensitivity(path, writing=PLAIN)[["npv_best", "npv_worst", "kept_npv_best"]])
    assert found[0].to_numpy().ravel().tolist() == pytest.approx(found[1].to_numpy().ravel().tolist(), abs=1e-6)
    path.write_text(path.read_text().replace("[0.05, 0.3, 0.85, 1.0]", "{ from = 0.001, to = 1.0, step = 0.001 }"))
    shells = pitplan.Plan.from_project(path).shells().table.set_index("revenue_factor").loc[1.0]
    for name in ("npv_best", "npv_worst"):
        assert found[0].loc[0, name] == pytest.approx(float(shells[name]), abs=1e-6)


def test_shells_are_divided_until_none_adds_more_than_its_share():
    """A pit that grows by 1 t each thousandth, and by 400 t at 0.700: no factor divides that."""
    asked = []

    def tonnes_at(factors):
        asked.extend(factors)
        return {it: 1000 * it + 400 * (it >= 0.7) for it in factors}

    found = skin.refined((0.5, 1.0), 0.1, tonnes_at)
    tonnes = [1000 * it + 400 * (it >= 0.7) for it in found]
    wide = [pair for pair in zip(found, found[1:]) if tonnes[found.index(pair[1])] - tonnes[found.index(pair[0])] > 140]
    assert wide == [(0.699, 0.7)] and {0.5, 1.0} <= set(found) and list(found) == sorted(set(found))
    assert len(asked) == len(set(asked)) < 60
    # Shells that are equal to the one before are left out, but for those of the project.
    assert skin.refined((0.5, 1.0), 0.1, lambda factors: {it: 100.0 * (it >= 0.9) for it in factors}) == (
        0.5,
        0.9,
        1.0,
    )


@pytest.mark.parametrize("share", ["0", "1.01", "-0.1"])
def test_an_increment_that_is_no_share_is_named(small, share):
    with pytest.raises(PlanError, match=f"largest_increment: found {share}, expected above 0 to 1"):
        pitplan.load(small(f"largest_increment = {share}"))


def test_costs_by_elevation_and_walls_by_azimuth(plan_folder, tmp_path):
    domains = ("[slopes]\nprecedence_benches = 3\n", "[slopes]\nprecedence_benches = 3\n"), (
        'pattern = "1:5"',
        "azimuths = [[0, 40], [180, 50]]",
    )
    money = ("mining_cost = 2\n", "mining_cost = 2\nmining_cost_by_elevation = [[5, 2], [35, 0]]\n"), (
        "discount_rate = 0.1",
        "discount_rate = 0.1\nselected = 1.0",
    )
    path = plan_folder(
        rows(9, 8, 4, **RICH),
        PROJECT + '\n[sensitivity]\nchanges = [0.1]\nparameters = ["mining_cost", "slopes"]\n',
        *domains,
        *money,
    )
    table = pitplan.write_sensitivity(path, writing=PLAIN)
    text = path.read_text().replace("mining_cost = 2\n", "mining_cost = 2.2\n").replace("[5, 2]", "[5, 2.2]")
    for row, changed in ((1, text), (2, path.read_text().replace("[[0, 40], [180, 50]]", "[[0, 44], [180, 55]]"))):
        path.write_text(changed)
        assert pitplan.write_shells(path, writing=UNVERIFIED)["undiscounted_cash_flow"].iloc[1] == pytest.approx(
            table.loc[row, "undiscounted_cash_flow"]
        )


def test_a_lower_price_of_all_is_a_lesser_factor(plan_folder):
    """Where nothing is paid for selling, the pit as given at 20 % less is worth what the program said at revenue factor 0.80."""
    path = plan_folder(
        rows(9, 8, 4, **RICH),
        PROJECT + '\n[sensitivity]\nchanges = [-0.2]\nparameters = "price"\n',
        ("revenue_factors = [0.5, 1.0, 1.5]", "revenue_factors = [0.64, 0.8]\nselected = 0.8"),
    )
    table = pitplan.write_sensitivity(path, writing=PLAIN)
    shells = pitplan.write_shells(path, writing=UNVERIFIED).set_index("revenue_factor")
    assert table.loc[1, "revenue_factor"] == 0.8 and table.loc[1, "kept_undiscounted_cash_flow"] == pytest.approx(
        float(shells["value_at_revenue_factor"][0.8])
    )
    assert (
        float(table.loc[1, "value_at_revenue_factor"]) == pytest.approx(float(shells["value_at_revenue_factor"][0.64]))
        and table.loc[1, "blocks"] == shells["blocks"][0.64]
    )


def test_what_has_an_answer_is_not_solved_again(small, monkeypatch):
    path, solved = small("changes = [0.1]"), []
    find = sensitivity.find
    monkeypatch.setattr(sensitivity, "find", lambda *words: solved.append(words) or find(*words))
    first = pitplan.write_sensitivity(path, writing=PLAIN)
    assert len(solved) == 6
    monkeypatch.chdir(path.parent)
    second = pitplan.write_sensitivity("project.toml", writing=PLAIN)
    assert len(solved) == 6 and first.astype(str).equals(second.astype(str))
    path.write_text(path.read_text().replace("changes = [0.1]", "changes = [0.1, 0.2]"))
    pitplan.write_sensitivity(path, writing=PLAIN)
    assert len(solved) == 6 + 11, "the project's text is another"


def test_files_and_what_the_command_line_tells(small, capsys, with_blank_figures):
    path = small('parameters = ["price", "mining_cost"]\npairs = [["price", "mining_cost"]]')
    assert main(["sensitivity", str(path), "--quiet"]) == 0
    out = capsys.readouterr().out.splitlines()
    assert out[2].split() == ["base", "case", "21.75", "0.00", "100.00", "100.00", "22.80", "1.0"]
    assert out[3].split()[:3] == ["price", "-20", "%"] and "price -20 %, mining cost +10 %" in out[13]
    folder = path.parent / "plan" / "sensitivity"
    assert out[-1] == str(folder / "tables/sensitivity.csv")
    assert {name for name in files_in(folder) if not name.startswith("cases/")} == {
        *(
            "tables/blocks.csv",
            "project-as-run.toml",
            "tables/sensitivity.csv",
            "sensitivity.json",
            "figures/tornado.png",
            "figures/spider.png",
            "figures/grid-price-mining_cost.png",
        )
    }
    record = json.loads((folder / "sensitivity.json").read_text())
    assert len(record["verified"]) == 13 and record["revenue_factor"] == 1.0
    assert main(["verify", str(folder)]) == 0
    assert "in 25 cases: " in capsys.readouterr().out
    assert main(["sensitivity", str(path), "--quiet", "--no-verify"]) == 0
    assert json.loads((folder / "sensitivity.json").read_text())["verified"] == []


def test_cases_over_dask_are_those_of_one_after_the_other(small, capsys):
    pytest.importorskip("distributed")
    path = small('changes = [-0.1, 0.1]\nparameters = ["price", "capacity"]')
    assert (
        main(
            [
                "sensitivity",
                str(path),
                "--quiet",
                "--on",
                "local",
                "--workers",
                "1",
                "--out",
                str(path.parent / "dask"),
                "--no-figures",
            ]
        )
        == 0
    )
    pitplan.write_sensitivity(path, path.parent / "one", writing=UNVERIFIED)
    assert (path.parent / "dask" / "tables/sensitivity.csv").read_bytes() == (
        path.parent / "one" / "tables/sensitivity.csv"
    ).read_bytes()
    assert len(list((path.parent / "dask" / "cases").iterdir())) == 5
    path.write_text(path.read_text().replace("[-0.1, 0.1]", "[-0.9999]"))
    with pytest.raises(PlanError, match="check that the capacities are in tonnes per year"):
        pitplan.write_sensitivity(path, path.parent / "dask", Where("local", 0), writing=PLAIN)


def test_cases_are_solved_here_or_over_dask_alone(small, capsys):
    with pytest.raises(SystemExit):
        main(["sensitivity", str(small()), "--on", "slurm", "--no-figures"])
    assert 'found "slurm", expected local or tcp://host:port' in capsys.readouterr().err


@pytest.mark.parametrize(
    ("words", "said"),
    [
        ("changes = []", "[sensitivity] changes: must be a list of up to 20 shares"),
        ("changes = 0.1", "[sensitivity] changes: must be a list of up to 20 shares"),
        ("changes = [0.1, 0]", "changes: expected up to 20 shares, not 0, and all different"),
        ("changes = [-1]", "changes: found -1, expected above -1 to 10"),
        ("changes = [10.5]", "changes: found 10.5, expected above -1 to 10"),
        ("changes = [0.1, 0.10]", "changes: expected up to 20 shares, not 0"),
        ('changes = ["much"]', "changes: 'much' is not a number"),
        (
            'parameters = "rent"',
            'parameters: found "rent", expected one of price, mining_cost, processing_cost, selling_cost, recovery, slopes, capacity, haulage; price, selling_cost',
        ),
        ('parameters = "slopes copper"', 'parameters: found "slopes copper", expected one of'),
        ('parameters = "price tin"', 'parameters: found "price tin", expected one of'),
        ('parameters = ["price", "price"]', "parameters: names a parameter twice"),
        ('pairs = ["price"]', "pairs: must be a list of pairs of names"),
        ('pairs = [["price", "rent"]]', 'pairs: found "rent", expected one of'),
        ('pairs = [["price", "price copper"]]', "pairs: price and price copper are not two different parameters"),
        (
            'pairs = [["price copper", "price copper"]]',
            "pairs: price copper and price copper are not two different parameters",
        ),
        ("share = 1", "[sensitivity] share: unknown key"),
    ],
)
def test_what_is_refused(small, words, said):
    with pytest.raises(PlanError) as refused:
        load(small(words))
    assert said in str(refused.value)


def test_walls_that_no_share_allows_are_refused(plan_folder):
    path = plan_folder(
        rows(5, 3, 1, **ORE),
        PROJECT + "\n[sensitivity]\nchanges = [1.1]\nparameters = 'slopes'\n",
        ('pattern = "1:5"', "angle = 45"),
    )
    with pytest.raises(PlanError, match="changes: slope angles times 2.1 are outside 1 to 90 degrees"):
        pitplan.write_sensitivity(path, writing=PLAIN)


def test_shares_have_their_ends(small):
    asked = load(small("changes = [10, -0.99]\nparameters = 'price'")).sensitivity
    assert [float(share) for share in asked.changes] == [-0.99, 10.0] and asked.parameters == ("price",)


FEW = '\n[sensitivity]\nchanges = [-0.2, 0.2]\nparameters = ["price", "mining_cost"]\npairs = [["price", "capacity"]]\n'


def write_rich(place, words):
    """Writes a mine of two metals with a section of its own."""
    text = PROJECT + words
    for old, new in MORE:
        text = text.replace(old, new)
    (place / "project.toml").write_text(text)
    rows(8, 7, 4, **RICH).to_csv(place / "blocks.csv", index=False)
    return place / "project.toml"


@pytest.fixture(scope="module")
def whole(tmp_path_factory):
    """The folder of a sensitivity to every parameter."""
    path = write_rich(tmp_path_factory.mktemp("whole"), FEW.replace('parameters = ["price", "mining_cost"]\n', ""))
    pitplan.write_sensitivity(path, writing=UNVERIFIED)
    return path.parent


@pytest.fixture(scope="module")
def answered(tmp_path_factory):
    """The same with two parameters and their pair: each number of its files is verified as with all."""
    path = write_rich(tmp_path_factory.mktemp("varied"), FEW)
    pitplan.write_sensitivity(path, writing=UNVERIFIED)
    return path.parent


@pytest.fixture
def copied(answered, tmp_path):
    return shutil.copytree(answered, tmp_path / "mine") / "plan" / "sensitivity"


def wrong(folder):
    return {rule.name: rule.differences for rule in verify_folder(folder) if rule.differences}


def test_what_is_right_passes(whole, copied):
    assert wrong(whole / "plan" / "sensitivity") == {} == wrong(copied)
    parameters = pd.read_csv(whole / "plan" / "sensitivity" / "tables/sensitivity.csv")["parameter"]
    assert {*sensitivity.VARIED} - {"haulage"} <= {str(name).split()[0] for name in parameters}


def test_grades_ratios_and_years_have_six_decimals_and_amounts_three(copied):
    table = pd.read_csv(copied / "tables/sensitivity.csv", dtype=str)
    decimals = {name: table[name].dropna().str.partition(".")[2].str.len().max() for name in table}
    fine = ("head_grade_copper", "head_grade_gold", "strip_ratio", "years", "kept_years")
    assert max(decimals.pop(name) for name in fine) == 6 and decimals.pop("value_at_revenue_factor") == 9
    assert max(decimals.values()) == 3


def test_what_blocks_have_as_given_and_is_bent_is_found(copied):
    table = pd.read_csv(copied / "tables/blocks.csv", float_precision="round_trip")
    columns = ["mining_cost", "revenue", "processing_cost", "revenue_factor"]
    for column in columns:
        table.loc[table.index[table[column] > 0][-1], column] += 1
    table.to_csv(copied / "tables/blocks.csv", index=False)
    ((name, said),) = wrong(copied).items()
    assert name == "as given" and len(said) == len(columns)
    assert all(f": {column.replace('_factor', ' factor')} " in one for column, one in zip(columns, said))


def test_what_is_not_told_of_the_pit_as_given_is_found(copied):
    """Each in a row of its own."""
    table = pd.read_csv(copied / "tables/sensitivity.csv", dtype=str, keep_default_na=False)
    for row, column in enumerate([*KEPT, "skin_value"], 1):
        table.loc[row, column] = ""
    table.to_csv(copied / "tables/sensitivity.csv", index=False)
    found = wrong(copied)
    assert found.keys() == {"kept", "skin"} and len(found["kept"]) == len(KEPT)
    cases = ["price -0.2: ", "price +0.2: ", "mining_cost -0.2: ", "mining_cost +0.2: ", "capacity -0.2: "]
    for said, case, column in zip([*found["kept"], *found["skin"]], cases, [*KEPT, "skin_value"]):
        assert said.startswith(case) and f"{column.removeprefix('kept_')} nan for " in said


AMOUNTS = "blocks tonnes feed_tonnes waste_tonnes strip_ratio processed_at_revenue_factor head_grade_copper recovered_copper head_grade_gold recovered_gold undiscounted_cash_flow".split()


OF_PIT = ["npv_best", "npv_worst", "years", "value_at_revenue_factor", *KEPT, "skin_value"]


@pytest.mark.parametrize(
    ("columns", "names"),
    [
        (AMOUNTS[:6], {"shells"}),
        (AMOUNTS[6:], {"shells"}),
        (OF_PIT, {"years", "values", "kept", "skin"}),
        (["npv"], {"years"}),
    ],
)
def test_each_number_that_is_bent_is_found(copied, columns, names):
    """A hundredth more in the last row, which is of a pair: a difference for each number."""
    table = pd.read_csv(copied / "tables/sensitivity.csv", dtype={"value_at_revenue_factor": str})
    at = table.index[-1]
    for column in columns:
        bent = float(table.loc[at, column]) + (1 if column == "blocks" else 0.02)
        table.loc[at, column] = f"{bent:.6f}" if column == "value_at_revenue_factor" else bent
    table.to_csv(copied / "tables/sensitivity.csv", index=False)
    found = wrong(copied)
    assert found.keys() == names and sum(map(len, found.values())) >= len(columns)
    assert all(said.startswith("price +0.2, capacity +0.2: ") for of_rule in found.values() for said in of_rule)
    for column in columns:
        rules = ["kept"] if column in KEPT else names - {"kept"}
        assert any(
            f" {column.removeprefix('kept_')} " in said.replace("kept_", "") for name in rules for said in found[name]
        )


@pytest.mark.parametrize("column", ["revenue_factor", "change", "second_change"])
def test_a_case_that_is_named_otherwise_is_found(copied, column):
    table = pd.read_csv(copied / "tables/sensitivity.csv", dtype={"value_at_revenue_factor": str})
    table.loc[table.index[-1], column] += 1 if column == "revenue_factor" else 0.02
    table.to_csv(copied / "tables/sensitivity.csv", index=False)
    assert "cases" in wrong(copied)


@pytest.mark.parametrize(
    "bend",
    [
        lambda table: table.iloc[:-1],
        lambda table: pd.concat([table, table.tail(1)]),
        lambda table: table.replace({"parameter": {"price": "mining_cost", "mining_cost": "price"}}),
        lambda table: table.iloc[[0, 2, 1, *range(3, len(table))]],
    ],
)
def test_cases_that_are_not_those_asked_for_are_found(copied, bend):
    bend(pd.read_csv(copied / "tables/sensitivity.csv", dtype={"value_at_revenue_factor": str})).to_csv(
        copied / "tables/sensitivity.csv", index=False
    )
    assert "cases" in wrong(copied)


def test_the_pit_of_another_case_is_found(copied):
    record = json.loads((copied / "sensitivity.json").read_text())
    one, other = (record["cases"][k] for k in (1, 2))
    one["key"], other["key"] = other["key"], one["key"]
    (copied / "sensitivity.json").write_text(json.dumps(record))
    assert {"shells", "values"} <= set(wrong(copied))


def test_a_block_that_is_left_standing_is_found(copied):
    record = json.loads((copied / "sensitivity.json").read_text())
    path = copied / "cases" / f"{record['cases'][3]['key']}.npz"
    said = dict(np.load(path))
    said["entry"][np.flatnonzero(said["entry"])[0]] = 0
    np.savez_compressed(path, **said)
    found = wrong(copied)
    assert found["slopes"][0].startswith("mining_cost -0.2: ") and "shells" in found


def test_walls_of_patterns_that_move_not_are_as_given(plan_folder):
    path = plan_folder(rows(5, 3, 1, **ORE), PROJECT + "\n[sensitivity]\nchanges = [0.2]\nparameters = 'slopes'\n")
    assert sensitivity.rules_of(load(path)).parameters == ("slopes",)
    assert "slopes" not in sensitivity.given(load(path)) and "selling_cost" not in sensitivity.given(load(path))


@pytest.mark.parametrize(
    ("number", "careless"),
    [
        (
            "price",
            lambda project, by, metal: sensitivity.with_metals(
                project, "gold", lambda it: sensitivity.replace(it, price=it.price * by)
            ),
        ),
        (
            "recovery",
            lambda project, by, metal: sensitivity.with_metals(
                project, metal, lambda it: sensitivity.replace(it, recovery=sensitivity.times(it.recovery, by))
            ),
        ),
        (
            "mining_cost",
            lambda project, by, metal: sensitivity.replace(
                project,
                economics=sensitivity.replace(
                    project.economics, mining_cost=sensitivity.times(project.economics.mining_cost, by)
                ),
            ),
        ),
        ("slopes", lambda project, by, metal: project),
        (
            "capacity",
            lambda project, by, metal: sensitivity.replace(
                project,
                shells=sensitivity.replace(
                    project.shells, processing_capacity=project.shells.processing_capacity * float(by)
                ),
            ),
        ),
        ("selling_cost", lambda project, by, metal: project),
        ("processing_cost", lambda project, by, metal: sensitivity.mining_cost(project, by, metal)),
    ],
)
def test_a_number_that_is_varied_otherwise_is_found(tmp_path, monkeypatch, number, careless):
    """Of the metals one alone; a recovery above 1; without what depth adds; walls as they are; the mill alone; none; another cost."""
    path = write_rich(tmp_path, f'\n[sensitivity]\nchanges = [-0.2, 0.2]\nparameters = ["{number}"]\n')
    monkeypatch.setitem(sensitivity.VARIED, number, careless)
    with pytest.raises(PlanError, match="verification failed"):
        pitplan.write_sensitivity(path, writing=PLAIN)
    assert not (tmp_path / "plan" / "sensitivity" / "tables/sensitivity.csv").exists()


def test_a_folder_without_its_answers_is_named(copied):
    shutil.rmtree(copied / "cases")
    with pytest.raises(PlanError, match="npz: cannot be read: run pitplan sensitivity first"):
        verify_folder(copied)
    (copied / "sensitivity.json").write_text("{}")
    with pytest.raises(PlanError, match="not an output folder of pitplan sensitivity"):
        verify_folder(copied)


@pytest.fixture
def table():
    """As given 100; price 80 and 130; costs 104 and 99; both 70 to 140 in pairs."""
    lines = [
        ("", 0, "", 0, 100),
        ("price", -0.1, "", 0, 80),
        ("price", 0.2, "", 0, 130),
        ("mining_cost", -0.1, "", 0, 104),
        ("mining_cost", 0.2, "", 0, 99),
    ]
    lines += [
        ("price", one, "mining_cost", other, 70 + 10 * k)
        for k, (one, other) in enumerate([(-0.1, -0.1), (-0.1, 0.2), (0.2, -0.1), (0.2, 0.2)])
    ]
    return pd.DataFrame(lines, columns=["parameter", "change", "second_parameter", "second_change", "npv"]).astype(
        {"change": float, "second_change": float}
    )


def test_a_tornado_has_the_outermost_shares_and_the_greatest_on_top(table):
    axes = charts.plot_tornado(table, "USD", Figure().subplots())
    bars = sorted((bar.get_y() + bar.get_height() / 2, bar.get_x(), bar.get_width()) for bar in axes.patches)
    assert np.allclose(bars, [(0, 100, -1), (0, 100, 4), (1, 100, -20), (1, 100, 30)])
    assert [label.get_text() for label in axes.get_yticklabels()] == ["mining cost", "price"]
    assert sorted(text.get_text() for text in axes.texts) == ["+20 %", "+20 %", "-10 %", "-10 %"]


def test_a_spider_has_a_curve_a_number_through_the_project_as_given(table):
    axes = charts.plot_spider(table, "USD", Figure().subplots())
    curves = {line.get_label(): line.get_xydata().tolist() for line in axes.lines[:2]}
    assert curves == {"price": [[-0.1, 80], [0, 100], [0.2, 130]], "mining cost": [[-0.1, 104], [0, 100], [0.2, 99]]}


def test_a_grid_has_an_amount_a_pair_of_shares(table):
    axes = charts.plot_grid(table, ("price", "mining_cost"), "USD", Figure().subplots())
    assert [text.get_text() for text in axes.texts] == [
        "70.0",
        "80.0",
        "80.0",
        "104.0",
        "100.0",
        "99.0",
        "90.0",
        "130.0",
        "100.0",
    ]
    assert (axes.patches[0].get_x(), axes.patches[0].get_y()) == (0.5, 0.5)
    assert [label.get_text() for label in axes.get_yticklabels()] == ["-10 %", "0", "+20 %"]
