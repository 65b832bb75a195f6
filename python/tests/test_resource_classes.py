"""Resource classes: what is ore, waste or refused, worked by hand on small pits, and what the verification finds."""

import re
from types import SimpleNamespace

import numpy as np
import pandas as pd
import pytest
from conftest import PROJECT, rows
from helpers.block_commands import YEARLY, scheduled
from helpers.block_scenarios import prepared as prepared_by_block, solved_in_turn as solved_by_block
from helpers.pushbacks import UPRIGHT, pillars, with_pushbacks, wrong
from helpers.scenarios import COLUMNS, UPRIGHT as UPRIGHT_CHANGE, prepared, solved_in_turn
from helpers.writings import PLAIN, UNVERIFIED

import pitplan
from pitplan import PlanError, verify
from pitplan.blockmodel import resource_classes
from pitplan.config.material import ClassRules
from pitplan.economics.block_values import Values
from planaudit import AuditError
from planaudit.inputs import answer as answers, block_table, codes as audited, project_file
from planaudit.schedules import limits

CLASS = ("[table]\n", '[table]\nclass = "cls"\n')
MINERALISED = "mineralised_waste_tonnes"


def ruled(text, *rules):
    """The text with a class column and rules of `[classes]`."""
    return text.replace(*CLASS) + "[classes]\n" + "".join(f"{rule}\n" for rule in rules)


def shaft(middle=0.4, **more):
    """Waste over a poor block over 100 t at 3 %, whose metal sells for 12,000: 40 a tonne and per cent."""
    grades = {"cu": lambda i, j, k: (3, middle, 0)[k], "cls": lambda i, j, k: ("measured", "inferred", "measured")[k]}
    return rows(1, 1, 3, **grades | more)


def shells_of(path):
    pitplan.write_shells(path, writing=PLAIN)
    return pd.read_csv(path.parent / "plan/tables/shells.csv").set_index("revenue_factor")


@pytest.mark.parametrize(
    ("code", "treatment"),
    [
        *((code, "waste") for code in ("inferred", "INF", "Unclassified", "potential", "EXPLORATION", "")),
        *((code, "ore") for code in ("measured", "Indicated", "proved", "3", "inferred resource")),
    ],
)
def test_without_a_rule_a_class_is_treated_by_its_name(code, treatment):
    assert ClassRules().of(code) == treatment == audited.treatment(code, SimpleNamespace(classes={}))
    for other in ("ore", "waste", "refuse"):
        rules = {code: other}
        assert ClassRules(rules).of(code) == other == audited.treatment(code, SimpleNamespace(classes=rules))


def test_inferred_pillars_are_not_mined(plan_folder):
    """Pillars worth 2600, 1400 and 600: the second is inferred, and pays for itself no more."""
    table = pillars(cls=lambda i, j, k: ("measured", "inferred", "indicated")[i])
    changes = [("[0.5, 1.0, 1.5]", "[1.0]")]
    plain, split = (
        shells_of(plan_folder(table, text, *changes)).loc[1.0] for text in (UPRIGHT, UPRIGHT.replace(*CLASS))
    )
    assert (plain["undiscounted_cash_flow"], plain["blocks"], plain["feed_tonnes"]) == (4600, 6, 300)
    assert (split["undiscounted_cash_flow"], split["blocks"], split["feed_tonnes"]) == (3200, 4, 200)
    assert MINERALISED not in plain and split[MINERALISED] == 0


@pytest.mark.parametrize(
    ("rule", "worth", "feed", "waste"),
    [("ore", 12_000 + 1600 - 2000 - 600, 200, 0), ("waste", 12_000 - 1000 - 600, 100, 100)],
)
def test_a_rule_decides_what_is_ore(plan_folder, rule, worth, feed, waste):
    row = shells_of(plan_folder(shaft(), ruled(UPRIGHT, f'inferred = "{rule}"'))).loc[1.0]
    assert row["undiscounted_cash_flow"] == worth and row["feed_tonnes"] == feed
    assert (
        row[MINERALISED] == waste
        and row["waste_tonnes"] == 300 - feed
        and row["recovered_copper"] == (3 + 0.4 * (feed == 200)) / 2
    )


@pytest.mark.parametrize(("cutoff", "tonnes"), [("per_revenue_factor", [0, 100, 100]), ("base_price", [100, 100, 100])])
def test_mineralised_waste_is_by_the_cutoff_of_each_shell(plan_folder, cutoff, tonnes):
    """Processing costs 1000, and the metal of 0.4 % sells for 800 at revenue factor 0.5, 1600 at 1.0 and 2400 at 1.5. All three blocks are in
    each shell, and the material above ore does not count."""
    text = UPRIGHT.replace(*CLASS)
    table = shells_of(plan_folder(shaft(), text, ("mining_cost = 2", f'mining_cost = 2\ncutoff = "{cutoff}"')))
    assert table["blocks"].tolist() == [3, 3, 3] and table[MINERALISED].tolist() == tonnes
    assert table["processed_at_revenue_factor"].tolist() == [100] * 3


def test_ore_that_just_pays_is_none(plan_folder):
    """0.25 % yields 1000, which is what processing costs: no mineralised waste at the base price, and 100 t at 1.5."""
    table = shells_of(plan_folder(shaft(0.25), UPRIGHT.replace(*CLASS)))
    assert table[MINERALISED].tolist() == [0, 0, 100]


def test_mineralised_waste_of_several_processes(plan_folder):
    """Leach yields 16 a tonne and per cent for 3: 0.4 % pays at 0.5 already, since 320 > 300. The mill needs 1000."""
    several = (
        '[[processes]]\nname = "leach"\ncost = 3\ncapacity = 100\nrecovery = { copper = 0.2 }\n'
        '[[processes]]\nname = "mill"\ncost = 10\ncapacity = 100\nrecovery = { copper = 0.5 }\n[slopes]\n'
    )
    changes = [
        ("processing_cost = 10\n", ""),
        ("recovery = 0.5\n[slopes]\n", several),
        ("processing_capacity = 100\n", ""),
    ]
    table = shells_of(plan_folder(shaft(), UPRIGHT.replace(*CLASS), *changes))
    assert table[MINERALISED].tolist() == [100] * 3
    blocks = pd.read_csv(plan_folder(shaft()).parent / "plan/tables/blocks.csv").set_index("name")
    assert blocks.loc["b0-0-1", ["revenue", "revenue_leach", "processing_cost_mill"]].tolist() == [0, 0, 0]
    assert blocks["cls"].tolist() == ["measured", "inferred", "measured"]


def test_a_code_of_digits_is_a_text(plan_folder):
    table = shaft(cls=lambda i, j, k: (1, 3, 2)[k])
    row = shells_of(plan_folder(table, ruled(UPRIGHT, '3 = "waste"'))).loc[1.0]
    assert row[MINERALISED] == 100 and row["feed_tonnes"] == 100


def test_an_empty_class_is_waste(plan_folder):
    table = shaft(cls=lambda i, j, k: ("measured", "", None)[k])
    path = plan_folder(table, UPRIGHT.replace(*CLASS))
    assert shells_of(path).loc[1.0, MINERALISED] == 100
    notes = pitplan.Plan.from_project(path).notes
    assert "resource classes in cls: unclassified: 200 t as waste, measured: 100 t as ore" in notes
    path = plan_folder(table, ruled(UPRIGHT, '"" = "ore"'))
    assert shells_of(path).loc[1.0, [MINERALISED, "feed_tonnes"]].tolist() == [0, 200]


def test_one_warning_says_how_many_tonnes_are_waste_by_default(plan_folder):
    table = shaft(tonnes=lambda i, j, k: 400_000)
    told = "inferred resources are treated as waste: 0.4 Mt that would pay for processing at the base price"
    by_default = pitplan.Plan.from_project(plan_folder(table, UPRIGHT.replace(*CLASS))).notes
    assert [note for note in by_default if "treated as waste" in note] == [
        f"WARNING: {told} (by default; [classes] sets a rule for each class)"
    ]
    by_rule = pitplan.Plan.from_project(plan_folder(table, ruled(UPRIGHT, 'inferred = "waste"'))).notes
    assert [note for note in by_rule if "treated as waste" in note] == [f"{told} (by [classes])"]
    # Where none of it would pay there is nothing to warn of.
    poor = pitplan.Plan.from_project(plan_folder(shaft(0.2), UPRIGHT.replace(*CLASS))).notes
    assert not [note for note in poor if "treated as waste" in note]


def test_classes_that_nothing_names_are_told(plan_folder):
    table = shaft(cls=lambda i, j, k: ("1", "2", "measured")[k])
    notes = pitplan.Plan.from_project(plan_folder(table, ruled(UPRIGHT, '2 = "waste"', 'old = "waste"'))).notes
    assert "WARNING: cls: class 1 is treated as ore: no rule of [classes] says what it is" in notes
    assert "[classes] names class old, which no block has" in notes


def test_a_note_names_ten_of_many_classes(plan_folder):
    """A column of names that was taken for classes."""
    table = rows(5, 5, 1).assign(cls=lambda it: it["name"])
    notes = pitplan.Plan.from_project(plan_folder(table, PROJECT.replace(*CLASS))).notes
    (told,) = [note for note in notes if note.startswith("WARNING: cls: classes b0-0-0, ")]
    assert "b1-4-0, and 15 more are treated as ore" in told and max(map(len, notes)) < 500


@pytest.mark.parametrize("empty", ["refuse", "zero"])
def test_a_refused_class_is_an_error_with_row_and_class(plan_folder, empty):
    table = shaft(cls=lambda i, j, k: ("measured", "potential", "potential")[k], tonnes=lambda i, j, k: 100 * (k > 0))
    path = plan_folder(table, ruled(UPRIGHT, 'potential = "refuse"'), ("file =", f'empty = "{empty}"\nfile ='))
    words = (
        'blocks.csv row 3 column cls: found "potential", as in 1 more, which [classes] refuses in blocks with tonnes: '
    )
    with pytest.raises(PlanError, match=re.escape(words) + 'correct the class, or set .classes. "potential" = "waste"'):
        pitplan.Plan.from_project(path)
    with pytest.raises(AuditError, match='row 3 column cls: found "potential", which .classes. refuses'):
        block_table.read(project_file.load(path))


def test_a_refused_class_without_tonnes_is_accepted(plan_folder):
    table = shaft(cls=lambda i, j, k: ("measured", "measured", "air")[k], tonnes=lambda i, j, k: 100 * (k < 2))
    row = shells_of(plan_folder(table, ruled(UPRIGHT, 'air = "refuse"'))).loc[1.0]
    assert row["feed_tonnes"] == 200


@pytest.mark.parametrize(
    ("text", "words"),
    [
        (
            PROJECT + '[classes]\ninferred = "waste"\n',
            r"\[table\] class: is missing, and \[classes\] has rules: name the column",
        ),
        (
            ruled(PROJECT, 'inferred = "Waste"'),
            r'\[classes\] inferred: found "Waste", expected one of ore, waste, refuse',
        ),
        (ruled(PROJECT, "inferred = 1"), r"\[classes\] inferred: must be a text in quotes"),
        (PROJECT.replace("[table]\n", '[table]\nclass = "none"\n'), "blocks.csv row 1: there is no column none"),
        (
            PROJECT.replace("[table]\n", '[table]\nclass = "cu"\n'),
            r"\[table\] class: the column cu is also read as numbers",
        ),
        (
            PROJECT.replace(
                "[table]\n", '[table]\nmissing_blocks = { tonnes = 1, rock_type = "R", domain = "1", class = "inf" }\n'
            ),
            r"\[table\] missing_blocks: has a class, and \[table\] class names no column",
        ),
        (
            ruled(PROJECT, '"" = "refuse"').replace(
                "[table]\n", '[table]\nmissing_blocks = { tonnes = 1, rock_type = "R", domain = "1" }\n'
            ),
            r'\[table\] missing_blocks: class "" is refused by \[classes\]: give another class',
        ),
    ],
)
def test_rules_that_do_not_fit_are_refused(plan_folder, text, words):
    with pytest.raises(PlanError, match=words):
        pitplan.Plan.from_project(plan_folder(shaft(), text))


def test_a_rule_of_an_unknown_key_is_a_class(plan_folder):
    """A class may be called as a treatment is."""
    table = shaft(cls=lambda i, j, k: ("waste", "ore", "refuse")[k])
    row = shells_of(plan_folder(table, ruled(UPRIGHT, 'waste = "ore"', 'ore = "waste"'))).loc[1.0]
    assert row[["feed_tonnes", MINERALISED]].tolist() == [100, 100]


def test_reblocked_blocks_have_the_class_of_most_tonnes(plan_folder):
    """200 t of each pair are inferred in the poor block, 100 t in the rich one."""
    grades, classes = (3, 3, 0.4, 0.4, 0, 0), ("inferred", "measured", "inferred", "measured", "measured", "measured")
    table = rows(
        2,
        1,
        3,
        cu=lambda i, j, k: grades[2 * k + i],
        cls=lambda i, j, k: classes[2 * k + i],
        tonnes=lambda i, j, k: (100, 200, 200, 100, 100, 100)[2 * k + i],
    )
    path = plan_folder(table, UPRIGHT.replace(*CLASS), ("file =", "reblock = [2, 1, 1]\nfile ="))
    row = shells_of(path).loc[1.0]
    assert row[["blocks", "feed_tonnes", MINERALISED]].tolist() == [3, 300, 300]
    blocks = pd.read_csv(path.parent / "plan/tables/blocks.csv")
    assert sorted(blocks["cls"]) == ["inferred", "measured", "measured"]


def test_filled_blocks_have_the_class_of_the_project(plan_folder):
    table = shaft()[lambda it: it["name"] != "b0-0-1"]
    for code, said in (("", ""), (', class = "measured"', "measured")):
        filled = f'missing_blocks = {{ tonnes = 50, rock_type = "R", domain = "1"{code} }}\n'
        path = plan_folder(table, UPRIGHT.replace(*CLASS), ("file =", filled + "file ="))
        assert len(shells_of(path)) == 3
        blocks = pd.read_csv(path.parent / "plan/tables/blocks.csv", keep_default_na=False).set_index("name")
        assert blocks.loc["absent-1", "cls"] == said


def test_pits_and_pushbacks_have_mineralised_waste(plan_folder):
    """Three pillars with ore of 3, 2 and 1 % at the floor, which pay at 0.5 already; the inferred blocks above it have 0.2, 0.4 and 1 %. At 0.5
    the last of them pays, and at the base price, at which pushbacks are mined, the last two."""
    table = rows(
        3,
        1,
        3,
        cu=lambda i, j, k: (3 - i, (0.2, 0.4, 1)[i], 0)[k],
        cls=lambda i, j, k: "inferred" if k == 1 else "measured",
        must=lambda i, j, k: int(k == 2),
    )
    text = with_pushbacks("revenue_factors = [0.5, 1.0]", UPRIGHT.replace(*CLASS))
    path = plan_folder(table, text + '[constraints]\nmust_mine = "must"\n')
    pitplan.write_pit(path, writing=UNVERIFIED)
    pits = pd.read_csv(path.parent / "plan/pit/tables/pits.csv")
    assert pits[MINERALISED].tolist() == [200, 200]
    pitplan.write_pushbacks(path, writing=UNVERIFIED)
    tables = path.parent / "plan/pushbacks/tables"
    pushbacks, shells = pd.read_csv(tables / "pushbacks.csv"), pd.read_csv(tables / "shells.csv")
    assert pushbacks["revenue_factor"].tolist() == shells["revenue_factor"].tolist() == [0.5]
    assert pushbacks[MINERALISED].tolist() == [200] and shells[MINERALISED].tolist() == [100]
    assert pushbacks["waste_tonnes"].tolist() == [600]
    assert wrong(path.parent / "plan/pushbacks") == {}


def test_a_schedule_processes_no_inferred_ore(plan_folder):
    table = pillars(cls=lambda i, j, k: ("measured", "inferred", "indicated")[i])
    path = plan_folder(table, with_pushbacks("count = 2", UPRIGHT.replace(*CLASS)))
    pitplan.write_schedule(path, writing=PLAIN)
    methods = pd.read_csv(path.parent / "plan/schedule/tables/methods.csv")
    assert set(methods["feed_tonnes"]) == {200.0} and set(methods["recovered_copper"]) == {0.75}


def test_sensitivity_keeps_to_the_classes(plan_folder):
    """At twice the price the poor block would pay for its processing at 0.2 %."""
    text = UPRIGHT.replace(*CLASS) + '[sensitivity]\nchanges = [1]\nparameters = ["price"]\n'
    table = pitplan.write_sensitivity(plan_folder(shaft(0.2), text, ("[0.5, 1.0, 1.5]", "[1.0]")), writing=PLAIN)
    assert table[MINERALISED].tolist() == [0, 100]
    assert table["undiscounted_cash_flow"].tolist() == [12_000 - 1600, 24_000 - 1600]


def test_scenarios_keep_to_the_classes(plan_folder):
    """The inferred block has 0.4 % in one realisation and 0.2 % in the other."""
    table = shaft().drop(columns="cu").assign(sim_1=[3, 0.4, 0], sim_2=[3, 0.2, 0])
    shared = prepared(plan_folder(table, COLUMNS.replace(*CLASS), UPRIGHT_CHANGE))
    (note,) = [note for note in shared.record["notes"] if "treated as waste" in note]
    assert "100 t that would pay for processing at the largest grades and prices of all scenarios" in note
    solved_in_turn(shared)
    pitplan.gather(shared.folder, writing=UNVERIFIED)
    told = pd.read_csv(shared.folder / "tables/scenarios.csv").set_index(["scenario", "revenue_factor"])
    assert told[MINERALISED].tolist() == [0, 100, 100, 0, 0, 100]
    assert set(told["undiscounted_cash_flow"]) == {12_000 - 1600}
    spread = pd.read_csv(shared.folder / "tables/quantiles.csv").set_index("revenue_factor")
    assert spread[f"{MINERALISED}_mean"].tolist() == [0, 50, 100]
    assert not any(rule.differences for rule in verify(shared.folder))


def test_another_treatment_is_another_key_of_scenarios(plan_folder):
    table = shaft().drop(columns="cu").assign(sim_1=[3, 0.4, 0], sim_2=[3, 0.2, 0])
    keys = [
        {job.key for job in prepared(plan_folder(it, ruled(COLUMNS, rule), UPRIGHT_CHANGE)).jobs}
        for rule in ('inferred = "waste"', 'inferred = "ore"')
        for it in (table, table.assign(cls="measured"))
    ]
    assert len(set().union(*keys)) == sum(map(len, keys))


def test_inferred_ore_that_is_processed_is_found(plan_folder, monkeypatch):
    path = plan_folder(shaft(), UPRIGHT.replace(*CLASS))
    pitplan.write_shells(path, writing=PLAIN)
    monkeypatch.setattr(resource_classes, "waste_of", lambda *_: None)
    with pytest.raises(PlanError, match="block b0-0-1: revenue 1600 for 0"):
        pitplan.write_shells(path, writing=PLAIN)


@pytest.mark.parametrize(("factor", "said"), [(0.0, "0 for 100"), (1.5, "100 for 0")])
def test_other_mineralised_waste_is_found(plan_folder, monkeypatch, factor, said):
    """By the cut-off of one price for all shells: 0.4 % pays from 0.625 on."""
    own = Values.mineralised_waste
    monkeypatch.setattr(Values, "mineralised_waste", lambda values, _: own(values, factor))
    with pytest.raises(PlanError, match=f"shells: revenue factor .*{MINERALISED} {said}"):
        pitplan.write_shells(plan_folder(shaft(), UPRIGHT.replace(*CLASS)), writing=PLAIN)


def test_another_class_in_the_results_is_found(plan_folder):
    path = plan_folder(shaft(), UPRIGHT.replace(*CLASS))
    pitplan.write_shells(path, writing=PLAIN)
    file = path.parent / "plan/tables/blocks.csv"
    file.write_text(file.read_text().replace("inferred", "measured"))
    assert any(
        "cls measured for inferred" in said for rule in verify(path.parent / "plan") for said in rule.differences
    )


def test_the_project_as_run_has_the_classes(plan_folder):
    text = ruled(UPRIGHT, '"" = "ore"', '3 = "refuse"', 'a-b = "waste"')
    path = plan_folder(shaft(), text)
    pitplan.write_shells(path, writing=PLAIN)
    again = pitplan.load(path.parent / "plan/project-as-run.toml")
    assert again.classes == pitplan.load(path).classes == ClassRules({"": "ore", "3": "refuse", "a-b": "waste"})
    assert again.table.resource_class == "cls"


def test_a_frame_has_classes(plan_folder):
    frame = shaft(cls=lambda i, j, k: ("measured", np.nan, "measured")[k])
    keys = {"id": "name", "rock_type": "rock", "domain": "region", "class": "cls", "size": [10, 10, 10]}
    model = pitplan.BlockModel.from_frame(frame, **keys)
    plan = pitplan.Plan.from_model(
        model,
        economics={"mining_cost": 2, "processing_cost": 10},
        metals=[{"name": "copper", "column": "cu", "unit": "percent", "price": 8000, "recovery": 0.5}],
        slopes={"domains": [{"angle": 89}], "precedence_benches": 1},
        shells={"revenue_factors": [1.0], "discount_rate": 0.1, "processing_capacity": 100},
        classes={"measured": "ore"},
    )
    assert plan.shells().table[MINERALISED].tolist() == [100]


def test_a_block_of_waste_adds_no_metal_to_a_schedule_by_block(plan_folder):
    """Whatever share of it a schedule sends to the mill."""
    path = plan_folder(shaft(), UPRIGHT.replace(*CLASS))
    pitplan.write_shells(path, writing=PLAIN)
    answer = answers.read(path.parent / "plan")
    whole = limits.quantity(answer, 0, [("", np.ones(3))])
    assert dict(zip(answer.rows["cls"] + answer.rows["cu"].astype(str), whole)) == {
        "measured3.0": 1.5,
        "inferred0.4": 0,
        "measured0.0": 0,
    }
    assert answer.quantities["copper"].tolist() == whole.tolist()


def test_a_schedule_by_block_processes_no_inferred_ore(plan_folder):
    """Pillars worth 2600, 1400 and 600, one a year; the second is inferred, and stays."""
    pytest.importorskip("pitshell", reason="make library builds it")
    table = pillars(cls=lambda i, j, k: ("measured", "inferred", "indicated")[i])
    row, folder = scheduled(plan_folder, text=YEARLY.replace(*CLASS), table=table)
    assert row["npv"] == pytest.approx(2600 / 1.1 + 600 / 1.21) == row["upper_bound"]
    assert (row["feed_tonnes"], row["recovered_copper"]) == (200, 0.75)
    assert not any(rule.differences for rule in verify(folder))


def test_inferred_ore_meets_no_minimum_of_feed(plan_folder):
    """The mill must have 90 t in each of two years. Of the third pillar's ore 0.5 % pays for itself and no waste; without its class 0.7 % would do."""
    pytest.importorskip("pitshell", reason="make library builds it")
    table = pillars(cls=lambda i, j, k: ("measured", "inferred", "indicated")[i])
    words = "[schedule]\nyears = 2\nminimum = { feed = 90 }\n"
    row, folder = scheduled(plan_folder, words, YEARLY.replace(*CLASS), table)
    blocks = pd.read_csv(folder / "tables/blocks.csv").set_index("name")
    assert blocks["share_mill"][["b0-0-0", "b1-0-0", "b2-0-0"]].tolist() == [1, 0, 1]
    assert not any(rule.differences for rule in verify(folder))


def test_scenarios_by_block_keep_to_the_classes(plan_folder):
    pytest.importorskip("pitshell", reason="make library builds it")
    table = pillars(cls=lambda i, j, k: ("measured", "inferred", "indicated")[i]).drop(columns="cu")
    table = table.assign(sim_1=[1, 0.7, 0.5, 0, 0, 0], sim_2=[0.9, 3, 0.6, 0, 0, 0])
    path = plan_folder(table, YEARLY.replace(*CLASS) + '[scenarios]\ncolumns = { copper = "sim_*" }\n')
    shared = prepared_by_block(path)
    folder = solved_by_block(shared)
    told = pd.read_csv(folder / "tables/schedules.csv")
    assert told["feed_tonnes"].tolist() == [200, 200]
    assert not any(rule.differences for rule in verify(folder))
