"""Keys of a project that the command line sets for one run."""

import pytest
from conftest import PROJECT, rows

import pitplan
from pitplan.cli import main
from pitplan.config.project import load

MORE = '[[slopes.domains]]\ndomain = "hard"\nangle = 60\n[shells]'


@pytest.fixture
def path(plan_folder):
    table = rows(5, 5, 3, cu=lambda i, j, k: 2 if (i, j, k) == (2, 2, 1) else 0)
    return plan_folder(table, PROJECT, ("[shells]", MORE))


@pytest.mark.parametrize(
    ("assignment", "text"),
    [
        ("economics.mining_cost=2.6", ("mining_cost = 2\n", "mining_cost = 2.6\n")),
        ("economics.currency=AUD", ("mining_cost = 2\n", 'mining_cost = 2\ncurrency = "AUD"\n')),
        ('title = "High price"', ('title = "Test hill"', 'title = "High price"')),
        ("metals.copper.price=9000", ("price = 8000", "price = 9000")),
        ("metals.1.recovery={ R = 0.75 }", ("recovery = 0.5", "recovery = { R = 0.75 }")),
        ("slopes.domains.2.angle=45", ("angle = 60", "angle = 45")),
        ("shells.revenue_factors=[0.7, 0.9]", ("[0.5, 1.0, 1.5]", "[0.7, 0.9]")),
        ("schedule.mining_capacity=2000", ("[shells]", "[schedule]\nmining_capacity = 2000\n[shells]")),
    ],
)
def test_a_set_key_is_as_if_the_file_had_it(path, assignment, text):
    old, new = text
    assert path.read_text().count(old) == 1
    changed = path.with_name("changed.toml")
    changed.write_text(path.read_text().replace(old, new))
    expected, found = load(changed, path), load(path, overrides=[assignment])
    assert found == expected != load(path)


def test_a_run_records_the_project_with_the_set_keys(path):
    out = path.parent / "high"
    options = ["--set", "metals.copper.price=9000", "--set", "economics.mining_cost=2.6", "--no-figures", "--quiet"]
    before = path.read_bytes()
    assert main(["shells", str(path), "--out", str(out), *options, "--no-figures"]) == 0
    recorded = load(out / "project-as-run.toml")
    assert str(recorded.metals[0].price) == "9000" and str(recorded.economics.mining_cost) == "2.6"
    assert path.read_bytes() == before and all(not rule.differences for rule in pitplan.verify(out))


@pytest.mark.parametrize(
    ("assignment", "said"),
    [
        (
            "economics.mining_cost",
            r"--set economics.mining_cost: expected KEY=VALUE, such as economics.mining_cost=2.6",
        ),
        ("=3", r"--set =3: expected KEY=VALUE"),
        ("metals.gold.price=1", r"--set metals.gold.price=1: found gold, expected one of copper$"),
        ("metals.2.price=1", r"found 2, expected one of copper$"),
        ("title.more=1", r"title is 'Test hill', and no section"),
        (
            "economics.minning_cost=3",
            r"project.toml with --set economics.minning_cost=3: \[economics\] minning_cost: unknown key: did you mean mining_cost",
        ),
        ("economics.mining_cost=two", r"with --set economics.mining_cost=two: \[economics\] mining_cost: "),
    ],
)
def test_what_cannot_be_set_is_refused(path, capsys, assignment, said):
    assert main(["check", str(path), "--set", assignment, "--quiet"]) == 1
    with pytest.raises(pitplan.PlanError, match=said):
        load(path, overrides=[assignment])
    assert len(capsys.readouterr().err.splitlines()) == 1
