"""Projects that are refused, each by a sentence with file, section and key."""

import re

import pytest
from conftest import PROJECT, ROOT, rows

import pitplan
from pitplan import PlanError
from pitplan.config.keys import keys_of
from pitplan.config.project import record_at

EXAMPLE = ROOT / "examples" / "plan" / "project.toml"


def test_a_byte_order_mark_is_passed_over_and_another_encoding_is_refused(plan_folder):
    path = plan_folder(rows(2, 2, 2))
    path.write_bytes(PROJECT.encode("utf-8-sig"))
    assert pitplan.load(path).title == "Test hill"
    path.write_bytes(PROJECT.replace("Test hill", "H\u00fcgel").encode("cp1252"))
    with pytest.raises(PlanError, match="is not UTF-8"):
        pitplan.load(path)


@pytest.mark.parametrize(
    "old, new, words",
    [
        (
            "mining_cost = 2",
            "minning_cost = 2",
            "[economics] mining_cost: is missing: did you misspell it as minning_cost?",
        ),
        (
            "mining_cost = 2",
            "mining_cost = 2\nminning_cost = 2",
            "[economics] minning_cost: unknown key: did you mean mining_cost",
        ),
        ('title = "Test hill"', 'title = """Test\nhill"""', "title: must be one line of plain text"),
        (
            'id = "name"',
            'id = "name"\nencoding = "utf-9"',
            '[table] encoding: "utf-9" is not an encoding: expected one such as utf-8, cp1252',
        ),
        ('id = "name"', 'id = "name"\ndecimal = ";"', '[table] decimal: found ";", expected one of ., ,'),
        ("mining_cost = 2", "mining_cost = true", "[economics] mining_cost: True is not a number"),
        ("mining_cost = 2", "mining_cost = nan", "[economics] mining_cost: NaN is not a number"),
        ("mining_cost = 2", "mining_cost = 2026-11-27", "[economics] mining_cost: 2026-11-27 is not a number"),
        ("mining_cost = 2", "mining_cost = -2", "[economics] mining_cost: found -2, expected 0 or more"),
        ("mining_cost = 2", "mining_cost = 1e300", "[economics] mining_cost: 1E+300 is beyond 10^18"),
        (
            "mining_cost = 2",
            "mining_cost = 2\nmining_cost_by_elevation = [[10, 1e30], [20, 0]]",
            "[economics] mining_cost_by_elevation: 1E+30 is beyond 10^18",
        ),
        (
            "mining_cost = 2",
            "mining_cost = 2\ndecimals = 7",
            "[economics] decimals: found 7, expected a whole number from 0 to 6",
        ),
        (
            "mining_cost = 2",
            'mining_cost = 2\ncutoff = "loose"',
            '[economics] cutoff: found "loose", expected one of per_revenue_factor, base_price',
        ),
        (
            "mining_cost = 2",
            "mining_cost = 2\nmining_cost_reference = 100",
            "[economics] mining_cost_reference: requires mining_cost_per_bench, which is missing",
        ),
        (
            "mining_cost = 2",
            "mining_cost = 2\nmining_cost_per_bench = 1\nmining_cost_by_elevation = [[10, 1]]",
            "[economics] mining_cost_by_elevation: give it or mining_cost_per_bench, not both",
        ),
        (
            "mining_cost = 2",
            "mining_cost = 2\nmining_cost_by_elevation = [[10, 1], [10, 2]]",
            "[economics] mining_cost_by_elevation: an elevation occurs twice",
        ),
        (
            "mining_cost = 2",
            "mining_cost = 2\nmining_cost_by_elevation = [10, 1]",
            "[economics] mining_cost_by_elevation: must be a list of pairs [elevation, cost a tonne]",
        ),
        ("recovery = 0.5", "recovery = 50", "[metals 1] recovery: found 50, expected 0 to 1"),
        (
            'unit = "percent"',
            'unit = "ppm"',
            '[metals 1] unit: found "ppm", expected one of percent, fraction, gram_per_tonne',
        ),
        ("[10, 10, 10]", "[10, 10]", "[grid] size: must be a list of 3 numbers"),
        ("[10, 10, 10]", "[10, 10, 0]", "[grid] size: found 0, expected above 0"),
        (
            "precedence_benches = 3",
            "precedence_benches = 0",
            "[slopes] precedence_benches: found 0, expected a whole number from 1 to 40",
        ),
        ('pattern = "1:5"', 'pattern = "1:7"', '[slopes.domains 1] pattern: found "1:7", expected one of 1:5, 1:9'),
        (
            'pattern = "1:5"',
            "",
            "[slopes.domains 1] angle: give exactly one of angle, azimuths, bench, pattern and offsets",
        ),
        ('pattern = "1:5"', "angle = 95", "[slopes.domains 1] angle: found 95, expected 1 to 90"),
        (
            'pattern = "1:5"',
            "azimuths = [[0, 40], [0, 50]]",
            "[slopes.domains 1] azimuths: an azimuth occurs twice",
        ),
        (
            'pattern = "1:5"',
            "azimuths = [0, 40]",
            "[slopes.domains 1] azimuths: must be a list of pairs [azimuth, angle]",
        ),
        (
            'pattern = "1:5"',
            'pattern = "1:5"\ndomain = 1.5',
            "[slopes.domains 1] domain: must be a code or a list of codes",
        ),
        (
            'pattern = "1:5"',
            'pattern = "1:5"\ndomain = []',
            "[slopes.domains 1] domain: must be a code or a list of codes",
        ),
        (
            'pattern = "1:5"',
            'pattern = "1:5"\ndomain = true',
            "[slopes.domains 1] domain: must be a code or a list of codes",
        ),
        (
            "precedence_benches = 3",
            "precedence_benches = 3\nnever_steeper = 1",
            "[slopes] never_steeper: must be true or false",
        ),
        ('pattern = "1:5"', "azimuths = []", "[slopes.domains 1] azimuths: must be a list of pairs [azimuth, angle]"),
        ('pattern = "1:5"', "azimuths = 40", "[slopes.domains 1] azimuths: must be a list of pairs [azimuth, angle]"),
        (
            'pattern = "1:5"',
            "azimuths = [[0, 40, 1]]",
            "[slopes.domains 1] azimuths: must be a list of pairs [azimuth, angle]",
        ),
        (
            "[0.5, 1.0, 1.5]",
            "[0.5005]",
            "[shells] revenue_factors: found 0.5005, expected at most three decimals",
        ),
        (
            "[0.5, 1.0, 1.5]",
            "[800, 1000]",
            "[shells] revenue_factors: found 800, expected a revenue factor from 0 to 100; 1.0 is the base price (did you mean 0.80?)",
        ),
        ("[0.5, 1.0, 1.5]", "[1.0, true]", "[shells] revenue_factors: True is not a number"),
        (
            "[0.5, 1.0, 1.5]",
            "[1.0, -5]",
            "[shells] revenue_factors: found -5, expected a revenue factor from 0 to 100; 1.0 is the base price",
        ),
        (
            "[0.5, 1.0, 1.5]",
            "{ from = 1.3, to = 0.3, step = 0.05 }",
            "[shells] revenue_factors: found none from 1.30 to 0.30: from may not be above to",
        ),
        (
            "[0.5, 1.0, 1.5]",
            "{ from = 0.3, to = 1.2, step = 50 }",
            "[shells.revenue_factors] step: found 50, expected at most 0.90, from `from` to `to` (did you mean 0.05?)",
        ),
        (
            "[0.5, 1.0, 1.5]",
            "{ from = 0.3, to = 1.2, step = 0.95 }",
            "[shells.revenue_factors] step: found 0.95, expected at most 0.90, from `from` to `to`",
        ),
        ("[0.5, 1.0, 1.5]", "{ from = 0.3, step = 0.05 }", "[shells.revenue_factors] to: is missing"),
        (
            "[0.5, 1.0, 1.5]",
            "{ from = 0.3, to = 0.5, step = 0 }",
            "[shells.revenue_factors] step: found 0, expected 0.001 or more",
        ),
        (
            "discount_rate = 0.1",
            "discount_rate = 8",
            "[shells] discount_rate: found 8, expected 0 to 1, such as 0.08 for 8 % a year",
        ),
        ("[0.5, 1.0, 1.5]", "[]", "[shells] revenue_factors: must be a list of revenue factors, or { from, to, step }"),
        (
            "discount_rate = 0.1",
            "discount_rate = 0.1\nselected = 0.9",
            "[shells] selected: 0.90 is not among the revenue_factors",
        ),
        ("processing_capacity = 100", "", "[shells] processing_capacity: is missing"),
        ("[economics]", "[[economics]]", "[economics] must be a section of its own"),
        ("[[metals]]", "[metals]", "metals: write at least one [[metals]]"),
        ("[[slopes.domains]]", "[slopes.domains]", "[slopes] domains: write at least one [[slopes.domains]]"),
        ('rock_type = "rock"\n', "", "[table] rock_type: is missing, and prices or recoveries are given by rock type"),
        ("[slopes]\n", "", "[metals 1] precedence_benches: unknown key"),
        ("[shells]\n", "[shell]\n", "shells: is missing: did you misspell it as shell?"),
        ('title = "Test hill"', "title = 3", "title: must be a text in quotes"),
    ],
)
def test_a_mistake_is_named_by_section_and_key(plan_folder, old, new, words):
    text = PROJECT.replace("recovery = 0.5", "recovery = { R = 0.5 }") if "by rock" in words else PROJECT
    path = plan_folder(rows(2, 2, 2), text, (old, new))
    with pytest.raises(PlanError) as said:
        pitplan.load(path)
    # Behind the file is the line.
    assert re.sub(r"(?<=\.toml):\d+(?=: )", "", str(said.value)).startswith(f"{path}: {words}")


@pytest.mark.parametrize("item", ["0.5005", "1e9", "inf", "nan", "200_000", "100.001", "true", "'high'", "[]"])
def test_a_number_that_is_no_revenue_factor_is_refused(plan_folder, item):
    with pytest.raises(PlanError, match=r"\[shells\] revenue_factors: "):
        pitplan.load(plan_folder(rows(2, 2, 2), PROJECT, ("[0.5, 1.0, 1.5]", f"[{item}]")))


def test_broken_toml_is_named_by_its_line(plan_folder):
    path = plan_folder(rows(2, 2, 2), PROJECT, ("[economics]", "[money"))
    with pytest.raises(PlanError, match=r"project.toml:10: .*\(at line 10, column 7\)"):
        pitplan.load(path)


def test_a_missing_project_is_named(tmp_path):
    with pytest.raises(PlanError, match="nothing.toml: cannot be read: No such file or directory"):
        pitplan.load(tmp_path / "nothing.toml")


def test_factors_by_steps(plan_folder):
    path = plan_folder(rows(2, 2, 2), PROJECT, ("[0.5, 1.0, 1.5]", "{ from = 0.8, to = 1.25, step = 0.15 }"))
    schedule = pitplan.load(path).shells
    assert schedule.revenue_factors == (0.8, 0.95, 1.0, 1.1, 1.25) and schedule.base_price_added


def test_regions_are_codes_and_named_once(plan_folder):
    two = 'domain = 1\npattern = "1:5"\n[[slopes.domains]]\ndomain = ["1"]\nangle = 40'
    with pytest.raises(PlanError, match=r"\[slopes\] domains: a domain occurs twice"):
        pitplan.load(plan_folder(rows(2, 2, 2), PROJECT, ('pattern = "1:5"', two)))


LEVEL = "mining_cost_per_bench = 0.5\n"


@pytest.mark.parametrize(
    ("old", "new", "allowed", "refused"),
    [
        ("mining_cost = 2\n", "mining_cost = {}\n", ("0", "0.5"), ("-0.5",)),
        ("mining_cost = 2\n", "mining_cost = 2\ndecimals = {}\n", ("0", "6"), ("-1", "7", "true")),
        ("mining_cost = 2\n", "mining_cost = 2\nmining_cost_per_bench = {}\n", ("0", "0.5"), ("-0.5",)),
        (
            "mining_cost = 2\n",
            f"mining_cost = 2\n{LEVEL}mining_cost_reference = {{}}\n",
            ("-0.5", "0", "1e9"),
            ("true", "1.1e9", "-1e30"),
        ),
        (
            "mining_cost = 2\n",
            "mining_cost = 2\nmining_cost_by_elevation = [[-3, 0.5], [10, {}]]\n",
            ("0", "0.5"),
            ("-0.5",),
        ),
        ("processing_cost = 10", "processing_cost = {}", ("0", "0.5"), ("-0.5",)),
        ("price = 8000", "price = {}", ("0", "0.5"), ("-0.5",)),
        ("price = 8000", "price = 8000\nselling_cost = {}", ("0", "0.5"), ("-0.5",)),
        ("recovery = 0.5", "recovery = {}", ("0", "1"), ("-0.5", "1.5")),
        ("size = [10, 10, 10]", "size = [10, {}, 10]", ("0.5",), ("0", "-0.5")),
        ("size = [10, 10, 10]", "size = [{}]", ("10, 10, 10",), ("10, 10", "10, 10, 10, 10")),
        ("size = [10, 10, 10]", "size = [10, 10, 10]\ntolerance = {}", ("0", "0.5"), ("-0.5",)),
        (
            'id = "name"',
            'id = "name"\nmissing_blocks = {{ tonnes = {}, rock_type = "R", domain = "1" }}',
            ("0", "0.5"),
            ("-0.5",),
        ),
        ("precedence_benches = 3", "precedence_benches = {}", ("1", "40"), ("0", "41")),
        ('pattern = "1:5"', "angle = {}", ("1", "90"), ("0.5", "90.5")),
        ('pattern = "1:5"', "azimuths = [[0, 40], [{}, 50]]", ("1", "359.5"), ("-1", "0", "360")),
        ("discount_rate = 0.1", "discount_rate = {}", ("0", "1"), ("-0.1", "1.5")),
        ("processing_capacity = 100", "processing_capacity = {}", ("1", "1.5"), ("0", "0.5")),
        ("processing_capacity = 100", "processing_capacity = 100\nmining_capacity = {}", ("1", "1.5"), ("0", "0.5")),
        ("[0.5, 1.0, 1.5]", "[{}, 1.0]", ("0", "0.001", "1", "100"), ("-0.1", "100.001", "0.0001")),
        ("[0.5, 1.0, 1.5]", "{{ from = 0.5, to = 1.5, step = {} }}", ("0.002", "1"), ("0", "-1", "0.0005")),
        ("[0.5, 1.0, 1.5]", "{{ from = {}, to = 1.5, step = 0.5 }}", ("0", "1.5"), ("1.501", "-1")),
        ("[0.5, 1.0, 1.5]", "{{ from = 0.001, to = {}, step = 0.001 }}", ("0.999", "1"), ("1.001",)),
        ("discount_rate = 0.1", "discount_rate = 0.1\nselected = {}", ("0.5", "1.5"), ("0.501", "-1")),
        (
            "[shells]",
            "[scenarios]\nrealisations = 'm'\n[[scenarios.prices]]\ncopper = {}\n[shells]",
            ("0", "0.5"),
            ("-0.5",),
        ),
    ],
)
def test_numbers_have_their_limits(plan_folder, old, new, allowed, refused):
    for number in allowed:
        pitplan.load(plan_folder(rows(2, 2, 2), PROJECT, (old, new.format(number))))
    for number in refused:
        with pytest.raises(PlanError):
            pitplan.load(plan_folder(rows(2, 2, 2), PROJECT, (old, new.format(number))))


def test_what_is_left_out(tmp_path):
    """The least that a project says."""
    folder = tmp_path / "hill"
    folder.mkdir()
    path = folder / "project.toml"
    path.write_text(
        '[table]\nfile = "blocks.csv"\n[economics]\nmining_cost = 2\nprocessing_cost = 10\n[[metals]]\nname = "copper"\ncolumn = "cu"\n'
        'unit = "percent"\nprice = 8000\nrecovery = 1\n[slopes]\n[[slopes.domains]]\nangle = 45\n[shells]\nrevenue_factors = [1]\ndiscount_rate = 0\n'
        "processing_capacity = 100\n"
    )
    project = pitplan.load(path)
    assert (project.title, project.folder, project.scenarios, project.constraints) == (
        "hill",
        folder / "plan",
        None,
        None,
    )
    table, money, slopes, schedule = project.table, project.economics, project.slopes, project.shells
    assert (table.x, table.y, table.z, table.tonnes, table.id, table.rock_type, table.domain) == (
        "x",
        "y",
        "z",
        "tonnes",
        None,
        None,
        None,
    )
    assert (table.separator, table.decimal, table.encoding, table.empty, table.missing_blocks) == (
        None,
        None,
        None,
        "refuse",
        "refuse",
    )
    assert (project.grid.size, project.grid.tolerance) == (None, 0.01)
    assert (money.currency, money.decimals, money.cutoff) == ("USD", 6, "per_revenue_factor")
    assert (money.mining_cost_per_bench, money.mining_cost_reference, money.mining_cost_by_elevation) == (0, None, ())
    assert project.metals[0].selling_cost == 0
    assert (slopes.precedence_benches, slopes.never_steeper, slopes.domains[0].domains, slopes.domains[0].angles) == (
        None,
        False,
        None,
        ((0, 45),),
    )
    assert (schedule.selected, schedule.mining_capacity, schedule.discounting) == (None, None, "end_of_year")
    assert (schedule.revenue_factors, schedule.base_price_added) == ((1.0,), False)


def test_two_entries_for_all_other_regions_are_refused(plan_folder):
    two = 'pattern = "1:5"\n[[slopes.domains]]\nangle = 40'
    with pytest.raises(PlanError, match=r"\[slopes\] domains: more than one entry names no domain"):
        pitplan.load(plan_folder(rows(2, 2, 2), PROJECT, ('pattern = "1:5"', two)))


def test_two_metals_of_one_name_are_refused(plan_folder):
    second = '[[metals]]\nname = "copper"\ncolumn = "au"\nunit = "percent"\nprice = 1\nrecovery = 1\n[slopes]'
    with pytest.raises(PlanError, match=r"two \[\[metals\]\] have one name"):
        pitplan.load(plan_folder(rows(2, 2, 2), PROJECT, ("[slopes]", second)))


@pytest.mark.parametrize(("item", "meant"), [("101", "0.101"), ("300", "0.30"), ("99_999", "99.999")])
def test_a_factor_in_per_mille_is_refused_with_the_one_that_is_meant(plan_folder, item, meant):
    with pytest.raises(PlanError, match=rf"did you mean {meant}\?"):
        pitplan.load(plan_folder(rows(2, 2, 2), PROJECT, ("[0.5, 1.0, 1.5]", f"[{item}]")))


def test_the_example_names_each_key_of_its_sections_and_no_other():
    """Those that it does without stand behind a #."""
    named, section = {}, ""
    for line in EXAMPLE.read_text(encoding="utf-8").splitlines():
        head, key = re.match(r"(?:# )?\[+([\w.]+)\]", line), re.match(r"(?:# )?(\w+) = ", line)
        section = head[1] if head else section
        named.setdefault(section, set()).update({key[1]} if key else ())
    sections = ("table", "grid", "economics", "metals", "slopes", "slopes.domains", "shells")
    asked = {name: {*keys_of(record_at(name))} - {"domains"} for name in sections}
    assert {name: named[name] for name in sections} == asked
