"""A project written as TOML reads back as the same project."""

import os
from dataclasses import fields, is_dataclass, replace
from decimal import Decimal
from pathlib import Path

import numpy as np
import pytest
from conftest import PROJECT, ROOT
from helpers.random_projects import haulage, pick, project_of
from helpers.random_tests import seeds
from helpers.read_alike import demand_read_alike

from pitplan import PlanError, load
from pitplan.config import project_writer

EXAMPLES = sorted((ROOT / "examples").glob("*/project.toml"))
ODD = 'a "b" \\ c\td é 矿 #=[]{}'


def resolved(value):
    """The same with every path in it as the system has it."""
    if isinstance(value, Path):
        return Path(os.path.realpath(value))
    if isinstance(value, tuple):
        return tuple(map(resolved, value))
    if isinstance(value, dict):
        return {key: resolved(item) for key, item in value.items()}
    if is_dataclass(value):
        return type(value)(**{field.name: resolved(getattr(value, field.name)) for field in fields(value)})
    return value


def read_back(project, place):
    """The project after it was written into a folder, with the place of its first text."""
    place.mkdir(parents=True, exist_ok=True)
    (place / "again.toml").write_text(project.to_toml(place), encoding="utf-8")
    return resolved(replace(load(place / "again.toml"), path=project.path))


def demand_same(project, place):
    assert read_back(project, place) == resolved(project)
    demand_read_alike(place / "again.toml", load(place / "again.toml"))
    # And once more from there: the text is the same to the letter.
    assert load(place / "again.toml").to_toml() == (place / "again.toml").read_text(encoding="utf-8")


@pytest.mark.parametrize("path", EXAMPLES, ids=lambda path: path.parent.name)
def test_the_examples_read_back_as_themselves(path, tmp_path):
    demand_same(load(path), tmp_path / "far" / "away")


def sections_of(rng):
    """Sections besides those of `project_of`, each with some of its keys."""
    area = '[[constraints.areas]]\npolygon = { file = "b/lease.dxf", layer = ["A*", "B"] }\nexclude = "outside"\n'
    fixed = pick(
        rng,
        'must_mine = "must"\n',
        'as_mined = "mined.csv"\ntopography = "blocks"\n',
        'as_mined = "mined.csv"\n',
        'as_mined = { file = "m.shp", height = "Z" }\ntopography = "was.csv"\n',
    )
    texts = {
        "fixed": pick(
            rng,
            "",
            f"[constraints]\n{fixed}",
            f'[constraints]\nexclude = "never"\n{area}',
            f"[constraints]\n{area}{area}",
        ),
        "pushbacks": pick(
            rng,
            "",
            "[pushbacks]\ncount = 3\nultimate_pit = 1.0\n",
            "[pushbacks]\ntonnes = 1234.5\nmin_mining_width = 30\nmining_cost_added = [0, 0.15]\n",
        )
        or pick(
            rng, "", "[pushbacks]\nrevenue_factors = { from = 0.1, to = 0.5, step = 0.1 }\nmin_bottom_width = 17.25\n"
        ),
        "sensitivity": pick(
            rng,
            "",
            "[sensitivity]\n",
            '[sensitivity]\nchanges = [-0.15, 0.3]\nparameters = ["price copper", "slopes"]\n',
        )
        or pick(rng, "", '[sensitivity]\npairs = [["price", "mining_cost"]]\nskin = 0.1\nlargest_increment = 0.02\n'),
        "pictures": pick(
            rng,
            "",
            '[figures]\nlevels = [5, 15.5]\nnorth = 40\nformats = ["svg", "pdf"]\nmetal = "gold"\n',
            "[figures]\neast = -3.5\n",
        ),
        "schedule": pick(rng, "", "[schedule]\n", "[schedule]\n" + schedule(rng)),
    }
    return "".join(texts.values())


def schedule(rng):
    text = (
        pick(rng, "", "max_metal_per_year = { copper = 12.5 }\n")
        + pick(rng, "", "vertical_advance_rate = 2.5\n")
        + pick(rng, "", "ramp_up = [0.5, 1]\n")
    )
    text += (
        pick(rng, "", "bench_lag = 2\n")
        + pick(rng, "", "mining_capacity = 1700\n")
        + pick(rng, "", "milp = { gap = 0.01, seconds = 60 }\n")
    )
    least = '[schedule.minimum]\nfeed = 20\ncopper = 0.5\n[[schedule.limits]]\ncolumn = "as"\nof = "feed"\nper_tonne = true\nmax = 99.5\n'
    return text + pick(rng, "", f'years = 7\n{least}[[schedule.limits]]\nname = "bolts"\ncolumn = "b"\nmin = 3\n')


def table_keys(rng):
    text = pick(
        rng, "", 'missing_blocks = { tonnes = 99.5, rock_type = "R", domain = "2" }\n', 'missing_blocks = "air"\n'
    )
    text += pick(
        rng,
        "",
        'topography = "../ground.csv"\n',
        f'topography = {{ file = "t.dxf", layer = {project_writer.shown(ODD)} }}\n',
    )
    text += pick(rng, "", "reblock = [2, 1, 3]\n", "reblock = { size = [20, 20, 12.5], corner = [-0.5, 1e3, 0] }\n")
    text += pick(
        rng,
        "",
        'separator = ";"\ndecimal = ","\n',
        'separator = "\\t"\nencoding = "cp1252"\n',
        'encoding = "utf-16"\nempty = "zero"\n',
    )
    return text + pick(rng, "", 'density = "sg"\n', 'density = "sg"\nvolume = "vol"\n', 'tonnes = "t"\n')


@pytest.mark.parametrize("seed", seeds(3, 40))
def test_random_projects_read_back_as_themselves(plan_folder, tmp_path, seed):
    """Fifty of each seed; those in which sections do not go with each other are no projects."""
    rng, done = np.random.default_rng(seed), 0
    while done < 50:
        changes, is_one = project_of(rng)
        changes[-1] = ('file = "blocks.csv"', 'file = "blocks.csv"\n' + table_keys(rng))
        changes += [
            (
                "size = [10, 10, 10]",
                pick(rng, "size = [10, 10, 10]", "size = [10, 10.5, 12]\ntolerance = 0.25\nazimuth = -31.5"),
            )
        ]
        changes += [
            ("[0.5, 1.0, 1.5]", pick(rng, "[0.5, 1.5]", "{ from = 0, to = 2, step = 0.25 }", "[1]")),
            ('title = "Test hill"', f"title = {project_writer.shown('Zinc é 矿')}"),
        ]
        path = plan_folder("", PROJECT + haulage(rng) + sections_of(rng), *changes)
        try:
            project = load(path)
        except PlanError as error:
            assert (
                "[table]" in str(error)
                or "[schedule" in str(error)
                or "milp" in str(error)
                or "[constraints]" in str(error)
            ), error
            continue
        demand_same(project, tmp_path / pick(rng, "plan", "far/away", "."))
        done += 1


@pytest.mark.parametrize(
    "text",
    [
        'realisations = "realisations"\n',
        'columns = { copper = "cu*" }\n[[scenarios.prices]]\ncopper = 7000\n[[scenarios.prices]]\ncopper = 8000.5\n',
        'columns = { copper = ["cu", "cu 2"] }\n',
    ],
)
def test_scenarios_read_back_as_themselves(plan_folder, tmp_path, text):
    demand_same(load(plan_folder("", PROJECT + f"[scenarios]\n{text}")), tmp_path / "plan")


@pytest.mark.parametrize(
    "domain",
    [
        "azimuths = [[10, 40], [200.5, 47.25]]",
        "azimuths = [[45, 50]]",
        "azimuths = [[0, 50]]",
        "angle = 33.333333333333336",
        "angle = 45\ndomain = [1, 'A \"b\"']",
    ],
)
def test_walls_read_back_as_themselves(plan_folder, tmp_path, domain):
    more = "" if "region" not in domain else '\n[[slopes.domains]]\npattern = "1:9"'
    demand_same(load(plan_folder("", PROJECT, ('pattern = "1:5"', domain + more))), tmp_path / "plan")


@pytest.mark.parametrize("ground", ["blocks", "./blocks", "was.csv"])
def test_a_ground_that_is_a_word_or_a_file_reads_back_as_itself(plan_folder, tmp_path, ground):
    demand_same(
        load(plan_folder("", PROJECT + f'[constraints]\nas_mined = "mined.csv"\ntopography = "{ground}"\n')), tmp_path
    )


def test_keys_that_few_projects_have_read_back_as_themselves(plan_folder, tmp_path):
    road = "[haulage]\npit_exit = [1, 2.5, -3]\nramp_gradient = 0.1\ncost = { ore = 0.12, waste = 0.11 }\nex_pit_distance = { ore = 900, waste = 0.5 }\n"
    changes = ('id = "name"', 'id = "name"\nx = "east"\ny = "north"\nz = "up"'), (
        "mining_cost = 2",
        'mining_cost = 2\ncurrency = "CLP"',
    )
    changes += (("precedence_benches = 3\n", "never_steeper = true\n"), ('pattern = "1:5"', "angle = 40"))
    demand_same(load(plan_folder("", PROJECT + road, *changes)), tmp_path / "plan")


@pytest.mark.parametrize("odd", [ODD, "DEL \x7f", "line\u2028separator", "'single'", "-", "ключ"])
def test_odd_names_read_back_as_themselves(plan_folder, tmp_path, odd):
    name = project_writer.shown(odd)
    changes = (
        ('rock_type = "rock"', f"rock_type = {name}"),
        ("mining_cost = 2", f"mining_cost = {{ {name} = 2, R = 2.50 }}"),
        ('name = "copper"', f"name = {name}"),
    )
    demand_same(load(plan_folder("", PROJECT, *changes)), tmp_path / "plan")


@pytest.mark.parametrize(
    "price", [Decimal("8E+3"), Decimal("8123.4567890123456789"), Decimal("0.0000001"), 10**17, 1234.5, 1e-7, 0.1]
)
def test_numbers_of_projects_made_in_python_keep_their_last_digit(plan_folder, tmp_path, price):
    project = load(plan_folder(""))
    changed = replace(project, metals=(replace(project.metals[0], price=price),))
    exact = price if isinstance(price, Decimal) else Decimal(repr(price))
    assert read_back(changed, tmp_path / "plan").metals[0].price == exact
