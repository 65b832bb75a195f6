"""Single numbers of written tables are changed one at a time, and the audit finds them."""

import csv
import shutil
from decimal import Decimal

import numpy as np
import pytest
from conftest import PROJECT
from helpers.random_tests import PROFILE, THOROUGH, seeds
from helpers.verified import TEXT, deposit
from helpers.writings import PLAIN

import pitplan
from pitplan import PlanError

# Of 100 changes so many are found.
WANTED = 0.97
PUSHBACKS = "[pushbacks]\ncount = 2\n"
BINS = PUSHBACKS + "[schedule]\nbins = 3\nstockpile = { reclaim_cost = 1 }\n"
RUNS = {
    "shells": ("", pitplan.write_shells),
    "pit": ("", pitplan.write_pit),
    "pushbacks": (PUSHBACKS, pitplan.write_pushbacks),
    "schedule": (BINS, pitplan.write_schedule),
    "by block": ("", pitplan.write_block_schedule),
    "sensitivity": ('[sensitivity]\nchanges = [0.1]\nparameters = ["price", "slopes"]\n', pitplan.write_sensitivity),
}
# The changes of a seed.
COUNT = 100 if PROFILE == THOROUGH else 18


@pytest.fixture(scope="module")
def folders(tmp_path_factory):
    """A folder of results of each kind."""
    found = {}
    for name, (more, write) in RUNS.items():
        place = tmp_path_factory.mktemp(name.replace(" ", "_"))
        deposit().to_csv(place / "blocks.csv", index=False)
        (place / "project.toml").write_text((PROJECT if name == "by block" else TEXT) + more)
        write(place / "project.toml", writing=PLAIN)
        found[name] = next(path.parent for path in place.rglob("tables"))
    return found


def is_number(text):
    try:
        return Decimal(text).is_finite()
    except ArithmeticError:
        return False


def numbers_in(folder):
    """Each number of the tables of a folder: the file, its row from 1 and its column."""
    for path in sorted((folder / "tables").glob("*.csv")):
        for row, fields in enumerate(list(csv.reader(path.open()))[1:], 1):
            yield from ((path, row, column) for column, text in enumerate(fields) if is_number(text))


def change(place, rng):
    """Changes a number by a hundredth or more, and at least by two units of its last decimal; returns what it says then."""
    path, row, column = place
    lines = list(csv.reader(path.open()))
    number = Decimal(lines[row][column])
    unit = Decimal(1).scaleb(min(number.as_tuple().exponent, 0))
    by = max(abs(number) * Decimal(int(rng.integers(1, 50))).scaleb(-2), 2 * unit).quantize(unit)
    changed = number + (by if rng.integers(2) or number < by else -by)
    lines[row][column] = str(changed)
    with path.open("w", newline="") as file:
        csv.writer(file, lineterminator="\n").writerows(lines)
    return f"{path.name} row {row + 1} {lines[0][column]}: {number} to {changed}"


def is_found(folder):
    try:
        return any(rule.differences for rule in pitplan.verify(folder))
    except PlanError:
        return True


@pytest.mark.parametrize("seed", seeds(1, 20))
def test_numbers_that_are_changed_are_found(folders, seed):
    """Tables in turn, so that the blocks are not most of them."""
    rng, missed = np.random.default_rng(seed), []
    for number in range(COUNT):
        folder = list(folders.values())[number % len(folders)]
        places = list(numbers_in(folder))
        files = sorted({path for path, _, _ in places})
        file = files[int(rng.integers(len(files)))]
        some = [place for place in places if place[0] == file]
        kept = shutil.copy(file, file.with_suffix(".kept"))
        said = change(some[int(rng.integers(len(some)))], rng)
        if not is_found(folder):
            missed.append(f"{folder.name}: {said}")
        shutil.move(kept, file)
    assert len(missed) <= (1 - WANTED) * COUNT, missed
