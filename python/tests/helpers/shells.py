"""Small models whose best pit is found by trying every closed set."""

from decimal import Decimal
from itertools import product

from hypothesis import HealthCheck, strategies as st

from pitplan.config.project import of_data
from pitplan.slopes.slope_patterns import FIVE

from .random_tests import examples

SMALL = examples(25, suppress_health_check=[HealthCheck.function_scoped_fixture])


def project_of(tmp_path, metal_price=8000, factors=(0.3, 0.7, 1.0, 1.6), cutoff="per_revenue_factor"):
    money = {"mining_cost": 2, "processing_cost": 10, "cutoff": cutoff}
    metal = {"name": "copper", "column": "cu", "unit": "percent", "price": metal_price, "recovery": Decimal("0.5")}
    data = {
        "table": {"file": "blocks.csv", "id": "name"},
        "grid": {"size": [10, 10, 10]},
        "economics": money,
        "metals": [metal],
        "slopes": {"domains": [{"pattern": "1:5"}]},
        "shells": {
            "revenue_factors": [Decimal(str(factor)) for factor in factors],
            "discount_rate": Decimal("0.1"),
            "processing_capacity": 100,
        },
    }
    return of_data(data, tmp_path / "project.toml")


def closed_sets(columns, rows_, levels):
    """Every set of blocks of a box that keeps the slopes 1:5, as truths by id."""
    count = columns * rows_ * levels
    precedences = []
    for block in range(count):
        level, rest = divmod(block, columns * rows_)
        row, column = divmod(rest, columns)
        places = [(level - up, row + north, column + east) for east, north, up in FIVE]
        precedences.append(
            [(z * rows_ + y) * columns + x for z, y, x in places if z >= 0 and 0 <= y < rows_ and 0 <= x < columns]
        )
    for chosen in product((False, True), repeat=count):
        if all(chosen[p] for block in range(count) if chosen[block] for p in precedences[block]):
            yield chosen


def best_by_trying(closed, values):
    """The greatest worth and the blocks that all best sets share (the smallest best set)."""
    worths = [sum(value for value, inside in zip(values, chosen) if inside) for chosen in closed]
    best = max(worths)
    sets = [{b for b, inside in enumerate(chosen) if inside} for chosen, worth in zip(closed, worths) if worth == best]
    return best, set.intersection(*sets)


BOX = (3, 1, 3)
CLOSED = list(closed_sets(*BOX))
grades = st.lists(st.sampled_from([0, 0, 0, 0.1, 0.25, 0.3, 0.5, 1, 2, 4]), min_size=9, max_size=9)
