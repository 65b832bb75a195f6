"""Headers of sheets: each column of a written table has its unit in the project."""

import pytest
from helpers.verified import TEXT

import pitplan
from pitplan.results.columns import TABLES
from pitplan.results.rounding import heads_of


@pytest.fixture(scope="module")
def head(tmp_path_factory):
    """What heads the columns of a mine with copper in % and gold in g/t, whose price is per ounce."""
    path = tmp_path_factory.mktemp("heads") / "project.toml"
    path.write_text(TEXT.replace("price = 60", 'price = 1900\nprice_per = "oz"'))
    return heads_of(pitplan.load(path))


@pytest.mark.parametrize(
    ("name", "due"),
    [
        ("npv", "npv (USD)"),
        ("total_tonnes", "total_tonnes (t)"),
        ("recovered_copper", "recovered_copper (t)"),
        ("recovered_gold", "recovered_gold (g)"),
        ("payable_gold", "payable_gold (g)"),
        ("head_grade_copper", "head_grade_copper (%)"),
        ("grade_gold", "grade_gold (g/t)"),
        ("price_gold", "price_gold (USD/oz)"),
        ("c1_cost", "c1_cost (USD/t)"),
        ("cost_per_tonne_fed", "cost_per_tonne_fed (USD/t)"),
        ("bench", "bench (m)"),
        ("strip_ratio", "strip_ratio (t/t)"),
        ("share", "share (share)"),
        ("years", "years (years)"),
        ("irr", "irr (per year)"),
        ("equivalent_gold", "equivalent_gold (grade of the first metal per g/t)"),
        ("cu", "cu (%)"),
        ("au", "au (g/t)"),
        ("tonnes", "tonnes (t)"),
        ("x", "x (m)"),
        ("method", "method"),
        ("blocks", "blocks"),
        ("somebody's", "somebody's"),
    ],
)
def test_a_header_has_the_unit_of_the_project(head, name, due):
    assert head(name) == due


def test_every_number_of_a_written_table_has_a_unit(head):
    """Only codes, names and counts have none, and no unit is left that depends on the project."""
    for table in TABLES:
        for column in table.columns:
            name = column.name.replace("METAL", "gold").replace("PROCESS", "mill").replace("COLUMN", "gold")
            text = head(name)
            has_unit = column.unit.text not in ("text", "number")
            assert (" (" in text) == has_unit, (table.file, text)
            assert "currency" not in text and "t or g" not in text
