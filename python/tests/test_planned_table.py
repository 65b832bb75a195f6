"""The planner's table written back: the same rows and fields in the same order, with what was found of each block."""

import csv
import gzip

import pandas as pd
import pytest
from conftest import PROJECT, rows
from helpers.writings import PLAIN, UNVERIFIED

import pitplan
from pitplan import PlanError
from pitplan.cli import main

FOUND = ["revenue_factor", "process_revenue_factor"]


def lines(path, separator=",", encoding="utf-8"):
    with open(path, newline="", encoding=encoding) as file:
        return list(csv.reader(file, delimiter=separator))


@pytest.fixture(scope="module")
def scheduled(tmp_path_factory):
    """Two pillars of ore, the richer in pushback 1, scheduled by years; rows from last to first."""
    place = tmp_path_factory.mktemp("scheduled")
    table = rows(9, 5, 3, cu=lambda i, j, k: {(2, 2, 1): 6, (6, 2, 1): 0.8}.get((i, j, k), 0))
    table.iloc[::-1].to_csv(place / "blocks.csv", index=False)
    words = "\n[pushbacks]\nrevenue_factors = [0.5, 1.0]\n[schedule]\nbench_lag = 1\n"
    (place / "project.toml").write_text(PROJECT + words)
    pitplan.write_schedule(place / "project.toml", writing=PLAIN)
    return place


def test_rows_and_fields_are_the_planners_and_numbers_those_of_their_block(solved):
    project, folder = solved
    before, after = lines(project.table.file), lines(pitplan.write_export(folder, "table"))
    assert after[0] == [*before[0], *FOUND]
    assert [line[: len(before[0])] for line in after] == before
    blocks = pd.read_csv(folder / "tables/blocks.csv", dtype=str).set_index("name")
    assert [line[-2:] for line in after[1:]] == [list(blocks.loc[line[0], FOUND]) for line in before[1:]]


def test_a_schedule_gives_each_row_its_pushback_and_year(scheduled):
    """Both ores have their pushback and year from the first to the last row of the table, which runs from the top down."""
    path = scheduled / "plan" / "schedule"
    after = pd.read_csv(pitplan.write_export(path, "table")).set_index("name")
    assert list(after.columns[-4:]) == [*FOUND, "pushback", "year"]
    assert after.index[0] == "b8-4-2" and after.index[-1] == "b0-0-0"
    assert after.loc["b2-2-1", "pushback"] == 1 and after.loc["b6-2-1", "pushback"] == 2
    # 100 t of ore fill the mill of 100 t a year: the poorer pillar's ore is milled in the second.
    assert after.loc["b2-2-1", "year"] == 1 and after.loc["b6-2-1", "year"] == 2
    assert after.loc["b0-0-0", ["pushback", "year"]].tolist() == [0, 0]


def test_the_tables_own_format_stays(plan_folder):
    """Semicolons, decimal commas, letters of Windows, a quoted field, a column that the project does not name and a line that is short."""
    table = rows(5, 5, 3, cu=lambda i, j, k: 6.5 if (i, j, k) == (2, 2, 1) else 0)
    table["note"] = [
        'über "alles"; hier' if name == "b2-2-1" else "1,50" if name == "b0-0-0" else "" for name in table["name"]
    ]
    path = plan_folder("", PROJECT, ('file = "blocks.csv"', 'file = "blocks.csv"\nencoding = "cp1252"'))
    text = table.to_csv(index=False, sep=";", decimal=",")
    text = "".join(
        line.rstrip("\n").rstrip(";") + "\n" if "b4-4-2" in line else line for line in text.splitlines(keepends=True)
    )
    (path.parent / "blocks.csv").write_text(text, encoding="cp1252")
    pitplan.write_shells(path, writing=UNVERIFIED)
    after = lines(pitplan.write_export(path.parent / "plan", "table"), ";", "cp1252")
    before = lines(path.parent / "blocks.csv", ";", "cp1252")
    assert [line[:9] for line in after[:-1]] == before[:-1] and after[-1][:9] == [*before[-1], ""]
    assert any(line[4:9] == ["100", "6,5", "R", "1", 'über "alles"; hier'] and float(line[9]) == 0.5 for line in after)


def test_a_compressed_table_is_written_plain(solved):
    project, folder = solved
    plain = project.table.file.read_bytes()
    packed = project.table.file.with_suffix(".csv.gz")
    packed.write_bytes(gzip.compress(plain))
    text = project.path.read_text().replace('"blocks.csv"', '"blocks.csv.gz"')
    project.path.write_text(text)
    pitplan.write_shells(project.path, writing=UNVERIFIED)
    assert [",".join(line[:8]) for line in lines(pitplan.write_export(folder, "table"))] == plain.decode().split()


def test_a_column_of_the_planners_with_such_a_name_is_kept_beside(plan_folder):
    table = rows(5, 5, 3, cu=lambda i, j, k: 6 if (i, j, k) == (2, 2, 1) else 0, revenue_factor=lambda i, j, k: i + 7)
    path = plan_folder(table)
    pitplan.write_shells(path, writing=UNVERIFIED)
    after = pd.read_csv(pitplan.write_export(path.parent / "plan", "table"))
    assert list(after.columns) == [*table.columns[:-1], "planner_revenue_factor", *FOUND]
    assert after["planner_revenue_factor"].tolist() == table["revenue_factor"].tolist() and set(
        after["revenue_factor"]
    ) == {0, 0.5}


def test_rock_of_cells_without_rows_has_none(plan_folder):
    """A block of the project's rock is dug, which the table has no row of."""
    table = rows(5, 5, 3, cu=lambda i, j, k: 6 if (i, j, k) == (2, 2, 0) else 0)
    table = table[table["name"] != "b2-2-1"]
    words = (
        'file = "blocks.csv"',
        'file = "blocks.csv"\nmissing_blocks = { tonnes = 100, rock_type = "R", domain = "1" }',
    )
    path = plan_folder(table, PROJECT, words)
    pitplan.write_shells(path, writing=PLAIN)
    after = pd.read_csv(pitplan.write_export(path.parent / "plan", "table"))
    assert after["name"].tolist() == table["name"].tolist()
    assert "absent-37" in set(pd.read_csv(path.parent / "plan" / "tables/blocks.csv")["name"])


def test_rows_that_are_put_together_have_the_numbers_of_their_block(plan_folder):
    table = rows(8, 8, 3, cu=lambda i, j, k: 6 if (i // 2, j // 2, k) == (2, 2, 1) else 0).iloc[::-1]
    path = plan_folder(table, PROJECT, ('file = "blocks.csv"', 'file = "blocks.csv"\nreblock = [2, 2, 1]'))
    pitplan.write_shells(path, writing=UNVERIFIED)
    after = pd.read_csv(pitplan.write_export(path.parent / "plan", "table"))
    assert after["name"].tolist() == table["name"].tolist()
    # The ore, and above it the block itself and those beside it, each of four rows.
    assert (after["revenue_factor"] == 0.5).sum() == 4 * 6 and (after["process_revenue_factor"] == 0.5).sum() == 4
    assert after[after["process_revenue_factor"] > 0]["name"].tolist() == ["b5-5-1", "b4-5-1", "b5-4-1", "b4-4-1"]


def test_a_table_that_has_changed_is_refused(solved, tmp_path, capsys):
    """The project may have changed: its text of the run is in the folder."""
    project, folder = solved
    before = pitplan.write_export(folder, "table").read_bytes()
    text = project.path.read_text()
    project.path.write_text(text.replace("8000", "9000"))
    assert text != project.path.read_text() and pitplan.write_export(folder, "table").read_bytes() == before
    path = project.table.file
    path.write_text(path.read_text() + "\n")
    assert main(["export", str(folder), "--to", "table", "--quiet"]) == 1
    said = f"pitplan: {folder.parent / path.name}: has changed since {folder} was written: run pitplan again into this folder\n"
    assert capsys.readouterr().err == said
    project.path.write_text(text)
    path.unlink()
    with pytest.raises(PlanError, match="blocks.csv: cannot be read"):
        pitplan.write_export(folder, "table")


def test_the_planners_own_table_of_that_name_is_never_written_over(plan_folder):
    path = plan_folder(rows(3, 3, 2), PROJECT, ('file = "blocks.csv"', 'file = "table.csv"'))
    (path.parent / "blocks.csv").rename(path.parent / "table.csv")
    with pytest.raises(PlanError, match="table.csv: the run would overwrite it"):
        pitplan.write_shells(path, path.parent, writing=PLAIN)
