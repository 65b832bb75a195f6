"""A project for a table of which nothing was said: what is guessed of it, and that the project runs as it stands."""

import os
from decimal import Decimal

import pandas as pd
import pytest
from conftest import PROJECT, rows

from pitplan import Plan, PlanError, load
from pitplan.blockmodel import guesses, wizard
from pitplan.blockmodel.summary import USUAL_PRICES
from pitplan.cli import main

ORE = {"cu": lambda i, j, k: 2.0 if k == 1 and i == 4 else 0.0}


def exported(path, headings, separator=",", decimal=".", encoding="utf-8", **more):
    """A small mine as a program writes it: the columns of `rows` under other names, or none of them where the name is None."""
    table = rows(8, 8, 4, **{**ORE, **more})
    kept = {name: heading for name, heading in headings.items() if heading}
    table[list(kept)].rename(columns=kept).to_csv(path, index=False, sep=separator, decimal=decimal, encoding=encoding)
    return path


PLACES = {"x": "XC", "y": "YC", "z": "ZC"}
INCREMENTS = {name: lambda i, j, k: 10.0 for name in ("dx", "dy", "dz")}
DATAMINE = {**PLACES, "dx": "XINC", "dy": "YINC", "dz": "ZINC", "density": "DENSITY", "cu": "CU", "rock": "ROCK"}
SURPAC = {
    "y": "YCENTRE",
    "x": "XCENTRE",
    "z": "ZCENTRE",
    "tonnes": "tonnage",
    "cu": "cu_ppm",
    "rock": "rock_type",
    "region": "slope_region",
}
VULCAN = {
    "x": "centroid_x",
    "y": "centroid_y",
    "z": "centroid_z",
    "volume": "volume",
    "density": "sg",
    "cu": "cu (%)",
    "rock": "lith",
}
DESWIK = {
    "name": "Block ID",
    "x": "Easting",
    "y": "Northing",
    "z": "RL",
    "tonnes": "Tonnes",
    "cu": "Cu pct",
    "rock": "Roche é",
}


def said(path):
    """What is written behind a #, and the project."""
    lines = path.read_text().splitlines()
    return [line.split("#", 1)[1].strip() for line in lines if "#" in line], load(path)


def test_increments_a_density_and_decimal_commas(tmp_path):
    more = {**INCREMENTS, "density": lambda i, j, k: 2.5}
    exported(tmp_path / "m.csv", DATAMINE, ";", ",", **more)
    assert main(["init", str(tmp_path / "m.csv")]) == 0
    _, project = said(tmp_path / "project.toml")
    assert (project.table.x, project.table.density, project.table.volume, project.table.rock_type) == (
        "XC",
        "DENSITY",
        None,
        "ROCK",
    )
    assert project.grid.size == (10.0, 10.0, 10.0) and project.metals[0].unit == "percent"
    plan = Plan.from_project(tmp_path / "project.toml")
    # A block of 10 m, of 2.5 tonnes a cubic metre.
    assert plan.values.tonnes.tolist() == [2500.0] * 256


def test_grams_a_tonne_and_regions(tmp_path):
    more = {"region": lambda i, j, k: "NE" if i < 4 else "SW", "cu": lambda i, j, k: 12000.0 if k == 1 else 30.0}
    exported(tmp_path / "m.csv", SURPAC, "\t", **more)
    wizard.write_project(tmp_path / "m.csv", tmp_path / "project.toml")
    _, project = said(tmp_path / "project.toml")
    assert (project.metals[0].name, project.metals[0].unit, project.metals[0].price) == (
        "copper",
        "gram_per_tonne",
        Decimal("0.009"),
    )
    assert [domain.domains for domain in project.slopes.domains] == [("NE",), ("SW",)]
    assert project.table.domain == "slope_region" and project.table.tonnes == "tonnage"


def test_semicolons_do_not_make_decimals_of_commas(tmp_path):
    exported(tmp_path / "m.csv", SURPAC, ";")
    told = wizard.write_project(tmp_path / "m.csv", tmp_path / "project.toml").lines
    assert "the fields are separated by semicolons" in told and "decimals are written with a comma" not in told
    assert load(tmp_path / "project.toml").table.decimal in (None, ".")


def test_a_volume_and_a_density(tmp_path):
    more = {"volume": lambda i, j, k: 1000.0 - k, "density": lambda i, j, k: 2.5 + i}
    exported(tmp_path / "m.csv", VULCAN, **more)
    wizard.write_project(tmp_path / "m.csv", tmp_path / "project.toml")
    table, plan = rows(8, 8, 4, **more), Plan.from_project(tmp_path / "project.toml")
    assert plan.table["tonnes"].tolist() == (table["volume"] * table["density"]).tolist()
    assert load(tmp_path / "project.toml").metals[0].column == "cu (%)"


def test_ids_and_letters_of_windows(tmp_path):
    exported(tmp_path / "m.csv", DESWIK, encoding="cp1252")
    wizard.write_project(tmp_path / "m.csv", tmp_path / "project.toml")
    _, project = said(tmp_path / "project.toml")
    assert (project.table.id, project.table.encoding, project.table.rock_type) == ("Block ID", None, None)
    assert (project.table.x, project.table.y, project.table.z) == ("Easting", "Northing", "RL")


def test_the_project_runs_as_it_stands(tmp_path, capsys):
    exported(tmp_path / "m.csv", DESWIK)
    assert main(["init", str(tmp_path / "m.csv")]) == 0
    told = capsys.readouterr()
    assert told.out == f"{tmp_path / 'project.toml'}\n"
    lines = told.err.splitlines()
    # 8 x 8 x 4 blocks of 10 m and 100 t, of which 8 hold 2 %: 800 t of 25,600.
    assert lines[:6] == [
        f"{tmp_path / 'm.csv'}: 256 blocks, 25,600 tonnes",
        "x: from 0 to 80 m, 8 cells of 10 m, centres in Easting, by its name",
        "y: from 0 to 80 m, 8 cells of 10 m, centres in Northing, by its name",
        "z: from 0 to 40 m, 4 cells of 10 m, centres in RL, by its name",
        "copper: Cu pct, mean 0.0625, maximum 2 %, priced per tonne, unit from the column name",
        "unused columns: Roche é",
    ]
    assert main(["shells", str(tmp_path / "project.toml"), "--quiet", "--no-figures"]) == 0
    shells = pd.read_csv(tmp_path / "plan" / "tables/shells.csv")
    assert shells["blocks"].iloc[-1] > 0


def test_each_guess_says_why(tmp_path):
    exported(tmp_path / "m.csv", SURPAC)
    wizard.write_project(tmp_path / "m.csv", tmp_path / "project.toml")
    why, _ = said(tmp_path / "project.toml")
    assert why.count("by its name") == 6
    assert "unit from the column name" in why
    assert any("set your own" in line for line in why)


def test_centres_without_a_name_are_told_by_their_steps():
    table = rows(4, 5, 3).rename(columns={"x": "p", "y": "q", "z": "r"})
    found = guesses.columns_of(table[["tonnes", "p", "q", "r"]])
    assert {axis: guess.column for axis, guess in found.centres.items()} == {"x": "p", "y": "q", "z": "r"}
    assert "equally spaced" in found.centres["x"].why


@pytest.mark.parametrize(
    ("name", "mean", "unit", "why"),
    [
        ("AU", 1.5, "gram_per_tonne", "usual unit for this metal"),
        ("AU", 45.0, "gram_per_tonne", "usual unit for this metal"),
        ("CU", 40.0, "percent", "usual unit for this metal"),
        ("CU", 40.5, "gram_per_tonne", "unit from its values"),
        ("FE", 75.0, "percent", "usual unit for this metal"),
        ("FE", 75.5, "gram_per_tonne", "unit from its values"),
    ],
)
def test_the_unit_of_a_name_that_tells_none(name, mean, unit, why):
    """By the metal, or by the mean of the grades above 0 where it is more than a per cent could be."""
    guess = guesses.metal_of(pd.DataFrame({name: [0.0, mean - 1, mean + 1]}), name)
    assert (guess.unit, guess.why) == (unit, why)


@pytest.mark.parametrize(
    ("headings", "column", "count"), [(SURPAC, "tonnes", 3), (DATAMINE, "density", 4), (VULCAN, "volume", 4)]
)
def test_rows_without_tonnes_are_counted_and_are_no_blocks(tmp_path, headings, column, count):
    more = {
        **INCREMENTS,
        "density": lambda i, j, k: 2.5,
        "volume": lambda i, j, k: 1000.0,
        "tonnes": lambda i, j, k: 2500.0,
    }
    exported(
        tmp_path / "m.csv",
        headings,
        **{**more, column: lambda i, j, k: float("nan") if (i, j) == (0, 0) and k < count else 2.5},
    )
    told = wizard.write_project(tmp_path / "m.csv", tmp_path / "project.toml").lines
    column = {"tonnes": "tonnage", "density": "DENSITY"}.get(column, column)
    assert f"WARNING: {count} rows are read as missing blocks, since {column} is null" in told
    assert load(tmp_path / "project.toml").table.rules.nulls.meaning(column, "refuse") == "missing"


@pytest.mark.parametrize(
    ("name", "metal", "unit"),
    [
        ("CUPPM", "copper", "gram_per_tonne"),
        ("AUGPT", "gold", "gram_per_tonne"),
        ("Znpct_ok", "zinc", "percent"),
        ("cupper", None, None),
    ],
)
def test_a_sign_and_its_unit_may_be_one_word(name, metal, unit):
    guess = guesses.metal_of(pd.DataFrame({name: [0.1, 0.2]}), name)
    assert (guess and guess.metal, guess and guess.unit) == (metal, unit)


def test_texts_and_names_without_a_letter_are_no_grades():
    table = rows(3, 3, 3, cu=lambda i, j, k: 0.5 * k).assign(**{"Au class": "rich", "1": 0.5})
    assert [metal.column for metal in guesses.columns_of(table).metals] == ["cu"]


@pytest.mark.parametrize(
    ("values", "is_one"),
    [
        ([0, 0, 10, 10, 20, 20], True),
        ([0, 0, 10, 20, 30, 30], False),
        ([0, 10], True),
        ([5, 5, 5, 5], False),
        ([0, 0, 10, 10, 25, 25], False),
        ([0, 0.5, 0, 0.5], False),
        ([0, 0.6, 0, 0.6], True),
    ],
)
def test_centres_have_few_numbers_at_equal_steps(values, is_one):
    """At most half as many numbers as rows, two at least, and steps of more than half a metre."""
    assert guesses.is_lattice(pd.DataFrame({"p": [float(value) for value in values]}), "p") == is_one


def test_placeholders_of_prices_are_round():
    """Two digits, so that nobody takes one for a quotation."""
    assert {metal: float(f"{price:.2g}") for metal, price in USUAL_PRICES.items()} == USUAL_PRICES


def test_ore_a_year_is_by_taylors_rule(tmp_path):
    """16 Mt of ore last 0.2 * 16,000,000^(1/4) = 12.65 years: 1,265,000 t a year, by two digits 1,300,000.

    Of a tonne with 0.16 % of copper 85 % at 9000 USD are 12.24 USD, which is more than the 12 for processing; of 0.15 % they are 11.48.
    """
    table = rows(8, 8, 4, cu=lambda i, j, k: 0.16 if k == 1 else 0.15, tonnes=lambda i, j, k: 250_000)
    table.to_csv(tmp_path / "m.csv", index=False)
    wizard.write_project(tmp_path / "m.csv", tmp_path / "project.toml")
    assert load(tmp_path / "project.toml").shells.processing_capacity == 1_300_000


def test_sub_blocks_and_empty_grades_are_told(tmp_path):
    more = {**INCREMENTS, "density": lambda i, j, k: 2.5, "dx": lambda i, j, k: 10.0 if i else 5.0}
    exported(tmp_path / "m.csv", DATAMINE, **{**more, "cu": lambda i, j, k: 2.0 if k else float("nan")})
    told = wizard.write_project(tmp_path / "m.csv", tmp_path / "project.toml").lines
    parts = "cells have several sizes: parts of blocks are put together to blocks of the largest cell's size"
    assert f"WARNING: {parts}" in told
    assert "x: centres in XC from 5 to 75 m, by its name" in told
    assert "WARNING: CU: 64 of 256 blocks are null and are read as 0" in told
    table = load(tmp_path / "project.toml").table
    assert table.rules.nulls.meaning("CU", "refuse") == "zero" and table.rules.cell_size == ("XINC", "YINC", "ZINC")


@pytest.mark.parametrize(
    ("dropped", "why"),
    [
        ("z", "found no column for z of the centroids"),
        ("tonnes", "found no column for tonnes or density"),
        ("cu", "found no column for grades, such as cu_pct or AU"),
    ],
)
def test_what_cannot_be_guessed_is_named(tmp_path, dropped, why):
    table = rows(3, 3, 3, cu=lambda i, j, k: 0.5 * (i + j) + 0.1 * k).drop(columns=[dropped, "name"])
    table.to_csv(tmp_path / "m.csv", index=False)
    with pytest.raises(PlanError, match=f"m.csv row 1: {why}"):
        wizard.write_project(tmp_path / "m.csv", tmp_path / "project.toml")
    assert not (tmp_path / "project.toml").exists()


def test_a_project_that_is_there_is_kept(tmp_path, capsys):
    (tmp_path / "project.toml").write_text("mine")
    rows(3, 3, 3).to_csv(tmp_path / "m.csv", index=False)
    assert main(["init", str(tmp_path / "m.csv")]) == 1
    assert "already exists: name another file with --out" in capsys.readouterr().err
    assert (tmp_path / "project.toml").read_text() == "mine"


def test_a_missing_table_is_named_before_the_project_that_is_there(tmp_path, capsys):
    (tmp_path / "project.toml").write_text("mine")
    assert main(["init", str(tmp_path / "nomodel.csv")]) == 1
    said = capsys.readouterr().err
    assert "nomodel.csv: cannot be read: No such file or directory" in said and "already exists" not in said


def test_a_density_needs_a_size_and_no_tonnes(plan_folder):
    table = rows(3, 3, 3).rename(columns={"tonnes": "sg"})
    grid = ("[grid]\nsize = [10, 10, 10]", "[grid]")
    path = plan_folder(table, plan_text('density = "sg"'), grid)
    with pytest.raises(PlanError, match=r"\[grid\] size: is missing, by which a density gives tonnes"):
        load(path)
    for words, why in [
        ('density = "sg"\ntonnes = "t"', "give it or tonnes, not both"),
        ('volume = "v"', "a density, which is missing"),
    ]:
        path.write_text(plan_text(words))
        with pytest.raises(PlanError, match=why):
            load(path)


def plan_text(words):
    return PROJECT.replace('file = "blocks.csv"', f'file = "blocks.csv"\n{words}')


HEAD = "X,Y,Z,TONNES,CU\n"


@pytest.mark.parametrize(
    ("text", "why"),
    [
        (HEAD, "m.csv: has no blocks"),
        (HEAD + "5,5,5,9,1\n15,,5,9,1\n", "m.csv row 3 column Y: is empty"),
        (HEAD + "5,5,5,9,1\n15,5,a,9,1\n", 'm.csv row 3 column Z: "a" is not a number'),
        (HEAD + "5,m,m,t,%\n5,5,5,9,1\n", 'm.csv row 2 column TONNES: "t" is not a number'),
        (HEAD + "5,5,5,9,low\n5,5,15,9,1\n", 'm.csv row 2 column CU: "low" is not a number'),
    ],
)
def test_a_field_of_which_nothing_can_be_made_is_named(tmp_path, capsys, text, why):
    (tmp_path / "m.csv").write_text(text)
    assert main(["init", str(tmp_path / "m.csv")]) == 1
    assert capsys.readouterr().err == f"pitplan: {tmp_path}/{why}\n"
    assert [path.name for path in tmp_path.iterdir()] == ["m.csv"]


def test_a_folder_of_the_project_is_made_or_named(tmp_path, capsys):
    rows(3, 3, 3, cu=lambda i, j, k: 1.0).to_csv(tmp_path / "m.csv", index=False)
    assert main(["init", str(tmp_path / "m.csv"), "--out", str(tmp_path / "new" / "project.toml")]) == 0
    assert load(tmp_path / "new" / "project.toml").table.file.samefile(tmp_path / "m.csv")
    below_a_file = tmp_path / "m.csv" / "project.toml"
    assert main(["init", str(tmp_path / "m.csv"), "--out", str(below_a_file)]) == 1
    assert capsys.readouterr().err.endswith(f"pitplan: {below_a_file.parent}: cannot be written: File exists\n")


@pytest.mark.parametrize("name", ["a b.csv", "Größe <1>.csv", 'a "q" \\.csv', "two\nlines.csv", "\x7f.csv"])
def test_a_table_may_have_any_name(tmp_path, name):
    rows(3, 3, 3, cu=lambda i, j, k: 1.0).rename(columns={"cu": "Cu \x7f é"}).to_csv(tmp_path / name, index=False)
    wizard.write_project(tmp_path / name, tmp_path / "project.toml")
    project = load(tmp_path / "project.toml")
    assert (project.table.file, project.metals[0].column) == (tmp_path / name, "Cu \x7f é")
    assert "\\u00" not in (tmp_path / "project.toml").read_text().replace("\\u007f", "")


def test_a_name_that_no_project_can_hold_is_told(tmp_path):
    table = tmp_path / os.fsdecode(b"caf\xe9.csv")
    rows(3, 3, 3, cu=lambda i, j, k: 1.0).to_csv(table, index=False)
    with pytest.raises(PlanError, match="its name is not UTF-8, as a project must be: rename it"):
        wizard.write_project(table, tmp_path / "project.toml")
    assert list(tmp_path.iterdir()) == [table]


@pytest.mark.parametrize(
    ("counts", "size"), [((6, 1, 3), (10, 10, 10)), ((6, 4, 1), (10, 10, 10)), ((1, 1, 1), (1, 1, 1))]
)
def test_a_section_or_a_level_alone_runs_too(tmp_path, counts, size):
    rows(*counts, cu=lambda i, j, k: 1.0).to_csv(tmp_path / "m.csv", index=False)
    told = wizard.write_project(tmp_path / "m.csv", tmp_path / "project.toml").lines
    why, project = said(tmp_path / "project.toml")
    assert project.grid.size == size and Plan.from_project(tmp_path / "project.toml").grid.shape == counts[::-1]
    flat = " and ".join(axis for axis, count in zip("xyz", counts) if count == 1)
    assert (
        f"metres, the smallest steps between centroids; set your own along {flat}, where all centroids are equal" in why
    )
    assert any(f"1 cell of {size[1]} m" in line for line in told)


def test_a_workbook_and_a_file_that_is_no_text_are_told_so(tmp_path):
    table = rows(3, 3, 3, cu=lambda i, j, k: 1.0)
    table.to_excel(tmp_path / "m.xlsx", index=False)
    (tmp_path / "m.dat").write_bytes(table.to_csv(index=False).encode("utf-16-le"))
    (tmp_path / "m.dm").write_bytes(table.to_csv(index=False).encode("utf-16-le"))
    for name, why in (
        ("m.xlsx", "is a workbook or another packed file: save the sheet, or what it packs, as CSV"),
        ("m.dat", "is not a text file: save"),
        ("m.dm", "is no Datamine file: found no data definition in its first page"),
    ):
        with pytest.raises(PlanError, match=f"{name}: {why}"):
            wizard.write_project(tmp_path / name, tmp_path / "project.toml")


def test_a_project_that_names_a_workbook_is_told_so(plan_folder, tmp_path):
    project = plan_folder(rows(3, 3, 3), PROJECT, ('file = "blocks.csv"', 'file = "m.xlsx"'))
    rows(3, 3, 3).to_excel(tmp_path / "m.xlsx", index=False)
    with pytest.raises(PlanError, match="m.xlsx: is a workbook or another packed file"):
        Plan.from_project(project)


NO_CLASS = "WARNING: no column is a resource class, so that inferred blocks are ore like others: if one is, give it the role class"


def test_a_model_without_resource_classes_is_warned_of(tmp_path, capsys):
    """As an export of Leapfrog is; a column whose name says nothing becomes one by its role."""
    table = rows(4, 4, 3, **{**ORE, "group": lambda i, j, k: 1 + i % 3}).rename(columns={"cu": "cu_pct"})
    table.to_csv(tmp_path / "m.csv", index=False)
    assert main(["init", str(tmp_path / "m.csv")]) == 0
    assert capsys.readouterr().err.splitlines().count(NO_CLASS) == 1
    assert main(["init", str(tmp_path / "m.csv"), "--replace", "--role", "group=class"]) == 0
    assert NO_CLASS not in capsys.readouterr().err.splitlines()


def test_classes_and_cost_factors_are_guessed(tmp_path, capsys):
    """Classes 1 to 3 are measured, indicated and inferred; MCAF and PCAF multiply costs; -1 is null in a class alone."""
    more = {
        "RESCAT": lambda i, j, k: (-1, 1, 2, 3)[i % 4],
        "MCAF": lambda i, j, k: 1.0 + k / 10,
        "PCAF": lambda i, j, k: 1.25,
    }
    table = rows(8, 8, 4, **{**ORE, **more}).rename(columns={"cu": "cu_pct"})
    table.to_csv(tmp_path / "m.csv", index=False)
    assert main(["init", str(tmp_path / "m.csv")]) == 0
    lines = capsys.readouterr().err.splitlines()
    assert any(line.split()[:4] == ["RESCAT", "resource", "class", "64"] for line in lines) and NO_CLASS not in lines
    project = load(tmp_path / "project.toml")
    assert (project.economics.mcaf, project.economics.pcaf, project.table.resource_class) == ("MCAF", "PCAF", "RESCAT")
    assert project.table.rules.mapped == {"RESCAT": {"1": "measured", "2": "indicated", "3": "inferred"}}
    plan = Plan.from_project(tmp_path / "project.toml")
    assert plan.table["RESCAT"].tolist() == ["", "measured", "indicated", "inferred"] * 64
    # 100 t at 2.5 USD a tonne, 1.3 times as much in the highest of four levels.
    assert plan.values.mining.reshape(4, 64)[0].tolist() == [325_000_000] * 64


def test_a_null_code_that_is_a_centroid_too_is_one_of_its_own_columns(tmp_path):
    """Blocks from -99 to -79 m: -99 is an elevation, and in the grades absent data."""
    table = rows(4, 4, 3, cu=lambda i, j, k: -99 if i == 0 else 1.0).rename(columns={"cu": "cu_pct"})
    table["z"] = table["z"] - 104
    table.to_csv(tmp_path / "m.csv", index=False)
    wizard.write_project(tmp_path / "m.csv", tmp_path / "project.toml")
    rules = load(tmp_path / "project.toml").table.rules
    assert rules.nulls.values == () and rules.nulls.of("cu_pct") == ("-99",) and rules.nulls.of("z") == ()
    plan = Plan.from_project(tmp_path / "project.toml")
    assert sorted(set(plan.table["z"])) == [-99, -89, -79] and plan.table["cu_pct"].tolist() == [0, 1, 1, 1] * 12
