"""`pitplan export --to omf` and `--to dm`: block models that other code of the tests, and the readers of pitplan, read back block by block."""

import json

import numpy as np
import pandas as pd
import pytest
from conftest import PROJECT, rows
from helpers import datamine_files, omf_files
from helpers.writings import PLAIN, UNVERIFIED

import pitplan
from pitplan import PlanError
from pitplan.blockmodel import datamine, omf

CODES = ["name", "rock", "region"]


def blocks_of(folder):
    return pd.read_csv(folder / "tables/blocks.csv", dtype=dict.fromkeys(CODES, str), keep_default_na=False)


@pytest.fixture
def hill(plan_folder):
    """The folder of a hill of 7 x 5 x 3 blocks without its upper corner, with ids of many letters."""
    table = rows(
        7, 5, 3, cu=lambda i, j, k: 6 if (i, j, k) == (3, 2, 0) else 0.7, rock=lambda i, j, k: ("ÖX", "SULPHIDE")[k < 2]
    )
    table["a long name"], table["a long nose"] = np.arange(len(table)) / 8, 1
    table["name"] = [f"block-{name}" for name in table["name"]]
    text = PROJECT.replace(
        "[shells]",
        '[[metals]]\nname = "gold"\ncolumn = "a long name"\nunit = "gram_per_tonne"\nprice = 1\nrecovery = 0.5\n[shells]',
    )
    text += '[constraints]\nexclude = "a long nose"\n'
    path = plan_folder(table.assign(**{"a long nose": 0})[(table["z"] < 20) | (table["x"] < 50)], text)
    pitplan.write_shells(path, writing=PLAIN)
    return path.parent / "plan"


def test_an_omf_volume_has_every_cell_in_the_order_of_the_format(hill):
    path = pitplan.write_export(hill, "omf")
    assert path.name == "pit.omf"
    project, objects, unpack = omf_files.read_plainly(path)
    (element,) = (objects[name] for name in project["elements"])
    geometry = objects[element["geometry"]]
    assert [geometry[f"tensor_{axis}"] for axis in "uvw"] == [[10.0] * 7, [10.0] * 5, [10.0] * 3]
    assert geometry["origin"] == [0, 0, 0] and geometry["axis_u"] == [1, 0, 0] and geometry["axis_w"] == [0, 0, 1]
    blocks = blocks_of(hill).set_index(["x", "y", "z"])
    data = {objects[name]["name"]: objects[name] for name in element["data"]}
    assert list(data) == [name for name in blocks_of(hill) if name not in ("id", "x", "y", "z")]
    factors = unpack(objects[data["revenue_factor"]["array"]]["array"]).reshape(7, 5, 3)
    places = unpack(objects[data["rock"]["array"]]["array"]).reshape(7, 5, 3)
    names = objects[objects[data["rock"]["legends"][0]]["values"]]["array"]
    for i, j, k in np.ndindex(7, 5, 3):
        centre = (10 * i + 5, 10 * j + 5, 10 * k + 5)
        if centre in blocks.index:
            assert factors[i, j, k] == blocks.loc[centre, "revenue_factor"]
            assert names[places[i, j, k]] == blocks.loc[centre, "rock"]
        else:
            assert np.isnan(factors[i, j, k]) and places[i, j, k] == -1


def same(frame, blocks, names):
    """Fails if a column of the frame, by its name there, is not that of blocks.csv."""
    for name, there in names.items():
        assert frame[there].tolist() == blocks[name].tolist(), name


def test_an_omf_volume_reads_back_as_the_blocks(hill):
    frame, kind = omf.read(pitplan.write_export(hill, "omf"), CODES)
    blocks = blocks_of(hill)
    assert kind == f'OMF 0.9, volume "Blocks", 7 x 5 x 3 cells, {len(blocks.columns) - 4} attributes'
    assert len(frame) == 105 and frame["cu"].notna().sum() == len(blocks)
    frame = frame[frame["revenue_factor"].notna()].sort_values(["x", "y", "z"])
    blocks = blocks.sort_values(["x", "y", "z"])
    same(frame, blocks, {name: name for name in blocks if name not in ("id", "x", "y", "z")})
    same(frame, blocks, {"x": "x", "y": "y", "z": "z"})


def test_equal_results_give_equal_files(hill, tmp_path):
    for kind in ("omf", "dm"):
        first, second = (pitplan.write_export(hill, kind, out=tmp_path / f"{n}.{kind}").read_bytes() for n in "ab")
        assert first == second


def test_many_texts_are_written_as_they_are(plan_folder):
    table = rows(11, 10, 10)
    path = plan_folder(table, PROJECT, ("[0.5, 1.0, 1.5]", "[1.0]"))
    pitplan.write_shells(path, writing=UNVERIFIED)
    export = pitplan.write_export(path.parent / "plan", "omf")
    _, objects, _ = omf_files.read_plainly(export)
    assert [it["name"] for it in objects.values() if it["__class__"] == "StringData"] == ["name"]
    assert sorted(omf.read(export)[0]["name"]) == sorted(table["name"])


def test_a_rotated_grid_is_written_to_omf_and_refused_for_dm(plan_folder):
    table = rows(6, 4, 3, cu=lambda i, j, k: 6 if (i, j, k) == (3, 2, 0) else 0)
    turn = np.exp(-1j * np.radians(30))
    places = 1000 + 2000j + (table["x"] + 1j * table["y"]) * turn
    table["x"], table["y"] = np.real(places).round(6), np.imag(places).round(6)
    path = plan_folder(table)
    pitplan.write_shells(path, writing=PLAIN)
    folder = path.parent / "plan"
    azimuth = json.loads((folder / "plan.json").read_text())["grid"]["azimuth"]
    assert azimuth == pytest.approx(30)
    frame, _ = omf.read(pitplan.write_export(folder, "omf"))
    blocks = blocks_of(folder)
    both = frame.sort_values(["z", "x", "y"]), blocks.sort_values(["z", "x", "y"])
    assert both[0][["x", "y", "z"]].to_numpy() == pytest.approx(both[1][["x", "y", "z"]].to_numpy(), abs=1e-4)
    assert both[0]["name"].tolist() == both[1]["name"].tolist()
    with pytest.raises(
        PlanError, match="dm: the grid north has azimuth 30, and rotated models are not written: export to omf"
    ):
        pitplan.write_export(folder, "dm")


def test_a_datamine_model_has_the_prototype_and_the_blocks_by_ijk(hill):
    path = pitplan.write_export(hill, "dm")
    fields = datamine_files.read_plainly(path.read_bytes())
    blocks = blocks_of(hill)
    blocks["ijk"] = ((blocks["x"] // 10 * 5 + blocks["y"] // 10) * 3 + blocks["z"] // 10).astype(int)
    blocks = blocks.sort_values("ijk").reset_index(drop=True)
    assert fields["IJK"] == blocks["ijk"].tolist() and fields["XC"] == blocks["x"].tolist()
    assert (fields["YC"], fields["ZC"]) == (blocks["y"].tolist(), blocks["z"].tolist())
    for name, value in {
        "XINC": 10,
        "YINC": 10,
        "ZINC": 10,
        "XMORIG": 0,
        "YMORIG": 0,
        "ZMORIG": 0,
        "NX": 7,
        "NY": 5,
        "NZ": 3,
    }.items():
        assert set(fields[name]) == {value}, name
    assert fields["ROCK"] == blocks["rock"].tolist() and fields["NAME"] == blocks["name"].tolist()
    assert fields["RF"] == blocks["revenue_factor"].tolist() and fields["MINECOST"] == blocks["mining_cost"].tolist()
    # Two names that eight letters do not tell apart.
    assert fields["A_LONG_N"] == blocks["a long name"].tolist() and fields["A_LONG_2"] == blocks["a long nose"].tolist()
    assert path.notes == (
        "names have at most 8 letters: a long name is A_LONG_N, a long nose is A_LONG_2, mining_cost is MINECOST, processing_cost is PROCCOST, "
        "revenue_factor is RF, process_revenue_factor is PROC_RF",
    )


def test_a_datamine_model_reads_back_as_the_blocks(hill):
    frame, kind = datamine.read(pitplan.write_export(hill, "dm"), ["NAME", "ROCK", "REGION"])
    blocks = blocks_of(hill).sort_values(["x", "y", "z"])
    assert kind == f"Datamine .dm, double precision, {len(blocks):,} records"
    names = {
        "x": "x",
        "y": "y",
        "z": "z",
        "name": "NAME",
        "rock": "ROCK",
        "region": "REGION",
        "cu": "cu".upper(),
        "tonnes": "TONNES",
    }
    same(
        frame.sort_values(["x", "y", "z"]), blocks, names | {"revenue": "REVENUE", "process_revenue_factor": "PROC_RF"}
    )


@pytest.mark.parametrize("size", [50, 51])
def test_records_on_pages_are_whole(plan_folder, size):
    """A record has 17 words, of which a page holds 29: 50 blocks fill one page and part of another."""
    path = plan_folder(rows(size, 1, 1, cu=lambda i, j, k: i / 100))
    pitplan.write_shells(path, writing=UNVERIFIED)
    export = pitplan.write_export(path.parent / "plan", "dm")
    fields = datamine_files.read_plainly(export.read_bytes())
    assert fields["CU"] == [i / 100 for i in range(size)]
    assert datamine.read(export)[0]["CU"].tolist() == fields["CU"]


def test_columns_that_do_not_fit_are_named(plan_folder):
    """Texts of 200 letters take 50 of the 64 fields."""
    table = rows(3, 1, 2, rock=lambda i, j, k: "R" * 200)
    path = plan_folder(table)
    pitplan.write_shells(path, writing=UNVERIFIED)
    export = pitplan.write_export(path.parent / "plan", "dm")
    (left,) = [note for note in export.notes if "left out" in note]
    assert left == "left out, since a model has at most 64 fields: ROCK"
    assert "REGION" in datamine.read(export)[0] and "ROCK" not in datamine.read(export)[0]


@pytest.mark.parametrize("kind", ["omf", "dm"])
def test_an_exported_model_is_planned_again(hill, kind, tmp_path):
    """The frame that the reader gives has the shells of the table."""
    path = pitplan.write_export(hill, kind)
    project = pitplan.load(hill / "project-as-run.toml")
    columns = {
        "omf": str,
        "dm": lambda name: {"a long name": "A_LONG_N", "a long nose": "A_LONG_2"}.get(name, name.upper()),
    }[kind]
    read = {"omf": omf.read, "dm": datamine.read}[kind]
    frame, _ = read(path, [columns(name) for name in CODES])
    frame = frame[frame[columns("tonnes")].notna()].rename(
        columns={
            columns(name): name for name in ("name", "rock", "region", "cu", "tonnes", "a long name", "a long nose")
        }
    )
    plan, again = pitplan.Plan.from_project(project), pitplan.Plan.from_project(project, frame)
    assert plan.shells().table.equals(again.shells().table)
