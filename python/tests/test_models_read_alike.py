"""Block models of OMF and Datamine, as the planner and the verification read them, which share no code."""

import numpy as np
import pandas as pd
import pytest
from helpers.datamine_files import file_of
from helpers.omf_files import Written

from pitplan.blockmodel import datamine, omf
from planaudit import AuditError
from planaudit.inputs import models

CODES = ["class", "rock", "name"]


def demand_alike(path, read):
    frame, _ = read(path, CODES)
    assert models.is_model(path)
    again = models.read(path, CODES)
    assert sorted(frame) == sorted(again)
    pd.testing.assert_frame_equal(again[list(frame)], frame, check_exact=False, rtol=0, atol=1e-6)
    for name in frame.columns.difference(["x", "y", "z"]):
        assert frame[name].equals(again[name]), name


@pytest.mark.parametrize("seed", range(6))
def test_omf_volumes(tmp_path, seed):
    rng = np.random.default_rng(seed)
    sides = [rng.choice([5.0, 10.0, 12.5], rng.integers(1, 5)) for _ in range(3)]
    count, file = int(np.prod([len(side) for side in sides])), Written(origin=rng.integers(0, 9, 3).tolist())
    data = [
        file.numbers("cu", np.where(rng.random(count) < 0.2, np.nan, rng.random(count).round(3))),
        file.numbers("class", rng.integers(1, 4, count), "<i8"),
        file.categories("rock", rng.integers(-1, 2, count), ["OX", "SUL"]),
        file.categories("colour", rng.integers(-1, 2, count), [[1, 2, 3], [4, 5, 6]], "ColorArray"),
        file.texts("name", [f"b{k}" for k in range(count)]),
        file.numbers("z", rng.random(count)),
        file.add("Vector3Data", name="dip", location="cells", array=""),
    ]
    angle = np.radians(rng.choice([0, 20, 75, 130]))
    turned = {"axis_u": [np.cos(angle), np.sin(angle), 0], "axis_v": [-np.sin(angle), np.cos(angle), 0]}
    file.volume(*sides, data, origin=[100, 7_000_000.5, -3], packs=bool(seed % 2), **turned)
    demand_alike(file.save(tmp_path / "model.omf"), omf.read)


@pytest.mark.parametrize(("size", "order"), [(4, "<"), (8, "<"), (4, ">"), (8, ">")])
@pytest.mark.parametrize("count", [1, 46, 47, 200])
def test_datamine_models(tmp_path, size, order, count):
    rng = np.random.default_rng(count)
    columns = {name: rng.integers(0, 10**6, count) / 2 for name in ("XC", "YC", "ZC")}
    columns |= {
        "cu": np.where(rng.random(count) < 0.2, -1e30, rng.random(count).round(3)),
        "class": rng.integers(1, 4, count),
    }
    columns |= {"rock": rng.choice(["OX", "SULPHIDE", ""], count).tolist(), "name": [f"b{k}" for k in range(count)]}
    fixed = {"XINC": 12.5, "YINC": 0.1, "ZINC": 5, "AREA": "NORTH-EAST"}
    path = tmp_path / "model"
    path.write_bytes(file_of(columns, size=size, order=order, fixed=fixed))
    demand_alike(path, datamine.read)


def test_damaged_models_are_refused(tmp_path):
    path = tmp_path / "model.dm"
    for data in (file_of({"XC": [1], "YC": [2], "ZC": [3]}, pages=9), b"\x84\x83\x82\x81" + bytes(90)):
        path.write_bytes(data)
        with pytest.raises(AuditError, match="model.dm: cannot be read as a block model .*: export it again"):
            models.read(path, [])


def test_tables_are_no_models(tmp_path):
    (tmp_path / "blocks.csv").write_text("id,x,y,z,tonnes\n" * 999)
    (tmp_path / "few.csv").write_text("x\n1\n")
    assert not models.is_model(tmp_path / "blocks.csv") and not models.is_model(tmp_path / "few.csv")
