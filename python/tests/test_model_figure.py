"""`pitplan init --figures` draws the block model as it was recognised."""

import numpy as np
import pandas as pd
import pytest
from helpers import vendor_models

from pitplan.blockmodel import guesses
from pitplan.cli import main
from pitplan.figures.geology import cube_of, histograms_of


@pytest.mark.parametrize("azimuth", [0.0, 30.0])
def test_cells_have_the_means_of_their_rows(tmp_path, azimuth):
    """Of the halves of a sub-cell the mean; on a turned grid the same picture along its own axes."""
    cells = vendor_models.deposit()
    vendor_models.write(
        "surpac" if azimuth else "datamine",
        vendor_models.turned(cells, azimuth) if azimuth else cells,
        tmp_path / "m.csv",
    )
    cube = cube_of(guesses.read(tmp_path / "m.csv"), "cu" if azimuth else "CU")
    solid = cells[cells["share"] > 0]
    expected = np.full(tuple(solid[name].max() + 1 for name in "kji"), np.nan)
    # Heights are rounded to half a metre.
    halved = (solid["rock"] == "POR") & ((solid["share"] * 30).round() == 30) & (azimuth == 0)
    copper = np.where(halved, (solid["cu"] + (solid["cu"] * 0.75).round(4)) / 2, solid["cu"])
    expected[solid["k"], solid["j"], solid["i"]] = copper
    assert np.allclose(cube.values, expected, equal_nan=True)
    assert cube.blocks.sum() == len(solid)
    assert np.allclose(np.diff(cube.extent)[::2], [14 * 20, 12 * 20, expected.shape[0] * 15])
    assert cube.names == (("along azimuth 120", "along azimuth 30") if azimuth else ("east", "north"))


def test_histograms_are_of_grades_and_density(tmp_path):
    vendor_models.write("leapfrog", vendor_models.deposit(), tmp_path / "m.csv")
    assert histograms_of(guesses.read(tmp_path / "m.csv")) == [
        ("Cu %", "%"),
        ("Au ppm", "g/t"),
        ("Density", "t/m3"),
    ]


def test_init_writes_the_figure_beside_the_project(tmp_path, capsys):
    vendor_models.write("vulcan", vendor_models.deposit(), tmp_path / "m.csv")
    assert main(["init", str(tmp_path / "m.csv"), "--out", str(tmp_path / "pit.toml"), "--figures"]) == 0
    assert (tmp_path / "pit-block-model.png").read_bytes().startswith(b"\x89PNG")
    assert f"drew {tmp_path / 'pit-block-model.png'}" in capsys.readouterr().err
    assert main(["init", str(tmp_path / "m.csv"), "--out", str(tmp_path / "bare.toml")]) == 0
    assert sorted(path.suffix for path in tmp_path.iterdir()) == [".csv", ".png", ".toml", ".toml"]


def test_a_model_of_one_level_without_a_grade_is_drawn(tmp_path):
    frame = pd.DataFrame({"x": [5, 15, 25], "y": 5, "z": 5, "tonnes": 100, "cu": 0.0})
    frame.to_csv(tmp_path / "m.csv", index=False)
    assert main(["init", str(tmp_path / "m.csv"), "--figures"]) == 0
    assert (tmp_path / "project-block-model.png").is_file()
