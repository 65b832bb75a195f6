"""Sections with rock types, resource classes and the topography."""

from dataclasses import replace

import numpy as np
import pandas as pd
import pytest
from conftest import PROJECT, rows
from matplotlib.colors import to_rgb
from matplotlib.figure import Figure

from pitplan import Plan
from pitplan.figures import geology, map_marks, palette, plans_sections

CLASS = ('[table]\nfile = "blocks.csv"\n', '[table]\nfile = "blocks.csv"\nclass = "cls"\n')
# Columns 0 and 1 are rock S, the others R; measured below, inferred in the middle, nothing on top. One block is rich.
CODES = {
    "cu": lambda i, j, k: 6 * ((i, j, k) == (3, 2, 1)),
    "rock": lambda i, j, k: "S" if i < 2 else "R",
    "cls": lambda i, j, k: ("measured", "inferred", "")[k],
}


def hill(plan_folder, *changes):
    """Six by five columns of three blocks; the three columns in the west lack the top."""
    table = rows(6, 5, 3, **CODES)
    plan = Plan.from_project(plan_folder(table[(table["z"] < 20) | (table["x"] > 30)], PROJECT, CLASS, *changes))
    return plan, replace(plans_sections.scene_of(plan.shells()), selected=1.0)


def test_sections_show_rock_and_class(plan_folder):
    plan, scene = hill(plan_folder)
    kinds = geology.kinds_of(plan)
    assert [kind.title for kind in kinds] == ["Rock type", "Resource class"]
    axes = geology.plot_sections(scene, kinds, Figure().subplots(2, 2))
    rock, classes = (ax.images[1].get_array() for ax in axes[:2])
    # From the bottom up: R is number 0 since it is more frequent; air is masked.
    assert rock.filled(-1).tolist() == [[1, 1, 0, 0, 0, 0]] * 2 + [[-1, -1, -1, 0, 0, 0]]
    names = list(kinds[1].colours)
    assert names == ["measured", "inferred", ""]
    shown = [[names[number] for number in row if number >= 0] for row in classes.filled(-1).astype(int)]
    assert shown == [["measured"] * 6, ["inferred"] * 6, [""] * 3]
    legends = [[text.get_text() for text in ax.get_legend().get_texts()] for ax in axes[2:]]
    assert legends == [["R", "S"], ["measured", "inferred", "unclassified"]]
    patch = axes[3].get_legend().get_patches()[0]
    assert patch.get_facecolor()[:3] == to_rgb(palette.CLASSES[0])
    assert axes[0].get_title() == "Rock type, west to east (A) at north 25"


def test_the_topography_is_the_top_of_the_blocks_without_a_survey(plan_folder):
    plan, scene = hill(plan_folder)
    found = scene.topography
    assert not found.is_surveyed and found.height.tolist() == [[20] * 3 + [30] * 3] * 5
    axes = plans_sections.plot_sections(scene, Figure().subplots(2, 2))
    for ax in axes[:2]:
        x, y = ax.lines[0].get_data()
        assert x.tolist() == [0, 10, 10, 20, 20, 30, 30, 40, 40, 50, 50, 60] and y.tolist() == [20] * 6 + [30] * 6
    assert [text.get_text() for text in axes[0].get_legend().get_texts()] == ["top of the blocks", "pit"]


def test_a_surveyed_topography_is_drawn_at_the_middles_of_columns(plan_folder, tmp_path):
    """A plane that falls from 30 m in the west by a quarter of a metre per metre: 28.75 over the first column, 16.25 over the last."""
    corners = [(x, y, 30 - x / 4) for x in (-50, 110) for y in (-50, 100)]
    pd.DataFrame(corners, columns=["x", "y", "z"]).to_csv(tmp_path / "topo.csv", index=False)
    plan, scene = hill(plan_folder, ('file = "blocks.csv"\n', 'file = "blocks.csv"\ntopography = "topo.csv"\n'))
    assert scene.topography.is_surveyed
    ax = plans_sections.plot_sections(scene, Figure().subplots(2, 2))[0]
    x, y = ax.lines[0].get_data()
    assert x.tolist() == [5, 15, 25, 35, 45, 55]
    assert y == pytest.approx([28.75, 26.25, 23.75, 21.25, 18.75, 16.25]) and ax.get_xlim() == (0, 60)


def test_columns_beyond_the_topography_have_no_height(plan_folder, tmp_path):
    corners = [(x, y, 25) for x in (-50, 30) for y in (-50, 100)]
    pd.DataFrame(corners, columns=["x", "y", "z"]).to_csv(tmp_path / "topo.csv", index=False)
    plan, _ = hill(plan_folder, ('file = "blocks.csv"\n', 'file = "blocks.csv"\ntopography = "topo.csv"\n'))
    height = map_marks.topography_of(plan).height
    assert height[:, :3] == pytest.approx(25) and np.isnan(height[:, 3:]).all()


def test_the_rarest_of_many_codes_are_together(plan_folder):
    """Of twenty codes fifteen have a colour; a block of each of the others is in the sixteenth."""
    table = rows(20, 1, 2, rock=lambda i, j, k: f"R{i:02}", cu=lambda i, j, k: 6 * (k == 1))
    table = table[(table["z"] < 10) | (table["x"] < 150)]
    (kind,) = geology.kinds_of(Plan.from_project(plan_folder(table)))
    assert list(kind.colours) == [*(f"R{i:02}" for i in range(15)), "others"]
    assert kind.number[1, 0].tolist() == [*range(15), *[15] * 5] and (kind.number[0, 0, 15:] == -1).all()


def test_a_model_without_codes_has_no_picture(plan_folder):
    plan = Plan.from_project(plan_folder(rows(2, 2, 2), PROJECT, ('rock_type = "rock"\n', "")))
    assert geology.kinds_of(plan) == []
