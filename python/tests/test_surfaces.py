"""The closed surface of a pit, read by a few lines of the test's own and summed up by the divergence theorem."""

import sys
from collections import Counter

import pandas as pd
import pytest
from conftest import PROJECT, rows
from helpers.surfaces import triangles_of, volume_of
from helpers.writings import UNVERIFIED

import pitplan
from pitplan import MissingPackage, PlanError
from pitplan.cli import main
from pitplan.export import mesh


def is_closed(triangles):
    """Whether along each edge go as many triangles one way as the other."""
    edges = Counter()
    for corners in triangles.round(3).tolist():
        for begin, end in zip(corners, [*corners[1:], corners[0]]):
            edges[tuple(begin), tuple(end)] += 1
    return all(edges[end, begin] == count for (begin, end), count in edges.items())


@pytest.fixture
def far(plan_folder):
    """The two ores of a mine at coordinates of seven digits, with halves of metres, whose pits meet along an edge at revenue factor 1.50; one block
    within is air."""
    pytest.importorskip("vtk", reason="needs the Debian package python3-vtk9")
    ore = {(2, 3, 1): 6, (6, 3, 2): 0.9}
    table = rows(
        9, 8, 4, cu=lambda i, j, k: ore.get((i, j, k), 0), tonnes=lambda i, j, k: 100 * int((i, j, k) != (2, 3, 3))
    )
    table = table.assign(x=table["x"] + 430_000.5, y=table["y"] + 6_512_000.25)
    path = plan_folder(table)
    pitplan.write_shells(path, writing=UNVERIFIED)
    return path


@pytest.mark.parametrize("kind", ["stl", "obj"])
@pytest.mark.parametrize("factor", [0.5, 1.5])
def test_a_surface_holds_what_its_blocks_do(far, capsys, kind, factor):
    assert main(["export", str(far.parent / "plan"), "--to", kind, "--revenue-factor", str(factor)]) == 0
    said = capsys.readouterr()
    path = far.parent / "plan" / f"pit-{factor:.2f}.{kind}"
    assert said.out.strip() == str(path)
    blocks = pd.read_csv(far.parent / "plan" / "tables/blocks.csv")
    mined = blocks[(blocks["revenue_factor"] > 0.0) & (blocks["revenue_factor"] <= factor) & (blocks["tonnes"] > 0)]
    triangles = triangles_of(path)
    assert volume_of(triangles) == pytest.approx(1000 * len(mined), rel=1e-3) and is_closed(triangles)
    assert (
        f"{len(triangles):,} triangles hold {1000 * len(mined):,} m3, and the {len(mined):,} blocks {1000 * len(mined):,} m3"
        in said.err
    )
    low, high = triangles.min(axis=(0, 1)), triangles.max(axis=(0, 1))
    assert low.tolist() == [mined[axis].min() - 5 for axis in "xyz"] and high.tolist() == [
        mined[axis].max() + 5 for axis in "xyz"
    ]


def test_an_empty_pit_has_no_surface(plan_folder):
    pytest.importorskip("vtk")
    path = plan_folder(rows(3, 3, 2), PROJECT)
    pitplan.write_shells(path, writing=UNVERIFIED)
    with pytest.raises(PlanError, match="the pit of revenue factor 1.00 is empty and has no surface"):
        pitplan.write_export(path.parent / "plan", "stl")
    assert not (path.parent / "plan" / "pit-1.00.stl").exists()


def test_a_surface_that_holds_something_else_is_not_kept(far, monkeypatch):
    """Its blocks are by a fiftieth of a metre too high, a fifth of a per cent. Ore of the second level has 5 and 13 blocks above it, one of
    which is air."""

    def higher(vtk, image, made=mesh.round_cells):
        image.SetSpacing(10, 10, 10.02)
        return made(vtk, image)

    monkeypatch.setattr(mesh, "round_cells", higher)
    with pytest.raises(
        PlanError, match=r"pit-0.50.obj: \d+ triangles hold 18,036 m3, and the 18 blocks 18,000 m3: please report this"
    ):
        pitplan.write_export(far.parent / "plan", "obj", 0.5)
    assert not (far.parent / "plan" / "pit-0.50.obj").exists()


def test_a_missing_library_is_named(far, monkeypatch):
    monkeypatch.setitem(sys.modules, "vtk", None)
    with pytest.raises(MissingPackage, match="export --to stl needs the Debian package python3-vtk9"):
        pitplan.write_export(far.parent / "plan", "stl")
