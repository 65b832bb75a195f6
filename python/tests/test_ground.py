"""The ground with a pit in it: its faces by hand, volumes by prisms of the test's own from the files that were written, and what is refused."""

import re
from collections import Counter
from dataclasses import replace

import numpy as np
import pandas as pd
import pytest
from helpers.surfaces import triangles_of, volume_of

import pitplan
from pitplan import PlanError
from pitplan.blockmodel.grid import Grid
from pitplan.cli import main
from pitplan.export import mesh
from pitplan.results import pit_states
from pitplan.results.folder import read_folder
from pitplan.results.pit_states import Shape, Stage


def grid_of(shape, size=(10.0, 10.0, 5.0)):
    return Grid(shape, (size[0] / 2, size[1] / 2, shape[0] * size[2] - size[2] / 2), size, np.arange(np.prod(shape)))


def prisms(triangles):
    """What lies between triangles and height 0, by their shadows on it."""
    (ax, ay, az), (bx, by, bz), (cx, cy, cz) = triangles.transpose(1, 2, 0)
    return float((((bx - ax) * (cy - ay) - (by - ay) * (cx - ax)) / 2 * (az + bz + cz) / 3).sum())


def random_pit(seed):
    """Columns of rock of random heights, some without any, dug from their tops; truths for each level from the top, row and column."""
    rng = np.random.default_rng(seed)
    levels, height = 6, rng.integers(0, 7, size=(7, 8))
    mined = np.minimum(rng.integers(0, 4, size=height.shape), height)
    up = np.arange(levels)[::-1, None, None]
    return up < height, (up < height) & (up >= height - mined)


def edges_of(faces):
    return Counter(tuple(sorted(pair)) for face in faces.tolist() for pair in zip(face, [*face[1:], face[0]]))


def test_a_hole_of_one_block_by_hand():
    """Nine tops and four walls, of two triangles each. The sides of the model are open: its twelve sides of blocks belong to one triangle, and
    all others to two. The floor and the walls are of the bench of level 1, and what is not dug is of none."""
    rock, mined = np.ones((2, 3, 3), dtype=bool), np.zeros((2, 3, 3), dtype=bool)
    mined[0, 1, 1] = True
    grid = grid_of((2, 3, 3))
    surface, said = mesh.of_stage(rock, Stage("revenue_factor", 1.0, mined), grid, False)
    assert len(surface.faces) == 26 and Counter(surface.bench.tolist()) == {mesh.NONE: 16, 1: 10}
    uses = Counter(edges_of(surface.faces).values())
    assert uses == {1: 12, 2: (26 * 3 - 12) // 2}
    assert said == "26 triangles; 500 m3 lie between it and the original ground, and the 1 mined cells hold 500 m3"
    triangles = pit_states.places_of(grid, surface.corners)[surface.faces]
    assert prisms(triangles) == pytest.approx(8 * 1000 + 500)
    normal = np.cross(triangles[:, 1] - triangles[:, 0], triangles[:, 2] - triangles[:, 0])
    # Tops look upwards, walls to the middle of the hole.
    domains = normal[:, 2] == 0
    assert (normal[~domains, 2] > 0).all() and domains.sum() == 8
    middle = triangles[domains].mean(axis=1)[:, :2] - 15
    assert (np.einsum("ij,ij->i", middle, normal[domains, :2]) < 0).all()


@pytest.mark.parametrize("seed", range(8))
def test_random_pits_hold_what_is_dug(seed):
    rock, mined = random_pit(seed)
    grid = grid_of(rock.shape, (20.0, 10.0, 5.0))
    parts = [mesh.of_stage(rock, Stage("year", k, mined & bool(k)), grid, False)[0] for k in (0, 1)]
    found = [pit_states.places_of(grid, part.corners)[part.faces] for part in parts]
    before, after = (prisms(triangles) for triangles in found)
    assert before - after == pytest.approx(1000 * mined.sum())
    assert before == pytest.approx(1000 * rock.sum()), "nothing lies below ground without rock"
    lowest = found[1][..., 2].min()
    left = (rock & ~mined).sum(axis=0)[rock.any(axis=0)]
    assert lowest == 5 * left.min()


@pytest.mark.parametrize("seed", range(4))
def test_smoothing_moves_no_corner_by_more_than_half_a_block_and_no_rim(seed):
    rock, mined = random_pit(seed)
    heights = mesh.heights_of(rock, Stage("year", 1, mined), grid_of(rock.shape))
    stepped = mesh.stepped(heights)
    smooth = mesh.smoothed(stepped)
    moved = abs(smooth.corners - stepped.corners)
    assert 0.1 < moved.max() <= 0.5 and (smooth.faces == stepped.faces).all()
    rims = {corner for edge, count in edges_of(stepped.faces).items() if count == 1 for corner in edge}
    assert moved[sorted(rims)].max() == 0


def test_stairs_become_a_slope():
    """Twelve steps up to the east, of one block each: in the middle, far from the rims, what is smoothed lies on the plane through the middles
    of walls and tops, to a tenth of a block."""
    high = np.repeat(np.arange(1, 13)[None], 12, axis=0)
    smooth = mesh.smoothed(mesh.stepped(mesh.Heights(high, high)))
    x, y, z = smooth.corners.T
    inner = (abs(x - 6) < 3) & (abs(y - 6) < 3)
    # Tops at x + 0.5 have height x + 1: the middle of a wall at x is x + 0.5.
    assert inner.sum() > 30 and abs(z - x - 0.5)[inner].max() < 0.1


def test_the_difference_after_smoothing_is_told():
    rock, mined = random_pit(1)
    grid = grid_of(rock.shape)
    surface, said = mesh.of_stage(rock, Stage("year", 1, mined), grid, True)
    before, _ = mesh.of_stage(rock, Stage("year", 0, mined & False), grid, True)
    held = prisms(pit_states.places_of(grid, before.corners)[before.faces]) - prisms(
        pit_states.places_of(grid, surface.corners)[surface.faces]
    )
    expected = 500 * int(mined.sum())
    assert f"smoothed within half a block, {held:,.0f} m3 lie between it and the original ground, also smoothed" in said
    assert said.endswith(f"the {mined.sum():,} mined cells hold {expected:,} m3, {100 * (held / expected - 1):+.2f} %")


def test_rock_over_what_is_dug_is_refused():
    rock, mined = np.ones((3, 2, 2), dtype=bool), np.zeros((3, 2, 2), dtype=bool)
    mined[1, 1, 0] = True
    with pytest.raises(
        PlanError, match="the block at 5, 15, 12.5 remains above a mined one: the ground is not a surface"
    ):
        mesh.heights_of(rock, Stage("revenue_factor", 1.0, mined), grid_of((3, 2, 2)))


def test_faces_that_hold_something_else_are_not_kept(monkeypatch):
    rock, mined = random_pit(2)
    monkeypatch.setattr(mesh, "volume_under", lambda surface, was=mesh.volume_under: 1.002 * was(surface))
    with pytest.raises(PlanError, match="year-1: .* m3 lie between .*: please report this"):
        mesh.of_stage(rock, Stage("year", 1, mined), grid_of(rock.shape), False)


def volume_mined(folder, name, number):
    """Of the blocks of rock up to a pushback or year; they have 1,000 cubic metres."""
    blocks = pd.read_csv(folder / "tables/blocks.csv")
    return 1000.0 * int(((blocks[name] > 0) & (blocks[name] <= number)).sum())


@pytest.mark.parametrize("kind", ["stl", "obj"])
@pytest.mark.parametrize("name", ["pushback", "year"])
def test_each_pushback_and_each_year_has_a_surface(folder, kind, name, capsys):
    pytest.importorskip("vtk")
    last = int(pd.read_csv(folder / "tables/blocks.csv")[name].max())
    words = ["--to", kind, "--of", name, "--surface", "ground"]
    assert main(["export", str(folder), *words]) == 0
    target = folder / f"ground-{name}s-{kind}"
    said = capsys.readouterr()
    assert said.out.strip() == str(target)
    names = {f"before.{kind}", *(f"{name}-{number}.{kind}" for number in range(1, last + 1))}
    assert {path.name for path in target.iterdir()} == names and last > 1
    before = triangles_of(target / f"before.{kind}")
    corner = before.reshape(-1, 3).min(axis=0)
    for number in range(1, last + 1):
        after = triangles_of(target / f"{name}-{number}.{kind}")
        assert prisms(before - corner) - prisms(after - corner) == pytest.approx(
            volume_mined(folder, name, number), rel=1e-3
        )
        assert (after[..., 0].min(), after[..., 0].max(), after[..., 1].min()) == (430_000.5, 430_110.5, 6_512_000.25)
        assert (
            f"{name}-{number}.{kind}: {len(after):,} triangles; {volume_mined(folder, name, number):,.0f} m3 lie between it"
            in said.err
        )


def test_a_file_of_an_earlier_run_goes_and_those_of_others_stay(folder):
    pytest.importorskip("vtk")
    (folder / "ground-years-stl").mkdir()
    for name in ("year-99.stl", "notes.txt"):
        (folder / "ground-years-stl" / name).touch()
    pitplan.write_export(folder, "stl", shape=Shape("year", "ground"))
    names = {path.name for path in (folder / "ground-years-stl").iterdir()}
    assert "notes.txt" in names and "year-1.stl" in names and "year-99.stl" not in names


def test_pushbacks_have_closed_bodies_too(folder):
    pytest.importorskip("vtk")
    target = pitplan.write_export(folder, "stl", shape=Shape("pushback"))
    for number in (1, 2):
        assert volume_of(triangles_of(target / f"pushback-{number}.stl")) == pytest.approx(
            volume_mined(folder, "pushback", number)
        )
    assert len(list(target.iterdir())) == 2


def test_a_drawing_has_a_layer_a_bench_and_pushback(folder):
    ezdxf = pytest.importorskip("ezdxf")
    drawing = ezdxf.readfile(pitplan.write_export(folder, "dxf", shape=Shape("pushback", "ground")))
    faces = {}
    for face in drawing.modelspace().query("3DFACE"):
        faces.setdefault(face.dxf.layer, []).append([list(face.dxf.vtx0), list(face.dxf.vtx1), list(face.dxf.vtx2)])
    assert {"BEFORE_GROUND", "PUSHBACK_1_GROUND", "PUSHBACK_2_GROUND"} < set(faces) and not any(
        name.startswith("BEFORE_BENCH") for name in faces
    )
    blocks = pd.read_csv(folder / "tables/blocks.csv")
    for number in (1, 2):
        mined = blocks[(blocks["pushback"] > 0) & (blocks["pushback"] <= number)]
        layers = {f"PUSHBACK_{number}_BENCH_{z - 5:g}" for z in mined["z"].unique()}
        assert layers == {name for name in faces if name.startswith(f"PUSHBACK_{number}_BENCH")}
        parts = [
            np.array(sum((faces[name] for name in faces if name.startswith(start)), []))
            for start in (f"PUSHBACK_{number}_", "BEFORE_")
        ]
        corner = parts[1].reshape(-1, 3).min(axis=0)
        assert prisms(parts[1] - corner) - prisms(parts[0] - corner) == pytest.approx(
            volume_mined(folder, "pushback", number)
        )
        for name in layers:
            bench = np.array(faces[name])[..., 2]
            low = float(name.rpartition("_")[2])
            assert bench.min() == low and bench.max() <= low + 10


@pytest.mark.parametrize(
    ("words", "said"),
    [
        (
            ["--to", "csv", "--of", "pushback"],
            "csv: holds all revenue factors, pushbacks and years, so pushback cannot be selected: use one of dxf, stl, obj, gpkg, str, lines",
        ),
        (["--to", "vtu", "--surface", "ground"], "vtu: has no surface of the ground: use one of dxf, stl, obj"),
        (["--to", "gpkg", "--surface", "ground"], "gpkg: has no surface of the ground: use one of dxf, stl, obj"),
        (
            ["--to", "stl", "--smooth"],
            "smooth: applies to the surface of the ground, not to that around blocks: add --surface ground",
        ),
    ],
)
def test_what_cannot_be_is_refused(folder, capsys, words, said):
    assert main(["export", str(folder), *words]) == 1
    assert re.search(said, capsys.readouterr().err)


def test_a_folder_without_pushbacks_is_told_what_makes_them(solved):
    for name, command in (("pushback", "pushbacks"), ("year", "schedule")):
        with pytest.raises(PlanError, match=f"has no {name}s: run pitplan {command}, and give its folder"):
            pitplan.write_export(solved[1], "dxf", shape=Shape(name))


def test_a_year_by_whose_end_nothing_is_dug_has_no_body_and_is_told(folder, monkeypatch):
    """Years from 2 on alone."""
    pytest.importorskip("vtk")
    result = read_folder(folder)
    later = replace(result, blocks=result.blocks.assign(year=np.where(result.blocks["year"] > 0, 2, 0)))
    monkeypatch.setattr("pitplan.commands.outputs.read_folder", lambda path: later)
    target = pitplan.write_export(folder, "obj", shape=Shape("year"))
    assert [path.name for path in target.iterdir()] == ["year-2.obj"]


def test_by_how_much_smoothing_changes_the_volume_is_told_to_python_too_but_not_with_quiet(folder, capsys):
    pytest.importorskip("vtk")
    words = ["export", str(folder), "--to", "stl", "--surface", "ground", "--smooth"]
    assert main([*words, "--quiet"]) == 0
    quiet = capsys.readouterr()
    assert main(words) == 0
    aloud = capsys.readouterr()
    (note,) = re.findall(r".*smoothed within half a block, .* m3 lie between it and the original ground.*", aloud.err)
    assert quiet.err == "" and aloud.out == quiet.out
    path = pitplan.write_export(folder, "stl", shape=Shape(surface="ground", smooth=True))
    assert path == folder / "ground-1.00.stl" and [*path.notes] == [note]
    assert pitplan.write_export(folder, "csv").notes == ()
