"""The 3D page in a real headless Chromium: what it draws, counted and looked at, and what it tells of a block that is clicked on."""

import base64
import gzip
import io
import re
import shutil
from dataclasses import replace
from pathlib import Path

import numpy as np
import pandas as pd
import pytest
from browser import Browser, needs_chromium

import pitplan
from pitplan import PlanError
from pitplan.core.progress import silent
from pitplan.report import viewer3d
from pitplan.results.folder import read_folder

KEPT = Path(__file__).parent / "expected" / "view.png"


@pytest.fixture(scope="module")
def page(solved_once, tmp_path_factory):
    """A page of the solved hill, and the blocks that it shows."""
    folder = shutil.copytree(solved_once.place / "plan", tmp_path_factory.mktemp("view") / "plan")
    return pitplan.view(folder, silent), pd.read_csv(folder / "tables/blocks.csv")


@pytest.fixture(scope="module")
def browser(tmp_path_factory):
    found = Browser(tmp_path_factory.mktemp("chromium"))
    yield found
    found.end()


def exposed(seen):
    """How many sides of the cells have no seen cell beyond them."""
    padded = np.pad(seen, 1)
    return sum(int((padded & ~np.roll(padded, step, axis)).sum()) for axis in range(3) for step in (1, -1))


def cube_of(blocks, shown):
    """A truth for each level from the top, row and column of the hill."""
    cube = np.zeros((5, 9, 10), dtype=bool)
    seen = blocks[shown]
    cube[(45 - seen["z"]).astype(int) // 10, seen["y"].astype(int) // 10, seen["x"].astype(int) // 10] = True
    return cube


def demand_drawn(browser, seen, **texts):
    """As many faces are drawn as the seen cells have to others, and its words are these."""
    assert browser.ask("document.body.dataset.faces") == str(exposed(seen))
    assert {name: browser.text(name) for name in texts} == texts


@needs_chromium
def test_the_page_draws_the_blocks_of_a_pit_below_a_bench(page, browser):
    path, blocks = page
    assert set(blocks["revenue_factor"]) == {0, 0.5, 1.0, 1.5}
    browser.open(path, "show=pit&rf=1.5&cut=1")
    demand_drawn(browser, cube_of(blocks, blocks["revenue_factor"] > 0.0)[1:], dugText="1.50", cutText="40 m")


@needs_chromium
def test_the_page_draws_the_ground_with_a_pit_and_sections_at_any_place(page, browser):
    """Rows are cut away from the south, columns from the west, each of 10 m."""
    path, blocks = page
    browser.open(path, "show=ground&rf=0.5")
    ground = cube_of(blocks, (blocks["revenue_factor"] == 0.0) | (blocks["revenue_factor"] > 0.5))
    demand_drawn(browser, ground, dugText="0.50", cutText="50 m", southText="0 m", westText="0 m")
    browser.choose("south", "4")
    browser.choose("west", "3")
    demand_drawn(browser, ground[:, 4:, 3:], southText="40 m", westText="30 m")
    browser.choose("dug", "0")
    demand_drawn(
        browser,
        cube_of(blocks, blocks["revenue_factor"] >= 0.0)[:, 4:, 3:],
        dugText="none",
        dugName="Pit at revenue factor",
    )


@needs_chromium
def test_the_topography_lies_over_what_is_dug(page, browser):
    """A face for each column of which the highest block is dug."""
    path, blocks = page
    browser.open(path, "rf=1.5&topography=1")
    highest = blocks.sort_values("z").groupby(["x", "y"]).tail(1)
    assert browser.ask("document.body.dataset.topography") == str(int((highest["revenue_factor"] > 0.0).sum())) != "0"
    browser.choose("topography", False)
    assert browser.ask("document.body.dataset.topography") == "0"


def scheduled(folder, place):
    """The hill with pushbacks and years by hand: pushback 1 is the first shell, and years are one more than the number of the shell."""
    result = read_folder(folder)
    mined = result.blocks["revenue_factor"] > 0.0
    more = {
        "pushback": np.where(mined, 1 + (result.blocks["revenue_factor"] > 0.5), 0),
        "year": np.where(mined, 1 + (result.blocks["revenue_factor"] // 0.5).astype(int), 0),
    }
    blocks = result.blocks.assign(**more)
    (place / "tables").mkdir(parents=True)
    blocks.to_csv(place / "tables/blocks.csv", index=False)
    made = replace(result, path=place, blocks=blocks, record=result.record | {"schedule": "lp"})
    viewer3d.write(place / "view.html", made)
    return place / "view.html", blocks, made


@needs_chromium
def test_a_schedule_has_a_slider_through_its_years_and_colours(solved, tmp_path, browser):
    path, blocks, made = scheduled(solved[1], tmp_path / "years")
    browser.open(path, "year=2&colour=year")
    later = cube_of(blocks, (blocks["year"] == 0) | (blocks["year"] > 2))
    demand_drawn(browser, later, dugName="Mined by the end of year", dugText="2", low="1", name="year", high="4")
    browser.choose("dug", "3")
    demand_drawn(browser, cube_of(blocks, (blocks["year"] == 0) | (blocks["year"] > 3)), dugText="3")
    browser.choose("by", "pushback")
    browser.choose("dug", "1")
    demand_drawn(browser, cube_of(blocks, blocks["pushback"] != 1), dugName="Mined to the end of pushback", dugText="1")
    browser.choose("show", "pit")
    browser.choose("dug", "2")
    browser.picture(tmp_path / "years.png")
    pixels = pytest.importorskip("matplotlib.image").imread(tmp_path / "years.png")[:, 300:, :3]
    last = np.array(viewer3d.model_of(made)["stages"][1]["colours"][-1]) / 255
    # The top of a block has its colour in full, or 0.93 of it.
    assert any((abs(pixels - last * light) < 0.02).all(axis=2).any() for light in (1, 0.93))


@needs_chromium
def test_a_click_on_a_block_shows_its_row(page, browser):
    """The first block of rock below the pixel is told by the test's own ray through the camera; its row is that of blocks.csv, with its value."""
    path, blocks = page
    browser.open(path, "rf=1.5&cut=2")
    assert browser.ask("document.getElementById('picked').hidden")
    ground = cube_of(blocks, blocks["revenue_factor"] == 0.0)
    ground[:2] = False
    for x, y in ((600, 330), (520, 380), (560, 300)):
        browser.click(x, y)
        cell = first_hit(browser, ground, (x, y))
        row = blocks[blocks["id"] == cell].iloc[0]
        shown = browser.ask(
            "Array.from(document.querySelectorAll('#picked tr'), it => Array.from(it.cells, cell => cell.textContent))"
        )
        text = (
            pd.read_csv(path.parent / "tables/blocks.csv", dtype=str, keep_default_na=False)
            .set_index("id")
            .loc[str(cell)]
        )
        assert dict(shown) == {
            "id": str(cell),
            **text,
            "undiscounted_cash_flow": str(max(row["revenue"] - row["processing_cost"], 0) - row["mining_cost"]),
        }
    browser.click(890, 590)
    assert browser.ask("document.getElementById('picked').hidden"), "beside the model there is nothing"


def first_hit(browser, seen, at):
    """The number of the first seen cell on the way from the camera through a pixel, in small steps."""
    ray = "new THREE.Vector3({}, {}, {}).unproject(camera).toArray()"
    ends = [np.array(browser.ask(ray.format(2 * at[0] / 900 - 1, 1 - 2 * at[1] / 600, depth))) for depth in (-1, 1)]
    way = (ends[1] - ends[0]) / np.linalg.norm(ends[1] - ends[0])
    for step in np.arange(0, 1000, 0.02):
        x, y, z = np.floor((ends[0] + step * way) / 10).astype(int)
        level = 4 - z
        if 0 <= level < 5 and 0 <= y < 9 and 0 <= x < 10 and seen[level, y, x]:
            return (level * 9 + y) * 10 + x
    raise AssertionError("no cell is hit")


@needs_chromium
def test_of_a_large_table_the_rows_of_pits_alone_are_there(solved, tmp_path, browser, monkeypatch):
    result = read_folder(solved[1])
    monkeypatch.setattr(viewer3d, "MOST_ROWS", len(result.blocks) - 1)
    viewer3d.write(tmp_path / "view.html", result)
    browser.open(tmp_path / "view.html", "show=pit")
    mined = result.blocks[result.blocks["revenue_factor"] > 0.0]
    assert browser.ask("lines.length") == len(mined) < len(result.blocks)
    browser.ask(f"showRow({mined['id'].iloc[0]})")
    assert browser.ask("document.querySelector('#picked h1').textContent") == "Row of the block"
    browser.ask(f"showRow({result.blocks['id'][result.blocks['revenue_factor'] == 0].iloc[0]})")
    assert "is in no shell, and its row is not in this page" in browser.text("picked")


@needs_chromium
def test_the_axes_have_coordinates(page, browser):
    """Of 100, 90 and 50 m, at least four steps each."""
    browser.open(page[0])
    said = browser.ask("Array.from(document.querySelectorAll('#labels span'), it => it.textContent)")
    east, north, up = [0, 20, 40, 60, 80, 100], [0, 20, 40, 60, 80], [0, 10, 20, 30, 40, 50]
    assert said == [*map(str, east), "east, m", *map(str, north), "north, m", *map(str, up), "elevation, m"]
    assert browser.ask("ticksOf(6512640.5, 300)") == [6512650, 6512700, 6512750, 6512800, 6512850, 6512900]
    places = browser.ask("Array.from(document.querySelectorAll('#labels span'), it => [it.offsetLeft, it.offsetTop])")
    assert all(0 < x < 900 and 0 < y < 600 for x, y in places)


@needs_chromium
def test_the_picture_is_the_one_that_was_kept(page, tmp_path_factory):
    """Of 300 x 200 pixels, without words: a section through the pit, which has a colour of its own, and the ground over it."""
    image = pytest.importorskip("matplotlib.image")
    small = Browser(tmp_path_factory.mktemp("small"), 300, 200)
    try:
        small.open(page[0], "rf=1.5&south=4&colour=pit&topography=1")
        found = base64.b64decode(small.ask("renderer.domElement.toDataURL()").partition(",")[2])
    finally:
        small.end()
    kept, now = (image.imread(source)[:, :, :3] for source in (KEPT, io.BytesIO(found)))
    assert kept.shape == now.shape == (200, 300, 3)
    assert (abs(kept - now).max(axis=2) > 0.1).mean() < 0.02


def drawn(browser):
    """The pixels that were drawn last, as a PNG in base64."""
    return browser.ask("renderer.domElement.toDataURL()")


@needs_chromium
def test_a_slider_that_moves_and_returns_draws_the_same_picture(page, browser):
    """Buffers grow with larger pits and sections, and what they held before must not be drawn."""
    browser.open(page[0], "rf=0.5&show=pit")
    first = drawn(browser)
    for name, value, back in (
        ("dug", "3", "1"),
        ("dug", "0", "1"),
        ("show", "ground", "pit"),
        ("colour", "pit", "revenue_factor"),
    ):
        browser.choose(name, value)
        assert drawn(browser) != first
        browser.choose(name, back)
        assert drawn(browser) == first


@needs_chromium
@pytest.mark.parametrize("x", [-180, 40, 280])
@pytest.mark.parametrize("y", [-180, 50, 280])
@pytest.mark.parametrize("z", [-180, 30, 280])
def test_sides_that_face_away_from_the_camera_change_no_pixel(page, browser, x, y, z):
    """The model is 100, 90 and 50 m long from 0: from outside of it a camera sees one side of each two, from within both."""
    browser.open(page[0], "rf=1.5")
    browser.ask(f"camera.position.set({x}, {y}, {z}); camera.lookAt(middle); draw()")
    seen = sum(1 if outside else 2 for outside in (x != 40, y != 50, z != 30))
    assert browser.ask("sides.filter(it => it.mesh.visible).length") == seen
    found = drawn(browser)
    browser.ask("sides.forEach(it => { it.mesh.visible = true; }); renderer.render(scene, camera)")
    assert drawn(browser) == found


@needs_chromium
def test_a_folder_of_shells_alone_has_no_choice_of_stages(page, browser):
    browser.open(page[0])
    shown = [browser.ask(f"document.getElementById('{name}').offsetParent !== null") for name in ("by", "show")]
    assert shown == [False, True]


@pytest.mark.slow
@needs_chromium
def test_on_a_telephone_the_panel_begins_closed(page, browser, tmp_path_factory):
    browser.open(page[0])
    assert browser.ask("document.getElementById('panel').open")
    phone = Browser(tmp_path_factory.mktemp("phone"), 390, 800)
    try:
        phone.call("Emulation.setDeviceMetricsOverride", width=390, height=800, deviceScaleFactor=1, mobile=True)
        phone.open(page[0])
        # As wide as the telephone, not as a desk's screen made small.
        assert phone.ask("innerWidth") == 390
        assert phone.ask("document.getElementById('panel').offsetHeight") < 80
        places = phone.ask("Array.from(document.querySelectorAll('#labels span'), it => it.offsetLeft)")
        assert all(0 < x < 390 for x in places)
    finally:
        phone.end()


def bytes_of(text):
    return np.frombuffer(gzip.decompress(base64.b64decode(text)), dtype=np.uint8)


def test_the_model_of_the_page_by_hand(solved):
    """Grades of 6, 0.9 and 0.8 per cent: a hundredth of these lie above 5.898, and 0.8 is 34.6 of 255 parts of it."""
    model = viewer3d.model_of(read_folder(solved[1]))
    blocks = pd.read_csv(solved[1] / "tables/blocks.csv")
    (metal,) = model["metals"]
    shell, tint = bytes_of(model["shell"]), bytes_of(metal["grade"])
    assert (model["shape"], model["size"], model["corner"], model["top"]) == ([5, 9, 10], [10, 10, 10], [0, 0, 0], 50)
    assert (model["revenue_factors"], metal["name"], metal["sign"], metal["most"]) == (
        [0.5, 1.0, 1.5],
        "copper",
        "%",
        pytest.approx(5.898),
    )
    assert shell[blocks["id"]].tolist() == blocks["revenue_factor"].map({0: 0, 0.5: 1, 1.0: 2, 1.5: 3}).tolist()
    assert tint[blocks["id"]].tolist() == blocks["cu"].map({0: 0, 0.8: 35, 0.9: 39, 6: 255}).tolist()
    air = np.setdiff1d(np.arange(450), blocks["id"])
    assert len(air) == 45 and set(shell[air]) == {255} and set(tint[air]) == {0}
    assert len(model["shell_colours"]) == 3 and len(model["grade_colours"]) == 256 and model["stages"] == []
    # The first and the last of matplotlib's YlOrRd.
    assert (model["grade_colours"][0], model["grade_colours"][-1]) == ([255, 255, 204], [128, 0, 38])


def test_the_value_of_a_block_is_that_of_its_best_process():
    """Of 100 to a mill and 70 to a leach; of what pays nowhere the mining alone is lost."""
    blocks = pd.DataFrame(
        {
            "mining_cost": [10.0, 10.0, 10.0],
            "revenue_mill": [150.0, 90.0, 5.0],
            "processing_cost_mill": [50.0, 60.0, 50.0],
        }
    )
    blocks = blocks.assign(revenue_leach=[100.0, 90.0, 5.0], processing_cost_leach=[30.0, 20.0, 20.0])
    assert viewer3d.mined_values(blocks).tolist() == [90, 60, -10]
    one = pd.DataFrame({"mining_cost": [10.0], "revenue": [25.0], "processing_cost": [12.0], "process": ["mill"]})
    assert viewer3d.mined_values(one).tolist() == [3]


@pytest.mark.parametrize(("low", "high", "most"), [(2.0, 4.0, 4.0), (0.0, 0.0, 1.0)])
def test_the_grades_of_a_page_are_by_the_greatest_where_all_hold_metal_or_none_does(solved, low, high, most):
    """Of 405 blocks 5 have the lower grade, and a hundredth of the others lies above the higher one, which they all have."""
    folder = read_folder(solved[1])
    grades = np.where(np.arange(len(folder.blocks)) < 5, low, high)
    (metal,) = viewer3d.model_of(replace(folder, blocks=folder.blocks.assign(cu=grades)))["metals"]
    tint = bytes_of(metal["grade"])[folder.blocks["id"]]
    assert metal["most"] == most and tint.tolist() == np.rint(255 * grades / most).astype(int).tolist()


def test_as_many_factors_as_a_byte_tells_apart_are_shown(solved, monkeypatch):
    folder = read_folder(solved[1])
    monkeypatch.setattr(viewer3d, "MOST_FACTORS", 3)
    viewer3d.model_of(folder)
    monkeypatch.setattr(viewer3d, "MOST_FACTORS", 2)
    with pytest.raises(PlanError, match="the 3D page can show 2 shells, and there are 3"):
        viewer3d.model_of(folder)


def test_the_page_needs_no_other_file(page):
    text = page[0].read_text()
    assert not re.search(r'(src|href)\s*=\s*"', text) and text.count("<script>") == 3


@pytest.mark.parametrize(("name", "colour_map", "ends"), viewer3d.STAGES)
def test_the_colours_of_pushbacks_and_years_darken(name, colour_map, ends):
    """By the luminance of sRGB (IEC 61966-2-1), for whoever does not tell hues apart."""
    linear = (np.array(viewer3d.colours(colour_map, np.linspace(*ends, 30))) / 255) ** 2.2
    assert (np.diff(linear @ [0.2126, 0.7152, 0.0722]) < 0).all(), name


def test_categories_and_values_by_hand(solved):
    """Each block is ore or waste, and the value of a tonne has the colour of its share of the largest."""
    folder = read_folder(solved[1])
    model, blocks = viewer3d.model_of(folder), folder.blocks
    kinds = {kind["name"]: kind for kind in model["kinds"]}
    destination, at = kinds["destination"], blocks["id"].to_numpy()
    found = np.array(["", *destination["labels"]])[bytes_of(destination["cells"])[at]]
    expected = np.where(blocks["revenue"] > blocks["processing_cost"], "ore", "waste")
    assert found.tolist() == np.where(blocks["tonnes"] > 0, expected, "").tolist()
    assert len(destination["colours"]) == 2 and set(kinds) == {"destination", *folder.record["codes"]}
    (value,) = model["amounts"]
    worth = (blocks["revenue"] - blocks["processing_cost"]).clip(lower=0) - blocks["mining_cost"]
    shares = (worth / blocks["tonnes"].where(blocks["tonnes"] > 0, 1) / value["most"]).clip(0, 1)
    assert bytes_of(value["grade"])[at].tolist() == pytest.approx((shares * 255).tolist(), abs=0.51)
    assert value["sign"] == "USD per t"


def test_many_codes_share_the_last_colour(solved, monkeypatch):
    folder = read_folder(solved[1])
    codes = np.array([f"R{number % 20}" for number in range(len(folder.blocks))])
    solid = np.ones(len(codes), dtype=bool)
    kind = viewer3d.kind_of(folder, "rock", codes, solid)
    assert len(kind["labels"]) == len(kind["colours"]) == len(viewer3d.PALETTE) and kind["labels"][-1] == "others"
    assert max(gzip.decompress(base64.b64decode(kind["cells"]))) == len(viewer3d.PALETTE)
