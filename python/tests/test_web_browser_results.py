"""Results in Chromium: a shell is chosen on the chart, blocks are browsed by sliders, and the 3D view is embedded."""

import json

import pytest
import tomllib
from conftest import PROJECT, rows
from helpers.browser_clicks import (
    CSS,
    ENTER,
    ID,
    NEEDED,
    Server,
    chromium,
    click,
    complaints,
    enter,
    status_of,
    wait,
    words_of,
)
from helpers.writings import UNVERIFIED

import pitplan

RIGHT = "\ue014"
pytestmark = NEEDED
TEXT = PROJECT.replace("revenue_factors = [0.5, 1.0, 1.5]", "revenue_factors = [0.4, 0.6, 0.8, 1.0]")


@pytest.fixture(scope="module")
def driver():
    with chromium() as found:
        yield found


@pytest.fixture(scope="module")
def server(tmp_path_factory):
    folder = tmp_path_factory.mktemp("served").resolve() / "mines"
    folder.mkdir()
    rows(12, 10, 6, cu=lambda i, j, k: (i * 7 + j * 5 + k * 3) % 11 / 4).to_csv(folder / "blocks.csv", index=False)
    (folder / "project.toml").write_text(TEXT)
    pitplan.write_shells(folder / "project.toml", writing=UNVERIFIED)
    found = Server(folder)
    found.root = folder
    yield found
    found.kill()


def test_a_shell_and_pushbacks_are_chosen_on_the_chart(driver, server):
    enter(driver, server)
    complaints(driver)
    click(driver, "Shells")
    button = driver.find_element(ID, "save-choice")
    assert not button.is_enabled()
    bars = driver.find_elements(CSS, "figure[data-choose] .hit")
    assert [it.get_attribute("data-category") for it in bars] == ["0.40", "0.60", "0.80", "1.00"]
    bars[1].click()
    assert words_of(driver, "chosen") == "0.60" and bars[1].get_attribute("aria-pressed") == "true"
    # By keys.
    bars[1].send_keys(RIGHT)
    driver.switch_to.active_element.send_keys(ENTER)
    assert words_of(driver, "chosen") == "0.80"
    assert "revenue factor 0.80: in-situ ore" in driver.find_element(CSS, "figure[data-choose] .chart-says").text
    button.click()
    wait(driver, lambda it: "saved=schedule" in it.current_url)
    assert tomllib.loads((server.root / "project.toml").read_text())["shells"]["selected"] == 0.8
    driver.back()
    driver.refresh()
    driver.find_element(ID, "use-pushbacks").click()
    for number in (0, 3):
        driver.find_elements(CSS, "figure[data-choose] .hit")[number].click()
    assert words_of(driver, "chosen") == "0.40, 1.00"
    driver.find_element(ID, "save-choice").click()
    wait(driver, lambda it: "saved=schedule" in it.current_url)
    project = tomllib.loads((server.root / "project.toml").read_text())
    assert project["pushbacks"] == {"revenue_factors": [0.4, 1.0]} and complaints(driver) == []
    (server.root / "project.toml").write_text(TEXT)


def slide(driver, name, value):
    script = "const it = document.getElementById(arguments[0]); it.value = arguments[1]; it.dispatchEvent(new Event('input'))"
    driver.execute_script("delete document.body.dataset.milliseconds")
    driver.execute_script(script, name, value)
    wait(driver, lambda it: it.execute_script("return document.body.dataset.milliseconds"))


def pixel(driver, x, y):
    """The colour of the plan in the middle of a block, from the south-west corner."""
    script = """
        const view = app.views[0], pen = view.canvas.getContext("2d");
        const px = view.left + (arguments[0] + 0.25) * view.step * view.scale;
        const py = view.top + (view.high - arguments[1] - 0.25) * view.rise * view.scale;
        return Array.from(pen.getImageData(px * view.ratio, py * view.ratio, 1, 1).data);
    """
    return driver.execute_script(script, x, y)


def test_blocks_are_browsed_by_sliders(driver, server):
    enter(driver, server)
    complaints(driver)
    driver.get(f"{server.address}/blocks?name=plan")
    wait(driver, lambda it: it.execute_script("return document.body.dataset.milliseconds"))
    slide(driver, "bench", 0)
    assert driver.find_element(ID, "bench-at").text == "toe 0 m"
    driver.find_element(CSS, "#outline option[value='0']").click()
    # The grade of the block at the place (4, 2, 0), and of that with the least: the ends of the colours.
    grade = {(i, j): (i * 7 + j * 5) % 11 / 4 for i in range(12) for j in range(10)}
    least, most = (next(it for it, value in grade.items() if value == end and it != (6, 5)) for end in (0, 2.5))
    slide(driver, "bench", 0)
    gradient = driver.execute_script("return app.model.info.gradient")
    for place, shade in ((least, gradient[0]), (most, gradient[-1])):
        assert "#" + "".join(f"{part:02x}" for part in pixel(driver, *place)[:3]) == shade
    driver.find_element(CSS, "#colour option[value='rock']").click()
    wait(driver, lambda it: it.find_element(ID, "legend").text == "R")
    # A click on the plan moves the sections, and shows the row of the block.
    plan = driver.find_element(ID, "plan")
    plan.click()
    wait(driver, lambda it: it.find_elements(CSS, "#row-fields dt"))
    assert "rock R" in driver.find_element(ID, "under").text
    before = driver.find_element(ID, "column-at").text
    plan.send_keys(RIGHT)
    wait(driver, lambda it: it.find_element(ID, "column-at").text != before)
    # The test itself reads pixels often.
    assert [it for it in complaints(driver) if "getImageData" not in it] == []


def test_the_time_of_a_slider_with_300_000_blocks(driver, server):
    """The arrays of the page are exchanged for those of 100 x 60 x 50 blocks. A bench takes less time than 600 sums over all of them."""
    enter(driver, server)
    driver.get(f"{server.address}/blocks?name=plan")
    wait(driver, lambda it: it.execute_script("return document.body.dataset.milliseconds"))
    script = """
        const info = { ...app.model.info, shape: [50, 60, 100], corner: [0, 0, 500] }, count = 300000;
        const model = new Model(info, Uint32Array.from({ length: count }, (_, k) => k));
        const values = Float32Array.from({ length: count }, (_, k) => (k % 97) / 40);
        model.known.set("revenue_factor", { ...app.factor, values: values.map((it) => (it > 1 ? 0.6 : 0)) });
        model.known.set("cu", { ...app.column, values });
        app = new App(model);
        el("colour").replaceChildren();
        el("outline").replaceChildren(new Option("none", 0));
        const begun = performance.now();
        let sum = 0;
        for (let pass = 0; pass < 20; pass += 1) for (let k = 0; k < count; k += 1) sum += values[k];
        const took = sum > 0 ? performance.now() - begun : NaN;
        return app.start().then(() => took);
    """
    sums, times = driver.execute_script(script), []
    for bench in (3, 20, 44):
        slide(driver, "bench", bench)
        times.append(float(driver.execute_script("return document.body.dataset.milliseconds")))
    assert min(times) < 30 * sums


def test_null_grades_are_grey_and_the_page_begins_at_the_richest_block(driver, server):
    """The first block of the table is null. Its place is grey, and the sections begin at the greatest grade that is known."""
    folder = server.root / "nulls"
    folder.mkdir()
    table = rows(12, 10, 2, cu=lambda i, j, k: -99 if i < 3 else 2.0 if (i, j, k) == (7, 4, 1) else 0.0)
    table.to_csv(folder / "blocks.csv", index=False)
    nulls = TEXT.replace("[table]\n", '[table]\nempty = "zero"\nnull_values = [-99]\n', 1)
    (folder / "project.toml").write_text(nulls)
    enter(driver, server)
    driver.get(f"{server.address}/blocks?name=nulls/project.toml")
    wait(driver, lambda it: it.execute_script("return document.body.dataset.milliseconds"))
    assert (
        driver.find_element(ID, "bench-at").text == "toe 10 m"
        and driver.find_element(ID, "column-at").text == "east 75 m"
    )
    assert pixel(driver, 1, 1)[:3] == [0x9A, 0x9A, 0x9A] != pixel(driver, 5, 1)[:3]
    assert "null, read as 0: 60 blocks" in driver.find_element(ID, "legend").text
    assert driver.execute_script("return app.words(0)") == "cu null, read as 0"


@pytest.mark.slow
def test_the_3d_view_is_made_and_embedded_and_a_table_is_exported(driver, server):
    enter(driver, server)
    complaints(driver)
    click(driver, "Shells")
    driver.find_element(CSS, "form[action='/result/view'] button").click()
    wait(driver, lambda it: status_of(it) == "done")
    click(driver, "Show results")
    frame = driver.find_element(CSS, "iframe.view")
    driver.execute_script("arguments[0].scrollIntoView()", frame)
    driver.switch_to.frame(frame)
    wait(driver, lambda it: it.find_elements(CSS, "canvas"))
    assert driver.execute_script("return window.origin") == "null"
    driver.switch_to.default_content()
    driver.find_element(CSS, "#to option[value='table']").click()
    driver.find_element(CSS, "form[action='/result/export'] button").click()
    wait(driver, lambda it: status_of(it) == "done")
    assert driver.find_element(ID, "command").text == "pitplan export plan --to=table"
    click(driver, "Show results")
    assert driver.find_element("link text", "table.csv")
    assert json.loads((server.root / "plan/plan.json").read_text())["shells"]
    assert [it for it in complaints(driver) if "WebGL" not in it and "GPU" not in it] == []
