"""The whole way of a planner in Chromium: from a vendor's export to pit shells, a schedule, its workbook and its report, by clicks alone."""

import io
import json

import openpyxl
import pytest
import tomllib
from conftest import rows
from helpers.browser_clicks import (
    CSS,
    ID,
    LINK,
    NEEDED,
    TAG,
    Server,
    chromium,
    click,
    complaints,
    enter,
    start,
    status_of,
    submit,
    wait,
    words_of,
)

SIZES = ((1366, 768), (1024, 768), (768, 1024))
pytestmark = NEEDED


@pytest.fixture(scope="module")
def driver():
    with chromium() as found:
        yield found


@pytest.fixture(scope="module")
def server(tmp_path_factory):
    folder = tmp_path_factory.mktemp("served").resolve() / "mines"
    folder.mkdir()
    found = Server(folder)
    found.root = folder
    yield found
    found.kill()


@pytest.fixture
def export(tmp_path):
    """A block model as Vulcan exports it: four lines of headers, -99 where nothing is known, and codes as numbers."""
    table = rows(10, 9, 6, cu=lambda i, j, k: max(0.0, 2.4 - 0.5 * abs(i - 5) - 0.4 * abs(j - 4) - 0.3 * abs(k - 3)))
    names = {
        "x": "centroid_x",
        "y": "centroid_y",
        "z": "centroid_z",
        "cu": "cu_ok",
        "rock": "litho",
        "region": "geotech",
    }
    table = table.rename(columns=names).drop(columns=["name", "tonnes"])
    table["density"] = 2.6
    table.loc[table["cu_ok"] == 0, "cu_ok"] = -99
    kinds = ["name" if name in ("litho", "geotech") else "double" for name in table]
    head = [
        ",".join(table),
        f"Variable descriptions:{',' * (len(kinds) - 1)}",
        f"Variable types:,{','.join(kinds[1:])}",
    ]
    head.append("Variable defaults:," + ",".join("-99" if name == "cu_ok" else "0" for name in list(table)[1:]))
    (tmp_path / "north pit.csv").write_text("\n".join([*head, table.to_csv(index=False, header=False)]))
    return tmp_path / "north pit.csv"


def set_number(driver, label, number):
    """Enters a number by the label of its field."""
    found = next(it for it in driver.find_elements(CSS, ".values label") if it.text == label)
    field = driver.find_element(ID, found.get_attribute("for"))
    field.clear()
    field.send_keys(number)


def saved(driver, form):
    submit(driver, driver.find_element(ID, f"save-{form}"))
    assert (words_of(driver, "said-value"), words_of(driver, "wrong-value")) == ("Saved.", "")


def run(driver, command):
    """Runs a command without figures, which other tests draw."""
    form = driver.find_element(CSS, f"details:has(input[name=command][value={command}])")
    driver.execute_script("arguments[0].open = true", form)
    form.find_element(CSS, "input[name=figures]").click()
    start(driver, command)
    wait(driver, lambda it: status_of(it) in ("done", "failed"))
    assert status_of(driver) == "done", words_of(driver, "log")
    click(driver, "Show results")


def download(driver, words):
    """The bytes of a file by its link, as the browser gets them."""
    script = """
        const done = arguments[1];
        fetch(arguments[0]).then((it) => it.arrayBuffer()).then((it) => done(Array.from(new Uint8Array(it))));
    """
    return bytes(driver.execute_async_script(script, driver.find_element(LINK, words).get_attribute("href")))


def unlabelled(driver):
    """Fields and pictures on the page that a screen reader cannot name, and whether the page is wider than the screen."""
    script = """
        const fields = Array.from(document.querySelectorAll("input:not([type=hidden]), select, textarea, button, canvas, iframe"));
        const named = (it) => (it.labels && it.labels.length) || it.getAttribute("aria-label") || it.title || it.textContent.trim();
        const pictures = Array.from(document.querySelectorAll("img")).filter((it) => !it.alt);
        const wide = document.documentElement.scrollWidth > document.documentElement.clientWidth ? ["wide"] : [];
        const legend = (it) => it.closest(".legend, [aria-hidden]");
        return [...fields.filter((it) => !named(it) && !legend(it)), ...pictures].map((it) => it.outerHTML).concat(wide);
    """
    return driver.execute_script(script)


@pytest.mark.slow
def test_from_a_vendors_export_to_a_schedule_and_its_workbook(driver, server, export):
    driver.set_script_timeout(60)
    enter(driver, server)
    complaints(driver)
    click(driver, "Import a block model")
    driver.find_element(ID, "file").send_keys(str(export))
    driver.find_element(ID, "send").click()
    wait(driver, lambda it: "/imported" in it.current_url)
    assert driver.find_element(CSS, "select[name='role:cu_ok']").get_attribute("value") == "copper:percent"
    assert "are null (-99" in driver.find_element(ID, "warned").text
    figure = driver.find_element(CSS, "figure img")
    wait(driver, lambda it: it.execute_script("return arguments[0].naturalWidth", figure) > 100)
    assert (server.root / "north pit/north pit.csv").read_bytes() == export.read_bytes()
    click(driver, "Open the project")
    for label, number in (("Price of copper", "8200"), ("Mining cost", "2.1"), ("Processing capacity", "200000")):
        set_number(driver, label, number)
    saved(driver, "values")
    driver.find_element(CSS, "#schedule summary").click()
    set_number(driver, "Number of pushbacks", "2")
    set_number(driver, "Bench lag between pushbacks", "1")
    saved(driver, "schedule")
    run(driver, "shells")
    bars = driver.find_elements(CSS, "figure[data-choose] .hit")
    bars[len(bars) // 2].click()
    chosen = words_of(driver, "chosen")
    driver.find_element(ID, "save-choice").click()
    wait(driver, lambda it: "saved=schedule" in it.current_url)
    run(driver, "schedule")
    project = tomllib.loads((server.root / "north pit/project.toml").read_text())
    assert project["shells"]["selected"] == float(chosen) and project["pushbacks"] == {"count": 2}
    assert json.loads((server.root / "north pit/plan/schedule/plan.json").read_text())["verified"]
    sheet = openpyxl.load_workbook(io.BytesIO(download(driver, "Workbook")), read_only=True)
    assert {"cash_flow", "reserves", "schedule"} <= set(sheet.sheetnames)
    assert len(driver.find_elements(CSS, "figure.chart svg .hit")) > 6 and complaints(driver) == []
    driver.get(driver.find_element(LINK, "Report").get_attribute("href"))
    assert "north pit" in driver.title and "Net present value" in driver.find_element(TAG, "body").text


def test_pages_fit_screens_and_have_labels(driver, server):
    """After the way above; each page at each size, light and dark."""
    enter(driver, server)
    name = "north%20pit"
    pages = [
        "/",
        "/import",
        "/imported?number=1",
        "/jobs",
        "/job?number=2",
        "/compare",
        f"/project?name={name}/project.toml",
    ]
    pages += [f"/result?name={name}/plan/schedule", f"/table?name={name}/plan/schedule/tables/cash_flow.csv"]
    pages += [f"/blocks?name={name}/plan/schedule", f"/blocks?name={name}/project.toml"]
    for page in pages:
        driver.get(server.address + page)
        if "/blocks" in page:
            wait(driver, lambda it: it.execute_script("return document.body.dataset.milliseconds"))
        driver.execute_script("for (const it of document.querySelectorAll('details')) { it.open = true; }")
        for wide, high in SIZES:
            size = {"width": wide, "height": high, "deviceScaleFactor": 1, "mobile": False}
            driver.execute_cdp_cmd("Emulation.setDeviceMetricsOverride", size)
            assert unlabelled(driver) == [], (page, wide)
    driver.execute_cdp_cmd("Emulation.clearDeviceMetricsOverride", {})
