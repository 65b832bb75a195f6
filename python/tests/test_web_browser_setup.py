"""Projects that are set up in Chromium: roles of columns on import, and grids that are filled by keyboard and paste."""

import pytest
import tomllib
from conftest import rows
from helpers.browser_clicks import (
    CSS,
    ID,
    NEEDED,
    Server,
    chromium,
    click,
    complaints,
    enter,
    start,
    status_of,
    submit,
    wait,
    words_of,
)
from helpers.pushbacks import PUSHBACKS, pillars

DOWN, UP, RIGHT, TAB, ENTER = "\ue015", "\ue013", "\ue014", "\ue004", "\ue007"
pytestmark = NEEDED


@pytest.fixture(scope="module")
def driver():
    with chromium() as found:
        yield found


@pytest.fixture(scope="module")
def server(tmp_path_factory):
    folder = tmp_path_factory.mktemp("served").resolve() / "mines"
    folder.mkdir()
    pillars().to_csv(folder / "blocks.csv", index=False)
    (folder / "project.toml").write_text(PUSHBACKS)
    found = Server(folder)
    found.root = folder
    yield found
    found.kill()


def saved(driver, kind):
    submit(driver, driver.find_element(CSS, f"#{kind} button[type=submit]"))
    return words_of(driver, f"wrong-{kind}")


def paste(driver, cell, text):
    """Pastes a text, as a spreadsheet has copied it."""
    script = """
        const data = new DataTransfer();
        data.setData("text/plain", arguments[1]);
        arguments[0].dispatchEvent(new ClipboardEvent("paste", { clipboardData: data, bubbles: true, cancelable: true }));
    """
    driver.execute_script(script, cell, text)


def may_leave(driver):
    """Whether the page can be left without a question."""
    return driver.execute_script("return window.dispatchEvent(new Event('beforeunload', { cancelable: true }))")


def focused(driver):
    return driver.execute_script("return document.activeElement.getAttribute('aria-label')")


def test_periods_are_typed_pasted_and_saved(driver, server):
    path = server.root / "project.toml"
    before = path.read_text()
    enter(driver, server)
    complaints(driver)
    click(driver, "Test hill")
    driver.find_element(CSS, "#periods summary").click()
    cell = driver.find_element(CSS, "#periods td input")
    assert may_leave(driver)
    cell.send_keys("2")
    assert not may_leave(driver)
    assert len(driver.find_elements(CSS, "#periods tbody tr")) == 2
    cell.send_keys(DOWN)
    assert focused(driver) == "Period 2, Years, years"
    driver.switch_to.active_element.send_keys("1", ENTER, UP, RIGHT)
    assert focused(driver).startswith("Period 1, Mining capacity") or focused(driver).startswith("Period 2, Mining")
    paste(driver, cell, "years\tprices.copper\tcapex\r\n2\t8000\t1,250,000.5\r\n1\t8400\t\r\n3\t\t10\r\n")
    assert saved(driver, "periods") == ""
    new = "\n[[periods]]\nyears = 2\nprices = { copper = 8000 }\ncapex = 1250000.5\n"
    new += "\n[[periods]]\nyears = 1\nprices = { copper = 8400 }\n\n[[periods]]\nyears = 3\ncapex = 10\n"
    assert path.read_text() == before.rstrip("\n") + "\n" + new
    # The grid is open, and a row is removed.
    driver.find_element(CSS, "#periods tbody tr:nth-child(2) .remove").click()
    assert saved(driver, "periods") == ""
    assert [it["years"] for it in tomllib.loads(path.read_text())["periods"]] == [2, 3]
    # Cells of a column that was not shown.
    driver.find_element(CSS, "#periods .more select option[value='minimum.total']").click()
    assert focused(driver).startswith("Period 1, Minimum total")
    driver.switch_to.active_element.send_keys("x", TAB)
    assert "Periods, row 1, Minimum total: found 'x'" in saved(driver, "periods")
    assert all("status of 422" in it for it in complaints(driver))
    path.write_text(before)


@pytest.mark.slow
def test_a_role_of_a_column_is_changed_and_the_project_follows(driver, server, tmp_path):
    table = rows(6, 6, 3, cu=lambda i, j, k: 2.0 if k == 1 and i == 4 else 0.0).rename(columns={"cu": "CU_PCT"})
    table.assign(SEAM="S1").to_csv(tmp_path / "east.csv", index=False)
    enter(driver, server)
    complaints(driver)
    click(driver, "Import")
    driver.find_element(ID, "file").send_keys(str(tmp_path / "east.csv"))
    driver.find_element(ID, "send").click()
    wait(driver, lambda it: "/imported" in it.current_url)
    button = driver.find_element(ID, "write-roles")
    assert not button.is_enabled()
    driver.find_element(CSS, "select[name='role:SEAM'] option[value='tonnes']").click()
    wait(driver, lambda it: '"S1" is not a number' in words_of(it, "wrong-role"))
    assert not button.is_enabled()
    driver.find_element(CSS, "select[name='role:SEAM'] option[value='domain']").click()
    wait(driver, lambda it: it.find_elements(CSS, "#preview-text mark"))
    marked = [it.text for it in driver.find_elements(CSS, "#preview-text mark")]
    assert any(it.startswith('domain = "SEAM"') for it in marked) and words_of(driver, "wrong-role") == ""
    button.click()
    wait(driver, lambda it: "/imported?number=2" in it.current_url)
    assert tomllib.loads((server.root / "east/project.toml").read_text())["table"]["domain"] == "SEAM"
    assert all("status of 400" in it for it in complaints(driver))
    click(driver, "Open the project")
    start(driver, "check")
    wait(driver, lambda it: status_of(it) == "done")


def test_an_area_is_drawn_on_the_plan(driver, server):
    before = (server.root / "project.toml").read_text()
    enter(driver, server)
    complaints(driver)
    driver.get(f"{server.address}/blocks?name=project.toml")
    wait(driver, lambda it: it.execute_script("return document.body.dataset.milliseconds"))
    driver.find_element(ID, "area-name").send_keys("west")
    driver.find_element(ID, "draw").click()
    # The corners of the block in the west, by clicks near its corners.
    script = """
        const view = app.views[0], area = view.canvas.getBoundingClientRect();
        for (const [x, y] of [[0.1, 0.1], [0.9, 0.1], [0.9, 0.9], [0.1, 0.9]]) {
          const at = { clientX: area.left + view.left + x * view.step * view.scale, clientY: area.top + view.top + y * view.rise * view.scale };
          view.canvas.dispatchEvent(new MouseEvent("click", { ...at, bubbles: true }));
        }
    """
    driver.execute_script(script)
    assert driver.find_element(ID, "drawing").text == "4 corners"
    driver.find_element(ID, "save-area").click()
    wait(
        driver,
        lambda it: (server.root / "west.csv").is_file() and "constraints" in (server.root / "project.toml").read_text(),
    )
    lines = (server.root / "west.csv").read_text().splitlines()
    assert lines[0] == "x,y" and len(lines) == 5 and lines[1] == "1.000,9.000"
    wait(
        driver,
        lambda it: it.execute_script("return typeof app === 'object' && app && app.model.info.areas.length") == 1,
    )
    assert complaints(driver) == []
    (server.root / "project.toml").write_text(before)


def test_a_file_that_is_refused_while_it_is_sent_says_why(driver, server, tmp_path):
    """The folder of unfinished files cannot be made; the browser has a large file to send."""
    (tmp_path / "large.csv").write_bytes(b"x,y,z\n" + b"1,2,3\n" * 2_000_000)
    enter(driver, server)
    waiting = server.root / ".pitplan-serve" / "uploads"
    kept = waiting.rename(waiting.with_name("kept")) if waiting.exists() else None
    waiting.parent.mkdir(exist_ok=True)
    waiting.write_text("")
    click(driver, "Import")
    driver.find_element(ID, "file").send_keys(str(tmp_path / "large.csv"))
    driver.find_element(ID, "send").click()
    wait(driver, lambda it: words_of(it, "problem"))
    assert words_of(driver, "problem").startswith(
        "large/large.csv: cannot be written: File exists: free space, or check"
    )
    waiting.unlink()
    if kept:
        kept.rename(waiting)
    assert not (server.root / "large").exists() and driver.find_element(ID, "send").is_enabled()
