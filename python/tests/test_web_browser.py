"""The browser application in Chromium: from a project to its results by clicks, and jobs that outlive page and server."""

import json

import pytest
from conftest import PROJECT, rows
from helpers.browser_clicks import (
    CSS,
    ENTER,
    ID,
    LINK,
    NEEDED,
    TAG,
    Server,
    chromium,
    click,
    complaints,
    enter,
    start,
    status_of,
    steps_of,
    wait,
    words_of,
)
from helpers.pushbacks import PUSHBACKS, pillars

pytestmark = NEEDED


@pytest.fixture(scope="module")
def driver():
    with chromium() as found:
        yield found


@pytest.fixture
def root(tmp_path):
    folder = tmp_path.resolve() / "mines"
    folder.mkdir()
    pillars().to_csv(folder / "blocks.csv", index=False)
    (folder / "project.toml").write_text(PUSHBACKS)
    return folder


@pytest.fixture
def server(root):
    found = Server(root)
    yield found
    found.kill()


@pytest.mark.slow
def test_from_a_project_to_a_schedule_by_clicks(driver, server, root):
    enter(driver, server)
    complaints(driver)
    click(driver, "Test hill")
    start(driver, "schedule")
    wait(driver, lambda it: status_of(it) == "done")
    assert any(it.startswith("verifying") and it.endswith(" s") for it in steps_of(driver))
    assert driver.find_element(ID, "command").text == "pitplan schedule project.toml --out=plan/schedule"
    click(driver, "Show results")
    figures = driver.find_elements(CSS, "figure img")
    assert len(figures) >= 6
    driver.execute_script("arguments[0].scrollIntoView()", figures[0])
    wait(driver, lambda it: it.execute_script("return arguments[0].naturalWidth", figures[0]) > 100)
    click(driver, "years.csv")
    heading = next(it for it in driver.find_elements(CSS, "th") if it.text.startswith("total_tonnes"))
    assert heading.text == "total_tonnes (t)"
    for direction in ("ascending", "descending"):
        heading.send_keys(ENTER)
        assert heading.get_attribute("aria-sort") == direction
    place = heading.get_property("cellIndex")
    numbers = driver.execute_script(
        f"return Array.from(document.querySelectorAll('#rows tbody tr'), row => Number(textOf(row.cells[{place}])))"
    )
    assert numbers == sorted(numbers, reverse=True) and len(set(numbers)) > 1
    driver.find_element(ID, "filter").send_keys("best")
    shown = [it for it in driver.find_elements(CSS, "#rows tbody tr") if it.is_displayed()]
    assert shown and all("best" in it.text for it in shown) and len(shown) < len(numbers)
    assert complaints(driver) == []
    record = json.loads((root / "plan/schedule/plan.json").read_text())
    assert record["schedule"] in ("rule", "lp") and record["verified"]


@pytest.mark.slow
def test_the_report_opens_in_a_sandbox(driver, server, root):
    enter(driver, server)
    click(driver, "Test hill")
    start(driver, "shells")
    wait(driver, lambda it: status_of(it) == "done")
    click(driver, "Show results")
    driver.get(driver.find_element(LINK, "Report").get_attribute("href"))
    assert "Test hill" in driver.title and driver.find_elements(TAG, "img")
    assert driver.execute_script("return window.origin") == "null"


@pytest.fixture
def large(root):
    """A project whose sensitivity takes much longer than the test."""
    table = rows(40, 40, 20, cu=lambda i, j, k: (i * 7 + j * 5 + k * 3) % 11 / 6)
    table.to_csv(root / "blocks.csv", index=False)
    text = PROJECT.replace("processing_capacity = 100", "processing_capacity = 300_000")
    (root / "project.toml").write_text(text)
    return root


@pytest.mark.slow
def test_a_job_is_seen_again_after_a_reload_and_cancelled(driver, large, server):
    enter(driver, server)
    click(driver, "Test hill")
    start(driver, "sensitivity")
    wait(driver, lambda it: status_of(it) == "running" and steps_of(it))
    driver.refresh()
    assert status_of(driver) == "running" and steps_of(driver)
    driver.find_element(CSS, "#cancel button").click()
    wait(driver, lambda it: status_of(it) == "cancelled")
    assert not driver.find_element(ID, "cancel").is_displayed()
    assert "interrupted" in driver.find_element(ID, "log").text
    assert not (large / "plan/sensitivity/sensitivity.json").exists()


@pytest.mark.slow
def test_a_server_that_is_killed_finds_its_jobs_again(driver, large):
    first = Server(large)
    try:
        enter(driver, first)
        click(driver, "Test hill")
        start(driver, "sensitivity")
        wait(driver, lambda it: status_of(it) == "running")
    finally:
        first.kill()
    second = Server(large, first.port)
    try:
        # The token of the server before opens nothing.
        driver.get(f"{second.address}/jobs")
        assert "Open the address that pitplan serve has printed" in driver.page_source
        enter(driver, second)
        click(driver, "Jobs")
        click(driver, "1")
        assert status_of(driver) == "running"
        driver.find_element(CSS, "#cancel button").click()
        wait(driver, lambda it: status_of(it) == "cancelled")
    finally:
        second.kill()


@pytest.fixture
def model(tmp_path):
    """A block model as a package exports it."""
    table = rows(8, 8, 4, cu=lambda i, j, k: 2.0 if k == 1 and i == 4 else 0.0).rename(columns={"cu": "CU_PCT"})
    table.to_csv(tmp_path / "North Hill.csv", index=False)
    return tmp_path / "North Hill.csv"


def send(driver, model, folder=None):
    """Chooses a file, names the mine if a name is given, and imports it."""
    driver.find_element(ID, "file").send_keys(str(model))
    if folder is not None:
        driver.find_element(ID, "folder").clear()
        driver.find_element(ID, "folder").send_keys(folder)
    driver.find_element(ID, "send").click()


def test_an_import_that_is_refused_or_fails_says_what_to_do(driver, server, root, model):
    enter(driver, server)
    click(driver, "Import")
    send(driver, model, "../elsewhere")
    wait(driver, lambda it: "without / and" in it.find_element(ID, "problem").text)
    model.write_text("a,b\n1,2\n")
    driver.refresh()
    send(driver, model, "hill")
    wait(driver, lambda it: status_of(it) == "failed")
    assert "found no column for x and y and z" in driver.find_element(ID, "log").text
    assert driver.find_element(ID, "failed").is_displayed() and not driver.find_element(ID, "busy").is_displayed()
    driver.find_element(ID, "failed").find_element(TAG, "a").click()
    wait(driver, lambda it: it.current_url.endswith("/import"))
    # Its file and folder are removed, so the name is free.
    assert not (root / "hill").exists()
    (root / "hill").mkdir()
    (root / "hill" / model.name).write_text("")
    send(driver, model, "hill")
    wait(driver, lambda it: "hill: has a file North Hill.csv already" in it.find_element(ID, "problem").text)
    # The form can be sent again.
    assert driver.find_element(ID, "send").is_enabled()


def test_a_file_is_dropped(driver, server, root):
    enter(driver, server)
    click(driver, "Import")
    text = rows(4, 4, 2, cu=lambda i, j, k: k).to_csv(index=False)
    script = """
        const data = new DataTransfer();
        data.items.add(new File([arguments[0]], "dropped.csv"));
        document.getElementById("drop").dispatchEvent(new DragEvent("drop", { dataTransfer: data, cancelable: true }));
    """
    driver.execute_script(script, text)
    assert driver.find_element(ID, "drop").text == "Dropped: dropped.csv"
    assert driver.find_element(ID, "folder").get_attribute("value") == "dropped"
    # Elsewhere on the page it does not take the page's place.
    elsewhere = "return document.body.dispatchEvent(new DragEvent('drop', { bubbles: true, cancelable: true }))"
    assert driver.execute_script(elsewhere) is False
    driver.find_element(ID, "send").click()
    wait(driver, lambda it: "/imported" in it.current_url)
    assert (root / "dropped" / "dropped.csv").read_text() == text and (root / "dropped" / "project.toml").is_file()


def type_over(driver, old, new):
    """Changes the text of the project."""
    text = driver.find_element(ID, "text").get_attribute("value")
    assert text.count(old) == 1
    script = """
        const field = document.getElementById("text");
        field.value = arguments[0];
        field.dispatchEvent(new Event("input"));
    """
    driver.execute_script(script, text.replace(old, new))


def selected(driver):
    """The words of the text that are selected."""
    return driver.execute_script(
        "const it = document.activeElement; return (it.value || '').slice(it.selectionStart, it.selectionEnd)"
    )


def test_a_project_is_edited_checked_and_saved(driver, server, root):
    path = root / "project.toml"
    path.write_text(PUSHBACKS.replace("[economics]", "[economics]  # mine"))
    before = path.read_text()
    enter(driver, server)
    complaints(driver)
    click(driver, "Test hill")
    click(driver, "Edit the project")
    type_over(driver, "mining_cost = ", "mining_cost = -")
    assert driver.find_element(ID, "unsaved").text == "not saved yet"
    driver.find_element(ID, "check").click()
    wait(driver, lambda it: words_of(it, "wrong"))
    wrong = words_of(driver, "wrong")
    number = 1 + next(n for n, it in enumerate(before.splitlines()) if it.startswith("mining_cost"))
    assert wrong.startswith(f"project.toml:{number}: [economics] mining_cost: ")
    wait(driver, lambda it: selected(it).startswith("mining_cost = -"))
    driver.find_element(ID, "save").click()
    wait(driver, lambda it: it.current_url.endswith("/project/save#editor") and words_of(it, "wrong") == wrong)
    assert path.read_text() == before
    type_over(driver, "mining_cost = -", "mining_cost = 1")
    driver.find_element(ID, "check").click()
    wait(driver, lambda it: words_of(it, "said") == "No errors. The text is not saved yet.")
    # The keys that save in any editor.
    driver.find_element(ID, "text").send_keys("\ue009" + "s")
    wait(driver, lambda it: words_of(it, "said") == "Saved.")
    assert path.read_text() == before.replace("mining_cost = ", "mining_cost = 1")
    # The texts that are refused come with the status 422, which the browser reports.
    assert all("status of 422" in it for it in complaints(driver))


def test_a_project_that_has_changed_meanwhile_is_kept(driver, server, root):
    enter(driver, server)
    click(driver, "Test hill")
    theirs = PUSHBACKS + "# theirs\n"
    (root / "project.toml").write_text(theirs)
    type_over(driver, "mining_cost = ", "mining_cost = 1")
    driver.find_element(ID, "save").click()
    wait(driver, lambda it: "has changed since this page was opened" in words_of(it, "wrong"))
    assert "mining_cost = 1" in driver.find_element(ID, "text").get_attribute("value")
    assert (root / "project.toml").read_text() == theirs


def test_numbers_are_changed_by_their_form(driver, server, root):
    before = (root / "project.toml").read_text()
    enter(driver, server)
    click(driver, "Test hill")
    for number, name in (("x", "wrong-value"), ("3.25", "said-value")):
        field = driver.find_element(ID, "value:economics.mining_cost")
        assert driver.find_element(CSS, "label[for='value:economics.mining_cost']").text == "Mining cost"
        field.clear()
        field.send_keys(number)
        driver.find_element(ID, "save-values").click()
        wait(driver, lambda it: words_of(it, name))
    assert words_of(driver, "said-value") == "Saved."
    after = (root / "project.toml").read_text()
    changes = [(old, new) for old, new in zip(before.splitlines(), after.splitlines(), strict=True) if old != new]
    assert len(changes) == 1 and changes[0][1].startswith("mining_cost = 3.25")
    start(driver, "check")
    wait(driver, lambda it: status_of(it) == "done")


def test_a_wrong_form_says_what_to_do(driver, server):
    enter(driver, server)
    click(driver, "Test hill")
    driver.find_element(ID, "shells-folder").send_keys("../elsewhere")
    driver.find_element(CSS, "details:has(#shells-folder) button").click()
    wait(driver, lambda it: it.find_elements(CSS, "[role=alert]"))
    assert "expected a folder below the one that is served" in driver.find_element(CSS, "[role=alert]").text
