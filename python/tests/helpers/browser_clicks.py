"""The browser application in Chromium: a server in a process of its own, and what clicks in its pages share."""

import os
import shutil
import signal
import subprocess
import sys
import time
from contextlib import contextmanager

import pytest
from browser import CHROMIUM, needs_chromium

from pitplan.core import paths

DRIVER = shutil.which("chromedriver")
NEEDED = [needs_chromium, pytest.mark.skipif(DRIVER is None, reason="needs the Debian package chromium-driver")]
# How elements are found, and the key that clicks.
ID, CSS, LINK, TAG, ENTER = "id", "css selector", "link text", "tag name", "\ue007"


class Server:
    """A server of a folder, in a process of its own."""

    def __init__(self, root, port=0):
        words = [sys.executable, "-P", "-m", "pitplan", "serve", str(root), "--no-browser", "--port", str(port)]
        environment = {**os.environ, "PYTHONPATH": str(paths.PACKAGES)}
        self.process = subprocess.Popen(words, stderr=subprocess.PIPE, text=True, env=environment)
        self.process.stderr.readline()
        self.opening = self.process.stderr.readline().strip()
        self.address = self.opening.partition("/enter")[0]

    @property
    def port(self):
        return int(self.address.rpartition(":")[2])

    def kill(self):
        self.process.send_signal(signal.SIGKILL)
        self.process.communicate()


@contextmanager
def chromium():
    """A browser, for all tests of a module."""
    webdriver = pytest.importorskip("selenium.webdriver", reason="needs the Debian package python3-selenium")
    service = pytest.importorskip("selenium.webdriver.chrome.service")
    options = webdriver.ChromeOptions()
    options.binary_location = CHROMIUM
    for word in (
        "--headless=new",
        "--no-sandbox",
        "--window-size=1366,768",
        "--disable-gpu",
        "--disable-dev-shm-usage",
    ):
        options.add_argument(word)
    found = webdriver.Chrome(service=service.Service(DRIVER), options=options)
    yield found
    found.quit()


def enter(driver, server):
    """Opens the application by its address; the server may need a moment to answer."""
    for _ in range(100):
        try:
            driver.get(server.opening)
        except Exception:  # The browser has no name for a refused connection.
            time.sleep(0.1)
            continue
        if "Projects" in driver.title:
            return
        time.sleep(0.1)
    raise AssertionError(driver.page_source)


def wait(driver, condition, seconds=60):
    end = time.monotonic() + seconds
    while not condition(driver):
        assert time.monotonic() < end, driver.page_source
        time.sleep(0.1)


def click(driver, words):
    driver.find_element(LINK, words).click()


def submit(driver, button):
    """Clicks a button that sends a form, and waits for the page that answers."""
    driver.execute_script("document.body.dataset.old = 'yes'")
    button.click()
    wait(
        driver,
        lambda it: it.execute_script(
            "return document.readyState === 'complete' && document.body.dataset.old !== 'yes'"
        ),
    )


def status_of(driver):
    """The status on the page; empty while another page is loaded."""
    return driver.execute_script("return (document.getElementById('status') || {textContent: ''}).textContent")


def steps_of(driver):
    """The steps on the page, read at one time, since the page renews them."""
    return driver.execute_script("return Array.from(document.querySelectorAll('#steps li'), it => it.textContent)")


def start(driver, command):
    """Runs a command of the project by clicks."""
    form = next(it for it in driver.find_elements(CSS, "details.run") if it.text.startswith(command))
    if form.get_attribute("open") is None:
        form.find_element(TAG, "summary").click()
    form.find_element(CSS, "button").click()
    wait(driver, lambda it: "/job?number=" in it.current_url)


def complaints(driver):
    """What the browser has to complain of, such as a script that the policy refuses."""
    return [it["message"] for it in driver.get_log("browser") if it["level"] in ("SEVERE", "WARNING")]


def words_of(driver, name):
    """The words of an element; empty while another page is loaded."""
    return driver.execute_script(
        "return (document.getElementById(arguments[0]) || {textContent: ''}).textContent", name
    )
