#!/usr/bin/python3
"""Draws docs/pictures/browser_*.png: pages of `pitplan serve` with the example, as Chromium shows them.

    tools/draw_browser.py [FOLDER]

It plans examples/plan in a temporary folder first. It needs build/pitshell and the Debian packages of `tools/setup.sh all`.
"""
from __future__ import annotations

import io
import os
import pathlib
import shutil
import subprocess
import sys
import tempfile
import time
from typing import Any

TOP = pathlib.Path(__file__).resolve().parent.parent
sys.path[:0] = [str(TOP / "python"), str(TOP / "python" / "tests")]

from helpers.browser_clicks import Server, chromium, enter, wait  # noqa: E402
from PIL import Image  # noqa: E402

PROJECT = "hillside/project.toml"
SCHEDULE = "hillside/plan/schedule"
# The picture, its page, how high it is in pixels, and a line of script that shows the part of the page.
PAGES = [
    ("browser_home", "/", 420, ""),
    ("browser_project", f"/project?name={PROJECT}", 820, ""),
    ("browser_sections", f"/blocks?name={SCHEDULE}", 800, "colour('year')"),
    ("browser_charts", f"/result?name={SCHEDULE}", 800, "document.querySelectorAll('figure.chart')[2].scrollIntoView()"),
]
# Shows another name of the folder, which is temporary; and a function that chooses the column by which blocks are coloured.
SCRIPT = """
    document.querySelectorAll(".place code").forEach((it) => {
        if (it.textContent.startsWith("/")) it.textContent = "/home/planner/mines";
    });
    const colour = (name) => {
        const field = document.getElementById("colour");
        field.value = Array.from(field.options).find((it) => it.textContent.startsWith(name)).value;
        field.dispatchEvent(new Event("change", { bubbles: true }));
    };
"""
WIDE = 1100
# A browser shows these colours as if there were all; the files are a third as large.
COLOURS = 128


def make_projects(root: pathlib.Path) -> None:
    """Writes two projects into a folder, and plans the first."""
    shutil.copytree(TOP / "examples" / "plan", root / "hillside", ignore=shutil.ignore_patterns("expected"))
    shutil.copytree(TOP / "docs" / "recipes", root / "north")
    words = [sys.executable, "-m", "pitplan"]
    environment = {**os.environ, "PYTHONPATH": str(TOP / "python")}
    for command, folder in (("shells", "plan"), ("schedule", "plan/schedule")):
        line = [*words, command, PROJECT, "--out", f"hillside/{folder}", "--no-figures", "--quiet"]
        subprocess.run(line, cwd=root, env=environment, check=True)


def draw(driver: Any, address: str, page: str, high: int, script: str) -> Image.Image:
    """A part of a page, once its pictures are drawn."""
    size = {"width": WIDE, "height": high, "deviceScaleFactor": 1, "mobile": False}
    driver.execute_cdp_cmd("Emulation.setDeviceMetricsOverride", size)
    driver.execute_cdp_cmd("Emulation.setScrollbarsHidden", {"hidden": True})
    driver.get(address + page)
    if "/blocks" in page:
        wait(driver, lambda it: it.execute_script("return document.body.dataset.milliseconds"))
    driver.execute_script(SCRIPT + script)
    time.sleep(1)
    shown = Image.open(io.BytesIO(driver.get_screenshot_as_png())).convert("RGB")
    return shown.quantize(COLOURS, dither=Image.Dither.NONE)


def main() -> None:
    out = pathlib.Path(sys.argv[1]) if len(sys.argv) > 1 else TOP / "docs" / "pictures"
    out.mkdir(parents=True, exist_ok=True)
    with tempfile.TemporaryDirectory() as place:
        root = pathlib.Path(place).resolve() / "mines"
        root.mkdir()
        make_projects(root)
        server = Server(root)
        try:
            with chromium() as driver:
                enter(driver, server)
                for name, page, high, script in PAGES:
                    draw(driver, server.address, page, high, script).save(out / f"{name}.png", optimize=True)
        finally:
            server.kill()


if __name__ == "__main__":
    main()
