"""Workbooks as LibreOffice recalculates them."""

import shutil
import subprocess
import tempfile
from functools import lru_cache

import pytest


@lru_cache(maxsize=1)
def home():
    """The folder of LibreOffice's settings, which it takes longer to make than to recalculate a workbook."""
    return tempfile.TemporaryDirectory(prefix="office-")


def recalculated(book, place):
    """The workbook of openpyxl with the values that LibreOffice computes; `place` is a folder for its files. Skips the test without it."""
    openpyxl = pytest.importorskip("openpyxl")
    if not shutil.which("soffice"):
        pytest.skip("LibreOffice is missing: apt-get install libreoffice-calc-nogui")
    words = ["soffice", "--headless", "--norestore", f"-env:UserInstallation=file://{home().name}"]
    words += ["--convert-to", "xlsx:Calc MS Excel 2007 XML"]
    subprocess.run([*words, "--outdir", place / "out", book], check=True, capture_output=True, timeout=300)
    return openpyxl.load_workbook(place / "out" / book.name, data_only=True)
