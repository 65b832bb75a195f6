"""docs/LICENCES.md against the packages that tools/setup.sh installs, the crates that the programs use, and Debian's copyright files."""

import re
import subprocess
from pathlib import Path

import pytest
from conftest import ROOT

PAGE = (ROOT / "docs" / "LICENCES.md").read_text(encoding="utf-8")
LICENCES = {
    name: said
    for name, said in re.findall(r"^\| ([a-z0-9+.-]+) \| ([^|]+?) \|", PAGE, re.MULTILINE)
    if name not in ("package", "crates")
}
GROUPS = ("core", "tests", "all", "changes", "hosts", "bench")
# How Debian's copyright files name a licence that the page names by its SPDX identifier.
NAMES = {
    "MIT": r"Expat|MIT\b",
    "BSD-2-Clause": r"(?i)BSD-2",
    "BSD-3-Clause": r"BSD|Redistribution and use in source and binary forms",
    "BSL-1.0": r"Boost",
    "EPL-1.0": r"EPL-1|Eclipse",
    "MPL-2.0": r"MPL-2",
    "Apache-2.0": r"Apache-2|Apache License",
    "LGPL-2.1": r"LGPL-2\.1",
    "GPL-2.0": r"GPL-2|GNU General Public License",
    "GPL-3.0": r"GPL-3|GNU General Public License",
    "PSF": r"PSF|PYTHON|License agreement for matplotlib",
    "Zsh": r"Zsh",
}


def packages() -> set[str]:
    ran = [
        subprocess.run([ROOT / "tools" / "setup.sh", "names", group], capture_output=True, text=True)
        for group in GROUPS
    ]
    return {name for it in ran for name in it.stdout.split()}


def test_each_package_is_on_the_page_once():
    assert set(LICENCES) == packages()
    assert all(PAGE.count(f"\n| {name} |") == 1 for name in LICENCES)


@pytest.mark.parametrize("package", sorted(LICENCES))
def test_the_licence_is_that_of_debians_copyright_file(package):
    file = Path("/usr/share/doc", package, "copyright")
    if not file.exists():
        pytest.skip(f"{package} is not installed")
    (named,) = [name for name in NAMES if LICENCES[package].startswith(name)]
    text = file.read_text(encoding="utf-8", errors="replace")
    # The licence of all files, if the file is in parts and names one.
    whole = re.search(r"^Files: ?\*\s*\n(?:.*\n)*?License:(?! *same as upstream) *(.+)", text, re.MULTILINE)
    said = whole[1] if whole else text
    assert re.search(NAMES[named], said), said[:300]


def test_each_crate_of_others_is_on_the_page():
    lines = [
        line.split()
        for line in (ROOT / "crates.txt").read_text(encoding="utf-8").splitlines()
        if not line.startswith("#")
    ]
    own = {words[0].rstrip(":") for words in lines}
    others = {word for words in lines for word in words[1:] if "=" not in word and word != "staticlib:"} - own
    linked = PAGE.partition("## In the programs")[2].partition("## At run time")[0]
    assert {name for name in others if f"`{name}`" not in linked} == {"core"}
