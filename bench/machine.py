"""What a table of seconds depends on: the machine, what else it does, and the versions of what was timed."""

import os
import pathlib
import platform
import re
import subprocess

PACKAGES = ("g++", "libboost-graph-dev", "liblemon-dev", "libmaxflow-dev", "libigraph-dev")


def said(*words: str) -> str:
    """What a command writes to standard output; nothing where there is no such command or it fails."""
    try:
        return subprocess.run(words, capture_output=True, text=True, check=False).stdout.strip()
    except FileNotFoundError:
        return ""


def processor() -> str:
    """The processor's name, the number of cores and the memory."""
    lines = pathlib.Path("/proc/cpuinfo").read_text().splitlines()
    names = [line.split(":", 1)[1].strip() for line in lines if line.startswith("model name")]
    pages = os.sysconf("SC_PHYS_PAGES") * os.sysconf("SC_PAGE_SIZE") / 2**30
    return f"{names[0] if names else platform.processor()}, {platform.machine()}, {os.cpu_count()} cores, {pages:.0f} GB"


def load() -> str:
    """How many threads wanted to run over the last minute."""
    return f"{os.getloadavg()[0]:.1f}"


def built_at(program: pathlib.Path) -> str:
    """The commit that the program was built of, if the file beside it says so (tools/build.py)."""
    told = program.with_suffix(".version")
    found = re.search(r"^commit (\w{9})\w*(-dirty)?", told.read_text(), re.MULTILINE) if told.is_file() else None
    return f" of commit {found[1]}{found[2] or ''}" if found else ""


def versions(program: pathlib.Path) -> str:
    """The program's version and commit, the commit of this bench, and the versions of those of Debian's packages that are there."""
    commit = said("git", "-C", str(pathlib.Path(__file__).parent), "rev-parse", "--short", "HEAD")
    rows = [f"{said(str(program), '--version')}{built_at(program)}, this bench at commit {commit}"]
    for package in PACKAGES:
        found = said("dpkg-query", "-W", "-f", "${db:Status-Status} ${Version}", package).split()
        if found[:1] == ["installed"]:
            rows.append(f"{package} {found[1]}")
    return ", ".join(rows)
