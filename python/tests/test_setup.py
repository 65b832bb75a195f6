"""What sets a machine up: tools/setup.sh, and the checks of tools/build.py and the Makefile before anything is proved."""

import os
import shutil
import subprocess
from pathlib import Path

import pytest
from conftest import ROOT

SETUP = ROOT / "tools" / "setup.sh"
WAITS = "-o DPkg::Lock::Timeout=600"


def stand_in(folder: Path, name: str, text: str) -> None:
    """Writes a program of a shell that stands for one of the system."""
    (folder / name).write_text(f"#!/bin/sh\n{text}\n")
    (folder / name).chmod(0o755)


@pytest.fixture
def machine(tmp_path: Path) -> Path:
    """A folder of stand-ins for a machine without packages, whose apt-get notes how it is called."""
    stand_in(tmp_path, "dpkg-query", "exit 1")
    stand_in(tmp_path, "apt-get", f'echo "$@" >> {tmp_path}/calls')
    return tmp_path


def set_up(machine: Path, user: int) -> "subprocess.CompletedProcess[str]":
    stand_in(machine, "id", f"echo {user}")
    path = {"PATH": f"{machine}:/usr/bin:/bin"}
    return subprocess.run([SETUP, "core"], capture_output=True, text=True, env=path)


def test_every_call_of_apt_waits_for_the_lock_of_dpkg(machine):
    assert set_up(machine, 0).returncode == 0
    update, install = (machine / "calls").read_text().splitlines()
    assert update == f"{WAITS} update -qq"
    assert install.startswith(f"{WAITS} install -y --no-install-recommends python3-numpy python3-pandas ")


def test_the_line_for_an_administrator_waits_too(machine):
    ran = set_up(machine, 1000)
    assert ran.returncode == 1 and not (machine / "calls").exists()
    assert f"as root run: apt-get {WAITS} update && apt-get {WAITS} install -y" in ran.stderr


def test_the_compiler_is_in_the_list_that_installs_it():
    names = subprocess.run([SETUP, "names", "tests"], capture_output=True, text=True, check=True).stdout.split()
    assert {"gcc", "libc6-dev", "binutils"} <= set(names)


@pytest.mark.parametrize(
    "cc, ar, said",
    [
        (None, "exit 0", "build.py: cc is missing: the library is linked by a C compiler: apt-get install gcc"),
        ("exit 0", None, "build.py: ar is missing: the library is linked by a C compiler: apt-get install gcc"),
        ("echo 'cannot find crti.o' >&2; exit 1", "exit 0", "libc6-dev binutils\ncannot find crti.o"),
    ],
)
def test_a_missing_compiler_is_named_before_anything_is_proved(tmp_path, cc, ar, said):
    """In a copy of the tools, in which nothing is built; `rt`, which proves, only notes that it was called."""
    programs, top = tmp_path / "bin", tmp_path / "clone"
    programs.mkdir()
    shutil.copytree(ROOT / "tools", top / "tools", ignore=shutil.ignore_patterns("__pycache__"))
    shutil.copytree(ROOT / "crates", top / "crates", ignore=shutil.ignore_patterns("out"))
    shutil.copy(ROOT / "crates.txt", top)
    stand_in(programs, "rt", f"echo called >> {tmp_path}/calls; exit 1")
    for name, text in (("cc", cc), ("ar", ar)):
        if text is not None:
            stand_in(programs, name, text)
    words = ["/usr/bin/python3", top / "tools" / "build.py", "pitshell_c"]
    ran = subprocess.run(words, capture_output=True, text=True, env={"PATH": str(programs)})
    assert ran.returncode == 1 and said in ran.stderr, ran.stderr
    assert not (tmp_path / "calls").exists()


def test_packages_begin_with_the_library_and_so_with_its_check():
    said = subprocess.run(["make", "-n", "dist"], cwd=ROOT, capture_output=True, text=True, check=True).stdout
    assert [line for line in said.splitlines() if line.startswith("tools/build.py")][0] == "tools/build.py pitshell_c"


def test_documents_need_no_program(tmp_path):
    """`make docs` without a program builds none; its tool leaves what repeats the help of the program."""
    words = ["make", "-n", "docs", f"PROGRAM={tmp_path}/pitshell"]
    said = subprocess.run(words, cwd=ROOT, capture_output=True, text=True, check=True).stdout
    assert "tools/make_docs.py" in said and "tools/build.py" not in said
    missing = {name: str(tmp_path / name) for name in ("PITSHELL", "PITSCHEDULE")}
    ran = subprocess.run(
        [ROOT / "tools" / "make_docs.py"], capture_output=True, text=True, env={**os.environ, **missing}
    )
    assert ran.returncode == 0 and ran.stdout.count("stays as it is") == 2, ran.stderr
    ran = subprocess.run(
        [ROOT / "tools" / "make_docs.py", "--check"], capture_output=True, text=True, env={**os.environ, **missing}
    )
    assert ran.returncode == 1 and "is missing: run `make`" in ran.stderr
