"""`pitplan doctor`: what an installation has, against Debian's own list; what it lacks, by name and with the remedy."""

import hashlib
import json
import re
import subprocess
import sys

import pytest
import tomllib
from conftest import ROOT

import pitplan
from pitplan.cli import main
from pitplan.commands import doctor
from pitplan.core import paths
from pitplan.core.libraries import LIBRARIES, Library
from pitplan.solver import choice


def by_part(found):
    return {it.part: it for it in found}


def test_versions_are_those_of_the_installed_packages():
    """A Debian version may begin with an epoch and ends with a revision."""
    words = ["dpkg-query", "-W", "-f", "${Package} ${Version}\n"]
    packages = [it.package for it in LIBRARIES if it.package]
    said = subprocess.run([*words, *packages], capture_output=True, text=True, check=True).stdout
    versions = dict(line.split() for line in said.splitlines())
    found = by_part(doctor.findings(pitplan.__version__))
    for it in LIBRARIES:
        if it.package:
            debian = versions[it.package].partition(":")[2] or versions[it.package]
            assert debian.startswith(found[it.module].found.partition("+")[0]), it
            assert found[it.module].remedy == ""


def test_each_library_is_in_the_list_that_installs_them():
    said = subprocess.run([ROOT / "tools" / "setup.sh", "names", "core"], capture_output=True, text=True, check=True)
    core = set(said.stdout.split())
    assert {it.package for it in LIBRARIES if not it.purpose} == core
    listed = (ROOT / "tools" / "setup.sh").read_text()
    assert all(f"\n{it.package} " in listed for it in LIBRARIES if it.package)


def test_least_versions_are_those_that_the_wheel_requires():
    project = tomllib.loads((ROOT / "python" / "packages" / "pitplan.toml").read_text())["project"]
    wanted = [*project["dependencies"], *(it for group in project["optional-dependencies"].values() for it in group)]
    least = dict(match.groups() for it in wanted if (match := re.fullmatch(r"(\w+)>=([\d.]+)", it)))
    assert least == {it.module: it.least for it in LIBRARIES if it.least}
    assert project["requires-python"] == ">=" + ".".join(map(str, doctor.LEAST_PYTHON))


def test_a_missing_library_of_every_command_is_an_error(monkeypatch, capsys):
    monkeypatch.setitem(sys.modules, "openpyxl", None)
    assert main(["doctor"]) == 1
    said = capsys.readouterr().out
    required = said.partition("\nMissing or broken:\n")[2].partition("\n\n")[0]
    assert required == "  openpyxl: not installed: apt-get install python3-openpyxl"
    assert said.endswith("\npitplan cannot run: openpyxl\n")


def test_a_missing_library_of_one_command_is_no_error(monkeypatch, capsys):
    monkeypatch.setitem(sys.modules, "ezdxf", None)
    assert main(["doctor"]) == 0
    said = capsys.readouterr().out
    optional = said.partition("\nMissing, and needed only by the commands in brackets:\n")[2]
    assert "  ezdxf: not installed: apt-get install python3-ezdxf (DXF files)\n" in optional
    assert "Missing or broken" not in said
    assert said.endswith("\npitplan can run\n")


def test_a_library_that_is_too_old_or_broken_is_named(monkeypatch):
    monkeypatch.setattr(sys.modules["numpy"], "__version__", "1.20.3")
    old = doctor.of_library(Library("numpy", "python3-numpy", least="1.21"))
    assert old.is_wrong and old.remedy == "found 1.20.3, expected 1.21 or later: apt-get install python3-numpy"

    def broken(name):
        raise ImportError("libfoo.so.1: cannot open\nshared object file")

    monkeypatch.setattr(doctor.importlib, "import_module", broken)
    found = doctor.of_library(Library("vtk", "python3-vtk9", "export --to vti and vtu"))
    expected = "cannot be imported: libfoo.so.1: cannot open\\nshared object file: apt-get install python3-vtk9"
    assert found.remedy == expected and not found.is_wrong


@pytest.mark.parametrize("is_there", [True, False])
def test_one_solver_is_enough_and_none_is_an_error(monkeypatch, tmp_path, is_there):
    """A program that answers nothing does not solve two blocks."""
    silent = tmp_path / "pitshell"
    silent.write_text("#!/bin/sh\n")
    silent.chmod(0o755)
    monkeypatch.setenv("PITSHELL", str(silent))
    if not is_there:
        monkeypatch.setattr(doctor, "solved_by_library", lambda: doctor.demand_worth("3.000000"))
    library, program = doctor.solvers()
    assert program.remedy.startswith("solved two blocks: found the value '', expected 2.000000")
    assert program.is_wrong is not is_there and library.is_wrong is not is_there
    if not is_there:
        assert library.remedy.startswith("solved two blocks: found the value '3.000000', expected 2.000000")


def test_the_parts_as_json(capsys):
    assert main(["doctor", "--json"]) == 0
    found = {it["part"]: it for it in json.loads(capsys.readouterr().out)}
    assert found["Python"]["found"] == ".".join(map(str, sys.version_info[:3]))
    assert (
        found["libpitshell.so"]["found"].startswith(f"{pitplan.__version__} in ")
        and found["program pitshell"]["remedy"] == ""
    )


def test_the_version_of_the_program_of_schedules_is_told_if_it_runs(monkeypatch, tmp_path):
    assert re.match(r"\d+\.\d+\.\d+ in /", doctor.schedule_program().found)
    broken = tmp_path / "pitschedule"
    broken.write_text("#!/bin/sh\nexit 3\n")
    broken.chmod(0o755)
    monkeypatch.setenv("PITSCHEDULE", str(broken))
    found = doctor.schedule_program()
    assert "exit status 3" in found.remedy and found.found == "" and not found.is_wrong


def test_the_remedy_is_one_that_serves_this_python(monkeypatch):
    """Debian's pip refuses to install outside of a virtual environment, and one without Debian's packages needs pip for all."""
    arrow, gdal = Library("pyarrow", ""), Library("osgeo.gdal", "python3-gdal")
    assert [it.remedy for it in (arrow, gdal)] == [
        "pip install pyarrow in a virtual environment",
        "apt-get install python3-gdal",
    ]
    monkeypatch.setattr(sys, "prefix", "/home/planner/pitshell")
    monkeypatch.setattr(sys, "path", ["/usr/lib/python3.11", "/usr/lib/python3/dist-packages"])
    assert [it.remedy for it in (arrow, gdal)] == ["pip install pyarrow", "apt-get install python3-gdal"]
    monkeypatch.setattr(sys, "path", ["/usr/lib/python3.11", "/home/planner/pitshell/lib/python3.11/site-packages"])
    assert [it.remedy for it in (arrow, gdal)] == ["pip install pyarrow", "pip install gdal"]


@pytest.mark.parametrize("is_recorded", [True, False])
def test_a_solver_is_proved_only_if_the_build_recorded_its_bytes(monkeypatch, tmp_path, is_recorded):
    """A program of the same words and another SHA-256 solves as well, and is not called proved."""
    copy = tmp_path / "pitshell"
    copy.write_bytes(paths.program().read_bytes() + (b"" if is_recorded else b"\n"))
    copy.chmod(0o755)
    monkeypatch.setenv("PITSHELL", str(copy))
    sha256 = hashlib.sha256(copy.read_bytes()).hexdigest()
    said = "proved" if is_recorded else "not known to be proved: no build recorded it"
    assert doctor.solved_by_program().endswith(f" in {copy}, SHA-256 {sha256[:12]}, {said}")
    assert choice.chosen("program") == choice.Solver("program", f"pitshell {pitplan.__version__}", sha256, is_recorded)


@pytest.mark.parametrize(
    "place", ["prefix/lib/pitshell/python/pitshell", "prefix/lib/pitshell/build", "prefix/share/doc/pitshell"]
)
def test_the_records_of_wheel_clone_and_installation_are_read(monkeypatch, tmp_path, place):
    monkeypatch.setattr(paths, "PACKAGES", tmp_path / "prefix" / "lib" / "pitshell" / "python")
    recorded, other = "a" * 64, "b" * 64
    (tmp_path / place).mkdir(parents=True)
    text = f"pitshell 1.0.0\ncommit 1\nsha256 {recorded}\nsources {other}\nproved with a kit\n"
    (tmp_path / place / "pitshell.version").write_text(text)
    assert choice.is_proved(recorded) and not choice.is_proved(other)
