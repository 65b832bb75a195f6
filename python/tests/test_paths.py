"""Where the packages find programs and library, also in a clone at the top of the file system."""

from pathlib import Path

import pytest

from pitplan.core import paths


def in_folder(monkeypatch, packages, path):
    """The packages lie in this folder, no variable names a program, and the path has one folder."""
    monkeypatch.setattr(paths, "PACKAGES", packages)
    for variable in ("PITSHELL", "PITSCHEDULE"):
        monkeypatch.delenv(variable, raising=False)
    monkeypatch.setenv("PATH", str(path))


def program_in(folder, name):
    folder.mkdir(parents=True)
    (folder / name).write_text("#!/bin/sh\n")
    (folder / name).chmod(0o755)
    return folder / name


@pytest.mark.parametrize("packages", ["/app/python", "/python", "/a/b/c/d/python"])
def test_a_clone_at_any_depth_finds_the_programs_of_the_path(tmp_path, monkeypatch, packages):
    placed = program_in(tmp_path / "path", "pitshell")
    in_folder(monkeypatch, Path(packages), placed.parent)
    assert paths.program() == placed and paths.schedule_program() is None


@pytest.mark.parametrize(
    "folder", ["prefix/lib/pitshell/python/pitshell", "prefix/lib/pitshell/build", "prefix/bin", "path"]
)
def test_programs_are_found_in_wheel_clone_prefix_and_path(tmp_path, monkeypatch, folder):
    in_folder(monkeypatch, tmp_path / "prefix" / "lib" / "pitshell" / "python", tmp_path / "path")
    placed = program_in(tmp_path / folder, "pitshell")
    schedules = program_in(tmp_path / "named", "pitschedule")
    monkeypatch.setenv("PITSCHEDULE", str(schedules))
    assert paths.program() == placed and paths.schedule_program() == schedules


@pytest.mark.parametrize("package", ["/app/python/pitshell", "/packages/pitshell", "/pitshell"])
def test_a_package_at_any_depth_says_where_the_library_is_missing(monkeypatch, package):
    _library = pytest.importorskip("pitshell._library")
    monkeypatch.setattr(_library, "__file__", f"{package}/_library.py")
    monkeypatch.delenv("PITSHELL_LIBRARY", raising=False)
    with pytest.raises(ImportError, match=f"^no libpitshell.so at {package}/libpitshell.so"):
        _library._find()
