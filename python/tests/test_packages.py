"""Libraries that are missing, and those that are there and cannot be imported."""

import subprocess
import sys

import pytest
from helpers.writings import PLAIN

import pitplan.scheduling.blocks
from pitplan import MissingPackage
from pitplan.core import libraries
from pitplan.solver import library


def module_of(tmp_path, monkeypatch, text):
    """A package `lent` of the test's own, whose source this is."""
    (tmp_path / "lent").mkdir()
    (tmp_path / "lent" / "__init__.py").write_text(text)
    monkeypatch.syspath_prepend(str(tmp_path))
    monkeypatch.delitem(sys.modules, "lent", raising=False)


def test_a_missing_package_is_named_by_its_debian_name():
    with pytest.raises(
        MissingPackage, match="^a map needs the Debian package python3-lent: apt-get install python3-lent$"
    ):
        libraries.load("lent_nowhere.maps", "python3-lent", "a map")


def test_a_package_that_lacks_another_is_not_called_missing(tmp_path, monkeypatch):
    module_of(tmp_path, monkeypatch, "import nowhere_at_all\n")
    said = "a map needs the Debian package python3-lent, which is there and cannot be imported: No module named 'nowhere_at_all'"
    with pytest.raises(MissingPackage, match=said):
        libraries.load("lent", "python3-lent", "a map")


def test_a_missing_library_of_pits_is_named(monkeypatch):
    monkeypatch.setitem(sys.modules, "pitshell", None)
    with pytest.raises(MissingPackage, match="^a schedule by block needs the library of pits: .*pitshell"):
        libraries.load_library("a schedule by block")


def test_only_the_missing_library_of_pits_is_called_missing(monkeypatch):
    """A module of the layer that cannot be imported is a mistake in the layer."""
    module = "pitplan.scheduling.blocks.tables"
    monkeypatch.setitem(sys.modules, "pitshell", sys)
    monkeypatch.setitem(sys.modules, module, None)
    monkeypatch.delattr(pitplan.scheduling.blocks, "tables", raising=False)
    with pytest.raises(ImportError, match="tables"):
        pitplan.write_block_schedule("project.toml", writing=PLAIN)


def test_the_program_stands_in_for_a_missing_library_alone(tmp_path, monkeypatch):
    """Not for one that is there and cannot be imported."""
    (tmp_path / "pitshell").mkdir()
    source = tmp_path / "pitshell" / "__init__.py"
    monkeypatch.syspath_prepend(str(tmp_path))
    monkeypatch.delitem(sys.modules, "pitshell", raising=False)
    source.write_text("import nowhere_at_all\n")
    with pytest.raises(ImportError, match="nowhere_at_all"):
        library.package.__wrapped__()
    source.write_text("raise ImportError('no libpitshell.so', name='pitshell')\n")
    assert library.package.__wrapped__() is None


def test_a_library_that_is_not_built_is_named(monkeypatch, tmp_path):
    path = libraries.__file__.rpartition("/pitplan/")[0]
    source = "try:\n    import pitshell\nexcept ImportError as error:\n    print(error.name, error)\n"
    environment = {"PYTHONPATH": path, "PITSHELL_LIBRARY": str(tmp_path / "none.so")}
    ran = subprocess.run([sys.executable, "-c", source], capture_output=True, text=True, check=True, env=environment)
    assert ran.stdout.startswith("pitshell no libpitshell.so at ")
