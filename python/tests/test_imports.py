"""`import pitplan` and its help take Python alone; each public name is imported on first use."""

import ast
import subprocess
import sys

import pytest
from conftest import ROOT

import pitplan
from pitplan.cli import entry, main

HEAVY = ("numpy", "pandas", "scipy", "matplotlib")
REPORT = f"import sys; print(*[name for name in {HEAVY} if name in sys.modules])"


def loaded(code):
    """The heavy packages that a Python process of its own has loaded after the code."""
    ran = subprocess.run(
        [sys.executable, "-c", f"{code}\n{REPORT}"], cwd=ROOT / "python", capture_output=True, text=True, check=True
    )
    return ran.stdout.splitlines()[-1].split()


@pytest.mark.parametrize("words", [["--version"], ["-h"], ["shells", "-h"], ["convert", "minelib", "-h"]])
def test_help_loads_no_package(words):
    assert loaded(f"from pitplan.cli import main\ntry:\n    main({words})\nexcept SystemExit:\n    pass") == []


def test_names_are_imported_on_first_use():
    assert loaded("import pitplan; dir(pitplan); pitplan.PlanError") == []
    assert "pandas" in loaded("import pitplan; pitplan.Solution")
    assert loaded("import pitplan; pitplan.errors.PlanError") == [], "modules too"


def test_commands_load_matplotlib_only_to_draw():
    """Its import takes longer than most plans."""
    commands = [name for name in pitplan.__all__ if pitplan.PLACES[name].startswith("commands.")]
    without = [f"pitplan.{name}" for name in commands if name not in ("verify", "view")]
    assert loaded(f"import pitplan; {', '.join(without)}") == ["numpy", "pandas", "scipy"]


def test_every_public_name_is_there_and_no_other():
    assert dir(pitplan) == sorted(pitplan.__all__) == sorted(pitplan.PLACES)
    assert all(getattr(pitplan, name) is not None for name in pitplan.__all__)
    with pytest.raises(AttributeError, match="module 'pitplan' has no attribute 'nowhere'"):
        pitplan.nowhere
    with pytest.raises(ImportError, match="nowhere"):
        exec("from pitplan import nowhere")


def test_type_checkers_see_the_same_names():
    tree = ast.parse((ROOT / "python" / "pitplan" / "__init__.py").read_text())
    (checked,) = [node for node in tree.body if isinstance(node, ast.If)]
    assert {
        node.module.removeprefix("pitplan."): tuple(name.name for name in node.names) for node in checked.body
    } == pitplan.MODULES


def test_a_missing_package_is_named_by_debians(monkeypatch, capsys):
    monkeypatch.setitem(entry.REQUIRED, "nowhere_at_all", "python3-nowhere")
    assert main(["verify", "folder"]) == 1
    assert capsys.readouterr().err == "pitplan: nowhere_at_all: not installed: apt-get install python3-nowhere\n"


def test_a_package_that_cannot_be_imported_is_named(tmp_path):
    (tmp_path / "jinja2.py").write_text("from json import nowhere_at_all\n")
    words = [sys.executable, str(ROOT / "tools" / "pitplan"), "shells", "project.toml"]
    path = {"PYTHONPATH": str(tmp_path), "PATH": "/usr/bin:/bin"}
    ran = subprocess.run(words, cwd=tmp_path, capture_output=True, text=True, env=path)
    assert ran.returncode == 1 and ran.stdout == "" and len(ran.stderr.splitlines()) == 1
    assert ran.stderr.startswith("pitplan: cannot import name 'nowhere_at_all'") and "python3-jinja2" in ran.stderr
