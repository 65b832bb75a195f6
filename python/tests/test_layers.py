"""The packages of pitplan are layers: each imports only itself and earlier ones, and no module is long."""

import ast
import re
import subprocess
import sys
from pathlib import Path

import pytest
from conftest import ROOT

# From the lowest to the highest. `errors`, `constraints`, `precedences`, `crop`, `preparation` and `plan` are modules beside the packages.
LAYERS = (
    *("errors", "core", "config", "survey", "blockmodel", "economics", "slopes", "constraints", "precedences", "crop"),
    *(
        "preparation",
        "plan",
        "solver",
        "pits",
        "pushbacks",
        "scheduling",
        "results",
        "studies",
        "export",
        "figures",
    ),
    *("report", "commands", "web", "cli", "__main__"),
)
# The methods of plans, shells, pushbacks and schedules that take the next step, draw or write import later layers when they are called.
STEPS = {
    "plan.py": {"pits", "scheduling"},
    "pits/shells.py": {"pushbacks", "figures", "commands"},
    "pits/answer.py": {"pushbacks", "scheduling"},
    "pushbacks/nested.py": {"scheduling", "commands"},
    "scheduling/pushback_schedule.py": {"figures", "commands"},
    "scheduling/blocks/tables.py": {"commands"},
}
PACKAGE = ROOT / "python" / "pitplan"
MODULES = sorted(PACKAGE.rglob("*.py"))
TESTS = ROOT / "python" / "tests"
MOST_LINES = 800


def imported(module: Path, at_head: bool = False) -> set[str]:
    """The layers of pitplan that a module imports, at its head, within functions and for type checkers; `pitplan` is the package itself."""
    places = [*module.relative_to(PACKAGE.parent).parts[:-1]]
    found = set()
    tree = ast.parse(module.read_text(encoding="utf-8"))
    for node in tree.body if at_head else ast.walk(tree):
        if isinstance(node, ast.ImportFrom):
            stem = places[: len(places) + 1 - node.level] if node.level else []
            origin = [*stem, *(node.module or "").split(".")] if node.module else stem
            found |= {(*origin, alias.name) for alias in node.names}
        elif isinstance(node, ast.Import):
            found |= {tuple(alias.name.split(".")) for alias in node.names}
    layers = {(path[1] if path[1] in LAYERS else path[0]) for path in found if path[0] == "pitplan" and len(path) > 1}
    return layers | {path[0] for path in found if path == ("pitplan",)}


def modules_of(text: str) -> set[str]:
    """The first names of all modules that a text imports."""
    nodes = [*ast.walk(ast.parse(text))]
    found = {node.module for node in nodes if isinstance(node, ast.ImportFrom) and node.module and not node.level}
    found |= {alias.name for node in nodes if isinstance(node, ast.Import) for alias in node.names}
    return {name.partition(".")[0] for name in found}


def layer_of(module: Path) -> str:
    return module.relative_to(PACKAGE).parts[0].removesuffix(".py")


def test_imports_are_found_in_every_form(tmp_path, monkeypatch):
    module = tmp_path / "pitplan" / "export" / "some.py"
    module.parent.mkdir(parents=True)
    monkeypatch.setitem(globals(), "PACKAGE", tmp_path / "pitplan")
    lines = (
        "from ..core import files",
        "from . import vtk",
        "import pitplan.report.html",
        "def f():\n    from pitplan import plan",
    )
    module.write_text(
        "\n".join((*lines, "from pitplan.cli.parser import main as run", "from pitplan import __version__"))
    )
    assert imported(module) == {"core", "export", "report", "plan", "cli", "pitplan"}


@pytest.mark.parametrize("module", MODULES, ids=lambda it: str(it.relative_to(PACKAGE)))
def test_a_module_imports_its_own_layer_and_earlier_ones(module):
    layer = layer_of(module)
    if layer == "__init__":
        return
    # The public package is lazy, and the command line prints its version.
    allowed = {*LAYERS[: LAYERS.index(layer) + 1], *(["pitplan"] if layer == "cli" else [])}
    steps = STEPS.get(module.relative_to(PACKAGE).as_posix(), set())
    assert imported(module) <= allowed | steps and imported(module, at_head=True) <= allowed
    assert steps <= imported(module)


def test_every_module_has_a_layer():
    assert {layer_of(module) for module in MODULES} == {*LAYERS, "__init__"}


def test_no_module_is_long():
    long = {str(it.relative_to(PACKAGE)): len(it.read_text().splitlines()) for it in MODULES}
    assert {name: lines for name, lines in long.items() if lines > MOST_LINES} == {}


AUDIT = ROOT / "python" / "planaudit"


def roots_of(module: Path) -> set[str]:
    """The packages that a module imports; "planaudit" for relative imports."""
    found = set()
    for node in ast.walk(ast.parse(module.read_text(encoding="utf-8"))):
        if isinstance(node, ast.ImportFrom):
            found.add("planaudit" if node.level else (node.module or "").split(".")[0])
        elif isinstance(node, ast.Import):
            found |= {alias.name.split(".")[0] for alias in node.names}
    return found


def test_the_audit_imports_nothing_of_what_it_checks():
    """By the imports of each module, and by the modules that are loaded when each of them is."""
    modules = sorted(AUDIT.rglob("*.py"))
    assert len(modules) > 40
    assert not {
        str(it)
        for it in modules
        if {"pitplan", "pitshell", "minelib", "importlib"} & (roots_of(it) - NAMES.get(it.name, set()))
    }
    names = [".".join(it.relative_to(AUDIT.parent).with_suffix("").parts).removesuffix(".__init__") for it in modules]
    code = f"import importlib, sys; [importlib.import_module(it) for it in {names}]; print(*sys.modules)"
    ran = subprocess.run([sys.executable, "-c", code], cwd=AUDIT.parent, capture_output=True, text=True, check=True)
    assert not {name.split(".")[0] for name in ran.stdout.split()} & {"pitplan", "pitshell", "minelib"}


# The modules that name others by texts: ezdxf and GDAL, and functions that are imported on first use.
NAMES = {"drawings.py": {"importlib"}, "__init__.py": {"importlib"}}


@pytest.mark.parametrize("module", sorted(TESTS.rglob("*.py")), ids=lambda it: str(it.relative_to(TESTS)))
def test_tests_share_helpers_and_no_module_of_tests(module):
    """What two modules of tests need lies in tests/helpers, so that each can be moved and run by itself."""
    assert not {name for name in modules_of(module.read_text(encoding="utf-8")) if name.startswith("test_")}


@pytest.mark.parametrize("module", sorted((TESTS / "oracle").glob("*.py")), ids=lambda it: it.name)
def test_the_oracle_shares_nothing_with_what_it_checks(module):
    assert not modules_of(module.read_text(encoding="utf-8")) & {
        "pitplan",
        "pitshell",
        "minelib",
        "conftest",
        "helpers",
    }


def test_the_page_of_the_architecture_has_each_layer_in_this_order():
    page = (ROOT / "docs" / "ARCHITECTURE.md").read_text(encoding="utf-8")
    table = page.partition("\n## The planning layer\n")[2].partition("\n`python/planaudit`")[0]
    named = [
        name for row in re.findall(r"^\| (`[^|]*) \|", table, re.MULTILINE) for name in re.findall(r"`(\w+)`", row)
    ]
    assert named == [name for name in LAYERS if name not in ("errors", "__main__")]
