"""Docstrings name what is there: parameters, fields and keys of a project."""

import ast
import re
from collections.abc import Iterator

import pytest
from conftest import ROOT

PACKAGES = ("pitplan", "planaudit", "pitshell", "minelib")
SECTION = re.compile(r"^(Parameters|Attributes)\n-+\n(.*?)(?=^\w[\w ]*\n-+\n|\Z)", re.MULTILINE | re.DOTALL)
# A line of a list of fields: the name, two blanks or more, and what it holds.
LISTED = re.compile(r"^(\w+)  +\S", re.MULTILINE)
CITED = re.compile(r"`\[+([a-z_]+(?:\.[a-z_]+)*)\]+ ([a-z_]+)`")


def named(text: str, section: str) -> list[str]:
    """The names that a section of a docstring of numpy's form lists."""
    found = [body for title, body in SECTION.findall(text) if title == section]
    lines = [
        line for body in found for line in body.splitlines() if re.fullmatch(r"\*{0,2}\w+(?:, \w+)*(?: : .+)?", line)
    ]
    return [name.strip(" *") for line in lines for name in line.partition(" : ")[0].split(",")]


def names_of_class(node: ast.ClassDef) -> set[str]:
    """The fields, methods and attributes of a class, those that its methods set among them."""
    found = {it.name for it in ast.walk(node) if isinstance(it, ast.FunctionDef)}
    found |= {it.target.id for it in node.body if isinstance(it, ast.AnnAssign) and isinstance(it.target, ast.Name)}
    found |= {
        target.id
        for it in node.body
        if isinstance(it, ast.Assign)
        for target in it.targets
        if isinstance(target, ast.Name)
    }
    return found | {it.attr for it in ast.walk(node) if isinstance(it, ast.Attribute)}


def missing_names(tree: ast.AST) -> Iterator[str]:
    """Yields the names that docstrings of functions and classes list and that are gone."""
    classes = {node.name: node for node in ast.walk(tree) if isinstance(node, ast.ClassDef)}
    for node in ast.walk(tree):
        text = ast.get_docstring(node) if isinstance(node, (ast.FunctionDef, ast.ClassDef)) else None
        if text is None:
            continue
        if isinstance(node, ast.FunctionDef):
            arguments = node.args
            there = {it.arg for it in (*arguments.posonlyargs, *arguments.args, *arguments.kwonlyargs)}
            there |= {it.arg for it in (arguments.vararg, arguments.kwarg) if it}
            listed = named(text, "Parameters")
        else:
            there = names_of_class(node)
            for base in node.bases:
                if isinstance(base, ast.Name) and base.id in classes:
                    there |= names_of_class(classes[base.id])
            listed = [*named(text, "Attributes"), *(LISTED.findall(text) if is_record(node) else [])]
        yield from (f"{node.name}: {name}" for name in listed if name not in there)


def is_record(node: ast.ClassDef) -> bool:
    return any("dataclass" in ast.unparse(it) for it in node.decorator_list) or any(
        "NamedTuple" in ast.unparse(it) for it in node.bases
    )


def keys() -> set[tuple[str, str]]:
    """The sections and keys of the reference."""
    page = (ROOT / "docs" / "reference" / "project-keys.md").read_text(encoding="utf-8")
    found = set()
    for section, body in re.findall(r"^##+ `\[+([\w.]+)\]+`[^\n]*\n(.*?)(?=^## |\Z)", page, re.MULTILINE | re.DOTALL):
        for names in re.findall(r"^\| ((?:`\w+`(?:, )?)+)", body, re.MULTILINE):
            found |= {(section, name) for name in re.findall(r"`(\w+)`", names)}
    return found


MODULES = sorted(file for package in PACKAGES for file in (ROOT / "python" / package).rglob("*.py"))


@pytest.mark.parametrize("package", PACKAGES)
def test_docstrings_list_names_that_exist(package):
    found = [
        f"{file.relative_to(ROOT)}: {missing}"
        for file in MODULES
        if package in file.relative_to(ROOT / "python").parts[:1]
        for missing in missing_names(ast.parse(file.read_text(encoding="utf-8")))
    ]
    assert found == []


def test_docstrings_cite_keys_of_a_project_that_exist():
    known, cited = keys(), []
    for file in MODULES:
        for node in ast.walk(ast.parse(file.read_text(encoding="utf-8"))):
            if isinstance(node, (ast.Module, ast.FunctionDef, ast.ClassDef)):
                cited += [(file, *it) for it in CITED.findall(ast.get_docstring(node) or "")]
    assert len(known) > 150 and len(cited) > 10
    assert [
        f"{file.relative_to(ROOT)}: [{section}] {key}" for file, section, key in cited if (section, key) not in known
    ] == []


def test_names_that_are_gone_are_found():
    text = '''
@dataclass
class Record:
    """A record.

    kept   a field
    gone   none
    """
    kept: int
def call(here):
    """Returns it.

    Parameters
    ----------
    here : int
    other : int
    """
'''
    assert [*missing_names(ast.parse(text))] == ["Record: gone", "call: other"]
