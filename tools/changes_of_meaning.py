"""Single changes of meaning of Python's text: a comparison turned or its edge moved, a sign, a whole number, `and` for `or`, or an `if`
that is never taken."""
import ast
import functools
import hashlib
import pathlib
import re
from collections.abc import Iterator
from typing import NamedTuple

from crates import TOP

TURNED = {"<": ">=", ">": "<=", "<=": ">", ">=": "<", "==": "!=", "!=": "==", "in": "not in", "not in": "in", "is": "is not", "is not": "is"}
MOVED = {"<": "<=", ">": ">=", "<=": "<", ">=": ">"}
SIGNS = {"+": "-", "-": "+", "*": "+", "/": "*", "//": "+", "%": "+"}
Place = tuple[int, int, str]


class Change(NamedTuple):
    """A file, where in it a piece of text begins and ends, what takes its place, and the lines of the statement round it."""

    file: pathlib.Path
    start: int
    end: int
    text: str
    lines: range

    @property
    def changed(self) -> str:
        """The file's text with the change."""
        source = source_of(self.file)
        return source[: self.start] + self.text + source[self.end :]

    @property
    def said(self) -> str:
        """The lines of the piece as they would be, and as they are."""
        source = source_of(self.file)
        first = source.rfind("\n", 0, self.start) + 1
        last = source.find("\n", self.end)
        new, old = source[first : self.start] + self.text + source[self.end : last], source[first:last]
        return f"`{' '.join(new.split())}` in place of `{' '.join(old.split())}`"

    def __str__(self) -> str:
        line = source_of(self.file).count("\n", 0, self.start) + 1
        return f"`{self.file}:{line}`: {self.said}"


@functools.cache
def source_of(file: pathlib.Path) -> str:
    return (TOP / file).read_text()


class Finder(ast.NodeVisitor):
    """Walks a file's syntax and keeps its changes."""

    def __init__(self, file: pathlib.Path) -> None:
        self.file, self.source = file, source_of(file)
        self.starts = [0]
        for line in self.source.splitlines(keepends=True):
            self.starts.append(self.starts[-1] + len(line))
        self.found: list[Change] = []
        self.lines = range(0)

    def visit(self, node: ast.AST) -> None:
        outside = self.lines
        if isinstance(node, ast.stmt):
            body = getattr(node, "body", None)
            last = body[0].lineno - 1 if body else node.end_lineno
            self.lines = range(node.lineno, max(node.lineno, last) + 1)
        self.found += [Change(self.file, *place, self.lines) for place in self.places(node)]
        self.generic_visit(node)
        self.lines = outside

    def places(self, node: ast.AST) -> Iterator[Place]:
        """Every change at one node of the syntax."""
        if isinstance(node, ast.Compare) and len(node.ops) == 1:
            for words in (TURNED, MOVED):
                yield from self.between(node.left, node.comparators[0], words)
        elif isinstance(node, ast.BinOp):
            yield from self.between(node.left, node.right, SIGNS)
        elif isinstance(node, ast.BoolOp):
            yield from self.between(node.values[0], node.values[1], {"and": "or"} if isinstance(node.op, ast.And) else {"or": "and"})
        elif isinstance(node, ast.Constant) and type(node.value) is int:
            yield *self.span(node), str(node.value + 1)
        elif isinstance(node, ast.If):
            yield *self.span(node.test), "False"

    def span(self, node: ast.expr) -> tuple[int, int]:
        return self.starts[node.lineno - 1] + node.col_offset, self.starts[node.end_lineno - 1] + node.end_col_offset

    def between(self, left: ast.expr, right: ast.expr, words: dict[str, str]) -> list[Place]:
        """The operator between two operands, with what may stand in its place."""
        start, end = self.span(left)[1], self.span(right)[0]
        for word in sorted(words, key=len, reverse=True):
            found = re.fullmatch(rf"([\s)]*){re.escape(word)}([\s(]*)", self.source[start:end])
            if found:
                return [(start + len(found[1]), end - len(found[2]), words[word])]
        return []


def changes(folder: pathlib.Path) -> list[Change]:
    """All that there are below a folder. Files with letters beyond ASCII are left out, since the syntax counts bytes in them."""
    found = []
    for path in sorted((TOP / folder).rglob("*.py")):
        finder = Finder(path.relative_to(TOP))
        if finder.source.isascii():
            finder.visit(ast.parse(finder.source))
            found += finder.found
    return found


def drawn(found: list[Change], seed: int, count: int) -> list[Change]:
    """So many of them, by what they say and the seed alone, so that changes of other lines are drawn as before."""
    return sorted(found, key=lambda change: hashlib.sha256(f"{seed} {change.said}".encode()).digest())[:count]
