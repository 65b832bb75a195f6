"""Expressions over the columns of a table, such as `cu_pct * 62.1 + au_gpt * 38` or `if(weath < 2, 'OX', 'SUL')`.

An expression has numbers, texts in quotes, columns, + - * / **, comparisons, `and`, `or`, `not`, `in [..]`, and the functions of FUNCTIONS.
A column whose name is not one word is written between backticks. Each value is a number, a text or a truth: arithmetic takes numbers, a comparison
two values of one kind, and a condition truths. numpy evaluates it; no Python is executed.
"""

from __future__ import annotations

import ast
import functools
import operator
import re
from collections.abc import Callable, Mapping
from dataclasses import dataclass, field
from typing import Any

import numpy as np
import pandas as pd
from numpy.typing import NDArray

# Decimals that are kept of a result; numpy rounds halves to the even one.
PLACES = 9
MOST_LETTERS, MOST_NODES = 2_000, 500
# The most letters of another library's message in an error.
MOST_SAID = 200
TOKEN = re.compile(
    r"""'[^']*'|"[^"]*"|`[^`]+`|[^\W\d]\w*|\d+\.?\d*(?:[eE][-+]?\d+)?|\.\d+(?:[eE][-+]?\d+)?|[=!<>]=|\*\*|\S"""
)
WORDS = frozenset(("and", "or", "not", "in"))
ALLOWED = (
    ast.Expression, ast.BinOp, ast.Add, ast.Sub, ast.Mult, ast.Div, ast.Pow, ast.UnaryOp, ast.USub, ast.UAdd, ast.Not,
    ast.BoolOp, ast.And, ast.Or, ast.Compare, ast.Eq, ast.NotEq, ast.Lt, ast.LtE, ast.Gt, ast.GtE, ast.In, ast.NotIn,
    ast.Call, ast.Name, ast.Load, ast.Constant, ast.List,
)  # fmt: skip


class ExpressionError(ValueError):
    """An expression that cannot be read or evaluated."""


# What a value may be, and how messages call it.
NUMBER, TEXT, TRUTH = "numbers", "texts", "truths"
ARITHMETIC: dict[type[ast.operator], Callable[..., Any]] = {
    ast.Add: np.add, ast.Sub: np.subtract, ast.Mult: np.multiply, ast.Div: np.divide, ast.Pow: np.power,
}  # fmt: skip
COMPARED: dict[type[ast.cmpop], Callable[..., Any]] = {
    ast.Eq: operator.eq, ast.NotEq: operator.ne, ast.Lt: operator.lt, ast.LtE: operator.le, ast.Gt: operator.gt, ast.GtE: operator.ge,
}  # fmt: skip


def choose(condition: Any, then: Any, otherwise: Any) -> Any:
    if kind_of(condition) != TRUTH:
        raise ExpressionError(f"if takes a condition first, found {kind_of(condition)}")
    if kind_of(then) != kind_of(otherwise):
        raise ExpressionError(f"if gives one kind of value, found {kind_of(then)} and {kind_of(otherwise)}")
    return np.where(condition, then, otherwise)


def is_null(values: Any) -> Any:
    """Returns which values are empty: no number, or a text without letters."""
    return pd.isna(values) | (np.asarray(values, dtype=object) == "")


def of_numbers(name: str, function: Callable[..., Any]) -> Callable[..., Any]:
    """Returns the function, which refuses other values than numbers."""

    def found(*values: Any) -> Any:
        demand_numbers(name, *values)
        return function(*values)

    return found


FUNCTIONS: dict[str, tuple[int, Callable[..., Any]]] = {
    "if": (3, choose), "min": (2, np.minimum), "max": (2, np.maximum), "abs": (1, np.abs), "sqrt": (1, np.sqrt), "exp": (1, np.exp),
    "log": (1, np.log), "floor": (1, np.floor), "ceil": (1, np.ceil), "is_null": (1, is_null),
}  # fmt: skip
FUNCTIONS |= {
    name: (count, of_numbers(name, function))
    for name, (count, function) in FUNCTIONS.items()
    if name not in ("if", "is_null")
}


@dataclass(frozen=True)
class Expression:
    """An expression that was read. `columns` are those that it names, each once, and `tree` names them c0, c1, .."""

    text: str
    columns: tuple[str, ...] = field(compare=False)
    tree: ast.Expression = field(compare=False, repr=False)

    def of(self, frame: pd.DataFrame) -> np.ndarray:
        """Returns the value of each row: numbers to nine decimals, texts or truths. Raises ExpressionError if a column is missing, or texts and
        numbers are mixed."""
        for name in self.columns:
            if name not in frame:
                raise ExpressionError(f"there is no column {name}")
        known = {f"c{k}": frame[name] for k, name in enumerate(self.columns)}
        demand_one_kind(self, known)
        try:
            with np.errstate(all="ignore"):
                found = evaluated(self.tree.body, {name: values_of(column) for name, column in known.items()})
        except ExpressionError:
            raise
        except (TypeError, ValueError, ArithmeticError) as error:
            raise ExpressionError(f"cannot be evaluated: {' '.join(str(error).split())[:MOST_SAID]}") from error
        values = np.broadcast_to(np.asarray(found), len(frame))
        return values.astype(np.float64).round(PLACES) if kind_of(values) == NUMBER else np.array(values)


def parsed(text: str) -> Expression:
    """Reads an expression. Raises ExpressionError, which says what is wrong with it."""
    if len(text) > MOST_LETTERS:
        raise ExpressionError(f"has more than {MOST_LETTERS:,} letters")
    if any("\\" in it for it in TOKEN.findall(text) if it[0] in "'\""):
        raise ExpressionError("a text in it has a backslash, which has no meaning in an expression: rename the code")
    columns: list[str] = []
    source = " ".join(translated(TOKEN.findall(text), columns))
    try:
        tree = ast.parse(source, mode="eval")
    except (SyntaxError, ValueError, RecursionError, MemoryError) as error:
        raise ExpressionError("is not an expression, such as cu_pct * 62.1 + au_gpt * 38") from error
    nodes = list(ast.walk(tree))
    if len(nodes) > MOST_NODES:
        raise ExpressionError("is too long")
    for node in nodes:
        demand_allowed(node)
    if not columns:
        raise ExpressionError("names no column")
    return Expression(text, tuple(columns), tree)


def translated(tokens: list[str], columns: list[str]) -> list[str]:
    """Returns the tokens with a name of Python for each column and function, and numbers as floats; notes the columns."""
    found = []
    for token, following in zip(tokens, [*tokens[1:], ""]):
        is_word = token[0] == "`" or token[0].isalpha() or token[0] == "_"
        if is_word and following == "(" and token not in WORDS:
            found.append(f"f_{token}")
        elif is_word and token not in WORDS:
            name = token.strip("`")
            if name not in columns:
                columns.append(name)
            found.append(f"c{columns.index(name)}")
        else:
            found.append(f"{token}.0" if token.isdecimal() else token)
    return found


def demand_allowed(node: ast.AST) -> None:
    """Raises ExpressionError for what no expression may have."""
    if not isinstance(node, ALLOWED):
        raise ExpressionError(f"may not have {type(node).__name__}")
    if isinstance(node, ast.Call):
        name = node.func.id.removeprefix("f_") if isinstance(node.func, ast.Name) else ""
        if name not in FUNCTIONS:
            raise ExpressionError(f"found the function {name or '?'}, expected one of {', '.join(FUNCTIONS)}")
        if len(node.args) != FUNCTIONS[name][0] or node.keywords:
            raise ExpressionError(f"{name} takes {FUNCTIONS[name][0]} values")
    if isinstance(node, ast.Constant) and not isinstance(node.value, (float, str)):
        raise ExpressionError(f"may not have {node.value!r}")
    if isinstance(node, ast.List) and not all(isinstance(item, ast.Constant) for item in node.elts):
        raise ExpressionError("a list may have numbers and texts only")


def demand_one_kind(expression: Expression, known: Mapping[str, pd.Series]) -> None:
    """Raises ExpressionError if a column of numbers is compared with a text, or one of texts with a number: neither is ever equal."""
    compared = (node for node in ast.walk(expression.tree) if isinstance(node, ast.Compare))
    for sides in ([node.left, *node.comparators] for node in compared):
        items = [it for side in sides for it in (side.elts if isinstance(side, ast.List) else [side])]
        constants = [it.value for it in items if isinstance(it, ast.Constant)]
        for column in (known[side.id] for side in sides if isinstance(side, ast.Name)):
            of_texts = not pd.api.types.is_numeric_dtype(column.dtype)
            wrong = [value for value in constants if isinstance(value, str) != of_texts]
            if wrong:
                kinds = ("texts", "the number") if of_texts else ("numbers", "the text")
                raise ExpressionError(
                    f"the column {column.name} holds {kinds[0]}, compared with {kinds[1]} {wrong[0]!r}"
                )


def values_of(column: pd.Series) -> NDArray[Any]:
    """Returns a column as floats, truths, or texts with None for what is empty."""
    if pd.api.types.is_bool_dtype(column.dtype):
        return column.to_numpy(dtype=bool)
    if pd.api.types.is_numeric_dtype(column.dtype):
        return column.to_numpy(dtype=np.float64)
    return column.astype(object).to_numpy()


def kind_of(value: Any) -> str:
    """Returns whether a value is of numbers, texts or truths."""
    kind = np.asarray(value).dtype.kind
    return NUMBER if kind in "iuf" else TRUTH if kind == "b" else TEXT


def demand_numbers(what: str, *values: Any) -> None:
    """Raises ExpressionError if an operation gets other values than numbers."""
    wrong = [kind_of(value) for value in values if kind_of(value) != NUMBER]
    if wrong:
        raise ExpressionError(f"{what} takes numbers, found {wrong[0]}")


def demand_truths(what: str, *values: Any) -> None:
    """Raises ExpressionError if an operation gets other values than truths."""
    wrong = [kind_of(value) for value in values if kind_of(value) != TRUTH]
    if wrong:
        raise ExpressionError(f"{what} takes conditions, such as cu > 0.3, found {wrong[0]}")


def evaluated(node: ast.expr, known: Mapping[str, NDArray[Any]]) -> Any:
    """Returns the values of an expression, of all rows or the same for each."""
    if isinstance(node, ast.Constant):
        return np.float64(node.value) if isinstance(node.value, float) else np.array(node.value, dtype=object)
    if isinstance(node, ast.Name):
        return known[node.id]
    if isinstance(node, ast.Call) and isinstance(node.func, ast.Name):
        return FUNCTIONS[node.func.id.removeprefix("f_")][1](*(evaluated(it, known) for it in node.args))
    if isinstance(node, ast.UnaryOp):
        return of_one(node.op, evaluated(node.operand, known))
    if isinstance(node, ast.BinOp):
        return of_two(node.op, evaluated(node.left, known), evaluated(node.right, known))
    if isinstance(node, ast.BoolOp):
        parts = [evaluated(it, known) for it in node.values]
        demand_truths("and" if isinstance(node.op, ast.And) else "or", *parts)
        join: Any = np.logical_and if isinstance(node.op, ast.And) else np.logical_or
        return functools.reduce(join, parts)
    if isinstance(node, ast.Compare):
        sides = [node.left, *node.comparators]
        pairs = zip(sides, node.ops, sides[1:])
        return functools.reduce(np.logical_and, (compared(left, by, right, known) for left, by, right in pairs))
    raise ExpressionError(f"may not have {type(node).__name__}")


def of_one(by: ast.unaryop, value: Any) -> Any:
    """Returns the value with a sign, or turned."""
    if isinstance(by, ast.Not):
        demand_truths("not", value)
        return np.logical_not(value)
    demand_numbers("a sign", value)
    return -value if isinstance(by, ast.USub) else value


def of_two(by: ast.operator, left: Any, right: Any) -> Any:
    """Returns a sum, difference, product, quotient or power of numbers."""
    demand_numbers("arithmetic", left, right)
    found = ARITHMETIC[type(by)](left, right)
    if isinstance(by, ast.Pow) and (np.isnan(found) & ~np.isnan(left) & ~np.isnan(right)).any():
        raise ExpressionError("a negative number has no power with a fraction: take its absolute value by abs")
    return found


def compared(left: ast.expr, by: ast.cmpop, right: ast.expr, known: Mapping[str, NDArray[Any]]) -> Any:
    """Returns where a comparison holds. Raises ExpressionError if its sides are of two kinds."""
    value = evaluated(left, known)
    if isinstance(by, (ast.In, ast.NotIn)):
        if not isinstance(right, ast.List):
            raise ExpressionError("in takes a list, such as rock in ['OX', 'TR']")
        others = [evaluated(it, known) for it in right.elts]
        is_in = np.zeros(np.shape(value), dtype=bool)
        for other in others:
            is_in = is_in | same_kind(value, other, operator.eq)
        return is_in if isinstance(by, ast.In) else np.logical_not(is_in)
    return same_kind(value, evaluated(right, known), COMPARED[type(by)])


def same_kind(left: Any, right: Any, compare: Callable[..., Any]) -> Any:
    """Returns where two values compare so."""
    if kind_of(left) != kind_of(right):
        raise ExpressionError(f"compares {kind_of(left)} with {kind_of(right)}")
    return np.asarray(compare(np.asarray(left), np.asarray(right)), dtype=bool)
