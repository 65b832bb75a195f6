"""Evaluates the expressions of `[table] calculate` and `filter`, one operation of numpy after the other."""

from __future__ import annotations

import operator
import re
from collections.abc import Callable
from typing import Any

import numpy as np
import pandas as pd

from planaudit.errors import AuditError

# Decimals that are kept of a number.
PLACES = 9
TOKENS = re.compile(
    r"\s*(?:(?P<text>'[^']*'|\"[^\"]*\")|`(?P<quoted>[^`]+)`|(?P<number>(?:\d+\.?\d*|\.\d+)(?:[eE][-+]?\d+)?)"
    r"|(?P<word>[^\W\d]\w*)|(?P<sign>\*\*|[=!<>]=|[-+*/()<>,\[\]]))"
)
COMPARED: dict[str, Callable[[Any, Any], Any]] = {
    "==": operator.eq, "!=": operator.ne, "<": operator.lt, "<=": operator.le, ">": operator.gt, ">=": operator.ge,
}  # fmt: skip
FUNCTIONS: dict[str, Callable[..., Any]] = {
    "if": lambda condition, one, other: np.where(np.asarray(condition, dtype=bool), one, other),
    "is_null": lambda values: np.array([it == "" or it != it for it in np.asarray(values, dtype=object).ravel()]),
    "min": np.minimum, "max": np.maximum, "abs": np.abs, "sqrt": np.sqrt, "exp": np.exp, "log": np.log,
    "floor": np.floor, "ceil": np.ceil,
}  # fmt: skip


def value_of(text: str, frame: pd.DataFrame) -> np.ndarray:
    """Returns the value of an expression in each row: numbers to nine decimals, texts or truths. Raises AuditError if it has none."""
    try:
        reader = Reader(text, frame)
        with np.errstate(all="ignore"):
            found = np.broadcast_to(np.asarray(reader.either()), len(frame))
        reader.expect("")
    except (TypeError, ValueError, ArithmeticError, LookupError) as error:
        raise AuditError(f"{text!r}: cannot be evaluated: {error}: correct [table] and run pitplan again") from error
    return found.astype(float).round(PLACES) if found.dtype.kind in "iuf" else np.array(found)


class Reader:
    """Reads an expression from left to right, and evaluates what it has read."""

    def __init__(self, text: str, frame: pd.DataFrame) -> None:
        self.frame, self.left = frame, text.strip()
        self.kind, self.token = "", ""
        self.step()

    def step(self) -> str:
        """Moves to the next token; returns the one before."""
        before, match = self.token, TOKENS.match(self.left)
        if self.left and not match:
            raise ValueError(f"found {self.left[:20]!r}")
        self.kind, self.token = (str(match.lastgroup), match[str(match.lastgroup)]) if match else ("", "")
        self.left = self.left[match.end() :].strip() if match else ""
        return before

    def at(self, *tokens: str) -> bool:
        """Returns whether the token is one of these signs or words."""
        return self.token in tokens and self.kind in ("word", "sign", "")

    def expect(self, token: str) -> None:
        if not self.at(token):
            raise ValueError(f"found {self.token!r}, expected {token!r}")
        self.step()

    def either(self) -> Any:
        found = self.both()
        while self.at("or"):
            self.step()
            found = np.logical_or(found, self.both())
        return found

    def both(self) -> Any:
        found = self.negated()
        while self.at("and"):
            self.step()
            found = np.logical_and(found, self.negated())
        return found

    def negated(self) -> Any:
        if self.at("not"):
            self.step()
            return np.logical_not(self.negated())
        return self.compared()

    def compared(self) -> Any:
        one, found = self.sum(), []
        while self.at(*COMPARED, "in", "not"):
            sign = self.step()
            if sign in COMPARED:
                other = self.sum()
                found.append(COMPARED[sign](one, other))
                one = other
            else:
                found.append(self.listed(one, sign == "not"))
        return np.logical_and.reduce(found) if found else one

    def listed(self, values: Any, is_negated: bool) -> Any:
        """Returns which values are in a list, or not in it; `in` is still to be read if it is negated."""
        if is_negated:
            self.expect("in")
        self.expect("[")
        items = [self.sum()]
        while self.at(","):
            self.step()
            items.append(self.sum())
        self.expect("]")
        among = np.logical_or.reduce([values == item for item in items])
        return np.logical_not(among) if is_negated else among

    def sum(self) -> Any:
        found = self.product()
        while self.at("+", "-"):
            found = found + self.product() if self.step() == "+" else found - self.product()
        return found

    def product(self) -> Any:
        found = self.signed()
        while self.at("*", "/"):
            found = found * self.signed() if self.step() == "*" else found / self.signed()
        return found

    def signed(self) -> Any:
        if self.at("-", "+"):
            return -self.signed() if self.step() == "-" else self.signed()
        found = self.atom()
        if self.at("**"):
            self.step()
            return found ** self.signed()
        return found

    def atom(self) -> Any:
        kind, token = self.kind, self.step()
        if kind == "number":
            return float(token)
        if kind == "text":
            return token[1:-1]
        if kind == "quoted":
            return self.frame[token].to_numpy()
        if token == "(":
            found = self.either()
            self.expect(")")
            return found
        return self.called(token) if self.at("(") else self.frame[token].to_numpy()

    def called(self, name: str) -> Any:
        self.expect("(")
        values = [self.either()]
        while self.at(","):
            self.step()
            values.append(self.either())
        self.expect(")")
        return FUNCTIONS[name](*values)
