"""Verifies the text columns of tables: how cash is discounted, and whether a row describes shells or pushbacks."""

from __future__ import annotations

import csv
from itertools import zip_longest
from pathlib import Path

from planaudit.inputs.answer import Answer
from planaudit.inputs.tables import TABLES, WORDS
from planaudit.rules import Rule, rule

NAMES = ("shells.csv", "pits.csv", "years.csv", "schedule.csv", "methods.csv")
DISCOUNTED = {"npv_best", "discounted_cash_flow", "npv"}
# Fields of columns, by their names.
Texts = dict[str, list[str]]


def verify(answer: Answer) -> Rule:
    """Verifies that each table with discounted amounts names the project's convention."""
    differences, due = [], answer.project.shells["discounting"]
    for name in NAMES:
        path = answer.folder / TABLES / name
        if not path.is_file():
            continue
        header, table = texts_of(path)
        said = set(table.get("discounting", ()))
        if DISCOUNTED & header and (said - {due} or "discounting" not in header):
            differences.append(f"{name}: discounting {', '.join(sorted(said)) or 'is missing'} for {due}")
        if name in ("shells.csv", "years.csv") and answer.pushbacks is not None:
            differences += unlike_outline(answer, name, table)
    return rule("conventions", "each table of discounted amounts names how they are discounted", differences)


def texts_of(path: Path) -> tuple[set[str], Texts]:
    """Returns the names of a table's columns, and the fields of its text columns, "" for those of a short row."""
    with open(path, encoding="utf-8", newline="") as file:
        columns = list(zip_longest(*filter(None, csv.reader(file)), fillvalue=""))
    return {name for name, *_ in columns}, {name: it for name, *it in columns if name in (*WORDS, "case")}


def unlike_outline(answer: Answer, name: str, table: Texts) -> list[str]:
    """Returns differences of the column `outline`, which tables have if pushbacks have a minimum mining width."""
    rules = answer.project.pushbacks
    if rules is None or not (rules["min_mining_width"] or rules["min_bottom_width"]):
        return [f"{name}: has a column outline, and pushbacks are shells"] if "outline" in table else []
    if "outline" not in table:
        return [f"{name}: has no column outline"]
    cases = table.get("case", ["best"] * len(table["outline"]))
    due = ["shell" if case in ("best", "worst", "specified") else "pushback" for case in cases]
    return [] if table["outline"] == due else [f"{name}: outline is wrong in some row"]
