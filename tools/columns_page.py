#!/usr/bin/python3
"""Writes the tables of columns in docs/FORMATS.md, from python/pitplan/results/columns.py.

    tools/columns_page.py            writes them between the two marks of the page
    tools/columns_page.py --check    only compares; status 1 if the page has others
"""
import pathlib
import sys

TOP = pathlib.Path(__file__).resolve().parent.parent
sys.path.insert(0, str(TOP / "python"))

from pitplan.results.column_types import Column, TableDeclaration
from pitplan.results.columns import TABLES

PAGE = TOP / "docs" / "FORMATS.md"
BEGIN, END = "<!-- by tools/columns_page.py -->\n", "<!-- end -->\n"


def decimals(table: TableDeclaration) -> str:
    """How numbers are rounded, in words."""
    if table.digits is None:
        return ""
    return f" Numbers have {table.digits} significant digits." if table.digits else " Numbers are written in full."


def row(column: Column, table: TableDeclaration) -> str:
    """The row of a column."""
    places = "" if column.unit.decimals is None else f"{column.unit.decimals}"
    holds = f"{column.holds} ({column.when})" if column.when else column.holds
    cells = [f"`{column.name}`", column.unit.text, *([places] if table.digits is None else []), holds]
    return f"| {' | '.join(cells)} |"


def section(table: TableDeclaration) -> list[str]:
    """A table's file, its rows and its columns."""
    heads = ["Column", "Unit", *(["Decimals"] if table.digits is None else []), "Holds"]
    lines = [f"**`{table.file}`**: {table.rows}.{decimals(table)}", ""]
    lines += [f"| {' | '.join(heads)} |", "|---" * len(heads) + "|"]
    return [*lines, *(row(column, table) for column in table.columns), ""]


def main() -> int:
    text = PAGE.read_text(encoding="utf-8")
    before, begin, rest = text.partition(BEGIN)
    _, end, after = rest.partition(END)
    if not begin or not end:
        sys.exit(f"{PAGE}: the marks {BEGIN.strip()} and {END.strip()} are missing")
    written = before + BEGIN + "\n" + "\n".join(line for table in TABLES for line in section(table)) + "\n" + END + after
    if "--check" in sys.argv[1:]:
        if written != text:
            sys.exit(f"{PAGE}: has other tables of columns than python/pitplan/results/columns.py: run tools/columns_page.py")
        return 0
    PAGE.write_text(written, encoding="utf-8")
    return 0


if __name__ == "__main__":
    sys.exit(main())
