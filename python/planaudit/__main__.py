"""`python3 -m planaudit FOLDER`: verifies an output folder without pitplan.

Prints a line for each rule and the verdict if all hold, otherwise the differences. With `--json` it prints all rules, or the error, as JSON.
"""

from __future__ import annotations

import argparse
import json
import sys
from collections.abc import Sequence
from dataclasses import asdict
from pathlib import Path
from typing import Any, Optional

import planaudit
from planaudit.errors import AuditError, PackageError
from planaudit.rules import as_lines


def parser() -> argparse.ArgumentParser:
    top = argparse.ArgumentParser(prog="python3 -m planaudit", description="Verify an output folder of pitplan.")
    top.add_argument("folder", type=Path, help="the folder of a plan, a sensitivity or scenarios")
    top.add_argument("--final", type=Path, help="the folder to which a plan that is still written will be moved")
    top.add_argument(
        "--wait", action="store_true", help="with --final: read the table, and verify after a line on standard input"
    )
    top.add_argument("--json", action="store_true", help="print the rules as JSON")
    return top


def rules_of(options: argparse.Namespace) -> list[planaudit.Rule]:
    """Returns the rules of a folder. Raises AuditError."""
    if options.final is None:
        return planaudit.verify_folder(options.folder)
    if not options.wait:
        return planaudit.verify(options.folder, options.final)
    table = planaudit.read_ahead(options.folder, options.final)
    if not sys.stdin.readline():
        raise AuditError(f"{options.folder}: the run has ended without results")
    return planaudit.verify(options.folder, options.final, table)


def as_json(options: argparse.Namespace) -> dict[str, Any]:
    """Returns the rules, or the error: its words, its details, and whether a package is missing."""
    try:
        return {"rules": [asdict(rule) for rule in rules_of(options)]}
    except AuditError as error:
        return {"error": error.text, "details": error.details, "package": isinstance(error, PackageError)}


def main(words: Optional[Sequence[str]] = None) -> int:
    """Runs the command; returns its status, 1 if a rule does not hold."""
    options = parser().parse_args(words)
    if options.json:
        print(json.dumps(as_json(options)))
        return 0
    try:
        rules = rules_of(options)
        planaudit.demand(rules)
    except AuditError as error:
        print(f"planaudit: {error}", file=sys.stderr)
        return 1
    print(*as_lines(rules), sep="\n")
    return 0


if __name__ == "__main__":
    sys.exit(main())
