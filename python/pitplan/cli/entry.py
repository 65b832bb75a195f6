"""Runs a subcommand, and ends with its status."""

from __future__ import annotations

import argparse
import sys
import warnings
from importlib.util import find_spec
from typing import Optional, Sequence

import minelib
from minelib.ending import ended

from ..core.libraries import LIBRARIES
from ..errors import MissingPackage, PlanError, PlanWarning
from .parser import parser

# The subcommands that require Python alone.
PLAIN = ("convert", "doctor")
# Packages of Python that all others require, with those of Debian.
REQUIRED = {it.module: it.package for it in LIBRARIES if not it.purpose}


def main(arguments: Optional[Sequence[str]] = None) -> int:
    """Runs one subcommand. Returns 0 if it is done; 1 if it is refused, with a sentence on standard error; 2 if its arguments are wrong or missing;
    130 if it was interrupted. `scenario` ends with the status of its scenario."""
    return ended("pitplan", lambda: run(parsed(arguments)), (PlanError, minelib.MinelibError))


def parsed(arguments: Optional[Sequence[str]]) -> argparse.Namespace:
    """Returns the options. Without arguments prints the help and ends with status 2, as a wrong usage does."""
    if not (sys.argv[1:] if arguments is None else arguments):
        parser().print_help()
        sys.exit(2)
    options: argparse.Namespace = parser().parse_args(arguments)
    return options


def run(options: argparse.Namespace) -> int:
    """Runs the subcommand of these options; returns its status. Raises MissingPackage if a required package cannot be imported."""
    if options.command not in PLAIN:
        demand_packages()
    try:
        # Subcommands print warnings with the notes.
        with warnings.catch_warnings():
            warnings.simplefilter("ignore", PlanWarning)
            status: int = options.run(options) or 0
    except ImportError as error:
        again = f"apt-get install --reinstall {' '.join(REQUIRED.values())}"
        raise MissingPackage(f"{error}: a required package cannot be imported: {again}") from error
    return status


def demand_packages() -> None:
    """Raises MissingPackage if a required package is not installed."""
    missing = [name for name in REQUIRED if find_spec(name) is None]
    if missing:
        raise MissingPackage(
            f"{', '.join(missing)}: not installed: apt-get install {' '.join(REQUIRED[name] for name in missing)}"
        )
