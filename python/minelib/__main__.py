"""`python3 -m minelib FILES... --out FOLDER`: the conversion for users with Python and none of pitplan's libraries."""

from __future__ import annotations

import argparse
import sys
from pathlib import Path
from typing import Optional, Sequence

from .convert import FORMATS, convert
from .ending import ended, tell
from .text import MinelibError


def add_arguments(parser: argparse.ArgumentParser) -> None:
    parser.add_argument(
        "files", nargs="+", type=Path, metavar="FILE", help=f"published files of one mine ({', '.join(FORMATS)})"
    )
    text = "write mine.upit, mine.prec and mine.blocks into this folder"
    parser.add_argument("--out", type=Path, required=True, metavar="FOLDER", help=text)


def main(arguments: Optional[Sequence[str]] = None, name: str = "minelib") -> int:
    """0 where the files are written, 1 where they are refused, with a sentence on standard error; `name` is what was called."""
    parser = argparse.ArgumentParser(prog=name, description="Convert published files of MineLib to those of pitshell.")
    add_arguments(parser)
    return ended(name.split()[0], lambda: run(parser.parse_args(arguments)), (MinelibError,))


def run(options: argparse.Namespace) -> int:
    for note in convert(options.files, options.out)["notes"]:
        tell(note)
    print(options.out)
    return 0


if __name__ == "__main__":
    sys.exit(main())
