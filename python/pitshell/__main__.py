"""The commands `pitshell` and `pitschedule` of the wheel: the proved programs, which lie next to this file."""

import os
import sys
from pathlib import Path

PACKAGE = Path(__file__).resolve().parent


def main() -> None:
    run("pitshell")


def schedule() -> None:
    run("pitschedule")


def run(name: str) -> None:
    """Replaces this process by a program of the wheel."""
    program = PACKAGE / name
    if not program.is_file():
        sys.exit(f"{program}: not found: install the wheel pitshell that make dist makes")
    os.execv(program, [name, *sys.argv[1:]])


if __name__ == "__main__":
    main()
