"""Where the inputs of projects may lie: anywhere, unless `pitplan serve` has confined them to folders.

The folders are in a variable of the environment, so that the jobs of the server inherit them.
"""

from __future__ import annotations

import json
import os
from collections.abc import Iterable
from pathlib import Path
from typing import Optional

VARIABLE = "PITPLAN_INPUTS"


def confine(folders: Iterable[Path]) -> None:
    """Confines the inputs of all projects of this process, and of those that it starts, to some folders."""
    os.environ[VARIABLE] = json.dumps([str(folder.resolve()) for folder in folders])


def folders() -> Optional[list[Path]]:
    """Returns the folders in which inputs must lie; None: anywhere."""
    text = os.environ.get(VARIABLE)
    return None if text is None else [Path(it) for it in json.loads(text)]


def fault(path: Path, is_folder: bool = False) -> Optional[str]:
    """Returns why a path may be no input, a file or with `is_folder` a folder; None if it may. It may not lead out of the folders by `..` or a
    symbolic link, nor be a device or a pipe."""
    allowed = folders()
    if allowed is None:
        return None
    try:
        resolved = path.resolve()
    except (OSError, RuntimeError, ValueError):
        return "cannot be read"
    if not any(resolved.is_relative_to(folder) for folder in allowed):
        return "lies outside of the folders that are served: move it there, or start pitplan serve with --inputs FOLDER"
    if resolved.exists() and not (resolved.is_dir() if is_folder else resolved.is_file()):
        return f"is no {'folder' if is_folder else 'regular file'}"
    return None
