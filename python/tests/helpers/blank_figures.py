"""Figures that are not drawn: in place of each a white image of its usual size is written, in every format that is asked for."""

from __future__ import annotations

import io
from collections.abc import Iterator
from contextlib import contextmanager
from importlib import import_module
from pathlib import Path
from pkgutil import iter_modules

import pytest
from PIL import Image

# Pixels of a figure of two by two maps.
SIZE = (1200, 800)
# A figure of several files, which are written by writers of their own.
OF_SEVERAL = ("write_all",)


@contextmanager
def blank_figures(*drawn: str) -> Iterator[None]:
    """Within the block no writer of a figure draws it, except those of the given names."""
    import pitplan.figures
    from pitplan.commands import drawing

    modules = [import_module(f"pitplan.figures.{it.name}") for it in iter_modules(pitplan.figures.__path__)]
    with pytest.MonkeyPatch.context() as patch:
        for module in [*modules, drawing]:
            for name in [it for it in vars(module) if it == "write" or it.startswith("write_")]:
                if name not in (*OF_SEVERAL, *drawn):
                    patch.setattr(module, name, write_blank)
        yield


def write_blank(*arguments: object) -> None:
    """Writes the files of a figure, whose path is one of the arguments."""
    from pitplan.figures.style import ALSO

    (path,) = (it for it in arguments if isinstance(it, Path))
    saved = io.BytesIO()
    Image.new("L", SIZE, 255).save(saved, "png")
    path.write_bytes(saved.getvalue())
    for kind in ALSO.get():
        path.with_suffix(f".{kind}").write_bytes(b"blank")
