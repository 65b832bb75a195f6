#!/usr/bin/python3
"""Runs the notebooks of examples/ and stores their outputs in them, without Jupyter.

    tools/run_notebooks.py

The site shows cells and outputs: docs/conf.py makes a page of each notebook. It needs build/pitshell and build/libpitshell.so.
"""
from __future__ import annotations

import ast
import base64
import contextlib
import io
import json
import os
import pathlib
import sys
from typing import Any

TOP = pathlib.Path(__file__).resolve().parent.parent
EXAMPLES = TOP / "examples"
# As the inline backend of Jupyter writes pictures, without the version of matplotlib, which would change the file.
PICTURES: dict[str, Any] = {"format": "png", "dpi": 100, "bbox_inches": "tight", "metadata": {"Software": None}}


def outputs_of(cells: list[dict[str, Any]]) -> list[list[dict[str, Any]]]:
    """The outputs of each cell, run one after the other in the current folder; cells of Markdown have none."""
    open_figures()
    names: dict[str, Any] = {"__name__": "__main__"}
    code = [cell["cell_type"] == "code" for cell in cells]
    return [run("".join(cell["source"]), names, sum(code[:k]) + 1) if code[k] else [] for k, cell in enumerate(cells)]


def run(source: str, names: dict[str, Any], number: int) -> list[dict[str, Any]]:
    """The outputs of a cell, as Jupyter orders them: what it prints, the value of its last expression, and open figures of pyplot."""
    body = ast.parse(source).body
    last = ast.Expression(body.pop().value) if isinstance(body[-1], ast.Expr) else None
    with contextlib.redirect_stdout(io.StringIO()) as printed:
        exec(compile(ast.Module(body, []), "cell", "exec"), names)
        value = eval(compile(last, "cell", "eval"), names) if last else None
    found = [{"output_type": "stream", "name": "stdout", "text": lines(printed.getvalue())}] if printed.getvalue() else []
    if value is not None:
        found.append({"output_type": "execute_result", "execution_count": number, "metadata": {}, "data": shown(value)})
    return [*found, *({"output_type": "display_data", "metadata": {}, "data": shown(it)} for it in open_figures())]


def open_figures() -> list[Any]:
    """The open figures of pyplot, which it closes, as the inline backend of Jupyter does after each cell."""
    if "matplotlib.pyplot" not in sys.modules:
        return []
    pyplot = sys.modules["matplotlib.pyplot"]
    found = [pyplot.figure(number) for number in pyplot.get_fignums()]
    pyplot.close("all")
    return found


def shown(value: Any) -> dict[str, Any]:
    """A value by types of media: text, and HTML of a frame or PNG of a figure."""
    found: dict[str, Any] = {"text/plain": lines(repr(value))}
    if hasattr(value, "savefig"):
        picture = io.BytesIO()
        value.savefig(picture, **PICTURES)
        found["image/png"] = base64.b64encode(picture.getvalue()).decode()
    elif html := getattr(value, "_repr_html_", lambda: None)():
        found["text/html"] = lines(html)
    return found


def lines(text: str) -> list[str]:
    return text.splitlines(keepends=True)


def main() -> None:
    os.environ["MPLBACKEND"] = "agg"
    sys.path.insert(0, str(TOP / "python"))
    os.chdir(EXAMPLES)
    for path in sorted(EXAMPLES.glob("*.ipynb")):
        notebook = json.loads(path.read_text(encoding="utf-8"))
        count = 0
        for cell, outputs in zip(notebook["cells"], outputs_of(notebook["cells"])):
            if cell["cell_type"] == "code":
                count += 1
                cell.update(execution_count=count, outputs=outputs)
        path.write_text(json.dumps(notebook, indent=1, ensure_ascii=False, sort_keys=True) + "\n", encoding="utf-8")


if __name__ == "__main__":
    main()
