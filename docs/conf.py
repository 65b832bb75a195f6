"""Settings of the site that `make site` builds from these pages, in build/site.

Links to files outside docs/ work in a browser of the repository as they are; in the site they lead to copies of these files. A page of
docs/notebooks names a notebook of examples/, whose cells and outputs the site shows.
"""

from __future__ import annotations

import json
import re
import shutil
import sys
from pathlib import Path
from typing import Any, Iterator

from docutils import nodes  # type: ignore[import]
from sphinx import addnodes
from sphinx.application import Sphinx

DOCS = Path(__file__).resolve().parent
TOP = DOCS.parent
# The folder of the site that holds copies of files outside docs/.
COPIES = "files"
# Files that browsers show or open by their own names; to all others .txt is added, so that they are shown as text.
SHOWN = (".png", ".ipynb", ".csv")
# Debian's furo comes without its bundle: the script imports a module, the style imports a file by the address that it has on Debian's web
# servers, and the compiler of the style has dropped the dark colours of systems that prefer them.
MODULE = re.compile(r'^import \w+ from "\./([\w.-]+)";$', re.MULTILINE)
STYLE = re.compile(r"^@import url\(/javascript/([\w./-]+)\);$", re.MULTILINE)
JAVASCRIPT = Path("/usr/share/javascript")
DARK = re.compile(r'^@media not print \{\n  body\[data-theme="dark"\] .*?\} \}$', re.MULTILINE | re.DOTALL)
# A block of Markdown that names a notebook, relative to the page.
NOTEBOOK = re.compile(r"^```\{notebook\} (\S+)\n```$", re.MULTILINE)

project = "pitshell"
html_title = "pitplan and pitshell"
sys.path.insert(0, str(TOP / "python"))
extensions = ["myst_parser", "sphinx.ext.autodoc", "sphinx.ext.napoleon"]
# The pages need no library of the solver.
autodoc_mock_imports = ["pitshell._library"]
autodoc_typehints = "none"
autodoc_class_signature = "separated"
autodoc_default_options = {"exclude-members": "__init__, __new__"}
default_role = "literal"
myst_heading_anchors = 4
root_doc = "index"
html_theme = "furo"
html_theme_options = {"navigation_with_keys": True}
html_copy_source = False
html_show_copyright = False
html_show_sphinx = False
html_static_path = ["_static"]
html_css_files = ["site.css"]
pygments_style = "friendly"
# `$ pitplan ..` with its output is no shell script.
highlight_language = "text"


def links_to_outside(document: nodes.document) -> Iterator[tuple[nodes.Element, Path]]:
    """The links of a page to files of the repository outside docs/, each with the file."""
    kinds = (addnodes.download_reference, addnodes.pending_xref)
    folder = Path(document["source"]).parent
    for link in list(document.findall(lambda node: isinstance(node, kinds) and node.get("reftype") == "myst")):
        target = (folder / link["reftarget"].partition("#")[0]).resolve()
        if target.is_file() and DOCS not in target.parents and TOP in target.parents:
            yield link, target.relative_to(TOP)


def copy_name(file: Path) -> str:
    """The name in the site of the copy of a file of the repository."""
    return f"{COPIES}/{file}" if file.suffix in SHOWN else f"{COPIES}/{file}.txt"


def link_copies(app: Sphinx, document: nodes.document) -> None:
    """Makes links to files outside docs/ lead to copies, which it writes."""
    up = "../" * app.env.docname.count("/")
    for link, file in links_to_outside(document):
        copy = Path(app.outdir) / copy_name(file)
        copy.parent.mkdir(parents=True, exist_ok=True)
        shutil.copyfile(TOP / file, copy)
        link.replace_self(nodes.reference("", "", *link.children, internal=True, refuri=f"{up}{copy_name(file)}"))


def fenced(text: str, language: str) -> str:
    """A block of code in Markdown, whose fence is longer than those in the text."""
    fence = "`" * (1 + max([2, *map(len, re.findall("`+", text))]))
    return f"{fence}{language}\n{text.rstrip()}\n{fence}"


def output_as_markdown(output: dict[str, Any]) -> str:
    """An output of a cell: its picture, otherwise its HTML or its text."""
    data = output.get("data", {})
    if "image/png" in data:
        picture = "".join(data["image/png"]).replace("\n", "")
        return f"![A picture that the cell draws](data:image/png;base64,{picture})"
    if "text/html" in data:
        return fenced('<div class="output">' + "".join(data["text/html"]) + "</div>", "{raw} html")
    return fenced(":class: output\n\n" + "".join(output.get("text") or data["text/plain"]), "{code-block} text")


def notebook_as_markdown(file: Path) -> str:
    """The cells of a notebook and their outputs."""
    parts: list[str] = []
    for cell in json.loads(file.read_text(encoding="utf-8"))["cells"]:
        source = "".join(cell["source"])
        parts += [source] if cell["cell_type"] == "markdown" else [fenced(source, "python")]
        parts += map(output_as_markdown, cell.get("outputs", []))
    return "\n\n".join(parts)


def expand_notebooks(app: Sphinx, name: str, source: list[str]) -> None:
    """Replaces the names of notebooks in a page by their cells."""
    folder = Path(app.env.doc2path(name)).parent
    source[0] = NOTEBOOK.sub(lambda found: notebook_as_markdown((folder / found[1]).resolve()), source[0])


def with_system_dark(rules: str) -> str:
    """Returns the rules of the dark theme, and the same for a system that prefers dark pages unless the reader chose the light theme."""
    preferred = rules.replace("@media not print", "@media screen and (prefers-color-scheme: dark)")
    return rules + "\n" + preferred.replace('[data-theme="dark"]', ':not([data-theme="light"])')


def bundle_theme(app: Sphinx, error: Exception | None) -> None:
    """Joins the script and the style of Debian's furo with the files that they import, and completes the dark theme. A furo that is bundled stays unchanged."""
    static = Path(app.outdir) / "_static"
    script, style = static / "scripts" / "furo.js", static / "styles" / "furo.css"
    if error is not None or not script.is_file():
        return
    script.write_text(MODULE.sub(lambda found: (script.parent / found[1]).read_text(), script.read_text()))
    text = STYLE.sub(lambda found: (JAVASCRIPT / found[1]).read_text(), style.read_text())
    style.write_text(
        text if "prefers-color-scheme" in text else DARK.sub(lambda found: with_system_dark(found[0]), text)
    )


def setup(app: Sphinx) -> dict[str, bool]:
    app.connect("source-read", expand_notebooks)
    # Before Sphinx collects downloads at its priority of 500.
    app.connect("doctree-read", link_copies, priority=400)
    app.connect("build-finished", bundle_theme)
    return {"parallel_read_safe": True}
