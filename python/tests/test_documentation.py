"""Pages of documentation: links, pictures, lengths, blocks of code, and the site that is made of them."""

import contextlib
import copy
import io
import json
import re
import subprocess
import sys

import pytest
from browser import Browser, needs_chromium
from conftest import ROOT
from helpers import documentation
from helpers.documentation import anchors, blocks, commands, dead_links, words

import pitplan

sys.path.insert(0, str(ROOT / "tools"))
import prose  # after the line above

PAGES = documentation.pages()
NAMES = [str(page.relative_to(ROOT)) for page in PAGES]
# Links of these are checked too.
OTHERS = [ROOT / "CHANGELOG.md", *sorted(ROOT.glob("crates/*/README.md")), *sorted(ROOT.glob("bench/results/*.md"))]
LINKED = [*PAGES, *OTHERS]
MANUALS = sorted((ROOT / "man").glob("*.in"))
NOTEBOOKS = sorted((ROOT / "examples").glob("*.ipynb"))
# README, and pages that a planner reads from top to bottom.
README_WORDS, MOST_WORDS, MOST_WORDS_OF_SENTENCES = 600, 900, 25
SHORT = [ROOT / "README.md", *(page for page in PAGES if page.parent.name == "planning")]


@pytest.fixture(scope="module")
def site(tmp_path_factory):
    """The site, which fails to be built if Sphinx warns."""
    folder = tmp_path_factory.mktemp("site")
    options = ["-E", "-q", "-W", "--keep-going", "-d", folder / "doctrees"]
    made = subprocess.run(
        [sys.executable, "-m", "sphinx", *options, ROOT / "docs", folder / "html"], capture_output=True, text=True
    )
    assert made.returncode == 0, made.stderr
    return folder / "html"


@pytest.mark.slow
def test_the_site_has_every_page_and_no_dead_link(site):
    due = {page.relative_to(ROOT / "docs").with_suffix(".html") for page in PAGES if ROOT / "docs" in page.parents}
    assert due <= {page.relative_to(site) for page in site.rglob("*.html")} and len(due) > 30
    assert documentation.dead_in_site(site) == []


@pytest.mark.parametrize("notebook", NOTEBOOKS, ids=[notebook.stem for notebook in NOTEBOOKS])
def test_the_page_of_a_notebook_has_its_cells_outputs_and_pictures(site, notebook):
    cells = json.loads(notebook.read_text(encoding="utf-8"))["cells"]
    page = documentation.Html((site / "notebooks" / f"{notebook.stem}.html").read_text(encoding="utf-8"))
    assert documentation.missing_of_notebook(cells, page) == []
    outputs = [(number, output) for number, cell in enumerate(cells) for output in cell.get("outputs", [])]
    assert len(outputs) >= 4
    # What the page does not have is found: each source and output with a letter or a picture changed.
    for number in range(len(cells)):
        other = copy.deepcopy(cells)
        other[number]["source"] = [*other[number]["source"], "x = 1"]
        assert len(documentation.missing_of_notebook(other, page)) == 1
    for number, output in outputs:
        changed = documentation.missing_of_notebook([{**cells[number], "outputs": [other_output(output)]}], page)
        assert len(changed) == 1


def other_output(output):
    """The output with one character more in each of its forms."""
    data = {kind: "".join(value) + "7" for kind, value in output.get("data", {}).items()}
    return {**output, "data": data, **({"text": [*output["text"], "7"]} if "text" in output else {})}


def test_the_site_loads_nothing_from_elsewhere(site):
    """Neither pages nor styles name an address of the web or of the root of a web server."""
    loaded = [
        link
        for page in site.rglob("*.html")
        for link in re.findall(r"<(?:script|link|img)[^>]*(?:src|href)=\"((?:https?:|/)[^\"]*)", page.read_text())
    ]
    loaded += [
        link
        for style in site.rglob("*.css")
        for link in re.findall(r"url\([\"']?((?:https?:|/)[^)]*)", style.read_text())
    ]
    assert loaded == []


@pytest.fixture(scope="module")
def browser(tmp_path_factory):
    found = Browser(tmp_path_factory.mktemp("chromium"), 1300, 900)
    yield found
    found.end()


# Scrolls to the end of a page, and returns the titles that its contents mark as current: the last one within five seconds.
CURRENT = """new Promise(resolve => {
    const marked = () => [...document.querySelectorAll('.toc-tree li.scroll-current > a')].map(it => it.textContent);
    const last = [...document.querySelectorAll('.toc-tree li > a')].at(-1)?.textContent;
    const wait = turns => marked().at(-1) === last || !turns ? resolve(marked()) : setTimeout(wait, 100, turns - 1);
    scrollTo({top: document.body.scrollHeight, behavior: 'instant'});
    wait(50);
})"""
SHADES = {"light": "rgb(255, 255, 255)", "dark": "rgb(19, 20, 22)"}


@pytest.mark.slow
@needs_chromium
@pytest.mark.parametrize("system", SHADES)
@pytest.mark.parametrize("page", ["index", "planning/pushbacks"])
def test_pages_follow_the_colours_of_the_system_and_log_nothing(site, browser, page, system):
    """The script of the theme runs: it shows the switch of colours, follows the reader in the contents, and the switch turns the page."""
    browser.call("Emulation.setEmulatedMedia", features=[{"name": "prefers-color-scheme", "value": system}])
    browser.console()
    browser.open(site / f"{page}.html", ready="document.readyState === 'complete'")
    assert browser.console() == []
    assert browser.ask("getComputedStyle(document.body).backgroundColor") == SHADES[system]
    assert browser.ask("getComputedStyle(document.body).margin") == "0px"
    assert not browser.ask("document.documentElement.classList.contains('no-js')")
    assert browser.ask(CURRENT) == {"planning/pushbacks": ["Tables"]}.get(page, [])
    (other,) = set(SHADES) - {system}
    browser.ask("document.querySelector('.theme-toggle-content button').click()")
    assert browser.ask("getComputedStyle(document.body).backgroundColor") == SHADES[other]
    browser.ask("localStorage.clear()")


def test_dead_links_of_a_site_are_found(tmp_path):
    (tmp_path / "a.html").write_text('<h1 id="x"></h1><a href="b.html#y">1</a> <a href="#x">2</a> <img src="p.png">')
    (tmp_path / "b.html").write_text('<h1 id="z"></h1><a href="a.html#x">3</a> <a href="https://example.org">4</a>')
    assert documentation.dead_in_site(tmp_path) == ["a.html: b.html#y", "a.html: p.png"]


@pytest.mark.parametrize("page", LINKED, ids=[str(page.relative_to(ROOT)) for page in LINKED])
def test_links_and_pictures_lead_somewhere(page):
    assert list(dead_links(page, page.read_text(encoding="utf-8"))) == []


def test_dead_links_of_a_page_are_found(tmp_path):
    (tmp_path / "other.md").write_text("# Of two words\n\n## `code` and (more)\n\n## Of two words\n")
    good = "[a](other.md) [b](other.md#code-and-more) [c](other.md#of-two-words-1) [d](#here) [e](https://x.org/y)"
    bad = "[a](gone.md) [b](other.md#of-three) ![c](gone.png) [d](#there) [![e](lost.png)](other.md)"
    page = tmp_path / "page.md"
    page.write_text("# Here\n")
    assert list(dead_links(page, f"# Here\n\n{good}\n\n```\n[f](none.md)\n```\n\n`[g](none.md)`\n")) == []
    assert len(list(dead_links(page, f"# Here\n\n{bad}\n"))) >= 4
    assert anchors((tmp_path / "other.md").read_text()) == {"of-two-words", "code-and-more", "of-two-words-1"}


@pytest.mark.parametrize("page", MANUALS, ids=[page.name for page in MANUALS])
def test_files_that_manual_pages_name_exist(page):
    named = re.findall(r"\b(?:docs|examples)/[\w./-]*\w", page.read_text(encoding="utf-8").replace("\\-", "-"))
    assert [name for name in named if not (ROOT / name).exists()] == []


@pytest.mark.parametrize("page", SHORT, ids=[page.name for page in SHORT])
def test_pages_are_short(page):
    """README has at most 600 words and each page for planners 900, those of code blocks not counted."""
    most = README_WORDS if page == ROOT / "README.md" else MOST_WORDS
    assert words(page.read_text(encoding="utf-8")) <= most


def test_sentences_for_planners_are_short():
    """Of some 1,800 sentences at most 16 have more than 25 words, as tools/prose.py divides a page."""
    pages = [page for page in PAGES if page.parent.name in ("planning", "reference")]
    long = [
        f"{page.name}:{line}: {sentence}"
        for page in pages
        for line, block in prose.document_blocks(page.read_text(encoding="utf-8"))
        for sentence in re.split(r"(?<=[.!?])[\])*]*\s+(?=[\[(*\"]*[A-Z0-9])", prose.plain(block))
        if len(sentence.split()) > MOST_WORDS_OF_SENTENCES
    ]
    assert len(long) <= 16, long


def test_words_are_counted_outside_code():
    text = (
        "# A title\n\nTwo [words more](page.md#x).\n\n```\nnone of these\n```\n\n| a | b |\n|---|---|\n<!-- none -->\n"
    )
    assert words(text) == 7


def test_the_page_of_the_package_has_each_public_name():
    page = (ROOT / "docs" / "reference" / "python.md").read_text(encoding="utf-8")
    assert sorted(re.findall(r"^\.\. auto\w+:: pitplan\.(\w+)$", page, re.MULTILINE)) == sorted(pitplan.__all__)


def test_the_page_of_the_library_has_each_public_name():
    """By the text of the package, since its import needs the library."""
    page = (ROOT / "docs" / "reference" / "library.md").read_text(encoding="utf-8")
    source = (ROOT / "python" / "pitshell" / "__init__.py").read_text(encoding="utf-8")
    public = re.findall(r'^    "(\w+)",$', source.partition("__all__ = [")[2], re.MULTILINE)
    named = re.findall(r"^\.\. auto\w+:: pitshell\.(\w+)$|`([A-Z]+)`", page, re.MULTILINE)
    assert sorted(map("".join, named)) == sorted(public) and len(public) > 10


SHELLS = ("sh", "", "console")
BLOCKS = [
    (f"{name}:{block.line}", block)
    for page, name in zip(PAGES, NAMES)
    for block in blocks(page.read_text(encoding="utf-8"))
]


def in_blocks(*languages):
    """Runs a test with each block of these languages."""
    found = [(where, block) for where, block in BLOCKS if block.language in languages]
    assert found
    return pytest.mark.parametrize("block", [block for _, block in found], ids=[where for where, _ in found])


@in_blocks("toml")
def test_blocks_of_toml_are_toml(block):
    assert documentation.fault_of_toml(block.text) is None


@in_blocks("python", "py")
def test_blocks_of_python_compile(block):
    compile(block.text, "page", "exec")


def test_mistakes_in_blocks_are_found():
    assert documentation.fault_of_toml("a = 1\na = 2\n") and documentation.fault_of_toml("a = [1,\n")
    assert commands("$ pitplan shells a.toml --out b | head\nout: pitplan\n") == [["shells", "a.toml", "--out", "b"]]
    assert commands("A=1 tools/pitplan check x \\\n  --quiet  # note\n") == [["check", "x", "--quiet"]]
    assert fault(["shells", "a.toml", "--ot", "b"]) and fault(["shels", "a.toml"]) and not fault(["shells", "a.toml"])


def fault(arguments):
    """Why pitplan does not take these arguments; None if it does."""
    said = io.StringIO()
    with contextlib.redirect_stderr(said), contextlib.redirect_stdout(said):
        found = documentation.fault_of_command(arguments)
    return found and f"{found}: {said.getvalue()}"


LINES = [
    (where, arguments) for where, block in BLOCKS if block.language in SHELLS for arguments in commands(block.text)
]


@pytest.mark.parametrize("arguments", [arguments for _, arguments in LINES], ids=[where for where, _ in LINES])
def test_pitplan_takes_the_command_lines(arguments):
    assert fault(arguments) is None


@pytest.mark.parametrize("name", ["pitshell", "pitschedule"])
def test_the_manual_page_has_the_options_of_the_command_lines(name):
    manual = (ROOT / "man" / f"{name}.1").read_text(encoding="utf-8").replace("\\-", "-")
    lines = [line for _, block in BLOCKS if block.language in SHELLS for line in commands(block.text, name)]
    options = {word.partition("=")[0] for line in lines for word in line if word.startswith("--")}
    assert sorted(it for it in options if it not in manual) == []
    assert options or name == "pitschedule"


@pytest.mark.parametrize("page", PAGES, ids=NAMES)
def test_tools_and_tests_that_a_page_names_exist(page):
    named = set(re.findall(r"(?<![\w./-])(?:tools|tests|python|include)/[\w/.]*\w", page.read_text(encoding="utf-8")))
    assert sorted(name for name in named if not (ROOT / name).exists()) == []


@pytest.mark.parametrize("page", [*PAGES, *MANUALS], ids=[*NAMES, *(page.name for page in MANUALS)])
def test_pieces_of_code_name_subcommands_and_options(page):
    """As `pitplan pit PROJECT --revenue-factor 1.00`: the subcommand exists, and has the options."""
    text = documentation.FENCE.sub("", page.read_text(encoding="utf-8"))
    pieces = [piece.split() for piece in re.findall(r"`pitplan ([^`\n]+)`", text)]
    wrong = [piece for piece in pieces if not documentation.is_command(piece)]
    assert wrong == []
