"""tools/prose.py finds words to avoid and long sentences, and what it allows can only fall."""

import sys

from conftest import TOP

sys.path.insert(0, str(TOP / "tools"))

import prose  # noqa: E402

LONG = " ".join(["Word"] * 41)


def rules(text: str) -> list[str]:
    return [lapse.rule for lapse in prose.lapses_of("page", prose.document_blocks(text))]


def test_words_to_avoid_are_found_outside_code() -> None:
    assert rules("The fault is told.\n\n- A list, none of which is empty.\n") == ["words", "words"]
    assert rules("The fault is printed.\n\n    told\n\n```\ntold\n```\n\n`told` is a name; [retold](told.md) is a link.\n") == []


def test_sentences_of_more_than_forty_words_are_found() -> None:
    assert rules(f"{LONG}.\n") == ["sentences"]
    assert rules(f"{LONG[:-5]}. {LONG[:-5]}.\n") == []
    assert rules(f"| {LONG} | {LONG[:-5]} |\n|---|---|\n") == ["sentences"]


def test_doc_comments_are_read_by_paragraph() -> None:
    blocks = list(prose.comment_blocks("//! A module\n//! of two lines.\n\nlet told = 1; // told\n/// One.\n///\n/// Two.\n"))
    assert blocks == [(1, "A module of two lines."), (5, "One."), (7, "Two.")]


def test_docstrings_and_comments_of_python_are_read() -> None:
    text = '"""A module.\n\nAs told.\n"""\n\n# A comment\n# of which this is the end.\nx = "told"  # whatever\n\n\n'
    text += 'def call(told):\n    """Says so.\n\n    told : str\n        None if it is None.\n    """\n'
    found = [(lapse.where, lapse.words) for lapse in prose.docstring_lapses("a.py", text)]
    assert found == [("a.py:3", "told"), ("a.py:6", "of which"), ("a.py:8", "whatever")]


def test_subjects_have_an_area() -> None:
    assert all(prose.SUBJECT.match(subject) for subject in ("solver: refuse a budget", "README, docs: say so", "crates/csr: sort"))
    assert not any(prose.SUBJECT.match(subject) for subject in ("The solver refuses a budget", "solver:", ": nothing"))


def test_what_is_allowed_is_the_least_that_ever_was() -> None:
    allowed, least = prose.json.loads(prose.ALLOWED.read_text()), prose.least_allowed()
    assert all(allowed[rule] <= number for rule, number in least.items())
