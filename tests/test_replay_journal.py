"""tools/replay_journal.py on mergers and journals that were worked out by hand, and on bent journals whose answers were stored.

The stored answers (bent_journals.json) come from another replay, written from the rules of docs/FORMATS.md by other hands: random
mines of up to 9 blocks, with journals that are lawful, wrong in an entry, cut, or changed in a byte, field or line.
"""

import json
import pathlib
import subprocess
import sys

import pytest

from conftest import TOP
from rows import FOUR_PAIRS, journal_of, model_of, pit_of

sys.path.insert(0, str(TOP / "tools"))

from check_certificate import read_mine  # noqa: E402
from replay_journal import Tree, answer  # noqa: E402

STORED = json.loads((pathlib.Path(__file__).parent / "bent_journals.json").read_text())


def replayed(values: list[str], prec: str, journal: str) -> tuple[str, str, int]:
    return answer(model_of(values).encode(), prec.encode(), journal.encode())


# Of the mines over arcs 0 = (0, 1), 1 = (0, 3), 2 = (2, 1): the merged arc, then parents, flows by arc and excesses.
TRACES = [
    (
        ["1", "-2", "5", "-2"],
        [
            (0, [1, None, None, None], [1, 0, 0], [0, -1, 5, -2]),
            (2, [1, None, 1, None], [1, 0, 5], [0, 4, 0, -2]),
            (1, [3, None, 1, None], [0, 1, 5], [0, 3, 0, -1]),
        ],
    ),
    (
        ["4", "-2", "5", "-2"],
        [
            (0, [1, None, None, None], [4, 0, 0], [0, 2, 5, -2]),
            (1, [3, 0, None, None], [2, 2, 0], [0, 0, 5, 0]),
            (2, [3, None, 1, None], [0, 4, 5], [0, 3, 0, 2]),
        ],
    ),
    (
        ["4", "-2", "2", "-2"],
        [
            (0, [1, None, None, None], [4, 0, 0], [0, 2, 2, -2]),
            (1, [3, 0, None, None], [2, 2, 0], [0, 0, 2, 0]),
            (2, [3, 0, 1, None], [0, 4, 2], [0, 0, 0, 2]),
        ],
    ),
]


@pytest.mark.parametrize(("values", "steps"), TRACES, ids=["a cut", "a cut between strong branches", "an equal residual keeps the link"])
def test_mergers_are_those_of_the_definition(values: list[str], steps: list[tuple]) -> None:
    tree = Tree(*read_mine(model_of(values).encode(), FOUR_PAIRS.encode()))
    for arc, parents, flows, excesses in steps:
        assert tree.is_merger(arc)
        tree.merge(arc)
        assert tree.parent == parents
        assert [tree.flow.get(pair, 0) for pair in tree.pairs] == [flow * 10**6 for flow in flows]
        assert tree.excess == [excess * 10**6 for excess in excesses]


NINE = ["1", "-2", "5", "-2"]
TEN = ["4", "-2", "5", "-2"]
SIX = ("1 0 1", "2 0 2", "3 2 2", "1 1 1", "2 2 1", "3 2 2")


@pytest.mark.parametrize(
    ("values", "journal", "wanted"),
    [
        (NINE, journal_of(4, 3, "none", "1 0 1", "2 2 1", "1 1 1"), (pit_of(4, [1, 2], "3.000000"), "", 0)),
        (NINE, journal_of(4, 3, "none", "1 0 1", "2 2 2", "1 1 1"), ("entry 2 differs\n", "", 4)),
        (NINE, journal_of(4, 3, "2", "0 0 1", "0 2 1", "0 1 3"), ("", "error 20: exhausted after 2 mergers\n", 3)),
        (TEN, journal_of(4, 3, "none", "1 0 1", "2 2 2", "1 1 1"), ("open after 2 mergers\n", "", 4)),
        (TEN, journal_of(4, 3, "none", *SIX), (pit_of(4, [0, 1, 2, 3], "5.000000"), "", 0)),
        (TEN, journal_of(4, 3, "1", *SIX[:3], "1 1 3", "2 2 2", "3 2 2"), ("", "error 20: exhausted after 1 mergers\n", 3)),
        (NINE, journal_of(4, 3, "none", "65 0 1"), ("", "error 4: over the limit in journal line 6\n", 1)),
        (NINE, journal_of(4, 3, "none", "1 3 1"), ("", "error 7: id out of place in journal line 6\n", 1)),
    ],
)
def test_answers_that_were_worked_out_by_hand(values: list[str], journal: str, wanted: tuple[str, str, int]) -> None:
    assert replayed(values, FOUR_PAIRS, journal) == wanted


HEAD = "PITJOURNAL 1\nBLOCKS: 4\nARCS: 3\n"

# the limits of a journal's numbers, each with what a journal that has it ends in
LIMITS = [
    (HEAD + "BUDGET: 18446744073709551615\nENTRIES: 0\n", ("open after 0 mergers\n", "", 4)),
    (HEAD + "BUDGET: 18446744073709551616\nENTRIES: 0\n", ("", "error 4: over the limit in journal line 4\n", 1)),
    (HEAD + "BUDGET: 99999999999999999999\nENTRIES: 0\n", ("", "error 4: over the limit in journal line 4\n", 1)),
    (HEAD + "BUDGET: 000000000000000000000\nENTRIES: 0\n", ("", "error 5: not a whole number in journal line 4\n", 1)),
    (HEAD + "BUDGET: 00000000000000000000\nENTRIES: 0\n", ("", "error 20: exhausted after 0 mergers\n", 3)),
    (HEAD + "BUDGET: None\nENTRIES: 0\n", ("", "error 5: not a whole number in journal line 4\n", 1)),
    (HEAD + "BUDGET: none\nENTRIES: 18446744073709551615\n", ("", "error 12: ends early in journal line 6\n", 1)),
    (HEAD + "BUDGET: none\nENTRIES: 18446744073709551616\n", ("", "error 4: over the limit in journal line 5\n", 1)),
    (HEAD + "BUDGET: none\nENTRIES: none\n", ("", "error 5: not a whole number in journal line 5\n", 1)),
    (HEAD + "BUDGET: none\nENTRIES: 1\n64 0 1\n", ("open after 1 mergers\n", "", 4)),
    (HEAD + "BUDGET: none\nENTRIES: 1\n65 3 4\n", ("", "error 4: over the limit in journal line 6\n", 1)),
    (HEAD + "BUDGET: none\nENTRIES: 1\n64 2 1\n", ("open after 1 mergers\n", "", 4)),
    (HEAD + "BUDGET: none\nENTRIES: 1\n64 3 4\n", ("", "error 7: id out of place in journal line 6\n", 1)),
    (HEAD + "BUDGET: none\nENTRIES: 1\n64 4294967296 1\n", ("", "error 7: id out of place in journal line 6\n", 1)),
    (HEAD + "BUDGET: none\nENTRIES: 1\n64 2 0\n", ("", "error 4: over the limit in journal line 6\n", 1)),
    (HEAD + "BUDGET: none\nENTRIES: 1\n64 2 4\n", ("", "error 4: over the limit in journal line 6\n", 1)),
    (HEAD + "BUDGET: none\nENTRIES: 0\n64 2 4\n", ("", "error 13: line after the end in journal line 6\n", 1)),
]


@pytest.mark.parametrize(("journal", "wanted"), LIMITS)
def test_the_limits_of_numbers(journal: str, wanted: tuple[str, str, int]) -> None:
    assert replayed(NINE, FOUR_PAIRS, journal) == wanted


def test_a_mine_that_is_not_lawful_is_refused() -> None:
    no_mine = ("", "the model, the precedence or the fixed file is not lawful\n", 1)
    empty = journal_of(2, 2, "none")
    assert replayed(["1", "1"], "0 1 1\n1 1 0\n", empty) == no_mine
    assert replayed(["1", "1.0000001"], "", empty) == no_mine
    assert replayed(["1", "1"], "0 1 2\n", empty) == no_mine


def test_it_answers_as_a_command(tmp_path: pathlib.Path) -> None:
    files = {"model": model_of(["-3", "5"]), "prec": "1 1 0\n", "journal": journal_of(2, 1, "none", "1 0 1")}
    for name, text in files.items():
        (tmp_path / name).write_text(text)
    words = [word for name in files for word in (f"--{name}", name)]
    ran = subprocess.run([sys.executable, TOP / "tools" / "replay_journal.py", *words], cwd=tmp_path, capture_output=True, text=True)
    assert (ran.returncode, ran.stdout, ran.stderr) == (0, pit_of(2, [0, 1], "2.000000"), "")


def test_bent_journals_have_their_stored_answers() -> None:
    for case in STORED:
        told = answer(case["model"].encode(), case["prec"].encode(), case["journal"].encode("latin-1"))
        assert told == (case["out"], case["err"], case["status"]), case
