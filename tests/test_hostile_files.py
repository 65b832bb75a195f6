"""Files that were cut at any byte, and certificates, journals and fixed files changed in a byte or a line: what is due was worked out
by hand, or is the answer of a short reference. `make sweep` changes each byte to each other byte (tools/compare_bent.py)."""

import pathlib
import sys

import pytest

from conftest import PROGRAM, TOP, Mine
from rows import FIXED, fixed_rows, pit_of, two_ores

sys.path.insert(0, str(TOP / "tools"))

import fixed_pit  # noqa: E402
from compare_bent import CASES, FIXED as FIXED_FILE, Bent, Case, bent_bytes, bent_lines, compared  # noqa: E402

SOLVE = ["solve", "--model", "mine.upit", "--prec", "mine.prec"]
SHELLS = ["shells", "--blocks", "mine.blocks", "--prec", "mine.prec", "--revenue", "0", "--cost", "1", "--factors", "300,400,1000"]
BOTH = (0, pit_of(2, [0, 1], "2.000000"), "")

ENDS, HEADER, COUNT, DECIMAL = "12: ends early", "3: wrong header", "11: wrong number of fields", "6: not a decimal"

# Each line of the two-block mine: up to how many of its bytes are there, and what a file that ends so is refused by.
# `ends` is at the line behind: the cut line is whole, and the next one is due.
MODEL_CUTS = [
    ("NAME: two blocks", [(0, ENDS), (4, HEADER), (16, "ends")]),
    ("TYPE: UPIT", [(0, ENDS), (9, HEADER), (10, "ends")]),
    ("NBLOCKS: 2", [(0, ENDS), (9, HEADER), (10, "ends")]),
    ("OBJECTIVE_FUNCTION:", [(0, ENDS), (18, HEADER), (19, "ends")]),
    ("0 -3", [(0, ENDS), (2, COUNT), (3, DECIMAL), (4, "ends")]),
    ("1 5", [(0, ENDS), (2, COUNT), (3, "whole")]),
]


def model_cuts() -> list[tuple[str, tuple[int, str, str]]]:
    """Each beginning of the model's text, and what is due."""
    found, before = [], ""
    for line, (text, cuts) in enumerate(MODEL_CUTS, 1):
        for length in range(len(text) + 1):
            words = next(words for most, words in cuts if length <= most)
            fault = f"error {ENDS} in model line {line + 1}\n" if words == "ends" else f"error {words} in model line {line}\n"
            found.append((before + text[:length], BOTH if words == "whole" else (1, "", fault)))
        before += text + "\n"
    return [*found, (before, BOTH)]


@pytest.fixture(params=["whole", "byte by byte"])
def read(request: pytest.FixtureRequest, monkeypatch: pytest.MonkeyPatch, shim: pathlib.Path) -> None:
    """Files are read as ever, or by one byte a call."""
    if request.param == "byte by byte":
        monkeypatch.setenv("LD_PRELOAD", str(shim))
        monkeypatch.setenv("SHORT_READ", "-1")


@pytest.mark.usefixtures("read")
def test_a_model_cut_at_any_byte(mine: Mine) -> None:
    cuts = model_cuts()
    assert cuts[-1][0] == mine.read("mine.upit")
    assert len(cuts) == len(mine.read("mine.upit")) + 1
    for text, due in cuts:
        mine.write("mine.upit", text)
        assert mine.run(*SOLVE) == due, text


@pytest.mark.usefixtures("read")
def test_a_precedence_file_cut_at_any_byte(mine: Mine) -> None:
    few = (1, "", "error 11: wrong number of fields in precedence line 1\n")
    alone = (0, pit_of(2, [1], "5.000000"), "")
    for length, due in enumerate([alone, few, few, few, few, BOTH, BOTH]):
        mine.write("mine.prec", "1 1 0\n"[:length])
        assert mine.run(*SOLVE) == due, length


@pytest.mark.usefixtures("read")
def test_a_block_model_cut_at_any_byte(mine: Mine) -> None:
    """Where the cut leaves lawful lines, the second block of the precedence file is missing."""
    text = mine.read("mine.blocks")
    shells = "SHELLS\nBLOCKS: 2\nFACTORS: 3\n300 0 0.000000000\n400 0 0.000000000\n1000 2 6.000000000\n0 1000\n1 1000\n"
    out_of_place, few = "error 7: id out of place in precedence line 1\n", "error 11: wrong number of fields in blocks line %d\n"
    first = [out_of_place] + [few % 1] * 6 + [out_of_place] * 6
    second = [few % 2] * 11 + [shells] * 2
    assert (len(first), len(first + second)) == (len("0 0 0 0 0 3\n") + 1, len(text) + 1)
    for length, due in enumerate(first + second):
        mine.write("mine.blocks", text[:length])
        assert mine.run(*SHELLS) == ((0, due, "") if due == shells else (1, "", due)), length


@pytest.mark.usefixtures("read")
def test_a_fixed_file_cut_at_any_byte(mine: Mine) -> None:
    """Block 1 is waste that is forced in, block 3 ore that is barred."""
    few = "error 11: wrong number of fields in fixed line %d\n"
    free, waste, barred = (pit_of(4, pit, worth) for pit, worth in (([0, 2], "7.000000"), ([0, 1, 2, 3], "5.000000"), ([0, 1, 2], "3.000000")))
    cuts = [free, few % 1, few % 1, few % 1, waste, waste] + [few % 2] * 4 + [barred] * 2
    text = "in 1\nout 3\n"
    assert len(cuts) == len(text) + 1
    for name, content in two_ores(text).items():
        mine.write(name, content)
    for length, due in enumerate(cuts):
        mine.write("mine.fixed", text[:length])
        assert mine.run(*FIXED) == ((0, due, "") if due.startswith("PIT") else (1, "", due)), length


# one in so many of the texts that are bent in a byte is tried here; prime to 255, so that each place of a text meets other bytes
STRIDE, FIXED_STRIDE = 13, 4


@pytest.mark.parametrize("case", CASES.values(), ids=CASES)
def test_a_text_changed_in_a_byte_or_a_line(case: Case, tmp_path: pathlib.Path) -> None:
    case.write(tmp_path)
    stride = FIXED_STRIDE if case.kind is FIXED_FILE else STRIDE
    texts = [case.text, *bent_lines(case.text), *list(bent_bytes(case.text))[::stride]]
    answers = [compared(Bent(PROGRAM, tmp_path, number, case, text)) for number, text in enumerate(texts)]
    assert [difference for _, difference in answers if difference] == []
    assert len({words for words, _ in answers}) > 3


def test_the_definition_on_mines_worked_out_by_hand() -> None:
    """The reference for fixed files, on the rows whose pits were worked out by hand."""
    for row in fixed_rows():
        model, prec, fixed = (row.files[name].encode() for name in ("mine.upit", "mine.prec", "mine.fixed"))
        assert fixed_pit.answer(model, prec, fixed) == (row.out, row.err, row.status), row.name
