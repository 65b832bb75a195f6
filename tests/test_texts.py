"""What the program reads of texts with unusual blanks, digits and counts, and the first fault of wrong ones (texts.py)."""

import pytest

from conftest import Mine
from rows import CHECK, FIXED, FOUR_PAIRS, REPLAY, SOLVE, model_of, pit_of
from texts import CERTIFICATES, COLUMNS, COUNTS, CUTS, FIXED_CERTIFICATES, FIXED_FILES, JOURNALS, MODELS, PRECEDENCES, TABLES

NUMBERS = {
    "wrong header": 3,
    "over the limit": 4,
    "not a whole number": 5,
    "not a decimal": 6,
    "id out of place": 7,
    "predecessor out of range": 8,
    "block needs itself": 9,
    "predecessor named twice": 10,
    "wrong number of fields": 11,
    "ends early": 12,
    "line after the end": 13,
    "negative value at block 1": 15,
    "no column 0": 16,
    "no column 2": 16,
    "counts differ": 17,
}


def refused(words: str) -> tuple[int, str, str]:
    return 1, "", f"error {NUMBERS[words.split(' in ')[0]]}: {words}\n"


def put(mine: Mine, name: str, text: str) -> None:
    (mine.folder / name).write_bytes(text.encode())


@pytest.fixture
def four_blocks(mine: Mine) -> Mine:
    """Block 0 needs 1 and 3, and block 2 needs 1."""
    mine.write("mine.upit", model_of(["1", "-2", "5", "-2"]))
    mine.write("mine.prec", FOUR_PAIRS)
    return mine


@pytest.mark.parametrize(("text", "told"), MODELS)
def test_models(mine: Mine, text: str, told: list[int] | str) -> None:
    """Without pairs each block of a worth above 0 is dug."""
    put(mine, "mine.upit", text)
    mine.write("mine.prec", "")
    if isinstance(told, str):
        assert mine.run(*SOLVE) == refused(told)
        return
    pit = [block for block, value in enumerate(told) if value > 0]
    worth = sum(told[block] for block in pit)
    assert mine.run(*SOLVE) == (0, pit_of(len(told), pit, f"{worth // 10**6}.{worth % 10**6:06}"), "")


@pytest.mark.parametrize(("blocks", "text", "told"), PRECEDENCES)
def test_precedence_files(mine: Mine, blocks: int, text: str, told: list[tuple[int, int]] | str) -> None:
    """A certificate names as many pairs, and each of them, so these are the pairs that were read."""
    mine.write("mine.upit", model_of(["0"] * blocks))
    put(mine, "mine.prec", text)
    if isinstance(told, str):
        assert mine.run(*SOLVE) == refused(told)
        return
    flow = "".join(f"{u} {p} 1\n" for u, p in sorted(told))
    mine.write("some.cert", f"PITCERT 1\nBLOCKS: {blocks}\nARCS: {len(told)}\nIN: 0\nFLOW: {len(told)}\n{flow}")
    status, out, err = mine.run(*CHECK)
    assert (status, out, err) in ((0, "yes\n", ""), (4, "no\n", ""))


def shells_at(mine: Mine, text: str, column: int) -> tuple[int, str, str]:
    put(mine, "mine.blocks", text)
    mine.write("mine.prec", "")
    words = ("--revenue", str(column), "--cost", str(column), "--factors", "1000")
    return mine.run("shells", "--blocks", "mine.blocks", "--prec", "mine.prec", *words)


@pytest.mark.parametrize(("text", "told"), TABLES)
def test_block_models(mine: Mine, text: str, told: str) -> None:
    assert shells_at(mine, text, 0) == refused(told)


@pytest.mark.parametrize(("text", "column", "told"), COLUMNS)
def test_columns(mine: Mine, text: str, column: int, told: str) -> None:
    assert shells_at(mine, text, column) == refused(told)


@pytest.mark.parametrize(("text", "told"), FIXED_FILES)
def test_fixed_files(mine: Mine, text: str, told: tuple[list[int], list[int]] | str) -> None:
    """Of waste the blocks forced in are dug, and of ore all but those barred."""
    put(mine, "mine.fixed", text)
    for value in (-1, 1):
        mine.write("mine.upit", model_of([str(value)] * 4))
        mine.write("mine.prec", "")
        if isinstance(told, str):
            assert mine.run(*FIXED) == refused(told)
            continue
        forced, barred = told
        pit = [block for block in range(4) if (block in forced if value < 0 else block not in barred)]
        assert mine.run(*FIXED) == (0, pit_of(4, pit, f"{value * len(pit) or 0}.000000"), "")


@pytest.mark.parametrize(("text", "told"), CERTIFICATES)
def test_certificates(four_blocks: Mine, text: str, told: str) -> None:
    put(four_blocks, "some.cert", text)
    assert four_blocks.run(*CHECK) == (refused(told) if told else (4, "no\n", ""))


@pytest.mark.parametrize(("text", "told"), FIXED_CERTIFICATES)
def test_certificates_with_fixed_blocks(four_blocks: Mine, text: str, told: str) -> None:
    four_blocks.write("mine.fixed", "in 1\nout 3\n")
    put(four_blocks, "some.cert", "PITCERT 2\n" + COUNTS + text)
    answer = four_blocks.run("check", *FIXED[1:], "--certificate", "some.cert")
    assert answer == refused(told) if told else answer[0] in (0, 4)


@pytest.mark.parametrize(("text", "told"), JOURNALS)
def test_journals(four_blocks: Mine, text: str, told: str) -> None:
    put(four_blocks, "some.journal", text)
    answer = four_blocks.run(*REPLAY)
    assert answer == refused(told) if told else " in journal" not in answer[2]


def test_a_journal_cut_at_any_byte(four_blocks: Mine) -> None:
    whole = "PITJOURNAL 1\n" + COUNTS + "BUDGET: none\nENTRIES: 6\n1 0 1\n2 0 2\n3 2 2\n1 1 1\n2 2 1\n3 2 2\n"
    four_blocks.write("mine.upit", model_of(["4", "-2", "5", "-2"]))
    found = {length: words for first, last, words in CUTS for length in range(first, last + 1)}
    assert list(found) == list(range(len(whole) + 1))
    for length, words in found.items():
        put(four_blocks, "some.journal", whole[:length])
        assert four_blocks.run(*REPLAY) == (refused(words) if words else (0, pit_of(4, [0, 1, 2, 3], "5.000000"), "")), length
