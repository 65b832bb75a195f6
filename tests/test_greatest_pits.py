"""The greatest pit and the greatest shells: runs worked out by hand, and what does not go together on the command line."""

import pytest

from conftest import Mine
from rows import GREATEST, MODES, SHELLS, SOLVE, Row, greatest_rows

WORDS = "pitshell: pit is least or greatest\n"
ALONE = "pitshell: greatest takes no certificate or journal\n"
SHARED = MODES["shared 2"]
CERTIFICATE = ("--certificate", "made.cert")
JOURNAL = ("--journal", "made.journal")


@pytest.mark.parametrize("row", greatest_rows(), ids=lambda row: row.name)
def test_what_was_worked_out_by_hand(mine: Mine, row: Row) -> None:
    for name, text in row.files.items():
        mine.write(name, text)
    assert mine.run(*row.words) == (row.status, row.out, row.err)


@pytest.mark.parametrize(
    ("words", "line"),
    [
        ((*SOLVE, "--pit", "Greatest"), WORDS),
        ((*SOLVE, "--pit", ""), WORDS),
        ((*SOLVE, "--pit", "largest", *CERTIFICATE), WORDS),
        ((*SHELLS, "1000", "--pit", "smallest"), WORDS),
        ((*SHELLS, "wrong", "--pit", "smallest"), WORDS),
        ((*SOLVE, *GREATEST, *CERTIFICATE), ALONE),
        ((*SOLVE, *SHARED, *GREATEST, *JOURNAL), ALONE),
        ((*SOLVE, *SHARED, *GREATEST, *JOURNAL, *CERTIFICATE), ALONE),
        ((*SOLVE, *GREATEST, *JOURNAL), "pitshell: journal needs shared\n"),
        ((*SOLVE, "--pit", "none", "--mode", "none"), "pitshell: mode is single, parts or shared\n"),
        ((*SHELLS, "1000", "--pit", "none", "--mode", "parts", "--budget", "1"), "pitshell: parts takes no budget\n"),
    ],
)
def test_words_that_do_not_go_together(mine: Mine, words: tuple[str, ...], line: str) -> None:
    before = {file.name for file in mine.folder.iterdir()}
    assert mine.run(*words) == (2, "", line)
    assert {file.name for file in mine.folder.iterdir()} == before


@pytest.mark.parametrize("words", [("check", *SOLVE[1:], "--certificate", "good.cert", *GREATEST), ("replay", *SOLVE[1:], "--journal", "some.journal", *GREATEST)])
def test_check_and_replay_take_no_pit(mine: Mine, words: tuple[str, ...]) -> None:
    status, out, err = mine.run(*words)
    assert (status, out) == (2, "")
    assert "--pit" in err


def test_the_least_pit_is_the_one_that_is_meant(mine: Mine) -> None:
    mine.write("mine.upit", mine.read("mine.upit").replace("1 5", "1 3"))
    for words in (SOLVE, (*SHELLS, "400")):
        least, greatest = mine.run(*words, "--pit", "least"), mine.run(*words, *GREATEST)
        assert mine.run(*words) == least
        assert least[1] != greatest[1]
        assert least[::2] == greatest[::2] == (0, "")


def test_a_certificate_and_a_journal_of_the_least_pit(mine: Mine) -> None:
    words = (*SOLVE, *SHARED, "--pit", "least", *CERTIFICATE, *JOURNAL)
    assert mine.run(*words)[0] == 0
    assert mine.run("check", *SOLVE[1:], *CERTIFICATE) == (0, "yes\n", "")
