"""The library by its C functions: as many blocks as there may be, and what a refusal leaves in the single outputs."""

import ctypes
import os
from array import array
from collections.abc import Iterable

import pytest

from conftest import TOP

LIBRARY = os.environ.get("PITSHELL_LIBRARY", str(TOP / "build" / "libpitshell.so"))
BLOCKS = 4_194_304
PAIRS = BLOCKS // 2
OVER_LIMIT, COUNTS_DIFFER = 4, 17
# What the outputs hold before a call.
FILL = 7
KINDS = {"B": ctypes.c_uint8, "I": ctypes.c_uint32, "q": ctypes.c_int64, "Q": ctypes.c_uint64}


class Found(ctypes.Structure):
    """`pitshell_found` of include/pitshell.h."""

    _fields_ = [("worth_high", ctypes.c_int64), ("worth_low", ctypes.c_uint64), ("place", ctypes.c_uint32)]

    def numbers(self) -> tuple[int, int, int]:
        return self.worth_high, self.worth_low, self.place


@pytest.fixture(scope="module")
def library() -> ctypes.CDLL:
    if not os.path.exists(LIBRARY):
        pytest.skip("make library builds it")
    return ctypes.CDLL(LIBRARY)


def numbers(kind: str, items: Iterable[int] = ()) -> ctypes.Array:
    held = array(kind, items)
    return (KINDS[kind] * len(held)).from_buffer_copy(held)


def same(kind: str, value: int, count: int) -> ctypes.Array:
    return numbers(kind, array(kind, [value]) * count)


def handed(*arrays: ctypes.Array) -> list:
    """Each array with its length."""
    return [word for it in arrays for word in (it, ctypes.c_size_t(len(it)))]


# Each second block needs the one before it and pays for it, with 1 left over.
VALUES = numbers("q", array("q", [-2, 3]) * PAIRS)
STARTS = numbers("I", [0, *(number for pair in range(PAIRS) for number in (pair, pair + 1))])
NEEDS = numbers("I", range(0, BLOCKS, 2))


def test_the_pit_of_as_many_blocks_as_may_be(library: ctypes.CDLL) -> None:
    marks, found = same("B", 0, BLOCKS), Found(FILL, FILL, FILL)
    words = [*handed(VALUES, STARTS, NEEDS, numbers("B")), False, *handed(marks)]
    assert library.pitshell_solve(*words, ctypes.byref(found)) == 0
    assert bytes(marks).count(1) == BLOCKS
    assert found.numbers() == (0, PAIRS, 0)


def test_nested_pits_of_as_many_blocks_as_may_be(library: ctypes.CDLL) -> None:
    revenues, costs = numbers("q", array("q", [0, 3]) * PAIRS), numbers("q", array("q", [2, 0]) * PAIRS)
    firsts, high, low = same("I", FILL, BLOCKS), same("q", FILL, 2), same("Q", FILL, 2)
    place = ctypes.c_uint32(FILL)
    words = handed(revenues, costs, STARTS, NEEDS, numbers("I", [500, 1000]), firsts, high, low)
    assert library.pitshell_shells(*words, ctypes.byref(place)) == 0
    assert set(firsts) == {1} and place.value == 0
    assert (list(high), list(low)) == ([0, 0], [0, 1000 * PAIRS])


def test_the_certificate_of_as_many_blocks_as_may_be(library: ctypes.CDLL) -> None:
    """It is checked too."""
    marks, high, low, found = same("B", 0, BLOCKS), same("q", FILL, PAIRS), same("Q", FILL, PAIRS), Found(FILL, FILL, FILL)
    words = handed(VALUES, STARTS, NEEDS, marks, high, low)
    assert library.pitshell_certificate(*words, ctypes.byref(found)) == 0
    assert bytes(marks).count(1) == BLOCKS and found.numbers() == (0, PAIRS, 0)
    yes, place = ctypes.c_bool(False), ctypes.c_uint32(FILL)
    assert library.pitshell_check(*words, ctypes.byref(yes), ctypes.byref(place)) == 0
    assert yes.value and place.value == 0


def test_no_cycle_in_as_many_blocks_as_may_be(library: ctypes.CDLL) -> None:
    count, place = ctypes.c_size_t(FILL), ctypes.c_uint32(FILL)
    words = [ctypes.c_size_t(BLOCKS), *handed(STARTS, NEEDS, numbers("I"))]
    assert library.pitshell_cycle(*words, ctypes.byref(count), ctypes.byref(place)) == 0
    assert (count.value, place.value) == (0, 0)


# Blocks without needs, how many marks there are, and what that is refused by.
REFUSED = [(1, 2, COUNTS_DIFFER), (BLOCKS + 1, BLOCKS + 1, OVER_LIMIT)]


@pytest.mark.parametrize(("blocks", "counted", "number"), REFUSED)
def test_a_refused_check_answers_no(library: ctypes.CDLL, blocks: int, counted: int, number: int) -> None:
    yes, place = ctypes.c_bool(True), ctypes.c_uint32(FILL)
    words = handed(same("q", 1, blocks), same("I", 0, blocks + 1), numbers("I"), same("B", 1, counted), numbers("q"), numbers("Q"))
    assert library.pitshell_check(*words, ctypes.byref(yes), ctypes.byref(place)) == number
    assert not yes.value and place.value == 0


@pytest.mark.parametrize(("blocks", "counted", "number"), REFUSED)
def test_a_refused_pit_has_no_worth(library: ctypes.CDLL, blocks: int, counted: int, number: int) -> None:
    rows, marks = handed(same("q", 1, blocks), same("I", 0, blocks + 1), numbers("I")), same("B", 1, counted)
    solved, certified = Found(FILL, FILL, FILL), Found(FILL, FILL, FILL)
    assert library.pitshell_solve(*rows, *handed(numbers("B")), False, *handed(marks), ctypes.byref(solved)) == number
    assert library.pitshell_certificate(*rows, *handed(marks, numbers("q"), numbers("Q")), ctypes.byref(certified)) == number
    assert solved.numbers() == certified.numbers() == (0, 0, 0)
    assert bytes(marks).count(1) == counted


def test_a_refused_cycle_has_no_blocks(library: ctypes.CDLL) -> None:
    count, place = ctypes.c_size_t(FILL), ctypes.c_uint32(FILL)
    words = [ctypes.c_size_t(BLOCKS + 1), *handed(same("I", 0, BLOCKS + 2), numbers("I"), numbers("I"))]
    assert library.pitshell_cycle(*words, ctypes.byref(count), ctypes.byref(place)) == OVER_LIMIT
    assert (count.value, place.value) == (0, 0)
