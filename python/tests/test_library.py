"""The library on arrays: the same pits as by trying every set, and each refusal as an exception that names what is wrong."""

import json
import os
import random
import re
import subprocess
from decimal import Context, Decimal
from pathlib import Path

import numpy as np
import pytest
from scipy.sparse import csr_matrix

pitshell = pytest.importorskip("pitshell", reason="make library builds it")

TOP = Path(__file__).resolve().parents[2]
TWO = np.array([-3, 5])
NEEDS = np.array([[1, 0]])


def best(values, pairs, fixed, greatest):
    """The best allowed set of all, as a mask, and its worth; None where there is none."""
    n = len(values)
    needed = [0] * n
    for u, p in pairs:
        needed[u] |= 1 << int(p)
    forced = sum(1 << u for u in range(n) if fixed[u] == 1)
    barred = sum(1 << u for u in range(n) if fixed[u] == 2)
    allowed = (
        s
        for s in range(1 << n)
        if not forced & ~s and not barred & s and all(not needed[u] & ~s for u in range(n) if s >> u & 1)
    )
    ranked = [
        (sum(int(values[u]) for u in range(n) if s >> u & 1), (1 if greatest else -1) * bin(s).count("1"), s)
        for s in allowed
    ]
    return max(ranked) if ranked else None


def random_mine(rng):
    n = rng.randint(0, 9)
    most = rng.choice([1, 2, 1000, 10**18])
    values = np.array([rng.randint(-most, most) for _ in range(n)], dtype=np.int64)
    order = rng.sample(range(n), n)
    pairs = [(order[i], order[j]) for i in range(n) for j in range(i)]
    pairs = rng.sample(pairs, min(len(pairs), rng.randint(0, 2 * n)))
    return values, np.array(pairs, dtype=np.int64).reshape(-1, 2)


@pytest.mark.parametrize("seed", range(8))
def test_the_best_set_of_all(seed):
    rng = random.Random(seed)
    for _ in range(250):
        values, pairs = random_mine(rng)
        fixed = np.array([rng.choice([0, 0, 0, 1, 2]) if seed % 2 else 0 for _ in values], dtype=np.uint8)
        for greatest in (False, True):
            wanted = best(values, pairs, fixed, greatest)
            way = "greatest" if greatest else "least"
            if wanted is None:
                with pytest.raises(pitshell.Refusal) as refused:
                    pitshell.solve(values, pairs, fixed, way, millionths=True)
                assert refused.value.number == 21 and fixed[refused.value.block] == pitshell.BARRED
                continue
            found = pitshell.solve(values, pairs, fixed, way, millionths=True)
            assert (found.worth * 10**6, sum(1 << int(u) for u in np.flatnonzero(found.in_pit))) == (
                wanted[0],
                wanted[2],
            )


def test_needs_in_each_form():
    forms = [
        NEEDS,
        NEEDS.astype(np.int32),
        (np.array([0, 0, 1]), np.array([0])),
        csr_matrix(([7], ([1], [0])), shape=(2, 2)),
    ]
    for needs in forms:
        found = pitshell.solve(TWO, needs)
        assert found.in_pit.tolist() == [True, True] and found.worth == 2


def test_values_in_each_form():
    for values in (TWO, TWO.astype(np.int8), [-3, 5], [-3.0, 5.0], [Decimal("-3"), Decimal("5")]):
        assert pitshell.solve(values, NEEDS).worth == 2
    assert pitshell.solve(TWO, NEEDS, millionths=True).worth == Decimal("0.000002")
    assert pitshell.solve([-1.5, 2.000001], NEEDS).worth == Decimal("0.500001")
    assert pitshell.solve([0.125, 0.2], NEEDS).rounded == 1
    assert pitshell.solve([Decimal("0.1234567"), Decimal("0.2")], NEEDS).rounded == 1


def test_numbers_that_do_not_fit_are_named():
    for values, millionths in (
        ([0, 10**13], False),
        (np.array([0, 2**63], dtype=np.uint64), True),
        ([0.0, 1e13], False),
        ([0, Decimal(10**13)], False),
    ):
        with pytest.raises(OverflowError, match="values: that of block 1 does not fit"):
            pitshell.solve(values, NEEDS, millionths=millionths)
    with pytest.raises(TypeError, match="millionths are whole numbers"):
        pitshell.solve([0.5, 1.0], NEEDS, millionths=True)


@pytest.mark.parametrize("seed", range(40))
def test_shells_are_the_best_sets_of_each_factor(seed):
    rng = random.Random(seed)
    values, pairs = random_mine(rng)
    revenues = np.abs(values) % 1000
    costs = np.array([rng.randint(0, 500) for _ in values], dtype=np.int64)
    factors = sorted(rng.sample(range(3000), rng.randint(0, 5)))
    found = pitshell.shells(revenues, costs, pairs, factors, millionths=True)
    for number, factor in enumerate(factors):
        worth, _, blocks = best(
            [factor * int(r) - 1000 * int(c) for r, c in zip(revenues, costs)], pairs, [0] * len(values), False
        )
        assert (
            sum(1 << int(u) for u in np.flatnonzero(found.first <= number)) == blocks
            and found.worths[number] * 10**9 == worth
        )
    assert (found.first <= len(factors)).all() and len(found.worths) == len(factors)


def test_shells_in_units_and_past_64_bits():
    # At 1.5 times its price of 2 the block pays for what it needs, and at the price as given it just does not.
    found = pitshell.shells([0, 2], [1.0, 1.5], NEEDS, [1000, 1500])
    assert found.first.tolist() == [1, 1] and found.worths == [0, Decimal("0.5")]
    # Two blocks of 10^12 at a hundred times their price.
    found = pitshell.shells([10**12, 10**12], [0, 0], NEEDS, [100_000])
    assert found.worths == [2 * 10**14]


def test_worths_of_29_digits_are_exact():
    """A million blocks of the most that there is, of which one yields a millionth less, at nearly a hundred times their price."""
    revenues = np.full(1_000_001, 10**18)
    revenues[7] -= 1
    (worth,) = pitshell.shells(revenues, np.zeros_like(revenues), np.zeros((0, 2)), [99_999], millionths=True).worths
    assert int(worth.scaleb(9, Context(prec=60))) == 99_999 * (1_000_001 * 10**18 - 1) > 10**28


@pytest.mark.parametrize(
    "revenues, costs, factors, number, block",
    [
        ([-1, 0], [0, 0], [1], 15, 0),
        ([0, 0], [0, -1], [1], 15, 1),
        ([10**12 + 1, 0], [0, 0], [1], 4, None),
        ([0, 0], [0, 0], [2, 1], 19, None),
        ([0, 0], [0, 0], [1, 1], 19, None),
        ([0, 0], [0, 0], [100_001], 4, None),
        ([0, 0], [0, 0], [-1], 4, None),
        ([0, 0], [0, 0], range(1001), 4, None),
        ([0, 0], [0], [1], 17, None),
    ],
)
def test_shells_that_are_refused(revenues, costs, factors, number, block):
    with pytest.raises(pitshell.Refusal) as refused:
        pitshell.shells(revenues, costs, NEEDS, factors)
    assert (refused.value.number, refused.value.block) == (number, block)


def test_shells_of_no_factor_and_of_no_block():
    assert pitshell.shells([1, 1], [0, 0], NEEDS, []).first.tolist() == [0, 0]
    none = pitshell.shells([], [], [], [1000])
    assert len(none.first) == 0 and none.worths == [0]


def test_arrays_that_lie_askew():
    raw = np.zeros(17, dtype=np.uint8)
    askew = raw[1:].view(np.int64)
    askew[:] = TWO
    assert not askew.flags.aligned
    backward = TWO[::-1].copy()[::-1]
    for values in (askew, backward, TWO.astype(">i8")):
        assert pitshell.solve(values, NEEDS).worth == 2


REFUSED = [
    (TWO, [[1, 2]], 8),
    (TWO, [[1, -1]], 8),
    (TWO, [[1, 1]], 9),
    (TWO, [[1, 0], [1, 0]], 10),
    (TWO, [[0, 1], [1, 0]], 14),
    (TWO, [[2, 0]], 7),
    (TWO, (np.array([0, 2, 1]), np.array([0])), 7),
    (TWO, (np.array([0, 1]), np.array([0])), 7),
    (TWO, (np.array([1, 1, 1]), np.array([0])), 7),
    (np.zeros(4_194_305, dtype=np.int64), np.zeros((0, 2)), 4),
]


@pytest.mark.parametrize("values, needs, number", REFUSED)
def test_refusals(values, needs, number):
    with pytest.raises(pitshell.Refusal) as refused:
        pitshell.solve(values, np.array(needs) if isinstance(needs, list) else needs)
    assert refused.value.number == number


def test_fixed_blocks_that_are_refused():
    for fixed, number in (([1, 3], 3), ([1], 17), ([2, 1], 21)):
        with pytest.raises(pitshell.Refusal) as refused:
            pitshell.solve(TWO, NEEDS, np.array(fixed))
        assert refused.value.number == number


@pytest.mark.parametrize(
    ("value", "kind", "why"),
    [
        (Decimal("nan"), ValueError, "values: that of block 1 is not a finite number"),
        (Decimal("-inf"), ValueError, "values: that of block 1 is not a finite number"),
        (None, TypeError, "values: that of block 1 is None, and not a number"),
        ("a", TypeError, "values: that of block 1 is 'a', and not a number"),
    ],
)
def test_what_is_no_number_is_named(value, kind, why):
    with pytest.raises(kind, match=why):
        pitshell.solve([Decimal(1), value], [])


@pytest.mark.parametrize("needs", [[[1, -1]], np.array([[1, -2]], dtype=np.int32), [[1, 10**11]]])
def test_a_block_that_no_mine_has_is_not_shown_as_another(needs):
    with pytest.raises(
        pitshell.Refusal,
        match="error 8: predecessor out of range: block 1 needs a number below 0, or above 2,147,483,647",
    ):
        pitshell.solve(TWO, needs)


def test_refusals_of_arrays_have_words_of_arrays():
    with pytest.raises(pitshell.Refusal, match="error 3: unknown number: block 1"):
        pitshell.solve(TWO, NEEDS, [0, 3])
    with pytest.raises(pitshell.Refusal, match="error 7: rows out of place"):
        pitshell.solve(TWO, ([0, 1], [0]))


def test_the_words_name_the_pair():
    with pytest.raises(pitshell.Refusal, match="error 9: block needs itself: block 1 needs 1"):
        pitshell.solve(TWO, np.array([[1, 1]]))


IN_C = """#include <pitshell.h>
int main(void) {
    int64_t values[] = {-3000000, 5000000};
    uint32_t starts[] = {0, 0, 1}, needs[] = {0};
    uint8_t numbers[1] = {0}, marks[2];
    struct pitshell_found found;
    uint32_t done = pitshell_solve(values, 2, starts, 3, needs, 1, numbers, 0, false, marks, 2, &found);
    if (done != PITSHELL_DONE || marks[0] != 1 || marks[1] != 1 || found.worth_low != 2000000 || found.worth_high != 0) return 1;

    int64_t revenues[] = {0, 5}, costs[] = {3, 0}, high[2];
    uint64_t low[2];
    uint32_t factors[] = {500, 1000}, firsts[2], place;
    done = pitshell_shells(revenues, 2, costs, 2, starts, 3, needs, 1, factors, 2, firsts, 2, high, 2, low, 2, &place);
    if (done != PITSHELL_DONE || firsts[0] != 1 || firsts[1] != 1 || low[0] != 0 || low[1] != 2000 || high[1] != 0) return 2;
    costs[1] = -1;
    done = pitshell_shells(revenues, 2, costs, 2, starts, 3, needs, 1, factors, 2, firsts, 2, high, 2, low, 2, &place);
    if (done != PITSHELL_NEGATIVE || place != 1 || firsts[0] != 1) return 3;

    int64_t flow_high[1];
    uint64_t flow_low[1];
    bool yes;
    marks[0] = marks[1] = 0;
    done = pitshell_certificate(values, 2, starts, 3, needs, 1, marks, 2, flow_high, 1, flow_low, 1, &found);
    if (done != PITSHELL_DONE || marks[0] != 1 || marks[1] != 1 || found.worth_low != 2000000) return 4;
    done = pitshell_check(values, 2, starts, 3, needs, 1, marks, 2, flow_high, 1, flow_low, 1, &yes, &place);
    if (done != PITSHELL_DONE || !yes) return 5;
    flow_low[0] = 1;
    done = pitshell_check(values, 2, starts, 3, needs, 1, marks, 2, flow_high, 1, flow_low, 1, &yes, &place);
    if (done != PITSHELL_DONE || yes) return 6;

    uint32_t round_starts[] = {0, 1, 2}, round_needs[] = {1, 0}, cycle[1];
    size_t count;
    done = pitshell_solve(values, 2, round_starts, 3, round_needs, 2, numbers, 0, false, marks, 2, &found);
    if (done != PITSHELL_CYCLE) return 7;
    done = pitshell_cycle(2, round_starts, 3, round_needs, 2, cycle, 1, &count, &place);
    if (done != PITSHELL_DONE || count != 2 || cycle[0] != 0) return 8;
    return 0;
}
"""


def compiled(folder, text, *options):
    """The program that `cc` makes of a text in C and the library, without a warning."""
    (folder / "main.c").write_text(text)
    build, program = TOP / "build", folder / "main"
    library = [build / "libpitshell.so", f"-Wl,-rpath,{build}"]
    command = ["cc", *options, "-Wall", "-Wextra", "-Werror", "-I", TOP / "include", folder / "main.c", *library]
    subprocess.run([*command, "-o", program], check=True)
    return program


@pytest.mark.parametrize("watch", [[], ["-fsanitize=address"]])
def test_the_header_is_c(tmp_path, watch):
    program = compiled(tmp_path, IN_C, *watch)
    assert subprocess.run([program]).returncode == 0


def test_the_lines_of_the_page_give_the_results_beside_them():
    page = (TOP / "docs" / "LIBRARY.md").read_text()
    (text,) = re.findall(r"^```python\n(.*?)^```", page, re.MULTILINE | re.DOTALL)
    names: dict = {}
    exec(text, names)
    found, nested, shown = (names[name] for name in ("found", "nested", "shown"))
    assert found.in_pit.tolist() == [True, True] and found.worth == Decimal("2.000000")
    assert list(nested.first) == [1, 1] and [int(it) for it in nested.worths] == [0, 2]
    assert pitshell.check([-3.0, 5.0], [[1, 0]], shown.in_pit, shown.flow) is True


def test_the_program_of_the_page_prints_what_the_page_shows(tmp_path):
    page = (TOP / "docs" / "LIBRARY.md").read_text()
    (text,) = re.findall(r"^```c\n(.*?)^```", page, re.MULTILINE | re.DOTALL)
    runs = re.findall(r"^\$ (cc [^\n]*)\n(.*?)^```", page, re.MULTILINE | re.DOTALL)
    (installed, shown), (in_clone, nothing) = runs
    assert len(text.splitlines()) <= 30 and nothing == ""
    ran = subprocess.run([compiled(tmp_path, text)], capture_output=True, text=True, check=True)
    assert ran.stdout == shown and shown.count("\n") == 3
    # The commands of the page, for an installed library and in a clone.
    (tmp_path / "pit.c").write_text(text)
    for name in ("include", "build"):
        (tmp_path / name).symlink_to(TOP / name)
    places = {"CPATH": str(TOP / "include"), "LIBRARY_PATH": str(TOP / "build"), "LD_LIBRARY_PATH": str(TOP / "build")}
    for command, added in ((installed, places), (in_clone, {})):
        ran = subprocess.run(
            ["sh", "-c", command], cwd=tmp_path, env={**os.environ, **added}, capture_output=True, text=True
        )
        assert (ran.stdout, ran.stderr) == (shown, ""), command


def test_the_notebook_of_arrays_runs(capsys):
    cells = json.loads((TOP / "examples" / "arrays.ipynb").read_text())["cells"]
    scope: dict = {}
    for cell in cells:
        if cell["cell_type"] == "code":
            exec("".join(cell["source"]), scope)
    said = capsys.readouterr().out
    # The shallow block needs 3, and all cost 8: its 9.5 pay from 843 per mille on. The next needs 8, and all cost 18: its 20 pay beyond 900.
    first, factors = scope["nested"].first, scope["factors"].tolist()
    assert [factors[first[scope["block"][place]]] for place in ((1, 1), (2, 6))] == [900, 1000]
    assert "cycle: blocks 0, 1, 2" in said
