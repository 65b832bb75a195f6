"""The program pitschedule against a check and a bound in whole numbers, and against linear and integer programmes."""

import itertools
import os
import pathlib
import random
import re
import resource
import subprocess

import numpy
import pytest
from scipy import optimize, sparse

import schedules
from schedules import MILLION, Problem, Shares, Term

TOP = pathlib.Path(__file__).resolve().parent.parent
PROGRAM = pathlib.Path(os.environ.get("PITSCHEDULE", TOP / "build" / "pitschedule")).resolve()
EXAMPLE = TOP / "crates" / "pitschedule" / "data"
FILES = ("problem", "prec", "schedule", "prices")


class Folder:
    """A folder with the four files, in which the program is run."""

    def __init__(self, folder: pathlib.Path) -> None:
        self.folder = folder

    def write(self, name: str, text: str | bytes) -> None:
        (self.folder / name).write_bytes(text.encode() if isinstance(text, str) else text)

    def write_all(self, problem: Problem, shares: Shares, prices: list[list[int]]) -> None:
        texts = schedules.problem_text(problem), schedules.prec_text(problem), schedules.schedule_text(problem, shares), schedules.prices_text(problem, prices)
        for name, text in zip(FILES, texts):
            self.write(name, text)

    def run(self, command: str, *names: str) -> tuple[int, str, str]:
        words = [word for name in names for word in (f"--{name}", name)]
        ran = subprocess.run([PROGRAM, command, *words], cwd=self.folder, capture_output=True, timeout=60)
        return ran.returncode, ran.stdout.decode(), ran.stderr.decode()

    def check(self) -> tuple[int, str, str]:
        return self.run("check", *FILES)


def two_blocks() -> Problem:
    return schedules.read_problem((EXAMPLE / "two_blocks.problem").read_bytes(), [(1, 0)])


@pytest.fixture
def folder(tmp_path: pathlib.Path) -> Folder:
    made = Folder(tmp_path)
    for name in FILES:
        made.write(name, (EXAMPLE / f"two_blocks.{name}").read_bytes())
    return made


# ---- two blocks in two periods, by hand


def test_a_schedule_with_a_stockpile_reaches_the_bound(folder: Folder) -> None:
    """Half of the waste (-2 a tonne) and half of the ore (10) in each period, discounted by a half in the second. The second half of the
    waste stays on the stockpile until after the end and costs nothing: 0.5 * -2 + 0.5 * 10 + 0.5 * 0.5 * 10 = 6.5. The price 1.5 of a
    tonne mined in the first period makes the bound the same."""
    assert folder.check() == (0, "SCHEDULE\nVALUE: 6.500000\nWHOLE BLOCKS: no\nBOUND: 6.500000\n", "")


def blocks_of_code(page: str, first: str) -> list[list[list[str]]]:
    """The code blocks of a page that begin with a word: the parts of each line between two or more spaces."""
    return [[re.split("  +", line) for line in code.splitlines()] for code in re.findall(r"^```\n(.*?)^```$", page, re.MULTILINE | re.DOTALL) if code.startswith(first)]


def test_the_example_is_that_of_the_law_and_of_the_formats() -> None:
    law = (TOP / "crates" / "schedule_texts" / "specs" / "ExampleTexts.antt").read_text()
    page = (TOP / "docs" / "FORMATS.md").read_text()
    (problem,), (others,) = blocks_of_code(page, "PROBLEM"), blocks_of_code(page, "SCHEDULE 2")
    shown = {
        "problem": [parts[0] for parts in problem],
        "schedule": [parts[0] for parts in others],
        "prices": [part for parts in others for part in parts[1:2] if part[0].isupper()],
    }
    for name, lines in shown.items():
        text = (EXAMPLE / f"two_blocks.{name}").read_text()
        (written,) = re.findall(rf'^{name}_example = codes "(.*)"$', law, re.MULTILINE)
        assert text == "".join(f"{line}\n" for line in lines) == written.replace("\\n", "\n")


def test_the_bound_alone(folder: Folder) -> None:
    assert folder.run("bound", "problem", "prec", "prices") == (0, "BOUND: 6.500000\n", "")


def test_the_value_alone(folder: Folder) -> None:
    assert folder.run("check", "problem", "prec", "schedule") == (0, "SCHEDULE\nVALUE: 6.500000\nWHOLE BLOCKS: no\n", "")


@pytest.mark.parametrize(
    "shares, told",
    [
        ({(1, 0, 0): MILLION, (0, 1, 0): MILLION}, "block 1 before block 0 in period 0"),
        ({(0, 0, 1): MILLION, (0, 1, 1): 1}, "block 0 more than once by the end of period 1"),
        ({(0, 0, 1): MILLION, (1, 0, 0): 1}, "limit 0 in period 0: 1.000001 of 1.000000"),
    ],
)
def test_why_shares_are_no_schedule(folder: Folder, shares: Shares, told: str) -> None:
    folder.write("schedule", schedules.schedule_text(two_blocks(), shares))
    assert folder.check() == (4, f"NO SCHEDULE\n{told}\nBOUND: 6.500000\n", "")


def test_shares_of_one_place_add_up(folder: Folder) -> None:
    folder.write("schedule", "SCHEDULE 2\nBLOCKS 2\nPERIODS 2\nDESTINATIONS 3\nSHARES 5\nSHARE 0 0 1 0.25\nSHARE 1 0 0 0.5\nSHARE 0 1 2 0.5\nSHARE 1 1 0 0.5\nSHARE 0 0 1 0.25\n")
    assert folder.check()[:2] == (0, "SCHEDULE\nVALUE: 6.500000\nWHOLE BLOCKS: no\nBOUND: 6.500000\n")


@pytest.mark.parametrize(
    "shares, whole",
    [
        ({(0, 0, 1): MILLION, (1, 1, 0): MILLION}, "yes"),
        ({(0, 0, 1): MILLION, (1, 1, 0): 500000, (1, 1, 2): 500000}, "yes"),
        ({(0, 0, 1): MILLION}, "yes"),
        ({}, "yes"),
        ({(0, 0, 1): MILLION - 1}, "no"),
        ({(0, 0, 1): MILLION, (1, 1, 0): 1}, "no"),
        ({(0, 0, 1): 500000, (0, 1, 1): 500000}, "no"),
    ],
)
def test_whether_blocks_are_whole(folder: Folder, shares: Shares, whole: str) -> None:
    """A block of which parts go to two destinations in one period is whole; one of which parts are mined in two periods is not."""
    folder.write("schedule", schedules.schedule_text(two_blocks(), shares))
    status, out, _ = folder.run("check", "problem", "prec", "schedule")
    assert (status, out.splitlines()[2]) == (0, f"WHOLE BLOCKS: {whole}")


# ---- random problems


def random_problem(chance: random.Random) -> Problem:
    blocks, periods, destinations = chance.randint(1, 4), chance.randint(1, 3), chance.randint(1, 3)
    columns, limits = chance.randint(1, 3), chance.randint(0, 3)
    terms = [Term(d, None, chance.randrange(columns), chance.choice([0, 0, 1])) for d in range(destinations)]
    terms += [Term(chance.randrange(destinations), chance.randrange(limits), chance.randrange(columns), chance.choice([0, 0, 1])) for _ in range(chance.randint(0, 6) if limits else 0)]
    amounts = [[chance.randint(-9, 9) * MILLION + chance.choice([0, 0, 1000, 333333]) for _ in range(columns)] for _ in range(blocks)]
    discounts = [chance.choice([MILLION, 909091, 826446, 500000]) for _ in range(periods)]
    capacities = [[chance.randint(-2, 12) * MILLION for _ in range(periods)] for _ in range(limits)]
    arcs = [(u, p) for u in range(blocks) for p in range(u) if chance.random() < 0.5]
    return Problem(destinations, amounts, terms, discounts, capacities, arcs)


def programme(problem: Problem) -> tuple[numpy.ndarray, sparse.csr_array, numpy.ndarray]:
    """Gains of all places in money, and the rows and bounds of their constraints: each block once, precedence by period, and limits."""
    places = problem.places()
    gains = numpy.array([problem.gain(*place) for place in places]) / 1e12
    rows, bounds = [], []
    for block in range(problem.blocks):
        rows.append([float(b == block) for b, _, _ in places])
        bounds.append(1.0)
    for u, p in problem.arcs:
        for period in range(problem.periods):
            rows.append([(float(b == u) - float(b == p)) if t <= period else 0.0 for b, t, _ in places])
            bounds.append(0.0)
    used = [problem.used(*place) for place in places]
    for r, capacities in enumerate(problem.capacities):
        for s, capacity in enumerate(capacities):
            rows.append([it.get((r, s), 0) / MILLION for it in used])
            bounds.append(capacity / MILLION)
    return gains, sparse.csr_array(numpy.array(rows).reshape(len(rows), len(places))), numpy.array(bounds)


def optimum(problem: Problem, whole: bool) -> optimize.OptimizeResult:
    gains, rows, bounds = programme(problem)
    constraint = optimize.LinearConstraint(rows, -numpy.inf, bounds)
    return optimize.milp(-gains, constraints=constraint, bounds=optimize.Bounds(0, 1), integrality=numpy.full(len(gains), int(whole)))


def prices_of(problem: Problem) -> list[list[int]] | None:
    """The dual prices of limits in the linear programme, in millionths; none if it has no solution."""
    gains, rows, bounds = programme(problem)
    found = optimize.linprog(-gains, A_ub=rows, b_ub=bounds, bounds=(0, 1), method="highs")
    if found.status != 0:
        return None
    first = len(bounds) - len(problem.capacities) * problem.periods
    duals = -found.ineqlin.marginals[first:]
    return [[max(0, round(x * MILLION)) for x in row] for row in duals.reshape(len(problem.capacities), problem.periods)]


def told(out: str, word: str) -> float:
    (line,) = [it for it in out.splitlines() if it.startswith(f"{word}: ")]
    return float(line.removeprefix(f"{word}: "))


@pytest.mark.parametrize("seed", range(25))
def test_values_and_bounds_of_random_problems(folder: Folder, seed: int) -> None:
    """20 problems a seed. The best whole blocks that the integer programme finds are a schedule of exactly that value; the bound, at
    random prices and at the dual ones, is that of the closures, never below the optimum, and at the dual prices equal to it."""
    chance = random.Random(seed)
    for _ in range(20):
        problem = random_problem(chance)
        best = optimum(problem, whole=True)
        shares = {place: MILLION for place, x in zip(problem.places(), best.x) if x > 0.5} if best.status == 0 else {}
        prices = [[chance.choice([0, chance.randint(0, 5 * MILLION)]) for _ in range(problem.periods)] for _ in problem.capacities]
        folder.write_all(problem, shares, prices)
        status, out, err = folder.check()
        faults = schedules.faults_of(problem, shares)
        assert (status, err) == (4 if faults else 0, "")
        assert told(out, "BOUND") == float(schedules.six_decimals(schedules.bound_of(problem, prices)))
        if best.status == 0:
            assert not faults
            assert out.splitlines()[1:3] == [f"VALUE: {schedules.six_decimals(schedules.value_of(problem, shares))}", "WHOLE BLOCKS: yes"]
            assert told(out, "BOUND") >= -best.fun - 1e-6
        if (duals := prices_of(problem)) is not None:
            folder.write("prices", schedules.prices_text(problem, duals))
            bound = told(folder.run("bound", "problem", "prec", "prices")[1], "BOUND")
            assert bound == pytest.approx(-optimum(problem, whole=False).fun, abs=2e-4)


@pytest.mark.parametrize("seed", range(10))
def test_random_shares(folder: Folder, seed: int) -> None:
    """30 problems a seed, with shares drawn at random: they are a schedule exactly if the check in whole numbers finds no fault, and
    the fault that is told is the first one that it finds."""
    chance = random.Random(seed)
    seen = set()
    for _ in range(30):
        problem = random_problem(chance)
        places = chance.sample(problem.places(), min(len(problem.places()), chance.randint(0, 5)))
        shares = {place: chance.choice([1, 250000, 500000, MILLION]) for place in places}
        folder.write_all(problem, shares, [[0] * problem.periods for _ in problem.capacities])
        status, out, _ = folder.run("check", "problem", "prec", "schedule")
        faults = schedules.faults_of(problem, shares)
        if faults:
            assert (status, out) == (4, f"NO SCHEDULE\n{faults[0]}\n")
        else:
            whole = "yes" if schedules.are_whole(problem, shares) else "no"
            assert (status, out) == (0, f"SCHEDULE\nVALUE: {schedules.six_decimals(schedules.value_of(problem, shares))}\nWHOLE BLOCKS: {whole}\n")
        seen.add(out.split(" ")[1].split("\n")[-1] if faults else "schedule")
    assert {"schedule", "block", "limit"} <= seen


# ---- altered and cut files


def answer_of(texts: dict[str, bytes]) -> tuple[str, str, str] | None:
    """Value, whether blocks are whole, and bound, as the texts spell them, read in Python; none if they cannot be read or are no schedule."""
    problem = schedules.read_problem(texts["problem"], [(1, 0)])
    shares = schedules.read_shares(texts["schedule"], problem)
    if schedules.faults_of(problem, shares):
        return None
    bound = schedules.bound_of(problem, schedules.read_prices(texts["prices"], problem))
    whole = "yes" if schedules.are_whole(problem, shares) else "no"
    return schedules.six_decimals(schedules.value_of(problem, shares)), whole, schedules.six_decimals(bound)


@pytest.mark.parametrize("name", ["problem", "schedule", "prices"])
def test_each_byte_altered(folder: Folder, name: str) -> None:
    """Each byte is replaced by five others in turn. Where the program gives an answer, the altered texts spell that answer."""
    texts = {it: (EXAMPLE / f"two_blocks.{it}").read_bytes() for it in FILES}
    whole = texts[name]
    statuses = set()
    for place in range(len(whole)):
        for byte in b"07 -\n":
            texts[name] = whole[:place] + bytes([byte]) + whole[place + 1 :]
            folder.write(name, texts[name])
            status, out, err = folder.check()
            statuses.add(status)
            if status == 0:
                value, are_whole, bound = answer_of(texts) or ("", "", "")
                assert out == f"SCHEDULE\nVALUE: {value}\nWHOLE BLOCKS: {are_whole}\nBOUND: {bound}\n"
            else:
                assert status == 4 or (status == 1 and out == "" and err.startswith("pitschedule: "))
    assert statuses >= {0, 1}


@pytest.mark.parametrize("name", ["problem", "schedule", "prices"])
def test_each_cut_of_lines_is_refused(folder: Folder, name: str) -> None:
    lines = (EXAMPLE / f"two_blocks.{name}").read_bytes().splitlines(keepends=True)
    for count in range(len(lines)):
        folder.write(name, b"".join(lines[:count]))
        status, out, err = folder.check()
        assert (status, out) == (1, "")
        assert err == f"pitschedule: {name}: ends early line {count + 1}\n"


# ---- what is refused


@pytest.mark.parametrize(
    "name, old, new, told",
    [
        ("problem", "PERIODS 2", "PERIODS two", "problem: not a whole number line 3"),
        ("problem", "DISCOUNTS 1 0.5", "DISCOUNTS 1 0,5", "problem: not a decimal line 9"),
        ("problem", "AMOUNTS 1 1 10 -2", "AMOUNTS 1 1 10", "problem: wrong number of fields line 21"),
        ("problem", "USE 2 1 0 1", "USE 2 1 0 1\nUSE 2 1 0 1", "problem: wrong header line 20"),
        ("problem", "USE 2 1 0 1", "USE 2 2 0 1", "problem: USE 4: there is no such limit\n"),
        ("problem", "USE 2 1 0 1", "USE 3 1 0 1", "problem: USE 4: there is no such destination\n"),
        ("problem", "USE 2 1 0 1", "USE 2 1 3 1", "problem: USE 4: there is no such column\n"),
        ("problem", "USE 2 1 0 1", "USE 2 1 0 65537", "problem: USE 4: the lag is above 65536\n"),
        ("problem", "USE 2 1 0 1", "USE 5000000000 1 0 1", "problem: USE 4: there is no such destination\n"),
        ("problem", "VALUE 2 1 1", "VALUE 3 1 1", "problem: VALUE 2: there is no such destination\n"),
        ("problem", "VALUE 2 1 1", "VALUE 2 3 1", "problem: VALUE 2: there is no such column\n"),
        ("problem", "VALUE 2 1 1", "VALUE 2 1 65537", "problem: VALUE 2: the lag is above 65536\n"),
        ("problem", "DISCOUNTS 1 0.5", "DISCOUNTS 1 1.000001", "problem: the discount factor of period 1 is not from -1 to 1\n"),
        ("problem", "DISCOUNTS 1 0.5", "DISCOUNTS -1.000001 2", "problem: the discount factor of period 0 is not from -1 to 1\n"),
        ("problem", "CAPACITIES 1 2", "CAPACITIES 1 1000000000000", "problem: not a decimal line 11\n"),
        ("problem", "AMOUNTS 1 1 10 -2", "AMOUNTS 1 1 10000000000.000001 -2", "problem: amount 4 (from 0, line by line) is not from -10000000000 to 10000000000\n"),
        ("problem", "AMOUNTS 1 1 10 -2", "AMOUNTS 1 1 10 -10000000000.000001", "problem: amount 5 (from 0, line by line) is not from -10000000000 to 10000000000\n"),
        ("problem", "AMOUNTS 1 1 10 -2", "AMOUNTS 2 1 10 -2", "problem: id out of place line 21"),
        ("problem", "AMOUNTS 0 1 -5 -2\n", "", "problem: id out of place line 20"),
        ("problem", "AMOUNTS 1 1 10 -2", "AMOUNTS -1 1 10 -2", "problem: not a whole number line 21"),
        ("problem", "AMOUNTS 1 1 10 -2", "AMOUNTS", "problem: wrong number of fields line 21"),
        ("problem", "PROBLEM 2", "PROBLEM 1", "problem: wrong header line 1"),
        ("schedule", "SCHEDULE 2", "SCHEDULE 1", "schedule: wrong header line 1"),
        ("schedule", "BLOCKS 2", "BLOCKS 3", "schedule: counts differ line 2"),
        ("schedule", "PERIODS 2", "PERIODS 3", "schedule: counts differ line 3"),
        ("schedule", "DESTINATIONS 3", "DESTINATIONS 2", "schedule: counts differ line 4"),
        ("schedule", "DESTINATIONS 3\n", "", "schedule: wrong header line 4"),
        ("prices", "PRICES 2", "PRICES 1", "prices: wrong header line 1"),
        ("prices", "LIMITS 2", "LIMITS 1", "prices: counts differ line 2"),
        ("prices", "PERIODS 2", "PERIODS 1", "prices: counts differ line 3"),
        ("problem", "PERIODS 2", "PERIODS 5000000000", "problem: wrong number of fields line 9"),
        *(
            ("schedule", "SHARE 1 1 0 0.5", share, "schedule: share 3 names no block, period or destination of the problem, or is not from 0 to 1\n")
            for share in ("SHARE 2 1 0 0.5", "SHARE 1 2 0 0.5", "SHARE 1 1 3 0.5", "SHARE 1 1 0 1.000001", "SHARE 1 1 0 -0.000001", "SHARE 5000000000 1 0 0.5")
        ),
        ("schedule", "SHARE 1 1 0 0.5", "SHARE 0 0 1 0.500001", "schedule: with share 3 more than a whole block goes to one destination in one period"),
        ("prices", "PRICE 0 0", "PRICE 0 -0.000001", "prices: price 3 (from 0, line by line) is not from 0 to 1000000000\n"),
        ("prices", "PRICE 0 0", "PRICE 1000000000.000001 0", "prices: price 2 (from 0, line by line) is not from 0 to 1000000000\n"),
        ("prec", "1 1 0", "1 1 1", "precedence: block needs itself in precedence line 1"),
        ("prec", "1 1 0", "0 1 1\n1 1 0", "precedence: cycle"),
    ],
)
def test_what_is_refused(folder: Folder, name: str, old: str, new: str, told: str) -> None:
    text = (EXAMPLE / f"two_blocks.{name}").read_text()
    assert old in text
    folder.write(name, text.replace(old, new, 1))
    status, out, err = folder.check()
    assert (status, out) == (1, "")
    assert err.startswith(f"pitschedule: {told}")


@pytest.mark.parametrize(
    "name, old, new",
    [
        ("problem", "USE 2 1 0 1", "USE 2 1 2 1"),
        ("problem", "USE 2 1 0 1", "USE 2 1 0 65536"),
        ("problem", "VALUE 2 1 1", "VALUE 2 2 65536"),
        ("problem", "DISCOUNTS 1 0.5", "DISCOUNTS -1 1"),
        ("problem", "CAPACITIES 1 2", "CAPACITIES 999999999999.999999 -999999999999.999999"),
        ("problem", "AMOUNTS 1 1 10 -2", "AMOUNTS 1 1 10000000000 -10000000000"),
        ("schedule", "SHARE 1 1 0 0.5", "SHARE 1 1 2 1"),
        ("schedule", "SHARE 1 1 0 0.5", "SHARE 1 1 0 0"),
        ("prices", "PRICE 0 0", "PRICE 0 1000000000"),
    ],
)
def test_the_last_lawful_number(folder: Folder, name: str, old: str, new: str) -> None:
    """The numbers next to those that `test_what_is_refused` shows refused."""
    text = (EXAMPLE / f"two_blocks.{name}").read_text()
    folder.write(name, text.replace(old, new, 1))
    status, out, err = folder.check()
    assert status in (0, 4) and "BOUND: " in out and err == ""


def sized(blocks: int = 1, periods: int = 1, destinations: int = 1, columns: int = 0, limits: int = 0, values: int = 0, uses: int = 0) -> str:
    """The text of a problem with these counts, whose numbers are 0."""
    counts = zip(schedules.HEADS, (blocks, periods, destinations, columns, limits, values, uses))
    heads = "".join(f"{word} {count}\n" for word, count in counts)
    years = " 0" * periods
    amounts = " 0" * columns + "\n"
    return (
        f"PROBLEM 2\n{heads}DISCOUNTS{years}\n"
        + f"CAPACITIES{years}\n" * limits
        + "VALUE 0 0 0\n" * values
        + "USE 0 0 0 0\n" * uses
        + "".join(f"AMOUNTS {block}{amounts}" for block in range(blocks))
    )


def no_shares(blocks: int = 1, periods: int = 1, destinations: int = 1, **_: int) -> str:
    """The text of a schedule without shares, for a problem with these counts."""
    return f"SCHEDULE 2\nBLOCKS {blocks}\nPERIODS {periods}\nDESTINATIONS {destinations}\nSHARES 0\n"


@pytest.mark.parametrize(
    "last, above, told",
    [
        ({"blocks": 4194304}, {"blocks": 4194305}, "4194305 blocks, allowed are 0 to 4194304"),
        ({"periods": 65536}, {"periods": 65537}, "65537 periods, allowed are 1 to 65536"),
        ({"periods": 1}, {"periods": 0}, "0 periods, allowed are 1 to 65536"),
        ({"destinations": 64}, {"destinations": 65}, "65 destinations, allowed are 1 to 64"),
        ({"destinations": 1}, {"destinations": 0}, "0 destinations, allowed are 1 to 64"),
        ({"columns": 1024}, {"columns": 1025}, "1025 columns, allowed are 0 to 1024"),
        ({"limits": 65536}, {"limits": 65537}, "65537 limits, allowed are 0 to 65536"),
        ({"columns": 1, "values": 1024}, {"columns": 1, "values": 1025}, "1025 terms, allowed are 0 to 1024"),
        (
            {"columns": 1, "limits": 1, "values": 1000, "uses": 24},
            {"columns": 1, "limits": 1, "values": 1000, "uses": 25},
            "1025 terms, allowed are 0 to 1024",
        ),
        ({"blocks": 1048576, "periods": 4}, {"blocks": 838861, "periods": 5}, "4194305 nodes (blocks times periods), allowed are 0 to 4194304"),
        ({"limits": 32768, "periods": 2}, {"limits": 32769, "periods": 2}, "65538 capacities (limits times periods), allowed are 0 to 65536"),
    ],
)
def test_the_last_lawful_count(folder: Folder, last: dict[str, int], above: dict[str, int], told: str) -> None:
    folder.write("prec", "")
    folder.write("schedule", no_shares(**last))
    folder.write("problem", sized(**last))
    assert folder.run("check", "problem", "prec", "schedule") == (0, "SCHEDULE\nVALUE: 0.000000\nWHOLE BLOCKS: yes\n", "")
    folder.write("problem", sized(**above))
    assert folder.run("check", "problem", "prec", "schedule") == (1, "", f"pitschedule: problem: {told}\n")


def test_a_count_beyond_any_number_in_memory(folder: Folder) -> None:
    folder.write("problem", sized().replace("DESTINATIONS 1", "DESTINATIONS 9999999999"))
    assert folder.check() == (1, "", "pitschedule: problem: 9999999999 destinations, allowed are 1 to 64\n")


def test_the_last_lawful_number_of_pairs(folder: Folder) -> None:
    """65,536 blocks in 64 periods are 4,194,304 nodes; with 983,040 arcs there are 64 * (983,040 + 65,536) = 67,108,864 pairs of nodes."""
    blocks, most = 65536, 983040
    folder.write("problem", sized(blocks=blocks, periods=64))
    folder.write("schedule", no_shares(blocks=blocks, periods=64))
    for arcs, answer in [
        (most, (0, "SCHEDULE\nVALUE: 0.000000\nWHOLE BLOCKS: yes\n", "")),
        (
            most + 1,
            (1, "", "pitschedule: problem: 67108928 pairs of nodes (periods times the sum of arcs and blocks), allowed are 0 to 67108864\n"),
        ),
    ]:
        lines, left = [], arcs
        for block in range(1, blocks):
            needed = range(max(0, block - 16), block)[: min(16, left)]
            left -= len(needed)
            lines.append(f"{block} {len(needed)} {' '.join(map(str, needed))}\n")
        assert left == 0
        folder.write("prec", "".join(lines))
        assert folder.run("check", "problem", "prec", "schedule") == answer


@pytest.mark.parametrize(
    "amount, answer",
    [
        ("100000000", (0, "BOUND: 100000000000000000.000000\n", "")),
        ("100000000.000001", (1, "", "pitschedule: prices: the value of node 1 is not from -10^17 to 10^17\n")),
    ],
)
def test_the_last_lawful_value_of_a_node(folder: Folder, amount: str, answer: tuple[int, str, str]) -> None:
    """At the price 10^9 the use of -10^8 by block 1 is worth 10^17."""
    text = sized(blocks=3, columns=1, limits=1, uses=1)
    folder.write("problem", text.replace("AMOUNTS 1 0\n", f"AMOUNTS 1 -{amount}\n", 1))
    folder.write("prec", "")
    folder.write("prices", "PRICES 2\nLIMITS 1\nPERIODS 1\nPRICE 1000000000\n")
    assert folder.run("bound", "problem", "prec", "prices") == answer


# ---- faults in several texts: the first one in the order of the texts is told

FAULTS = [
    ("problem", "AMOUNTS 1 1 10 -2", "AMOUNTS 1 1 10", "problem: wrong number of fields line 21\n"),
    ("problem", "DESTINATIONS 3", "DESTINATIONS 0", "problem: 0 destinations, allowed are 1 to 64\n"),
    ("problem", "DISCOUNTS 1 0.5", "DISCOUNTS 1 2", "problem: the discount factor of period 1 is not from -1 to 1\n"),
    ("problem", "VALUE 0 1 0", "VALUE 0 7 0", "problem: VALUE 0: there is no such column\n"),
    ("problem", "USE 0 1 0 0", "USE 0 7 0 0", "problem: USE 3: there is no such limit\n"),
    ("problem", "AMOUNTS 0 1 -5 -2", "AMOUNTS 0 1 -50000000000 -2", "problem: amount 1 (from 0, line by line) is not from -10000000000 to 10000000000\n"),
    ("prec", "1 1 0", "1 1 1", "precedence: block needs itself in precedence line 1\n"),
    ("schedule", "SHARES 4", "SHARES 5", "schedule: ends early line 10\n"),
    ("schedule", "SHARE 1 1 0 0.5", "SHARE 2 1 0 0.5", "schedule: share 3 names no block, period or destination of the problem, or is not from 0 to 1\n"),
    (
        "schedule",
        "SHARE 1 0 0 0.5",
        "SHARE 0 0 1 0.6",
        "schedule: with share 1 more than a whole block goes to one destination in one period\n",
    ),
    ("prices", "PRICE 0 0", "PRICE 0", "prices: wrong number of fields line 5\n"),
    ("prices", "PRICE 1.5 0", "PRICE -1.5 0", "prices: price 0 (from 0, line by line) is not from 0 to 1000000000\n"),
]


@pytest.mark.parametrize("first, second", itertools.combinations(range(len(FAULTS)), 2))
def test_the_first_of_two_faults_is_told(folder: Folder, first: int, second: int) -> None:
    """The list has the faults in their order. Each pair of them is in the texts; the earlier one is told, with prices and without."""
    texts = {name: (EXAMPLE / f"two_blocks.{name}").read_text() for name in FILES}
    for name, old, new, _ in (FAULTS[first], FAULTS[second]):
        assert old in texts[name]
        texts[name] = texts[name].replace(old, new, 1)
    for name, text in texts.items():
        folder.write(name, text)
    assert folder.check() == (1, "", f"pitschedule: {FAULTS[first][3]}")
    if FAULTS[first][0] != "prices":
        assert folder.run("check", "problem", "prec", "schedule") == (1, "", f"pitschedule: {FAULTS[first][3]}")
    told = [it for it in (FAULTS[first], FAULTS[second]) if it[0] != "schedule"]
    if told:
        assert folder.run("bound", "problem", "prec", "prices") == (1, "", f"pitschedule: {told[0][3]}")


@pytest.mark.parametrize("missing, told", [("problem", "problem"), ("prec", "precedence"), ("schedule", "schedule"), ("prices", "prices")])
def test_a_file_that_cannot_be_read(folder: Folder, missing: str, told: str) -> None:
    (folder.folder / missing).unlink()
    assert folder.check() == (1, "", f"pitschedule: {told}: read failed\n")


@pytest.mark.parametrize("words", [["check", *FILES], ["check", *FILES[:3]], ["bound", "problem", "prec", "prices"]])
def test_a_write_that_fails(folder: Folder, words: list[str]) -> None:
    options = [word for name in words[1:] for word in (f"--{name}", name)]
    with open("/dev/full", "wb") as full:
        ran = subprocess.run([PROGRAM, words[0], *options], cwd=folder.folder, stdout=full, stderr=subprocess.PIPE, timeout=60)
    assert (ran.returncode, ran.stderr) == (1, b"pitschedule: a write failed\n")


@pytest.mark.parametrize("words", [[], ["check"], ["bound", "--problem", "problem"], ["solve"], ["check", "--problem"]])
def test_a_wrong_command_line(folder: Folder, words: list[str]) -> None:
    ran = subprocess.run([PROGRAM, *words], cwd=folder.folder, capture_output=True, timeout=60)
    assert ran.returncode == 2 and ran.stdout == b"" and ran.stderr


def test_an_argument_that_is_no_text(folder: Folder) -> None:
    ran = subprocess.run([PROGRAM, "check", "--problem", b"\xff"], cwd=folder.folder, capture_output=True, timeout=60)
    assert (ran.returncode, ran.stdout, ran.stderr) == (2, b"", b"pitschedule: an argument is not UTF-8\n")


def test_memory_is_refused(folder: Folder) -> None:
    """4,194,304 nodes need more than 60 MiB; the refusal is told, and nothing is written."""
    sizes = {"blocks": 1_000_000, "periods": 4, "destinations": 64}
    folder.write("problem", sized(**sizes))
    folder.write("prec", "")
    folder.write("schedule", no_shares(**sizes))
    words = [PROGRAM, "check", *(word for name in FILES[:3] for word in (f"--{name}", name))]
    limit = 600 << 20

    def limited() -> None:
        resource.setrlimit(resource.RLIMIT_AS, (limit, limit))

    ran = subprocess.run(words, cwd=folder.folder, capture_output=True, timeout=60, preexec_fn=limited)
    assert (ran.returncode, ran.stdout, ran.stderr) == (1, b"", b"pitschedule: no memory\n")


def test_help_names_both_commands() -> None:
    ran = subprocess.run([PROGRAM, "--help"], capture_output=True, text=True, timeout=60, env={**os.environ, "COLUMNS": "100"})
    assert ran.returncode == 0 and ran.stderr == "" and "check" in ran.stdout and "bound" in ran.stdout
