"""Random mines of up to twelve blocks, whose pits, the least and the greatest, are found among all their closed sets, with
blocks forced in and barred and without, in every mode; their certificates and journals; and their shells."""

import random
import sys
from dataclasses import dataclass, field

import pytest

from conftest import TOP, Mine
from rows import CLASH, FIXED, GREATEST, MODES, SOLVE, model_of, pit_of

sys.path.insert(0, str(TOP / "tools"))

import check_certificate  # noqa: E402
import replay_journal  # noqa: E402

SEEDS = range(24)


@dataclass
class Small:
    """Whole values, what each block needs, and the blocks forced in and barred."""

    values: list[int]
    needs: list[list[int]]
    forced: list[int] = field(default_factory=list)
    barred: list[int] = field(default_factory=list)

    @property
    def prec(self) -> str:
        return "".join(f"{block} {len(needs)} {' '.join(map(str, needs))}\n" for block, needs in enumerate(self.needs) if needs)

    @property
    def fixed(self) -> str:
        words = {block: "in" for block in self.forced} | {block: "out" for block in self.barred}
        return "".join(f"{words[block]} {block}\n" for block in sorted(words))

    def write(self, mine: Mine) -> None:
        mine.write("mine.upit", model_of([str(value) for value in self.values]))
        mine.write("mine.prec", self.prec)
        mine.write("mine.fixed", self.fixed)

    def needed(self, block: int) -> set[int]:
        """All that a block needs, directly or through others."""
        found, queue = set(), [block]
        while queue:
            new = [p for p in self.needs[queue.pop()] if p not in found]
            found |= set(new)
            queue += new
        return found

    def allowed_sets(self) -> list[set[int]]:
        """All closed sets that hold what is forced in and nothing that is barred."""
        sets = [{block for block in range(len(self.values)) if mask >> block & 1} for mask in range(1 << len(self.values))]
        closed = [one for one in sets if all(set(self.needs[block]) <= one for block in one)]
        return [one for one in closed if one.issuperset(self.forced) and one.isdisjoint(self.barred)]

    def worth(self, blocks: set[int]) -> int:
        return sum(self.values[block] for block in blocks)

    def best_sets(self) -> list[set[int]]:
        """The allowed sets of greatest worth; none where no set is allowed."""
        allowed = self.allowed_sets()
        best = max(map(self.worth, allowed), default=0)
        return [one for one in allowed if self.worth(one) == best]

    def pit(self, which: str = "least") -> set[int] | None:
        """The smallest or the largest allowed set of greatest worth; None where no set is allowed."""
        best = self.best_sets()
        if not best:
            return None
        return set.intersection(*best) if which == "least" else set.union(*best)

    def text(self, pit: set[int]) -> str:
        return pit_of(len(self.values), sorted(pit), f"{self.worth(pit)}.000000")

    def clash(self) -> int:
        """The least barred block that must be dug."""
        dug = set(self.forced).union(*(self.needed(block) for block in self.forced))
        return min(dug.intersection(self.barred))


def small_mine(rng: random.Random) -> Small:
    """Values are small, so that ties are many. Blocks are numbered at random, not from the top."""
    count = rng.randint(1, 12)
    order = rng.sample(range(count), count)
    needs: list[list[int]] = [[] for _ in range(count)]
    for place, block in enumerate(order):
        needs[block] = sorted(rng.sample(order[:place], min(place, rng.choice([0, 1, 1, 2, 3]))))
    return Small([rng.randint(-4, 4) for _ in range(count)], needs)


def with_fixed(one: Small, rng: random.Random) -> Small:
    some = rng.sample(range(len(one.values)), rng.randint(1, len(one.values)))[:4]
    at = rng.randint(0, len(some))
    return Small(one.values, one.needs, sorted(some[:at]), sorted(some[at:]))


@pytest.mark.parametrize("seed", SEEDS)
def test_the_pit_of_a_small_mine(mine: Mine, seed: int) -> None:
    rng = random.Random(seed)
    one = small_mine(rng)
    one.write(mine)
    due = (0, one.text(one.pit()), "")
    for mode in MODES.values():
        assert mine.run(*SOLVE, *mode) == due


@pytest.mark.parametrize("seed", SEEDS)
def test_the_pit_of_a_small_mine_with_fixed_blocks(mine: Mine, seed: int) -> None:
    rng = random.Random(seed)
    one = with_fixed(small_mine(rng), rng)
    one.write(mine)
    pit = one.pit()
    due = (0, one.text(pit), "") if pit is not None else (1, "", CLASH.replace("block 1", f"block {one.clash()}"))
    for mode in MODES.values():
        assert mine.run(*FIXED, *mode) == due


@pytest.mark.parametrize("seed", SEEDS)
def test_the_greatest_pit_of_a_small_mine(mine: Mine, seed: int) -> None:
    rng = random.Random(seed)
    one = small_mine(rng)
    one.write(mine)
    due = (0, one.text(one.pit("greatest")), "")
    for mode in MODES.values():
        assert mine.run(*SOLVE, *mode, *GREATEST) == due
    one = with_fixed(one, rng)
    one.write(mine)
    pit = one.pit("greatest")
    due = (0, one.text(pit), "") if pit is not None else (1, "", CLASH.replace("block 1", f"block {one.clash()}"))
    for mode in MODES.values():
        assert mine.run(*FIXED, *mode, *GREATEST) == due


@pytest.mark.parametrize("seed", SEEDS)
def test_what_shows_the_pit_of_a_small_mine_with_fixed_blocks(mine: Mine, seed: int) -> None:
    """Certificate and journal hold before the program and before the short tools, which share nothing with it."""
    rng = random.Random(seed + 1000)
    one = with_fixed(small_mine(rng), rng)
    one.write(mine)
    if (pit := one.pit()) is None:
        pytest.skip("the fixed blocks clash")
    due = (0, one.text(pit), "")
    for mode in ("shared 1", "shared 4"):
        assert mine.run(*FIXED, *MODES[mode], "--certificate", "made.cert", "--journal", "made.journal") == due
        assert mine.run("check", *FIXED[1:], "--certificate", "made.cert") == (0, "yes\n", "")
        assert mine.run("replay", *FIXED[1:], "--journal", "made.journal") == due
        assert mine.told_by(check_certificate, "made.cert") == (0, "yes\n", "")
        assert mine.told_by(replay_journal, "made.journal") == due


@pytest.mark.parametrize("seed", SEEDS[:8])
def test_certificates_of_other_pits_are_no_certificates(mine: Mine, seed: int) -> None:
    """Each allowed set but the pit, with the flow of the pit's own certificate: no, by the program and by the short check."""
    rng = random.Random(seed + 2000)
    one = with_fixed(small_mine(rng), rng)
    one.write(mine)
    if (pit := one.pit()) is None:
        pytest.skip("the fixed blocks clash")
    assert mine.run(*FIXED, "--certificate", "made.cert")[0] == 0
    head, flow = mine.read("made.cert").split("IN: ")[0], "FLOW: " + mine.read("made.cert").split("FLOW: ")[1]
    others = [other for other in one.allowed_sets() if other != pit]
    for other in rng.sample(others, min(len(others), 12)):
        text = f"{head}IN: {len(other)}\n" + "".join(f"{block}\n" for block in sorted(other)) + flow
        mine.write("some.cert", text)
        assert mine.run("check", *FIXED[1:], "--certificate", "some.cert") == (4, "no\n", "")
        assert mine.told_by(check_certificate, "some.cert") == (4, "no\n", "")


def shells_text(one: Small, columns: list[tuple[int, int]], factors: list[int], which: str) -> str:
    """The text of the shells, each pit found among all closed sets in its factor's own values."""
    lines, entry = "", {}
    for factor in factors:
        at = Small([factor * revenue - 1000 * cost for revenue, cost in columns], one.needs)
        pit = at.pit(which)
        assert set(entry) <= pit
        lines += f"{factor} {len(pit)} {at.worth(pit) // 1000}.{at.worth(pit) % 1000:03}000000\n"
        entry |= {block: factor for block in pit - set(entry)}
    head = f"SHELLS\nBLOCKS: {len(columns)}\nFACTORS: {len(factors)}\n"
    return head + lines + "".join(f"{block} {entry[block]}\n" for block in sorted(entry))


@pytest.mark.parametrize("seed", SEEDS)
def test_the_shells_of_a_small_mine(mine: Mine, seed: int) -> None:
    rng = random.Random(seed + 3000)
    one = small_mine(rng)
    columns = [(rng.choice([0, 0, 2, 5]), rng.choice([0, 1, 1, 2])) for _ in one.values]
    factors = sorted(rng.sample([0, 200, 400, 500, 800, 1000, 2000], rng.randint(1, 4)))
    mine.write("mine.blocks", "".join(f"{block} 0 0 0 {revenue} {cost}\n" for block, (revenue, cost) in enumerate(columns)))
    mine.write("mine.prec", one.prec)
    words = ["shells", "--blocks", "mine.blocks", "--prec", "mine.prec", "--revenue", "0", "--cost", "1"]
    for which in ("least", "greatest"):
        due = shells_text(one, columns, factors, which)
        for mode in MODES.values():
            assert mine.run(*words, "--factors", ",".join(map(str, factors)), *mode, "--pit", which) == (0, due, "")
