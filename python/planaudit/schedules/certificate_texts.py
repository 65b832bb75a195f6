"""The texts of the folder certificate, from which pitschedule proves a value and a bound."""

from __future__ import annotations

from dataclasses import dataclass
from functools import cached_property
from pathlib import Path
from typing import Optional

import numpy as np

# The name of the rule, the key of records, and the folder.
NAME, KEY, FOLDER = "certificate", "certificate", "certificate"
UNFIT = "texts are of different problems, or a share is of no block, period or destination of the problem"
# Numbers of the texts have six decimals.
UNIT = 1e-6
# How texts with another unit of money than the currency are recorded.
MONEY = "money_unit"
# Of all discounted cash, costs and revenue, by which rounded discount factors and shares may change a sum.
ROUNDING = 2e-6


@dataclass(frozen=True)
class Texts:
    """The texts of a folder.

    Attributes
    ----------
    folder : Path
    money : float
        How many units of the currency one of the texts is.
    """

    folder: Path
    money: float = 1.0

    def lines(self, name: str, word: str) -> np.ndarray:
        """Returns the numbers of the lines that begin with a word, shape (lines, numbers)."""
        found = [words[1:] for words in self.words(name) if words[:1] == [word]]
        return np.array(found, dtype=float) if found else np.zeros((0, 0))

    def words(self, name: str) -> list[list[str]]:
        """Returns the words of each line of a text."""
        text = (self.folder / f"schedule.{name}").read_text(encoding="utf-8")
        return [line.split() for line in text.splitlines()]

    @cached_property
    def amounts(self) -> np.ndarray:
        """The amounts of each block, shape (blocks, columns)."""
        found = self.lines("problem", "AMOUNTS")
        return found[:, 1:] if len(found) else np.zeros((0, int(self.counts("problem")["COLUMNS"])))

    def counts(self, name: str) -> dict[str, str]:
        """Returns the numbers of lines of a word and one number, by their words."""
        return dict(words for words in self.words(name) if len(words) == 2)

    @property
    def of_one_problem(self) -> bool:
        """Whether lines of amounts name their blocks in order, and schedule and prices have the counts of the problem."""
        named = self.lines("problem", "AMOUNTS")[:, :1].ravel()
        found, shares, prices = (self.counts(name) for name in ("problem", "shares", "prices"))
        same = [shares.get(word, "") == found.get(word) for word in ("BLOCKS", "PERIODS", "DESTINATIONS")]
        same += [prices.get(word, "") == found.get(word) for word in ("LIMITS", "PERIODS")]
        return all(same) and bool((named == np.arange(len(named))).all())

    @cached_property
    def uses(self) -> np.ndarray:
        """Destination, limit, column and lag of each use, shape (uses, 4)."""
        return self.lines("problem", "USE").astype(int).reshape(-1, 4)

    @cached_property
    def discounts(self) -> np.ndarray:
        return np.asarray(self.lines("problem", "DISCOUNTS")[0])

    @property
    def periods(self) -> int:
        return len(self.discounts)

    @cached_property
    def places(self) -> np.ndarray:
        """Block, period and destination of each share, shape (shares, 3)."""
        return np.asarray(self.shares[:, :3].astype(np.int64))

    @cached_property
    def shares(self) -> np.ndarray:
        """Block, period, destination and share of each line, shape (lines, 4)."""
        return self.lines("shares", "SHARE").reshape(-1, 4)

    @property
    def destinations(self) -> int:
        return int(self.lines("problem", "DESTINATIONS")[0, 0])

    @property
    def fit(self) -> bool:
        """Whether the texts are of one problem, and each share is of a block, period and destination of it."""
        return self.of_one_problem and bool(
            (self.shares[:, :3] < (len(self.amounts), self.periods, self.destinations)).all()
        )

    def terms(self, limit: Optional[int] = None) -> dict[tuple[int, int], np.ndarray]:
        """Returns the value of each block, or what it uses of a limit, by destination and lag, each of shape (blocks,)."""
        rows = self.lines("problem", "VALUE").astype(int) if limit is None else self.uses[self.uses[:, 1] == limit]
        found: dict[tuple[int, int], np.ndarray] = {}
        unit = self.money if limit is None else 1.0
        for row in rows:
            key = int(row[0]), int(row[-1])
            found[key] = found.get(key, 0.0) + self.amounts[:, row[-2]] * unit
        return found

    def most_used(self, limit: int) -> float:
        """Returns what blocks use of a limit at most, each where it uses most; 0 if none uses it."""
        uses = [np.zeros(len(self.amounts)), *self.terms(limit).values()]
        return float(np.max(uses, axis=0).sum())

    @property
    def prices(self) -> np.ndarray:
        """The price of each limit in each period, shape (limits, periods)."""
        return self.lines("prices", "PRICE") * self.money

    @property
    def cent(self) -> float:
        """The last decimal of money."""
        return UNIT * self.money

    def sizes(self, limit: int) -> np.ndarray:
        """Returns the sum of the amounts of a limit without their signs, by period, shape (periods,)."""
        found = np.zeros(self.periods)
        for (destination, lag), amounts in self.terms(limit).items():
            some = self.places[:, 2] == destination
            block, period = self.places[some, 0], self.places[some, 1] + lag
            inside = period < self.periods
            sizes = np.abs(amounts[block]) * (self.shares[some, 3] + 1.0)
            found += np.bincount(period[inside], sizes[inside], minlength=self.periods)
        return found
