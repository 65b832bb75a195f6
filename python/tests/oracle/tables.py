"""The tables that a plan must have: shells.csv, years.csv and pushbacks.csv, as numbers that are not rounded."""

from __future__ import annotations

from dataclasses import dataclass
from fractions import Fraction
from functools import cached_property
from typing import Any, Optional

from .destinations import Amounts, Ore
from .mine import Mine, Place
from .periods import length_of, start_of
from .pits import is_mineralised_waste, is_processed, value_at
from .years import CASH, FEED, TOTAL, Year, amounts_of, best_years, earned, npv, pieces_of

Row = dict[str, Optional[float]]


def ratio(amount: Fraction, whole: Fraction) -> Optional[float]:
    return float(amount / whole) if whole else None


def totals(mine: Mine, places: set[Place], factor: Fraction = Fraction(1)) -> Row:
    """The tonnes, grades and cash flow of some blocks, with mineralised waste by the cut-off of a revenue factor."""
    amounts = amounts_of(mine, places)
    of: Any = lambda name: amounts.get(name, Fraction(0))
    row: Row = {
        "blocks": sum(1 for it in places if it in mine.blocks and mine.blocks[it].tonnes),
        "tonnes": float(of(TOTAL)),
        "feed_tonnes": float(of(FEED)),
        "in_situ_ore_tonnes": float(of("in_situ")),
        "waste_tonnes": float(of(TOTAL) - of("in_situ")),
        "strip_ratio": ratio(of(TOTAL) - of("in_situ"), of("in_situ")),
        "undiscounted_cash_flow": float(of(CASH)),
    }
    if "class" in mine.project["table"]:
        waste = [mine.blocks[it].tonnes for it in places if is_mineralised_waste(mine, it, factor)]
        row["mineralised_waste_tonnes"] = float(sum(waste, Fraction(0)))
    for number, process in enumerate(mine.project.get("processes", [])):
        row[f"feed_tonnes_{process['name']}"] = float(of(f"process {number}"))
    for metal in mine.project["metals"]:
        row[f"head_grade_{metal['name']}"] = ratio(of(f"content {metal['name']}"), of(FEED))
        row[f"recovered_{metal['name']}"] = float(of(f"recovered_{metal['name']}"))
    return row


@dataclass
class Shells:
    """Nested shells of a mine by rising revenue factor; the years of each are found once for both tables."""

    mine: Mine
    factors: list[Fraction]
    pits: list[set[Place]]

    @cached_property
    def ore(self) -> Ore:
        return Ore(self.mine, self.pits[-1])

    def cases(self, number: int) -> dict[str, list[Year]]:
        """The years of the shell of a number, from 1, in each case."""
        if number not in self.found:
            self.found[number] = {case: best_years(self.mine, it, self.ore) for case, it in self.pieces(number).items()}
        return self.found[number]

    @cached_property
    def found(self) -> dict[int, dict[str, list[Year]]]:
        return {}

    def pieces(self, number: int) -> dict[str, list[Amounts]]:
        """What is mined one after the other in each case."""
        mine, pit, rules = self.mine, self.pits[number - 1], self.mine.project["shells"].get("specified")
        pieces = {"best": pieces_of(mine, self.pits[:number], self.ore), "worst": pieces_of(mine, [pit], self.ore)}
        if rules:
            last, pushbacks = self.factors[number - 1], map(Fraction, rules["pushbacks"])
            # The shells of pushbacks have their factors alone: of these the largest up to the named one ends the pushback.
            ends = {max((f for f in self.factors if f <= it), default=None) for it in pushbacks if it < last}
            smaller = [self.pits[self.factors.index(it)] for it in sorted(end for end in ends if end is not None)]
            pieces["specified"] = pieces_of(mine, [*smaller, pit], self.ore, rules.get("bench_lag", 0))
        return pieces

    def row(self, number: int) -> Row:
        """The row of the shell of a number, from 1, in shells.csv."""
        mine, factor, pit = self.mine, self.factors[number - 1], self.pits[number - 1]
        of_cases = self.cases(number)
        row = {"revenue_factor": float(factor)} | totals(mine, pit, factor)
        row |= {f"npv_{case}": npv(mine, years) for case, years in of_cases.items()}
        best = of_cases["best"]
        row["years"] = float(start_of(mine, len(best)) + best[-1].length * length_of(mine, len(best)))
        row["value_at_revenue_factor"] = float(sum(value_at(mine, place, factor) for place in pit))
        processed = sum(mine.blocks[it].feed for it in pit if is_processed(mine, it, factor))
        return row | {"processed_at_revenue_factor": float(processed)}

    def rows(self) -> list[Row]:
        return [self.row(number) for number in range(1, 1 + len(self.pits))]

    def years(self) -> dict[tuple[str, float, int], Row]:
        """The rows of years.csv of each shell with material, by case, factor and year."""
        found: dict[tuple[str, float, int], Row] = {}
        for number, (factor, pit) in enumerate(zip(self.factors, self.pits), 1):
            if not amounts_of(self.mine, pit).get(TOTAL):
                continue
            for case, of_case in self.cases(number).items():
                for year, row in enumerate(earned(self.mine, of_case), 1):
                    found[case, float(factor), year] = dict(row)
        return found


def pushbacks(mine: Mine, pits: list[set[Place]]) -> list[Row]:
    """What each of the shells adds to those before."""
    before: set[Place] = set()
    found = []
    for pit in pits:
        found.append(totals(mine, pit - before))
        before |= pit
    return found


__all__ = ["Amounts", "Row", "Shells", "pushbacks", "totals"]
