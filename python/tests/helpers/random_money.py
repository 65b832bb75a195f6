"""Random terms of revenue and cost, and what they make of the blocks of a random mine."""

from collections.abc import Callable, Sequence
from dataclasses import dataclass, replace
from typing import Optional

import numpy as np
import pandas as pd

MINING, PRICE, GOLD_PRICE = 2.0, 8000.0, 60.0
# The share of arsenic that comes into the concentrate; and from which grade of it on, in ppm, what a dry tonne pays for each 1,000 ppm.
ARSENIC, STEPS = 0.6, [[2000, 3], [5000, 8]]


@dataclass(frozen=True)
class Smelter:
    """What a smelter pays for the mill's copper, and charges for its concentrate, whose grade is in percent; above the base of a price it shares a
    tenth, and below it credits as much; and of arsenic it may charge more by STEPS."""

    grade: float
    payable: float
    deduction: float
    treatment: float
    refining: float
    moisture: float
    freight: float
    above: Optional[float] = None
    of_arsenic: bool = False

    @property
    def text(self) -> str:
        found = f"""[metals.smelter]
processes = ["mill"]
concentrate_grade = {self.grade}
payable = {self.payable}
minimum_deduction = {self.deduction}
treatment_charge = {self.treatment}
refining_charge = {self.refining}
moisture = {self.moisture}
freight = {self.freight}
"""
        found += "" if self.above is None else f"price_participation = {{ base = {self.above}, share = 0.1 }}\n"
        penalty = (
            f'[[metals.smelter.penalties]]\ncolumn = "as_ppm"\nrecovery = {ARSENIC}\nper = 1000\nsteps = {STEPS}\n'
        )
        return found + (penalty if self.of_arsenic else "")

    def penalty(self, copper: np.ndarray, arsenic: np.ndarray) -> np.ndarray:
        """What ore with so much recovered copper, and grams of arsenic, pays beyond the charges: of each step for what is above its grade."""
        dry, before, found = copper * 100 / self.grade, 0.0, np.zeros(len(copper))
        for grade, charge in STEPS if self.of_arsenic else ():
            found += np.where(
                copper > 0, np.maximum(arsenic * ARSENIC - grade * dry, 0.0) * (charge - before) / 1000, 0.0
            )
            before = charge
        return found

    @property
    def paid(self) -> float:
        """The share of the recovered metal that is paid."""
        return min(self.payable, (self.grade - self.deduction) / self.grade)

    @property
    def charges(self) -> float:
        """By tonne of recovered metal: treatment and freight of concentrate, and refining of payable metal."""
        concentrate = 100 / self.grade
        return concentrate * (self.treatment + self.freight / (1 - self.moisture)) + self.refining * self.paid

    def participation(self, price: float) -> float:
        """The smelter's share of the price above a base, or its credit below, by tonne of recovered metal."""
        return 0.0 if self.above is None else 0.1 * (price - self.above) * self.paid


@dataclass(frozen=True)
class Haulage:
    """Costs per tonne and kilometre of ore and of waste, on the road to an exit at this place, and metres of road of ore beyond it."""

    exit: tuple[float, float, float]
    gradient: float
    ore: float
    waste: float
    beyond: float

    @property
    def text(self) -> str:
        return f"""[haulage]
pit_exit = {list(self.exit)}
ramp_gradient = {self.gradient}
cost = {{ ore = {self.ore}, waste = {self.waste} }}
ex_pit_distance = {{ ore = {self.beyond}, waste = 0 }}
"""

    def a_tonne(self, table: pd.DataFrame) -> tuple[np.ndarray, np.ndarray]:
        """What a tonne of each block costs as waste, and what a tonne of its feed costs beyond that."""
        x, y, z = self.exit
        flat, rise = np.hypot(table["x"] - x, table["y"] - y), np.abs(table["z"] - 5 - z)
        road = (flat.round(3) + (rise / self.gradient).round(3)).to_numpy(float)
        waste = self.waste * road / 1000
        return waste, self.ore * (road + self.beyond) / 1000 - waste


@dataclass(frozen=True)
class Terms:
    """Terms of revenue and cost; those by period are from the first, and the last one continues.

    selling     cost of selling a tonne of copper, with a smelter that of the leach
    royalty     share of gross revenue
    per_tonne   royalty per tonne of feed
    per_bench   mining cost added for each bench below the top
    recovered, dilution  share of ore that reaches the mill, and tonnes at zero grade per tonne of ore, by rock type
    gold        recovery of gold by the mill; None if the project has no gold
    inferred    whether inferred blocks are waste
    haulage     costs of the road to the exit; None without
    adjusted    whether the table's columns mcaf and pcaf multiply costs of mining and processing
    processing, selling_factors, gold_prices, capex  by period
    """

    selling: float = 0.0
    smelter: Optional[Smelter] = None
    royalty: float = 0.0
    per_tonne: float = 0.0
    per_bench: float = 0.0
    recovered: Sequence[float] = (1.0, 1.0)
    dilution: Sequence[float] = (0.0, 0.0)
    gold: Optional[float] = None
    inferred: bool = False
    haulage: Optional[Haulage] = None
    adjusted: bool = False
    processing: Sequence[float] = (1.0,)
    selling_factors: Sequence[float] = (1.0,)
    gold_prices: Sequence[float] = (GOLD_PRICE,)
    capex: Sequence[float] = (0.0,)

    @property
    def economics(self) -> str:
        """The keys of [economics]."""
        found = f"royalty = {self.royalty}\nroyalty_per_tonne = {self.per_tonne}\nmining_cost_per_bench = {self.per_bench}\n"
        for key, (of_a, of_b) in (("mining_recovery", self.recovered), ("dilution", self.dilution)):
            found += f"{key} = {{ A = {of_a}, B = {of_b} }}\n"
        return found + ('mcaf = "mcaf"\npcaf = "pcaf"\n' if self.adjusted else "")

    @property
    def metals(self) -> str:
        """What follows on the copper of [[metals]]."""
        found = f"selling_cost = {self.selling}\n" + (self.smelter.text if self.smelter else "")
        if self.gold is not None:
            found += f'[[metals]]\nname = "gold"\ncolumn = "au"\nunit = "gram_per_tonne"\nprice = {GOLD_PRICE}\n'
        return found

    @property
    def columns(self) -> set[str]:
        """The columns of the table that these terms need of ore on a stockpile at the start."""
        found = {"au": self.gold is not None, "class": self.inferred}
        found["as_ppm"] = self.smelter is not None and self.smelter.of_arsenic
        return {name for name, is_used in found.items() if is_used}

    def recoveries(self, process: str, copper: float) -> str:
        """The recovery of a process."""
        gold = f", gold = {self.gold if process == 'mill' else 0}" if self.gold is not None else ""
        return f"recovery = {{ copper = {copper}{gold} }}\n"

    def prices(self, copper: float, year: int) -> str:
        gold = f", gold = {at(self.gold_prices, year)}" if self.gold is not None else ""
        return f"prices = {{ copper = {copper}{gold} }}\n"

    def period(self, year: int) -> str:
        """The keys of [[periods]]."""
        factors = (("processing", self.processing), ("selling", self.selling_factors))
        found = "".join(f"{key}_cost_factor = {at(values, year)}\n" for key, values in factors)
        return found + f"capex = {at(self.capex, year)}\n"

    @property
    def every_year(self) -> "Terms":
        """The same terms in all years, without capex."""
        return replace(self, processing=(1.0,), selling_factors=(1.0,), gold_prices=(GOLD_PRICE,), capex=(0.0,))

    def in_periods(self, alike: Callable[[Sequence[float]], Sequence[float]]) -> "Terms":
        """The same terms with other periods; capex is paid in the first one alone."""
        names = ("processing", "selling_factors", "gold_prices")
        listed = {name: getattr(self, name) for name in names}
        return replace(self, **{name: alike(it) if len(it) > 1 else it for name, it in listed.items()})

    def base_price(self, process: str, price: float = PRICE) -> float:
        """What a tonne of recovered copper earns at the base price and costs."""
        return replace(self, selling_factors=(1.0,)).net_price(process, price, 0)

    def net_price(self, process: str, price: float, year: int) -> float:
        """What a tonne of recovered copper earns in a year."""
        factor, smelter = at(self.selling_factors, year), self.smelter if process == "mill" else None
        if smelter is None:
            return price * (1 - self.royalty) - factor * self.selling
        paid = price * smelter.paid * (1 - self.royalty)
        return paid - factor * smelter.charges - smelter.participation(price)


def at(values: Sequence[float], year: int) -> float:
    return values[min(year, len(values) - 1)]


def random_terms(seed: int, years: int) -> Terms:
    """Random terms: each term is left out with some chance, and capex is paid in the first of these years alone."""
    rng = np.random.default_rng(seed)

    def some(chance: float, *values: float) -> float:
        return float(rng.choice(values)) if rng.random() < chance else 0.0

    def of_years(chance: float, *values: float) -> list[float]:
        return [float(rng.choice(values)) if rng.random() < chance else values[0] for _ in range(years)]

    smelter = Smelter(
        grade=25.0,
        payable=float(rng.choice([0.9, 0.965])),
        deduction=float(rng.choice([0.0, 1.0, 3.0])),
        treatment=float(rng.choice([0.0, 80.0])),
        refining=float(rng.choice([0.0, 150.0])),
        moisture=float(rng.choice([0.0, 0.1])),
        freight=float(rng.choice([0.0, 60.0])),
        above=float(rng.choice([7000.0, 8500.0])) if rng.random() < 0.5 else None,
        of_arsenic=bool(rng.random() < 0.5),
    )
    # A credit above all charges is refused.
    smelter = smelter if smelter.charges > 50 else replace(smelter, above=None)
    haulage = Haulage(
        (float(rng.uniform(-50, 100)), 20.0, float(rng.choice([0.0, 25.0, 60.0]))),
        gradient=0.1,
        ore=float(rng.choice([0.3, 1.0])),
        waste=float(rng.choice([0.3, 0.8])),
        beyond=float(rng.choice([0.0, 900.0])),
    )
    return Terms(
        selling=some(0.5, 300.0, 900.0),
        smelter=smelter if rng.random() < 0.4 else None,
        royalty=some(0.4, 0.02, 0.05),
        per_tonne=some(0.3, 0.5, 1.5),
        per_bench=some(0.4, 0.1, 0.5),
        recovered=[float(it) for it in rng.choice([1.0, 0.95, 0.8], 2)],
        dilution=[float(it) for it in rng.choice([0.0, 0.05, 0.2], 2)],
        gold=float(rng.choice([0.4, 0.7])) if rng.random() < 0.4 else None,
        inferred=bool(rng.random() < 0.3),
        processing=of_years(0.5, 1.0, 0.8, 1.4),
        selling_factors=of_years(0.5, 1.0, 0.5, 2.0),
        haulage=haulage if rng.random() < 0.3 else None,
        adjusted=bool(rng.random() < 0.3),
        gold_prices=of_years(0.5, GOLD_PRICE, 48.0, 75.0),
        capex=[some(0.3, 100.0, 400.0), 0.0],
    )
