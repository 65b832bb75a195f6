"""What a schedule earns if a loader takes the mean of all that lies on a stockpile, and not the parcels that the schedule chooses.

The same tonnes leave each stockpile for the same processes in the same years. Of each parcel that lies there at the start of a year the same share
leaves. What the process cannot take of it earns nothing.
"""

from __future__ import annotations

from collections.abc import Iterator, Mapping
from dataclasses import dataclass
from typing import Optional

import numpy as np
import pandas as pd
from numpy.typing import NDArray

from pitplan.config.economics import GRADE_UNITS
from pitplan.config.project import Project
from pitplan.errors import WARNING

from .flows import Flows
from .material import FEED
from .model import OpeningOre

Floats = NDArray[np.float64]
# A note names the years in which the reclaimed grade differs by more than this share from the mean of the pile.
APART = 0.01


@dataclass(frozen=True)
class Pile:
    """What moves from a stockpile, by unit: parcels, then the lots that lie there at the start.

    Attributes
    ----------
    feed : array, shape (units,)
        Tonnes of feed of whole units.
    stocked : array, shape (units, years)
        Shares of units that are placed there.
    out : array, shape (processes, units, years)
        Shares that the schedule reclaims.
    gain : array, shape (processes, units, years)
        What whole units earn, not discounted.
    lies : array, shape (units,)
        Shares that lie there at the start.
    """

    feed: Floats
    stocked: Floats
    out: Floats
    gain: Floats
    lies: Floats

    def with_lots(self, lots: OpeningOre, shares: Floats, gains: Floats, *, number: int, cost: float) -> Pile:
        """Returns the pile with the lots that lie on it at the start.

        Parameters
        ----------
        lots : OpeningOre
        shares, gains : array, shape (processes, lots, years)
            The shares that the schedule takes, and what whole lots earn, not discounted.
        number : int
            That of the stockpile.
        cost : float
            Of reclaiming a tonne.
        """
        here, feed = lots.stockpile == number, lots.ore.feed
        pays = (lots.ore.of(FEED) > 0)[:, here, None]
        gain = np.where(pays, gains[:, here], -cost * feed[here][:, None])
        return Pile(
            np.append(self.feed, feed[here]),
            np.concatenate([self.stocked, np.zeros((int(here.sum()), self.stocked.shape[1]))]),
            np.concatenate([self.out, shares[:, here]], axis=1),
            np.concatenate([self.gain, gain], axis=1),
            np.append(self.lies, np.ones(int(here.sum()))),
        )

    @property
    def lost(self) -> Floats:
        """What the mean of the pile earns less than the parcels that the schedule reclaims, by year, not discounted."""
        found, lies = np.zeros(self.stocked.shape[1]), self.lies.copy()
        for year in range(len(found)):
            whole, out = float(self.feed @ lies), self.out[:, :, year] @ self.feed
            mixed = lies * (out / whole)[:, None] if whole > 0 else np.zeros(self.gain.shape[:2])
            found[year] = ((self.out[:, :, year] - mixed) * self.gain[:, :, year]).sum()
            lies = np.maximum(lies - mixed.sum(axis=0), 0.0) + self.stocked[:, year]
        return found


def piles_of(flows: Flows) -> Iterator[Pile]:
    """Yields what moves to and from each stockpile."""
    model, years, ore = flows.model, flows.years, flows.model.ore
    for number, it in enumerate(model.stockpiles):
        gains = model.reclaim_gains[number][..., :years]
        gains = np.where(ore.of(FEED)[:, :, None] > 0, gains, -it.reclaim_cost * ore.feed[:, None])
        pile = Pile(ore.feed, flows.stocked[number], flows.reclaimed[number], gains, np.zeros(len(ore)))
        of_lots = flows.opened, model.opening_gains[..., :years]
        yield pile.with_lots(model.opening, *of_lots, number=number, cost=it.reclaim_cost)


def loss_by_mixing(flows: Flows) -> float:
    """Returns by how much the NPV falls if each stockpile gives back its mean, in the currency."""
    lost = sum((pile.lost for pile in piles_of(flows)), np.zeros(flows.years))
    return float(lost @ flows.model.discounts[: flows.years])


def notes_of_mixing(
    table: pd.DataFrame, starts: Mapping[str, Optional[pd.Series]], project: Project, npv: float
) -> list[str]:
    """Returns the years in which the reclaimed grade differs from the mean of a pile, and a warning with the NPV if piles give back their mean.

    Parameters
    ----------
    table : DataFrame
        The rows of a method in stockpiles.csv.
    starts : mapping of str to Series, optional
        By stockpile the feed and the metals that lie there at the start; None: nothing.
    project : Project
    npv : float
        That of the schedule if each stockpile gives back the mean of what lies there.
    """
    found = list(unlike_mean(table, starts, project))
    if found:
        found.append(f"{WARNING}if each stockpile gives back the mean of what lies there, the NPV is {npv:,.0f}")
    return found


def unlike_mean(table: pd.DataFrame, starts: Mapping[str, Optional[pd.Series]], project: Project) -> Iterator[str]:
    """Yields by stockpile and metal the years in which the reclaimed grade differs from the mean of the pile."""
    word = project.shells.calendar.word
    for name, rows in table.groupby("stockpile", sort=False):
        start = starts[str(name)]
        for metal in project.metals:
            first = np.nan
            if start is not None and start["feed_tonnes"] > 0:
                first = float(start[f"contained_{metal.name}"]) / float(GRADE_UNITS[metal.unit]) / start["feed_tonnes"]
            lay, taken = np.append(first, rows[f"grade_{metal.name}"])[:-1], rows[f"reclaimed_grade_{metal.name}"]
            apart = np.flatnonzero(np.abs(taken - lay) > APART * np.abs(lay))
            by_year = [f"{rows['year'].iloc[k]}: {taken.iloc[k]:.4g} ({lay[k]:.4g})" for k in apart]
            if by_year:
                what = f"reclaimed grade of {metal.name}, {metal.sign}, and in brackets the mean of the pile"
                yield f"stockpile {name}: {what}, by {word}: {', '.join(by_year)}"
