"""Recomputes schedules by block over scenarios from the project, its table, its realisations and the years of blocks.

Block values are recomputed for every scenario; slope cones for the common schedule and a sample of the others."""

from __future__ import annotations

import json
import math
from collections.abc import Iterator
from dataclasses import dataclass, replace
from functools import cached_property
from itertools import product
from pathlib import Path
from typing import Any, Optional

import numpy as np
import pandas as pd

from planaudit.blocks import constraints
from planaudit.errors import AuditError
from planaudit.ground import slopes
from planaudit.inputs import matching
from planaudit.inputs.answer import Answer
from planaudit.inputs.codes import refused
from planaudit.inputs.kept_arrays import read_arrays
from planaudit.inputs.project import Project
from planaudit.inputs.tables import TABLES, YEAR
from planaudit.money import ore_costs
from planaudit.money.dump_costs import as_waste
from planaudit.money.period_costs import mining_factor, premiums
from planaudit.money.weighing import at_price
from planaudit.rules import TOLD, Rule, rule, unlike
from planaudit.schedules import block_schedule
from planaudit.schedules.best_ore import at_best, most_earned
from planaudit.schedules.block_grades import graded
from planaudit.schedules.discounts import discount, present_costs
from planaudit.schedules.dumps import DUMP, DUMPED, Sides, limits_of as dumps_limits
from planaudit.schedules.grade_limits import grade_limits, most_of
from planaudit.schedules.limits import amounts_of, limits_of, placed_of, shares_of
from planaudit.schedules.pushback_schedule import CENT
from planaudit.studies.placed_blocks import PlacedBlocks
from planaudit.studies.realisations import ONE, Scenario, read
from planaudit.studies.scenarios import Verification, named
from planaudit.studies.spreads import at_prices, spread

RECORD, TABLE, YEARS, QUANTILES = "common_schedule.json", "schedules.csv", "common_schedule_years.csv", "quantiles.csv"
VALUES = ("npv", "upper_bound", "common_npv")
ROCK, ORE, LEFT, PLANNED = "total_tonnes", "feed_tonnes", "unprocessed_tonnes", "planned_feed_tonnes"
EXCESS = "excess_waste_tonnes"
# A tolerance of shares; and what a block must earn more in a process than in the cheapest dump, half of the last decimal of money.
SLIGHT, EVEN = 1e-6, 0.5e-6


def is_by_block(folder: Path) -> bool:
    """Returns whether the scenarios of a folder are schedules."""
    try:
        return json.loads((folder / "scenarios.json").read_text(encoding="utf-8")).get("by") == "block"
    except (OSError, ValueError, AttributeError):
        return False


def verify(folder: Path, written: Optional[Path] = None) -> list[Rule]:
    """Verifies schedules over scenarios. Raises AuditError as `scenarios.verify`."""
    with named(folder):
        return Schedules(Verification(read(folder, written or folder))).rules()


Row = dict[str, float]
# What blocks add to amounts as waste, and then in each process: a frame each, with a row per block.
Held = list[pd.DataFrame]


@dataclass(frozen=True)
class WrittenSchedule:
    """A schedule as written: year of each row, from 1 (0: never), amounts by name, and the share of each that goes to each process; with dumps also to
    each dump, and of the common schedule by each order."""

    year: np.ndarray
    share: np.ndarray
    row: Row

    @staticmethod
    def of(file: Path) -> WrittenSchedule:
        try:
            said = read_arrays(file, file.stem)
            row = dict(zip(said["names"].tolist(), said["amounts"].tolist()))
            return WrittenSchedule(said["year"].astype(np.int64), said["share"], row)
        except (ValueError, KeyError, TypeError) as error:
            raise AuditError(f"{file}: is not a result of a schedule: {error}: run pitplan scenarios again") from error

    def flows(self, held: Held, rows: np.ndarray) -> pd.DataFrame:
        """Returns what each of these rows adds to amounts, by its shares."""
        found = held[0].copy()
        for number, sent in enumerate(held[len(held) - self.share.shape[1] :]):
            found += (sent - held[0]).mul(self.share[rows, number], axis=0)
        return found


@dataclass(frozen=True)
class Way:
    """Where blocks are sent: to a process by its number, if they pay there at the base price, otherwise to a dump by its number, if that accepts them,
    otherwise to the cheapest one that does. None: to no process, or to the cheapest dump."""

    process: Optional[int] = None
    dump: Optional[int] = None


def ways_of(project: Project, is_common: bool) -> list[Way]:
    """Returns where schedules of a project send blocks: first waste or dumps, then processes. In the common schedule each process goes with each dump."""
    processes = range(len(matching.shares_of(project)))
    places: list[Optional[int]] = [*range(len(project.dumps))] or [None]
    others = places if is_common else [None]
    return [*(Way(dump=it) for it in places), *(Way(process, it) for process in processes for it in others)]


@dataclass(frozen=True)
class PricedBlocks:
    """Some rows of the table in a scenario, with their costs and revenue.

    rows    their numbers
    answer  the same rows, with the money of each process
    """

    rows: np.ndarray
    answer: Answer

    @staticmethod
    def of(whole: Answer, rows: np.ndarray) -> PricedBlocks:
        part = replace(whole, rows=whole.rows.iloc[rows].reset_index(drop=True), found={})
        part = replace(part, said=whole.said.iloc[rows].reset_index(drop=True))
        return PricedBlocks(rows, at_price(part))

    @cached_property
    def pays(self) -> np.ndarray:
        """Whether blocks pay in each process at the base price, with the cost of the cheapest dump that they save: shape (rows, processes)."""
        said, dumped = self.answer.said, as_waste(self.answer)
        return np.stack(
            [
                ((said[revenue] > said[cost] - dumped + EVEN * (dumped > 0)) & (said[revenue] > 0)).to_numpy()
                for revenue, cost in self.answer.amounts_of_ways
            ],
            axis=1,
        )

    @cached_property
    def accepts(self) -> np.ndarray:
        """Whether each dump accepts blocks, shape (rows, dumps)."""
        project = self.answer.project
        found = [~refused(self.answer.rows, project, it["accepts"]) for it in project.dumps]
        return np.array(found, dtype=bool).reshape(len(found), len(self.rows)).T

    def held(self, year: np.ndarray, is_common: bool) -> Held:
        """Returns what blocks that are mined in these years add to amounts by each way, where they pay at the base price and are accepted."""
        answer, project = self.answer, self.answer.project
        said, found = answer.said.assign(**{YEAR: year}), []
        cost = np.where(self.accepts, [it["cost"] for it in project.dumps], np.inf)
        for way in ways_of(project, is_common):
            milled = np.zeros(len(said)) if way.process is None else self.pays[:, way.process].astype(float)
            shares = {name: milled * (number == way.process) for number, name in enumerate(matching.shares_of(project))}
            if project.dumps:
                best = cost.argmin(axis=1)
                to = best if way.dump is None else np.where(self.accepts[:, way.dump], way.dump, best)
                names = matching.dump_shares_of(project)
                shares |= {name: (1.0 - milled) * (to == number) for number, name in enumerate(names)}
            mined = answer.of_same_blocks(said.assign(**shares))
            excess = {name: it for grade in graded(mined, shares_of(mined)) for name, it in grade.excess()}
            placed = {f"{DUMP}{name}": share * answer.tonnes for name, share in placed_of(mined)}
            found.append(flows_of(mined).assign(**excess, **placed))
        return found


def flows_of(answer: Answer) -> pd.DataFrame:
    """Returns the amounts of each mined block with tonnes, and its cash flow at the prices of its year."""
    shares, said = shares_of(answer), answer.said
    frame, amounts = amounts_of(answer, shares), zip(shares, answer.amounts_of_ways)
    gain = sum(share * (said[revenue] - said[cost]).to_numpy() for (_, share), (revenue, cost) in amounts)
    placed = zip(placed_of(answer), answer.project.dumps)
    gain -= sum((share * dump["cost"] for (_, share), dump in placed), np.zeros(len(said))) * answer.tonnes
    return frame.assign(cash_flow=gain - said["mining_cost"].to_numpy() + more_by_years(answer, frame))


def more_by_years(answer: Answer, flows: pd.DataFrame) -> np.ndarray:
    """Returns the gain of each block by the prices and the mining costs of its year."""
    year, more = answer.said[YEAR].to_numpy(), np.zeros(len(flows))
    shares = np.stack([share for _, share in shares_of(answer)])
    amounts = dict(flows.items()) | {
        name: (shares * it).sum(axis=0) for name, it in ore_costs.of_blocks(answer).items()
    }
    for each in np.unique(year[year > 0]).tolist():
        premium = sum(
            (price * np.asarray(amounts[name]) for name, price in premiums(answer.project, each).items()),
            (1 - mining_factor(answer.project, each)) * answer.said["mining_cost"].to_numpy(),
        )
        more += np.where(year == each, premium, 0.0)
    return more


@dataclass(frozen=True)
class Schedules:
    """A folder of schedules that is verified."""

    whole: Verification

    @property
    def ground(self) -> Answer:
        return self.whole.ground

    @cached_property
    def one(self) -> WrittenSchedule:
        folder = self.whole.folder
        return WrittenSchedule.of(folder.folder / "done" / f"{folder.record['mean']['key']}.npz")

    @cached_property
    def limits(self) -> dict[str, np.ndarray]:
        """The most of each limited amount in each period, from the first."""
        periods = self.whole.folder.record["years"]
        numbers = range(1, periods + 1)
        found = {
            name: np.array([most * ramps[min(number, len(ramps)) - 1] for number in numbers])
            for name, ramps, most in limits_of(self.ground)
        }
        return found | {it.name: most_of(self.ground.project, it, periods) for it in grade_limits(self.ground.project)}

    def rules(self) -> list[Rule]:
        return [*self.whole.of_ground(), self.whole.listed(), self.order(), *self.values()]

    def order(self) -> Rule:
        """Verifies cones, constraints, years and shares, of the common schedule and of a sample of the others."""
        sample = [(scenario.label, WrittenSchedule.of(scenario.file)) for scenario in self.whole.sample]
        differences = [
            f"{name}: {said}"
            for name, kept in [("the common schedule", self.one), *sample]
            for said in self.out_of_order(kept)
        ]
        count = f"{len(sample):,} of {len(self.whole.folder.answered):,} others"
        holds = f"in the common schedule and {count} no block is mined before its slope cone"
        return rule(
            "block order", f"{holds}, must-mine blocks are in some year, and excluded blocks in none", differences
        )

    def out_of_order(self, kept: WrittenSchedule) -> list[str]:
        answer = self.ground.of_same_blocks(self.ground.said.assign(revenue_factor=kept.year))
        found = [
            difference.replace("mined at revenue factor", "mined in year", 1)
            for difference in slopes.verify(answer).differences
        ]
        wrong = (kept.year < 0) | (kept.year > self.whole.folder.record["years"])
        wrong |= (kept.share < -SLIGHT).any(axis=1) | (kept.share.sum(axis=1) > (kept.year > 0) + SLIGHT)
        if answer.project.dumps:
            wrong |= kept.share.sum(axis=1) < (kept.year > 0) - SLIGHT
        if answer.project.constraints is not None:
            must, never = constraints.demanded(answer, answer.project.constraints)
            wrong |= (must & (kept.year == 0)) | (never & (kept.year > 0))
        rows = np.flatnonzero(wrong)[:TOLD]
        return found + [
            f"{answer.called(row)}: year {kept.year[row]}, share processed {kept.share[row].sum():.6g}" for row in rows
        ]

    def values(self) -> list[Rule]:
        """Verifies amounts and NPV of every schedule, by its scenario, and the tables with them."""
        folder, one, mined, own, rows = self.whole.folder, self.one, [], list[str](), dict[int, Row]()
        mean, of_one, unlike = pd.DataFrame(), np.flatnonzero(one.year > 0), list[str]()
        accepted = np.zeros((len(of_one), len(self.ground.project.dumps)), dtype=bool)
        for scenario in folder.scenarios:
            kept = WrittenSchedule.of(scenario.file) if scenario.file.is_file() else None
            whole = self.whole.in_scenario(scenario)
            priced, years = PricedBlocks.of(whole, of_one), one.year[of_one]
            flows = one.flows(priced.held(years, is_common=True), of_one) / len(folder.scenarios)
            mean = flows if mean.empty else mean + flows
            accepted |= priced.accepts
            held = priced.held(years, is_common=False)
            if self.ground.project.dumps:
                mined.append(self.as_written(scenario, held, years))
                unlike += self.unlike_placed(scenario, held, years)
            else:
                mined.append(self.mined(held, years))
            if kept is not None:
                rows[scenario.number] = kept.row
                of_own = np.flatnonzero(kept.year > 0)
                priced = PricedBlocks.of(whole, of_own)
                flows = kept.flows(priced.held(kept.year[of_own], is_common=False), of_own)
                own += self.differences(scenario.label, kept, flows)
                own += self.refused(scenario.label, of_own, kept.share[of_own], priced.accepts)
        own += self.differences("the common schedule, as planned", one, mean)
        own += self.refused("the common schedule", of_one, self.of_places(one.share)[of_one], accepted)
        planned = np.bincount(one.year[of_one], mean[ORE], minlength=1)[1:]
        tables = Tables(self, mined, planned, rows)
        words = f"{len(folder.answered):,} schedules and the common one, at mean block values, keep limits, "
        in_each = "in each scenario its years process the best feed, and its NPV is within the upper bound"
        return [
            rule("block value", f"{words}add up, and are within their upper bounds", own),
            rule("one schedule", in_each, [*unlike, *tables.of_one()]),
            rule("tables", "every row follows from the schedules", tables.of_all()),
        ]

    def refused(self, label: str, rows: np.ndarray, share: np.ndarray, accepts: np.ndarray) -> Iterator[str]:
        """Yields blocks with a share in a dump that does not accept them; the first columns of shares are those of dumps."""
        for number, dump in enumerate(self.ground.project.dumps):
            wrong = (share[:, number] > SLIGHT) & ~accepts[:, number] & (self.ground.tonnes[rows] > 0)
            yield from (f"{label}: {self.ground.called(row)}: {dump['name']} does not accept it" for row in rows[wrong])

    def of_places(self, share: np.ndarray) -> np.ndarray:
        """Returns by the shares of orders what is planned for each dump of what is no ore, and then for each process."""
        project = self.ground.project
        count, ways = len(project.dumps), ways_of(project, is_common=True)
        found = np.zeros((len(share), count + len(matching.shares_of(project))))
        for way, of_way in zip(ways[len(ways) - share.shape[1] :], share.T):
            if way.dump is not None:
                found[:, way.dump] += of_way
            if way.process is not None:
                found[:, count + way.process] += of_way
        return found

    def differences(self, label: str, kept: WrittenSchedule, flows: pd.DataFrame) -> Iterator[str]:
        """Yields differences of a schedule: limits, upper bound, amounts and NPV. `flows` has the amounts of the blocks that it mines."""
        is_mined = kept.year > 0
        sums, last = flows.groupby(kept.year[is_mined]).sum(), int(kept.year.max())
        yield from (f"{label}: {said}" for said in self.above_limits(sums, flows, kept))
        of_years = block_schedule.with_costs(self.ground, sums.reindex(range(1, last + 1), fill_value=0.0))
        value, bound = float(of_years["discounted_cash_flow"].sum()), kept.row["upper_bound"]
        tonnes = self.ground.tonnes[is_mined]
        expected = {"npv": value, "years": self.ground.project.calendar.end(last), "blocks": int((tonnes > 0).sum())}
        expected |= {"tonnes": tonnes.sum(), "optimality_gap": (bound - value) / abs(bound) if bound else 0.0}
        expected |= {name: sums[name].sum() for name in sums if name.startswith((ORE, "recovered_", DUMP))}

        def slack(name: str, amount: float) -> float:
            return (SLIGHT if name in ("optimality_gap", "years") else CENT) + 1e-9 * abs(amount)

        yield from unlike(label, kept.row, expected, slack)
        if value > bound + CENT + 1e-9 * abs(bound):
            yield f"{label}: value {value:.12g} is above bound {bound:.12g}"

    def above_limits(self, sums: pd.DataFrame, flows: pd.DataFrame, kept: WrittenSchedule) -> Iterator[str]:
        """Yields the years of a schedule that exceed a limit; a limit of 0 by sums of content up to a hair of their size."""
        size = flows.abs().groupby(kept.year[kept.year > 0]).sum()
        for (name, most), year in product(self.limits.items(), sums.index):
            amount, allowed = sums[name][year], most[min(int(year), len(most)) - 1]
            if amount > allowed + 1e-8 * (allowed or size[name][year]) + CENT:
                yield f"year {year}: {name} {amount:.10g} above {allowed:.10g}"
        for name, (_, most) in self.places.items():
            of_years = sums[name.replace(DUMPED, DUMP, 1)]
            for year, amount in (of_years.cumsum() if name.startswith(DUMPED) else of_years).items():
                if amount > most[int(year) - 1] * (1 + 1e-8) + CENT:
                    yield f"year {year}: {name} {amount:.10g} above {most[int(year) - 1]:.10g}"

    @cached_property
    def places(self) -> dict[str, Sides]:
        """Minimum and maximum of dumps in each period."""
        return dumps_limits(self.ground.project, self.whole.folder.record["years"])

    @cached_property
    def years(self) -> pd.DataFrame:
        """The years of the common schedule in each scenario, as written."""
        path, codes = self.whole.folder.tables / TABLES / YEARS, {"realisation": str}
        return pd.read_csv(path, dtype=codes, keep_default_na=False, na_values=[""])

    def as_written(self, scenario: Scenario, held: Held, years: np.ndarray) -> pd.DataFrame:
        """Returns the rows of `mined` with the written feed and cash flow: with dumps these follow from all years together."""
        last, ore = int(years.max(initial=0)), np.max([it[ORE] for it in held], axis=0)
        said = self.years[self.years["scenario"] == scenario.number].set_index("year").reindex(range(1, last + 1))
        sums = {ROCK: np.bincount(years, held[0][ROCK], minlength=last + 1)[1:], ORE: said[ORE]}
        total = np.bincount(years, ore, minlength=last + 1)[1:]
        frame = pd.DataFrame(sums | {LEFT: total - said[ORE], "total": total, "cash_flow": 0.0}, index=said.index)
        costs = block_schedule.with_costs(self.ground, frame)["cash_flow"]
        found = block_schedule.with_costs(self.ground, frame.assign(cash_flow=said["cash_flow"] - costs))
        return found[[*frame.columns, "discounted_cash_flow"]]

    def unlike_placed(self, scenario: Scenario, held: Held, years: np.ndarray) -> Iterator[str]:
        """Yields differences of the years of the common schedule in a scenario from the most that its blocks earn with the least excess of dumps."""
        last = int(years.max(initial=0))
        said = self.years[self.years["scenario"] == scenario.number].set_index("year").reindex(range(1, last + 1))
        names = [f"{DUMP}{it['name']}" for it in self.ground.project.dumps]
        excess, none = np.zeros(last), np.full(last, np.inf)
        for name in names:
            placed = said[name].to_numpy(dtype=float)
            of_years, in_all = (self.places.get(it, (none, none))[1] for it in (name, name.replace(DUMP, DUMPED, 1)))
            over = np.maximum(placed.cumsum() - in_all[:last], 0.0)
            excess += np.maximum(placed - of_years[:last], 0.0) + np.diff(over, prepend=0.0)
        written = said[EXCESS].to_numpy(dtype=float)
        for year in np.flatnonzero(~(np.abs(written - excess) <= CENT + 1e-7 * said[names].sum(axis=1).to_numpy())):
            yield f"{scenario.label}, year {year + 1}: {EXCESS} {written[year]:.12g} for {excess[year]:.12g}"
        discounts = np.array([discount(self.ground, year) for year in range(1, last + 1)])
        costs = np.array([present_costs(self.ground, year) for year in range(1, last + 1)])
        blocks = PlacedBlocks(years, held, discounts, self.limits, self.places)
        value, least = float((said["discounted_cash_flow"] + costs).sum()), blocks.least_excess
        if not abs(written.sum() - least) <= CENT * (1 + last) + 1e-6 * least:
            yield f"{scenario.label}: {EXCESS} {written.sum():.12g} for {least:.12g}"
        amounts = {name: said[name].to_numpy(dtype=float) for name in (*names, ORE)}
        for due in (blocks.earned(least), blocks.earned_as_written(amounts, least)):
            if not abs(value - due) <= CENT * (1 + last) + 1e-7 * np.abs(said["discounted_cash_flow"]).sum():
                yield f"{scenario.label}: the common schedule earns {value:.12g} for {due:.12g}"

    def mined(self, held: Held, years: np.ndarray) -> pd.DataFrame:
        """Returns one row per year of the common schedule in a scenario; feed is nan if the limits do not decide it alone."""
        rows = [
            self.of_year(year, [it[years == year] for it in held]) for year in range(1, int(years.max(initial=0)) + 1)
        ]
        frame = pd.DataFrame(rows, columns=["year", ROCK, ORE, LEFT, "total", "cash_flow"]).set_index("year")
        found = block_schedule.with_costs(self.ground, frame)
        return found[[*frame.columns, "discounted_cash_flow"]]

    def of_year(self, year: int, held: Held) -> Row:
        """Returns the amounts of a year whose blocks go where they earn most within the limits."""
        waste, *processes = held
        gain = np.stack([it["cash_flow"] - waste["cash_flow"] for it in processes], axis=1)
        of_year = {name: float(most[min(year, len(most)) - 1]) for name, most in self.limits.items()}
        limits = {name: most for name, most in of_year.items() if math.isfinite(most)}
        takes = np.array([np.stack([it[name] - waste[name] for it in processes], axis=1) for name in limits])
        takes = takes.reshape(len(limits), *gain.shape)
        room = np.array([max(most - waste[name].sum(), 0.0) for name, most in limits.items()])
        feed, best = np.stack([it[ORE] for it in processes], axis=1), at_best(gain)
        ore, at_once = feed.max(axis=1, initial=0.0).sum(), float((feed * best).sum())
        over = [name for name, it, most in zip(limits, takes, room) if (it * best).sum() > most]
        fed = at_once if not over else math.nan
        if over == [ORE] and gain.shape[1] == 1:
            fed = limits[ORE]
        cash = most_earned(gain, takes, room) + waste["cash_flow"].sum()
        return {"year": year, ROCK: waste[ROCK].sum(), ORE: fed, LEFT: ore - fed, "total": ore, "cash_flow": cash}


@dataclass(frozen=True)
class Tables:
    """The tables of schedules, with the expected values.

    mined      one row per year of the common schedule, for each scenario
    planned  mill feed of each year of the common schedule at the mean block values, in tonnes
    kept     the amounts of each schedule as written, by the number of its scenario
    """

    schedules: Schedules
    mined: list[pd.DataFrame]
    planned: np.ndarray
    kept: dict[int, Row]

    @property
    def scenarios(self) -> list[Scenario]:
        return self.schedules.whole.folder.scenarios

    def read(self, name: str) -> pd.DataFrame:
        path, codes = self.schedules.whole.folder.tables / TABLES / name, {"realisation": str, "status": str}
        return pd.read_csv(path, dtype=codes, keep_default_na=False, na_values=[""])

    @cached_property
    def rows(self) -> pd.DataFrame:
        return self.read(TABLE)

    @property
    def solved(self) -> pd.DataFrame:
        """The rows of scenarios with a result."""
        return self.rows[self.rows["scenario"].isin([it.number for it in self.schedules.whole.folder.answered])]

    @property
    def years(self) -> pd.DataFrame:
        return self.schedules.years

    def of_one(self) -> list[str]:
        """Returns differences of the years of the common schedule in a scenario, and an NPV above the scenario's bound."""
        found: list[str] = []
        for scenario, mined in zip(self.scenarios, self.mined):
            said = self.years_of(scenario)
            if said["year"].tolist() != mined.index.tolist():
                found.append(f"{scenario.label}: years {said['year'].tolist()} for 1 to {len(mined)}")
                continue
            found += [f"{scenario.label}, {difference}" for difference in self.unlike_years(said, mined)]
            bound = self.kept[scenario.number]["upper_bound"] if scenario.number in self.kept else math.inf
            value, is_over = mined["discounted_cash_flow"].sum(), EXCESS in said and said[EXCESS].any()
            if not is_over and value > bound + CENT + 1e-7 * abs(bound):
                found.append(
                    f"{scenario.label}: the common schedule has an NPV of {value:.12g}, above the bound {bound:.12g}"
                )
        return found

    def years_of(self, scenario: Scenario) -> dict[str, np.ndarray]:
        """Returns the columns of a scenario's years as written."""
        rows = np.flatnonzero(self.years["scenario"].to_numpy() == scenario.number)
        return {str(name): amounts.to_numpy()[rows] for name, amounts in self.years.items()}

    def unlike_years(self, said: dict[str, np.ndarray], mined: pd.DataFrame) -> Iterator[str]:
        expected = {str(name): amounts.to_numpy(dtype=float) for name, amounts in mined.items()}
        expected[PLANNED] = self.planned[: len(mined)]
        # With several limits any selection with equal gain may be milled.
        for name in (ORE, LEFT):
            expected[name] = np.where(np.isnan(expected[name]), said[name].astype(float), expected[name])
        for name in (ROCK, ORE, LEFT, PLANNED, "cash_flow", "discounted_cash_flow"):
            said[name], due = said[name].astype(float), expected[name]
            slack = CENT + (1e-7 if name in ("cash_flow", "discounted_cash_flow") else 1e-9) * np.abs(due)
            for row in np.flatnonzero(~(np.abs(said[name] - due) <= slack)):
                yield f"year {said['year'][row]}: {name} {said[name][row]:.12g} for {due[row]:.12g}"
        whole = expected["total"]
        for row in np.flatnonzero(np.abs(said[ORE] + said[LEFT] - whole) > CENT + 1e-9 * whole):
            ore, left = said[ORE][row], said[LEFT][row]
            yield f"year {said['year'][row]}: {ore:.12g} and {left:.12g} t of ore for {whole[row]:.12g}"

    def of_all(self) -> list[str]:
        """Returns differences of schedules.csv, blocks, quantiles and record."""
        if self.rows["scenario"].tolist() != [scenario.number for scenario in self.scenarios]:
            return [f"{TABLE}: has rows of scenarios {self.rows['scenario'].tolist()[:TOLD]} and so on"]
        rows = self.rows.set_index("scenario")
        found = [said for it in self.scenarios for said in self.unlike_row(rows.loc[it.number], it)]
        for scenario in self.scenarios:
            years = self.years[self.years["scenario"] == scenario.number]
            heads: dict[str, str | float] = {
                "realisation": scenario.model.name,
                **{f"price_{metal}": float(price) for metal, price in scenario.prices.items()},
            }
            found += [
                f"{YEARS}: {scenario.label}: {name}"
                for name, value in heads.items()
                if not (years[name] == value).all()
            ]
        return [*found, *self.unlike_blocks(), *self.unlike_quantiles(), *self.unlike_record()]

    def unlike_row(self, row: Any, scenario: Scenario) -> Iterator[str]:
        """Yields differences of a row of schedules.csv."""
        years = self.years[self.years["scenario"] == scenario.number]
        expected: dict[str, float] = {f"price_{metal}": float(price) for metal, price in scenario.prices.items()}
        expected |= {
            "common_npv": years["discounted_cash_flow"].sum(),
            "common_feed_tonnes": years[ORE].sum(),
            "common_unprocessed_tonnes": years[LEFT].sum(),
        }
        if EXCESS in years:
            expected[f"common_{EXCESS}"] = years[EXCESS].sum()
        expected["common_years_short"] = int((years[ORE] < years[PLANNED] * (1 - 1e-9)).sum())
        own = self.kept.get(scenario.number, {})
        expected |= own or dict.fromkeys(("npv", "upper_bound", "optimality_gap"), math.nan)
        if (row["status"] == "solved") != bool(own) or row["realisation"] != scenario.model.name:
            yield f"{TABLE}: {scenario.label}: status {row['status']!r} of model {row['realisation']}"

        def slack(name: str, amount: float) -> float:
            return (1e-9 if name == "optimality_gap" else CENT) + 1e-9 * abs(amount)

        yield from unlike(f"{TABLE}: {scenario.label}", row, expected, slack)

    def unlike_blocks(self) -> list[str]:
        """Returns differences of years and shares of blocks from the common schedule."""
        written, one, ground = self.schedules.whole.folder.written, self.schedules.one, self.schedules.ground
        names = [*matching.dump_shares_of(ground.project), *matching.shares_of(ground.project)]
        shares, due = written[names].to_numpy(), self.schedules.of_places(one.share)
        off = (written["year"].to_numpy() != one.year) | ~(np.abs(shares - due) <= SLIGHT).all(axis=1)
        rows = np.flatnonzero(off)[:TOLD]
        return [
            f"{ONE}: {ground.called(row)}: year {written['year'][row]} for {one.year[row]}, or its share of a destination"
            for row in rows
        ]

    def unlike_quantiles(self) -> list[str]:
        """Returns differences of quantiles.csv from the rows, by price deck."""
        written, solved = self.read(QUANTILES), self.solved
        names = [name for name in solved if name.startswith("price_")]
        sets = [
            dict(zip(names, values))
            for values in (solved[names].drop_duplicates().to_numpy().tolist() if names else [()])
        ]
        found = [] if len(written) == len(sets) else [f"{QUANTILES}: has {len(written):,} rows for {len(sets):,}"]
        for prices in sets:
            rows, mine = at_prices(solved, prices), at_prices(written, prices)
            if len(mine) != 1 or mine["realisations"].iloc[0] != len(rows):
                found.append(f"{QUANTILES}: {prices}: expected one row, of {len(rows)} realisations")
                continue
            said = {
                name: {word: float(mine[f"{name}_{word}"].iloc[0]) for word in spread(rows[name])} for name in VALUES
            }
            found += unlike_spreads(f"{QUANTILES}: {prices}", said, rows)
        return found

    def unlike_record(self) -> Iterator[str]:
        """Yields differences of common_schedule.json."""
        written = json.loads((self.schedules.whole.folder.tables / RECORD).read_text(encoding="utf-8"))
        solved, one = self.solved, self.schedules.one.row
        project, periods = self.schedules.ground.project, self.schedules.whole.folder.record["years"]
        rules, grades = project.schedule, {it.name: it.grade for it in grade_limits(project)}
        expected = {
            "scenarios": len(self.rows),
            "answered": len(solved),
            "years": project.calendar.end(periods),
            "limits": {name: most for name, _, most in limits_of(self.schedules.ground)},
            "ramp_up": list(rules["ramp_up"]) if rules else [1.0],
            **({"feed": grades} if grades else {}),
        }
        if project.dumps:
            expected["dumps"] = {it["name"]: round(one[f"{DUMP}{it['name']}"], 3) for it in project.dumps}
        yield from (
            f"{RECORD}: {name} {written[name]} for {value}"
            for name, value in expected.items()
            if written[name] != value
        )
        known = float(solved["upper_bound"].mean() - solved["common_npv"].mean())
        due = {"npv_as_planned": one["npv"], "upper_bound_as_planned": one["upper_bound"]}
        due |= {"perfect_information": known}
        yield from unlike(RECORD, written, due, lambda *_: CENT + 1e-8 * abs(one["upper_bound"]))
        yield from unlike_spreads(RECORD, written, solved)


def unlike_spreads(where: str, said: dict[str, Any], rows: pd.DataFrame) -> Iterator[str]:
    """Yields differences of the statistics of NPVs, bounds and the common schedule."""
    for name in VALUES:
        written, due = ({f"{name}_{word}": it for word, it in of.items()} for of in (said[name], spread(rows[name])))
        yield from unlike(where, written, due, lambda _, amount: CENT + 1e-9 * abs(amount))
