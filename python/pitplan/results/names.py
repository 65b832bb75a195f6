"""The files of an output folder, by their paths in it."""

from __future__ import annotations

from pitplan.core.layout import CERTIFIED, CERTIFIED_BLOCKS, FIGURES, TABLES

RECORD = "plan.json"
TABLE, SHELLS, YEARS = f"{TABLES}/blocks.csv", f"{TABLES}/shells.csv", f"{TABLES}/years.csv"
PITS, PUSHBACKS = f"{TABLES}/pits.csv", f"{TABLES}/pushbacks.csv"
SCHEDULE, METHODS = f"{TABLES}/schedule.csv", f"{TABLES}/methods.csv"
MATERIAL_FLOWS, FEED, STOCKPILES = f"{TABLES}/flows.csv", f"{TABLES}/feed.csv", f"{TABLES}/stockpiles.csv"
RECLAIMS, DUMPS = f"{TABLES}/reclaims.csv", f"{TABLES}/dumps.csv"
CASH_FLOW, VALUATION, INVENTORY = f"{TABLES}/cash_flow.csv", f"{TABLES}/valuation.csv", f"{TABLES}/inventory.csv"
GRADE_TONNAGE = f"{TABLES}/grade_tonnage.csv"
PRICE_PATHS, PRICE_QUANTILES = f"{TABLES}/price_paths.csv", f"{TABLES}/price_path_quantiles.csv"
BOUND, LIMITS, CUTOFFS = f"{TABLES}/bound.csv", f"{TABLES}/limits.csv", f"{TABLES}/cutoffs.csv"
WORKBOOK = f"{TABLES}/schedule.xlsx"
SCHEDULE_RECORD, BLOCK_SCHEDULE = "schedule.json", "block_schedule.json"
OF_CERTIFICATE = (*CERTIFIED.values(), CERTIFIED_BLOCKS)
REPORT, VIEW = "report.html", "view.html"
SENSITIVITY, SENSITIVITY_RECORD = f"{TABLES}/sensitivity.csv", "sensitivity.json"
TORNADO, SPIDER = f"{FIGURES}/tornado.png", f"{FIGURES}/spider.png"
HILL, HILL_FIGURE, HILL_WORKBOOK = (
    f"{TABLES}/hill_of_value.csv",
    f"{FIGURES}/hill_of_value.png",
    f"{TABLES}/hill_of_value.xlsx",
)
COMPARISON = "comparison.json"
COMPARED_RESULTS, COMPARED_INPUTS = f"{TABLES}/results.csv", f"{TABLES}/inputs.csv"
COMPARED_PERIODS, BRIDGE, PERIODS_FIGURE = f"{TABLES}/periods.csv", f"{TABLES}/bridge.csv", f"{FIGURES}/periods.png"
# The most runs that a comparison has besides the first.
MOST_COMPARED = 20
# What only some commands write. A run removes those of an earlier run that it does not write itself, since they show other results.
OF_SOME = (
    *(SHELLS, YEARS, PITS, PUSHBACKS, SCHEDULE, METHODS, BOUND, WORKBOOK),
    *(
        MATERIAL_FLOWS,
        FEED,
        STOCKPILES,
        RECLAIMS,
        DUMPS,
        LIMITS,
        CUTOFFS,
        CASH_FLOW,
        VALUATION,
        INVENTORY,
        GRADE_TONNAGE,
    ),
    *(SCHEDULE_RECORD, BLOCK_SCHEDULE, REPORT, VIEW, PRICE_PATHS, PRICE_QUANTILES, *OF_CERTIFICATE),
)


def of_table(name: str) -> str:
    return f"{TABLES}/{name}.csv"


def bridge_figure(number: int) -> str:
    """Returns the figure of the bridge to a run, by its number from 1."""
    return f"{FIGURES}/bridge-{number}.png"


# A comparison removes those of an earlier one.
OF_COMPARISON = (
    *(COMPARED_RESULTS, COMPARED_INPUTS, COMPARED_PERIODS, BRIDGE, PERIODS_FIGURE),
    *(bridge_figure(number) for number in range(1, MOST_COMPARED + 1)),
)


def grid_of(pair: tuple[str, str]) -> str:
    """Returns the figure of a pair of parameters of a sensitivity."""
    return f"{FIGURES}/grid-{pair[0]}-{pair[1]}.png".replace(" ", "-")
