"""The columns of all written tables: unit, decimals in files, and how they are shown.

Everything that depends on a column takes it from here: rounding (`results.rounding`), the headings of report and command line
(`report.columns`), the number formats of workbooks (`export.xlsx`) and the tables of docs/FORMATS.md (`tools/columns_page.py`).

In a name, a word in capitals stands for others: recovered_METAL is recovered_copper and recovered_gold.
"""

from __future__ import annotations

from dataclasses import replace
from functools import cache
from typing import Optional

from .column_types import (
    AMOUNT,
    COUNT,
    EXACT_MONEY,
    FACTOR,
    GIVEN,
    GRADE,
    METAL,
    METRES,
    MONEY,
    NUMBER,
    PRICE,
    RATIO,
    SHARE,
    TEXT,
    TONNES,
    WHOLE_YEARS,
    YEARS,
    Column,
    TableDeclaration,
    Unit,
)

SEVERAL = "with several processes"
RF = Column("revenue_factor", FACTOR, "that of the shell", "revenue factor")
METHOD = Column("method", TEXT, "`rule`, `lp`, `milp` or `block`", "method")
YEAR = Column("year", NUMBER, "from 1; the column is `period` if `[[periods]]` are not years", "year")
PUSHBACK = Column("pushback", NUMBER, "from 1", "pushback")
BENCH = Column("bench", METRES, "elevation of its toe")
BLOCKS = Column("blocks", COUNT, "blocks with tonnes", "blocks")
TOTAL = Column("tonnes", TONNES, "total material", "total")
FEED = Column("feed_tonnes", TONNES, "mill feed: diluted and after ore loss", "ore")
FEED_OF = Column("feed_tonnes_PROCESS", TONNES, "mill feed of a process", "PROCESS", SEVERAL)
HEAD_GRADE = Column("head_grade_METAL", GRADE, "head grade of the mill feed; empty without feed", "METAL")
RECOVERED = Column("recovered_METAL", METAL, "recovered metal", "recovered METAL")
CASH = Column("undiscounted_cash_flow", MONEY, "at the base price", "undiscounted cash flow")
NPV = Column("npv", MONEY, "sum of `discounted_cash_flow` in `years.csv`", "NPV")
BOUND = Column("upper_bound", MONEY, "upper bound on the NPV of any such schedule; empty without one", "upper bound")
GAP = Column("optimality_gap", SHARE, "what the NPV stays below the bound, as a share of the bound", "gap")
DISCOUNTING, OUTLINE = "discounting", "outline"
DISCOUNTS = Column(DISCOUNTING, TEXT, "`end_of_year`, `mid_year` or `continuous`")
WIDTH = "with a minimum mining width"
OUTLINES = Column(OUTLINE, TEXT, "`shell`: the shells before widening; `pushback`: the pushbacks", when=WIDTH)
TONNAGES = (
    BLOCKS,
    TOTAL,
    FEED,
    Column("in_situ_ore_tonnes", TONNES, "ore in the ground", "in-situ ore"),
    Column("waste_tonnes", TONNES, "total material less in-situ ore", "waste"),
    Column(
        "mineralised_waste_tonnes",
        TONNES,
        "of the waste: material that would pay but is waste by its resource class",
        "mineralised waste",
        "with `[table] class`",
    ),
    Column("strip_ratio", RATIO, "waste to in-situ ore; empty without ore", "strip ratio"),
)
AT_FACTOR = Column("processed_at_revenue_factor", TONNES, "mill feed at the prices of the revenue factor")
EXACT = Column(
    "value_at_revenue_factor", EXACT_MONEY, "exact value at the prices of the revenue factor, as the solver returns it"
)
# What a pit holds, and what it earns with years.
PIT = (*TONNAGES, AT_FACTOR, FEED_OF, HEAD_GRADE, RECOVERED)
BEST = Column("npv_best", MONEY, "NPV of the best case: shell by shell", "NPV best", places=1)
LIFE = Column("years", YEARS, "life of the best case", "years")
WORST = Column("npv_worst", MONEY, "NPV of the worst case: bench by bench", "NPV worst", places=1)
SPECIFIED = Column(
    "npv_specified",
    MONEY,
    "NPV of the specified case: by the given pushbacks",
    "NPV specified",
    "with `[shells.specified]`",
    places=1,
)
EARNED = (replace(CASH, places=1), BEST, LIFE, WORST, SPECIFIED, EXACT)
SPENT = (
    Column("fixed_cost", MONEY, "period cost of the year", "fixed cost", "with period costs"),
    Column("capex", MONEY, "spent at the start of the year", "capex", "with period costs"),
)
FLOWS = (
    Column("cash_flow", MONEY, "at the prices of the year", "cash flow"),
    Column("discounted_cash_flow", MONEY, "to the start of year 1", "discounted cash flow"),
)
MINED = Column("total_tonnes", TONNES, "total material", "total")
HEADS = (
    Column("scenario", NUMBER, "from 1"),
    Column("realisation", TEXT, "name of its file or columns"),
    Column("price_METAL", PRICE, "price in the deck", when="if a deck names the metal"),
)
SCHEDULED = (
    replace(LIFE, unit=WHOLE_YEARS, holds="until the last block is mined or the last ore is reclaimed"),
    replace(BLOCKS, when="by block"),
    TOTAL,
    FEED,
    Column("unmined_tonnes", TONNES, "total material that is not mined", "unmined", "by pushback"),
    RECOVERED,
)


RUN = Column("run", TEXT, "the folder of the run")
PLAIN_HEAD_GRADE = Column("head_grade_METAL", GRADE, "head grade of the mill feed; empty without feed")
CHANGE = Column("AMOUNT_change", AMOUNT, "by how much an amount of this row differs from that of the first run")
RESULTS = TableDeclaration(
    "results.csv",
    "of `pitplan compare`: a row per run, the selected shell or the shown method",
    (
        RUN,
        replace(NPV, holds="of a shell that of the specified case, otherwise the mean of best and worst case"),
        Column("npv_change", MONEY, "by how much it differs from that of the first run"),
        replace(BOUND, when="of schedules"),
        *(replace(it, when="of shells") for it in (BEST, WORST)),
        SPECIFIED,
        *(LIFE, TOTAL, FEED),
        Column("waste_tonnes", TONNES, "total material less in-situ ore", when="of shells"),
        Column("strip_ratio", RATIO, "waste to in-situ ore", when="of shells"),
        Column("unmined_tonnes", TONNES, "what stays unmined of the pushbacks", when="of schedules of pushbacks"),
        replace(PLAIN_HEAD_GRADE, when="of shells"),
        RECOVERED,
    ),
)
INPUTS = TableDeclaration(
    "inputs.csv",
    "of `pitplan compare`: a row per run after the first and key whose value differs",
    (
        RUN,
        Column(
            "key",
            TEXT,
            "section, name of the entry if there are several, and key; or `file` and an input with other content",
        ),
        Column(
            "base",
            TEXT,
            "value in the first run, as in a project.toml; of a file the first digits of its SHA-256; empty without a value",
        ),
        Column("value", TEXT, "value in this run"),
    ),
)
PERIODS = TableDeclaration(
    "periods.csv",
    "of `pitplan compare`: a row per run and period",
    (
        RUN,
        YEAR,
        replace(PLAIN_HEAD_GRADE, when="of schedules of pushbacks"),
        *(MINED, FEED, RECOVERED, *SPENT, *FLOWS),
        CHANGE,
    ),
)
BRIDGE = TableDeclaration(
    "bridge.csv",
    "of `pitplan compare`: a row per run and changed input, which are applied in turn",
    (
        RUN,
        Column("step", NUMBER, "from 0, the first run"),
        Column("key", TEXT, "the changed key, as in `inputs.csv`; several if they are only valid together"),
        replace(NPV, holds="with this change and all before it"),
        Column("npv_change", MONEY, "by how much this change raises it"),
    ),
)
COMPARISON = (RESULTS, INPUTS, PERIODS, BRIDGE)


# The places of material in tables of flows.
OF_PUSHBACK = replace(PUSHBACK, holds="from 1; 0: what lay on a stockpile at the start")
OF_BENCH = replace(BENCH, holds="elevation of its toe; empty in pushback 0")
CONTAINED = Column("contained_METAL", METAL, "metal in the feed", "contained METAL")
IN_SITU = Column("in_situ_METAL", METAL, "metal in the in-situ tonnes", "METAL in situ")
WITH_SMELTER = "with `[metals.smelter]`"
PAYABLE = Column("payable_METAL", METAL, "part of the recovered metal that is paid", "payable METAL", WITH_SMELTER)
BIN = Column(
    "bin",
    COUNT,
    "value bin of ore: by process, from the poorest; 0: no ore; below 0, with `[[dumps]]`: no ore, of another set of dumps that accept it",
)
MATERIAL_FLOWS = TableDeclaration(
    "flows.csv",
    "of a schedule of pushbacks: a row per method, year, lot of a bench, source and destination",
    (
        *(METHOD, YEAR, OF_PUSHBACK, OF_BENCH, BIN),
        Column("source", TEXT, "`pit` or a stockpile", "source"),
        Column(
            "destination",
            TEXT,
            "a process (`mill` if the project names none), a stockpile, a dump, or `waste` without dumps",
            "destination",
        ),
        replace(MINED, holds="in-situ tonnes that flow"),
        replace(IN_SITU, holds="metal in these"),
        replace(FEED, holds="mill feed, if a process or a stockpile takes them"),
        CONTAINED,
        RECOVERED,
        replace(
            FLOWS[0],
            holds="revenue less the costs of processing, selling, stacking, reclaiming and dumps, at the prices of the year",
        ),
    ),
)
INVENTORY = TableDeclaration(
    "inventory.csv",
    "of a schedule: a row per method, year, pushback, bench, rock type, resource class, source and destination",
    (
        *(METHOD, YEAR, replace(OF_PUSHBACK, when="with pushbacks"), OF_BENCH),
        *MATERIAL_FLOWS.columns[5:7],
        Column(
            "category",
            TEXT,
            "`ore`: mill feed of classes that can be reserves; `not_reserve`: mill feed of inferred and unclassified material; `stockpile`; `waste`",
            "category",
        ),
        replace(MINED, holds="in-situ tonnes that flow"),
        Column("grade_METAL", GRADE, "their in-situ grade", "METAL"),
        replace(IN_SITU, holds="metal in these"),
        replace(FEED, holds="mill feed, if a process or a stockpile takes them"),
        replace(HEAD_GRADE, holds="its grade; empty for waste"),
        *(CONTAINED, RECOVERED, PAYABLE),
    ),
)
GRADE_TONNAGE = TableDeclaration(
    "grade_tonnage.csv",
    "of shells, pushbacks and schedules: a row per part, resource class, metal and cut-off grade of that metal",
    (
        Column(
            "part",
            TEXT,
            "`model`: the blocks of `blocks.csv`; `pit`: the selected shell, all pushbacks, or by block what is mined; or a pushback",
            "part",
        ),
        Column("class", TEXT, "resource class; `all` without classes", "class"),
        Column("metal", TEXT, "the metal of the cut-off", "metal"),
        Column("cutoff_grade", GRADE, "cut-off grade, in situ", "cut-off grade"),
        Column(
            "mark",
            TEXT,
            "`marginal` or `break_even`, process and rock type: the grade that pays if the metal is the only one; otherwise empty",
            "mark",
        ),
        Column("tonnes", TONNES, "in-situ tonnes at or above the cut-off", "above cut-off"),
        Column("grade_METAL", GRADE, "their mean grade; empty without any", "METAL"),
        replace(IN_SITU, holds="metal in these"),
    ),
)
PROCESS = Column("process", TEXT, "`mill` if the project names none", "process")
CUTOFF = Column(
    "cutoff",
    Unit("currency per t", 6, 2),
    "net value per tonne of feed from which on ore is processed: the shadow price of the process's capacity",
    "cut-off",
)
REALISED_CUTOFF = Column(
    "realised_cutoff",
    CUTOFF.unit,
    "lowest net value per tonne of feed that the process takes; empty without feed",
    "realised cut-off",
)
FEEDS = TableDeclaration(
    "feed.csv",
    "of a schedule: a row per method, year and process",
    (
        *(METHOD, YEAR),
        PROCESS,
        FEED,
        Column("reclaimed_tonnes", TONNES, "of these from stockpiles", "from stockpile"),
        *(HEAD_GRADE, CONTAINED, RECOVERED),
        *(CUTOFF, REALISED_CUTOFF),
    ),
)
STOCKPILES = TableDeclaration(
    "stockpiles.csv",
    "with `[[schedule.stockpiles]]`: a row per method, stockpile and year, in tonnes of feed",
    (
        METHOD,
        Column("stockpile", TEXT, "its name", "stockpile"),
        YEAR,
        Column("opening_tonnes", TONNES, "at the start of the year", "opening"),
        Column("in_tonnes", TONNES, "placed in the year", "in"),
        Column("out_tonnes", TONNES, "reclaimed in the year", "out"),
        Column("closing_tonnes", TONNES, "at the end of the year", "closing"),
        Column("grade_METAL", GRADE, "mean of what lies there at the end of the year; empty if nothing does", "METAL"),
        Column(
            "reclaimed_grade_METAL", GRADE, "of what is reclaimed in the year; empty if nothing is", "METAL reclaimed"
        ),
    ),
)
RECLAIMS = TableDeclaration(
    "reclaims.csv",
    "by block with `[[schedule.stockpiles]]`: a row per block, stockpile, process and year of reclaim, and one per opening balance, process and year",
    (
        Column("id", COUNT, "of the block; empty for what lay there at the start"),
        YEAR,
        *MATERIAL_FLOWS.columns[5:7],
        Column("share", SHARE, "of the block, or of what lay there"),
    ),
)
DUMPS = TableDeclaration(
    "dumps.csv",
    "with `[[dumps]]`: a row per method, dump and year, in tonnes of waste",
    (
        METHOD,
        Column("dump", TEXT, "its name", "dump"),
        YEAR,
        Column("in_tonnes", TONNES, "placed in the year", "in"),
        Column("closing_tonnes", TONNES, "in the dump at the end of the year", "closing"),
        Column("room_tonnes", TONNES, "what its capacity leaves then; empty without a capacity", "room"),
    ),
)
CUTOFFS = TableDeclaration(
    "cutoffs.csv",
    "of a schedule of pushbacks: a row per method, year, process and rock type that it takes",
    (
        *(METHOD, YEAR),
        PROCESS,
        *(CUTOFF, REALISED_CUTOFF),
        Column("metal", TEXT, "the first metal that is recovered; the grades are its equivalent grades", "metal"),
        Column(
            "cutoff_grade",
            GRADE,
            "head grade that earns processing cost and `cutoff`, at the prices of the year",
            "cut-off grade",
        ),
        Column(
            "marginal_grade", GRADE, "head grade that earns the processing cost, at the base price", "marginal grade"
        ),
        Column(
            "break_even_grade",
            GRADE,
            "head grade that earns processing and mining cost, at the base price",
            "break-even grade",
        ),
        Column(
            "equivalent_METAL",
            Unit("grade of `metal` per unit of grade", 6, 4),
            "what a unit of the metal's grade is worth in the year; empty if a recovery depends on the grade",
            "equivalent METAL",
            "with several metals",
        ),
    ),
)
LIMITED = Unit("that of the amount", 6, 2)
LIMITS = TableDeclaration(
    "limits.csv",
    "of a schedule: a row per method, year and limit",
    (
        *(METHOD, YEAR),
        Column("limit", TEXT, "the amount, as in `bound.csv`", "limit"),
        Column("used", LIMITED, "of the amount; of a limit on a head grade the grade", "used"),
        Column("minimum", LIMITED, "of the year; empty without one", "minimum"),
        Column("maximum", LIMITED, "of the year; empty without one", "maximum"),
        Column("utilisation", SHARE, "share of the maximum that is used; empty for head grades", "utilisation"),
        Column(
            "shadow_price",
            Unit("currency per unit", 6, 2),
            "money of the year that a unit more of the limit would earn in the linear programme; below 0 for a minimum",
            "shadow price",
        ),
    ),
)


WITH_TAX = "with `[cash_flow] tax_rate`"
A_TONNE = Unit("currency per t", 6, 2, "#,##0.00")
OF_PRICE = Unit("currency per unit of `price`", 6, 2, "#,##0.00")
RATE = Unit("per year", None, 2, "0.0%")
RETURN = Unit("per year", 9, 4, "0.00%")
WASTE = next(it for it in TONNAGES if it.name == "waste_tonnes")
STRIP = next(it for it in TONNAGES if it.name == "strip_ratio")
PHYSICALS = (
    MINED,
    replace(WASTE, holds="total material less in-situ ore that is processed or stockpiled"),
    replace(STRIP, unit=RATIO, holds="waste to that ore; empty without ore"),
    replace(FEED, holds="mill feed of all processes"),
    replace(HEAD_GRADE, holds="head grade of that feed; empty without feed"),
    replace(CONTAINED, holds="metal in that feed"),
    RECOVERED,
    PAYABLE,
    Column(
        "concentrate_tonnes_METAL",
        TONNES,
        "dry concentrate: recovered metal by the grade of the concentrate",
        "concentrate of METAL",
        "if the terms have charges per tonne of it",
    ),
    Column("price_METAL", OF_PRICE, "price of the year", "price of METAL"),
)
LINES = (
    Column("revenue_METAL", MONEY, "recovered metal, or its payable part, at the price of the year", "revenue METAL"),
    Column("royalty", MONEY, "of revenue and per tonne of feed", "royalty"),
    Column(
        "selling_cost_METAL",
        MONEY,
        "selling cost of the recovered metal",
        "selling METAL",
        "unless `[metals.smelter]` applies to all processes",
    ),
    Column("treatment_charge_METAL", MONEY, "per dry tonne of concentrate", "treatment METAL", WITH_SMELTER),
    Column("refining_charge_METAL", MONEY, "per payable unit", "refining METAL", WITH_SMELTER),
    Column(
        "participation_METAL",
        MONEY,
        "the smelter's share of the price above its base; below 0 what it credits below the base",
        "price participation METAL",
        WITH_SMELTER,
    ),
    Column("freight_METAL", MONEY, "per wet tonne of concentrate", "freight METAL", WITH_SMELTER),
    Column("penalties_METAL", MONEY, "for elements in the concentrate", "penalties METAL", WITH_SMELTER),
    Column("mining_cost_ore", MONEY, "mining of what is processed or stockpiled", "mining ore"),
    Column("mining_cost_waste", MONEY, "mining of the rest", "mining waste"),
    Column(
        "mining_cost_depth",
        MONEY,
        "increments by bench or elevation, of all material",
        "mining depth",
        "with such increments",
    ),
    Column("haulage_cost", MONEY, "haulage of ore and waste", "haulage", "with `[haulage]`"),
    Column(
        "mining_cost_added",
        MONEY,
        "what pushbacks add",
        "mining added by pushbacks",
        "with `[pushbacks] mining_cost_added`",
    ),
    Column("processing_cost_PROCESS", MONEY, "processing cost of a process", "processing PROCESS"),
    Column("stacking_cost", MONEY, "placing ore on stockpiles", "stacking", "with stockpiles"),
    Column("reclaim_cost", MONEY, "reclaiming it", "reclaim", "with stockpiles"),
    Column("dump_cost", MONEY, "haulage to dumps and placing", "dumps", "with `[[dumps]]`"),
    SPENT[0],
    Column(
        "rounding",
        MONEY,
        "what rounding block values adds to the cash flow",
        "rounding of block values",
        "if `decimals` is below 6",
    ),
)
RESULT_LINES = (
    Column("operating_cash_flow", MONEY, "revenue less royalty, selling and all costs above", "operating cash flow"),
    SPENT[1],
    replace(FLOWS[0], holds="operating cash flow less capex, as in `years.csv`"),
    Column("closure_cost", MONEY, "in the last year", "closure cost", "with `[cash_flow] closure_cost`"),
    Column("depreciation", MONEY, "of capex", "depreciation", WITH_TAX),
    Column(
        "taxable_income",
        MONEY,
        "operating cash flow less depreciation, closure cost and losses carried forward; at least 0",
        "taxable income",
        WITH_TAX,
    ),
    Column("tax", MONEY, "of the taxable income", "tax", WITH_TAX),
    Column("free_cash_flow", MONEY, "cash flow less closure cost and tax", "free cash flow"),
    replace(FLOWS[1], holds="`cash_flow` to the start of year 1, as in `years.csv`"),
    Column(
        "discounted_free_cash_flow",
        MONEY,
        "`free_cash_flow` to the start of year 1",
        "discounted free cash flow",
    ),
    Column(
        "cost_per_tonne_mined", A_TONNE, "mining and haulage per tonne of total material", "mining cost per tonne mined"
    ),
    Column(
        "cost_per_tonne_fed",
        A_TONNE,
        "mining, haulage, processing, stockpiles, dumps and fixed costs per tonne of feed",
        "site cost per tonne of feed",
    ),
    Column(
        "c1_cost",
        OF_PRICE,
        "these and selling costs or charges of smelters, less revenue of the other metals, per unit of the first metal that is sold",
        "C1 cost",
    ),
)
CASH_FLOW = TableDeclaration(
    "cash_flow.csv",
    "of a schedule: a row per method and year; costs and tax are positive",
    (METHOD, YEAR, *PHYSICALS, *LINES, *RESULT_LINES, DISCOUNTS),
)
OF_PATHS = "of the NPVs of all paths"
PRICE_PATHS = TableDeclaration(
    "price_paths.csv",
    "of the shown schedule with `[price_paths]`: a row per path and year",
    (
        Column("path", COUNT, "its number, from 1"),
        YEAR,
        Column("price_METAL", OF_PRICE, "price in the middle of the year", "price of METAL"),
        replace(FLOWS[0], holds="of the schedule at these prices"),
        FLOWS[1],
        DISCOUNTS,
    ),
)
PRICE_QUANTILES = TableDeclaration(
    "price_path_quantiles.csv",
    "of the shown schedule with `[price_paths]`: one row",
    (
        METHOD,
        Column("paths", COUNT, "how many", "paths"),
        replace(NPV, holds="at the prices of the project"),
        Column("npv_mean", MONEY, f"mean {OF_PATHS}", "mean NPV"),
        Column("npv_least", MONEY, f"minimum {OF_PATHS}", "lowest NPV"),
        Column(
            "npv_quantile_Q",
            MONEY,
            f"quantiles 0.1 (P10), 0.5 and 0.9 {OF_PATHS}: a tenth of the paths is below P10",
            "NPV quantile",
        ),
        Column("npv_greatest", MONEY, f"maximum {OF_PATHS}", "highest NPV"),
        Column("share_below_zero", SHARE, "share of the paths with an NPV below 0", "paths below 0"),
        DISCOUNTS,
    ),
)
AFTER = "after closure cost and tax"
VALUATION = TableDeclaration(
    "valuation.csv",
    "of a schedule: a row per method and discount rate",
    (
        METHOD,
        Column("discount_rate", RATE, "that of `[shells]`, and `[cash_flow] discount_rates`", "discount rate"),
        replace(NPV, holds="of `cash_flow`"),
        Column("npv_after_tax", MONEY, f"of `free_cash_flow`: {AFTER}", "NPV after tax"),
        Column(
            "irr",
            RETURN,
            "lowest rate from which on the NPV of `cash_flow` is not above 0; empty without one above 0 and up to 1,000 %",
            "IRR",
        ),
        Column("irr_after_tax", RETURN, f"the same {AFTER}", "IRR after tax"),
        Column(
            "payback",
            YEARS,
            "until the cumulative undiscounted cash flow is no longer negative; empty if it stays so",
            "payback",
        ),
        Column("payback_after_tax", YEARS, f"the same {AFTER}", "payback after tax"),
        DISCOUNTS,
    ),
)


SHELLS = TableDeclaration("shells.csv", "a row per revenue factor", (RF, *PIT, *EARNED, OUTLINES, DISCOUNTS))
PITS = TableDeclaration(
    "pits.csv",
    "a row with the constraints and one without",
    (
        Column("fixed_blocks", TEXT, "`kept` or `free`: with the constraints or without"),
        *SHELLS.columns[:-2],
        DISCOUNTS,
    ),
)
YEARLY = TableDeclaration(
    "years.csv",
    "a row per case, revenue factor and year",
    (
        Column("case", TEXT, "`best`, `worst`, `specified`, or the method of a schedule", "case"),
        RF,
        YEAR,
        MINED,
        FEED,
        FEED_OF,
        RECOVERED,
        Column(
            "sum_NAME",
            Unit("as in the table", 3, 2),
            "a sum that is limited",
            when="by block, with `[[schedule.limits]]`",
        ),
        Column(
            "head_grade_COLUMN", GRADE, "of the feed; empty without feed", when="by block, with limits on head grades"
        ),
        *SPENT,
        *FLOWS,
        OUTLINES,
        DISCOUNTS,
    ),
)
PUSHBACKS = TableDeclaration(
    "pushbacks.csv",
    "a row per pushback: what it adds to those before",
    (
        PUSHBACK,
        replace(RF, holds="that of the shell that ends it"),
        *(it for it in PIT if it is not AT_FACTOR),
        replace(CASH, places=1),
        Column(
            "mining_cost_added",
            MONEY,
            "not in the cash flow",
            "added mining cost",
            "with `[pushbacks] mining_cost_added`",
        ),
        Column(
            "deferred_value",
            MONEY,
            "cash flow that a minimum width moves to a later pushback",
            "value deferred by width",
        ),
        Column("value_lost_to_width", MONEY, "cash flow that it loses, in the last row", "value lost to width"),
        Column("pieces", NUMBER, "parts that share no side of a block", "pieces"),
        Column("min_width", METRES, "the widest square that holds for all blocks", "minimum width"),
    ),
)
SCHEDULE = TableDeclaration(
    "schedule.csv",
    "a row per method, bench and year in which a share of it is mined, and per year in which ore is reclaimed",
    (METHOD, YEAR, replace(PUSHBACK, holds="from 1; 0: ore that is reclaimed from stockpiles"), OF_BENCH)
    + (Column("share", SHARE, "of the bench"), MINED, FEED, FEED_OF, RECOVERED)
    + (*FLOWS, DISCOUNTS),
)
NPV_AT_MEAN_GRADE = replace(
    NPV,
    name="npv_at_mean_grade",
    holds="of the same schedule if each stockpile gives back the mean of what lies there",
    heading="NPV at mean-grade reclaim",
    when="with `[[schedule.stockpiles]]`",
)
METHODS = TableDeclaration(
    "methods.csv", "a row per method", (METHOD, NPV, BOUND, GAP, NPV_AT_MEAN_GRADE, *SCHEDULED, DISCOUNTS)
)
MULTIPLIERS = TableDeclaration(
    "bound.csv",
    "of a schedule: a row per limit and year; the upper bound follows from these",
    (
        Column(
            "limit",
            TEXT,
            "the amount that is limited, as in `years.csv`; `must_mine` for must-mine blocks; of dumps as in `limits.csv`",
        ),
        Column("side", TEXT, "`max`, `min` for a minimum, or `running`: a maximum that shows whether the mine runs"),
        Column("year", COUNT, "from 1; 0 for all years"),
        Column(
            "price",
            Unit("currency per unit of the amount"),
            "its Lagrange multiplier, discounted; by block below 0 for a minimum",
        ),
    ),
    digits=0,
)
SENSITIVITY = TableDeclaration(
    "sensitivity.csv",
    "a row per case; the first is the base case",
    (
        Column("parameter", TEXT, "the parameter that is changed; empty in the base case"),
        Column("change", GIVEN, "by which it is changed: 0.1 is 10 % more"),
        Column("second_parameter", TEXT, "of a pair"),
        Column("second_change", GIVEN, "by which it is changed"),
        RF,
        *PIT,
        CASH,
        replace(NPV, holds="of the specified case, otherwise the mean of best and worst case"),
        *(BEST, LIFE, WORST, SPECIFIED, EXACT),
        Column("kept_undiscounted_cash_flow", MONEY, "of the base case's pit; these are empty if the slopes change"),
        Column("kept_npv_best", MONEY, "of the base case's pit"),
        Column("kept_npv_worst", MONEY, "of the base case's pit"),
        Column("kept_npv_specified", MONEY, "of the base case's pit", when="with `[shells.specified]`"),
        Column("kept_years", YEARS, "of the base case's pit"),
        Column("skin_value", MONEY, "undiscounted cash flow of the pit skin"),
        DISCOUNTS,
    ),
)
HILL = TableDeclaration(
    "hill_of_value.csv",
    "with `[[sensitivity.hill]]`: a row per two values",
    (
        Column("parameter", TEXT, "that of the first axis"),
        Column("value", NUMBER, "of its key, or the share by which it is changed"),
        Column("second_parameter", TEXT, "that of the second axis"),
        Column("second_value", NUMBER, "likewise"),
        *SENSITIVITY.columns[4:],
    ),
)
SCENARIOS = TableDeclaration(
    "scenarios.csv", "a row per scenario and revenue factor", (*HEADS, RF, *PIT, CASH, EXACT), digits=10
)
SPREAD = (
    Column("AMOUNT_mean", AMOUNT, "its mean"),
    Column("AMOUNT_least", AMOUNT, "its minimum"),
    Column("AMOUNT_quantile_Q", AMOUNT, "its quantiles 0.1, 0.5 and 0.9"),
    Column("AMOUNT_greatest", AMOUNT, "its maximum"),
)
REALISATIONS = Column("realisations", COUNT, "how many have a result")
QUANTILES = TableDeclaration(
    "quantiles.csv",
    "of pits: a row per price deck and revenue factor, over the realisations; AMOUNT is blocks, tonnes, metal and value in `scenarios.csv`",
    (HEADS[-1], RF, REALISATIONS, *SPREAD),
    digits=10,
)
TAKEN_BY_DUMP = Column("dump_DUMP", TONNES, "waste in a dump", when="with `[[dumps]]`")
EXCESS = Column("excess_waste_tonnes", TONNES, "waste above the limits of dumps", when="with `[[dumps]]`")
UNPROCESSED = Column("unprocessed_tonnes", TONNES, "ore that pays but exceeds the processing capacity")
SCHEDULES = TableDeclaration(
    "schedules.csv",
    "a row per scenario: its own schedule, and the common schedule in it",
    (
        *HEADS,
        Column("status", TEXT, "`solved`, or why the scenario has no schedule"),
        *(replace(it, when="") for it in (NPV, BOUND, GAP, *SCHEDULED) if it.name != "unmined_tonnes"),
        FEED_OF,
        Column("seconds", Unit("s"), "until it was solved"),
        Column("common_npv", MONEY, "NPV of the common schedule"),
        Column("common_feed_tonnes", TONNES, "its mill feed"),
        replace(UNPROCESSED, name="common_unprocessed_tonnes"),
        Column("common_years_short", COUNT, "years with less feed than planned"),
        replace(EXCESS, name="common_excess_waste_tonnes"),
        TAKEN_BY_DUMP,
        DISCOUNTS,
    ),
    digits=12,
)
COMMON_YEARS = TableDeclaration(
    "common_schedule_years.csv",
    "a row per scenario and year of the common schedule",
    (
        *(*HEADS, YEAR, MINED, FEED, UNPROCESSED),
        Column("planned_feed_tonnes", TONNES, "mill feed as planned from the mean block values"),
        *(TAKEN_BY_DUMP, EXCESS),
        *FLOWS,
        DISCOUNTS,
    ),
    digits=12,
)
BLOCK_QUANTILES = TableDeclaration(
    "quantiles.csv",
    "by block: a row per price deck, over the realisations; AMOUNT is `npv`, `upper_bound` and `common_npv`",
    (HEADS[-1], REALISATIONS, *SPREAD, DISCOUNTS),
    digits=12,
)
PROBABILITY = TableDeclaration(
    "probability.csv",
    "a row per block, with your columns and these",
    (Column("probability_FACTOR", SHARE, "share of the scenarios whose shell at the revenue factor holds the block"),),
    digits=6,
)
COMMON = TableDeclaration(
    "common_schedule.csv",
    "a row per block, with your columns and these",
    (
        replace(YEAR, holds="in which it is mined; 0: not"),
        Column("share_PROCESS", SHARE, "share that is planned for a process; `share_mill` without named processes"),
        Column("share_DUMP", SHARE, "share of what is no ore that is planned for a dump", when="with `[[dumps]]`"),
    ),
    digits=0,
)
FIRST = replace(RF, holds="the least one whose shell holds the block; 0: none")
PROCESSED = Column("process_revenue_factor", FACTOR, "the least one at which it is processed; 0: none")
BLOCK_TABLE = TableDeclaration(
    "blocks.csv",
    "a row per block, with your columns and these",
    (
        Column("mining_cost", MONEY, "all its costs as waste"),
        Column("revenue", MONEY, "of recovered metal, or its payable part, at the base price less royalty"),
        Column("processing_cost", MONEY, "what it costs more as mill feed, with selling costs or charges of smelters"),
        Column("revenue_PROCESS", MONEY, "revenue in a process", when=SEVERAL),
        Column("processing_cost_PROCESS", MONEY, "processing cost in a process", when=SEVERAL),
        Column("haul_distance", METRES, "one way", when="with `[haulage]`"),
        Column("haulage_cost", MONEY, "part of `mining_cost`", when="with `[haulage]`"),
        Column("ore_haulage_cost", MONEY, "part of `processing_cost`", when="with `[haulage]`"),
        *(FIRST, PROCESSED, Column("process", TEXT, "the best one at the base price; empty: waste", when=SEVERAL)),
        replace(PUSHBACK, holds="from 1; 0: none", when="with pushbacks"),
        replace(YEAR, holds="in which its bench is completed; 0: never", when="with a schedule"),
        replace(BIN, when="with a schedule of pushbacks"),
        Column("share_mined", SHARE, "share of the block that is mined", when="with a schedule of pushbacks"),
        Column("share_PROCESS", SHARE, "that a process takes, from a stockpile too", when="with a schedule"),
        Column("share_STOCKPILE", SHARE, "that is placed on a stockpile", when="by block, with stockpiles"),
        Column("share_DUMP", SHARE, "share of the block that lies in a dump", when="by block, with `[[dumps]]`"),
        replace(FIRST, name="free_revenue_factor", holds="without the constraints", when="of `pitplan pit`"),
        replace(
            PROCESSED, name="free_process_revenue_factor", holds="without the constraints", when="of `pitplan pit`"
        ),
    ),
    digits=0,
)
TABLES: tuple[TableDeclaration, ...] = (BLOCK_TABLE, SHELLS, YEARLY, PITS, PUSHBACKS, SCHEDULE, METHODS)
TABLES += (SENSITIVITY, HILL, MATERIAL_FLOWS, FEEDS, CUTOFFS, STOCKPILES, RECLAIMS, DUMPS, LIMITS, CASH_FLOW)
TABLES += (VALUATION, INVENTORY, GRADE_TONNAGE)
TABLES += (MULTIPLIERS, PROBABILITY, SCENARIOS, QUANTILES, COMMON, COMMON_YEARS, SCHEDULES, BLOCK_QUANTILES)
TABLES += (PRICE_PATHS, PRICE_QUANTILES, *COMPARISON)


@cache
def unit_of(name: str) -> Optional[Unit]:
    """Returns the unit of a column by its name in any table that is rounded to decimals; None if there is no such column."""
    for table in TABLES:
        if table.digits is None and (found := table.find(name)):
            return found.unit
    return None
