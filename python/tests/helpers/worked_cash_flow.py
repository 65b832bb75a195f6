"""A mine of three pillars whose cash flow is worked out by hand, and where its lines come from.

Each pillar is 100 t of waste over 100 t of ore, and a pillar is mined a year. Its ore is 125 t of mill feed with a quarter of dilution.
The mill is closed in year 1, so the sulphide of the first pillar waits on the stockpile until year 2. The second pillar is oxide for the
leach, the third sulphide for the mill.
"""

from conftest import rows

GRADES = {0: (2, 4, "SUL"), 1: (1.5, 0, "OX"), 2: (0.4, 0.5, "SUL")}
TEXT = """
title = "Three pillars"
[table]
file = "blocks.csv"
id = "name"
rock_type = "rock"
[grid]
size = [10, 10, 10]
[economics]
currency = "USD"
mining_cost = 2
mining_cost_per_bench = 0.5
dilution = 0.25
royalty = 0.03
royalty_per_tonne = 0.5
fixed_cost_per_year = 100
capex = [[1, 5000], [3, 600]]
[[metals]]
name = "copper"
column = "cu"
unit = "percent"
price = 8000
prices = [8000, 8500, 9000]
selling_cost = 500
[[metals]]
name = "gold"
column = "au"
unit = "gram_per_tonne"
price = 60
selling_cost = 2
[[processes]]
name = "mill"
cost = 10
recovery = { copper = { SUL = 0.8, OX = 0 }, gold = { SUL = 0.5, OX = 0 } }
capacity = 125
[[processes]]
name = "leach"
cost = 4
recovery = { copper = { SUL = 0, OX = 0.5 } }
capacity = 125
[haulage]
pit_exit = [5, 5, 20]
ramp_gradient = 0.1
cost = 1
ex_pit_distance = { ore = 500, waste = 0 }
[slopes]
precedence_benches = 1
[[slopes.domains]]
angle = 90
[shells]
revenue_factors = [0.5, 1.0]
discount_rate = 0.1
mining_capacity = 200
[[periods]]
capacity = { mill = 0 }
[[periods]]
capacity = { mill = 125 }
[pushbacks]
count = 3
[schedule]
years = 3
bench_lag = 1
milp = { gap = 0.0, seconds = 60 }
[[schedule.stockpiles]]
name = "rom"
stacking_cost = 0.2
reclaim_cost = 0.8
recovery = { copper = 0.95 }
"""
MONEY = """[cash_flow]
discount_rates = [0.05, 0.08]
closure_cost = 1000
tax_rate = 0.25
depreciation = { years = 2 }
"""


def table():
    """The six blocks of the pillars."""
    return rows(
        3,
        1,
        2,
        cu=lambda i, j, k: 0 if k else GRADES[i][0],
        au=lambda i, j, k: 0 if k else GRADES[i][1],
        rock=lambda i, j, k: GRADES[i][2],
    )
