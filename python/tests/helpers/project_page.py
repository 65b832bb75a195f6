"""Projects with each key, and the page docs/reference/project-keys.md by its sections."""

from __future__ import annotations

from conftest import PROJECT, ROOT

PAGE = (ROOT / "docs" / "reference" / "project-keys.md").read_text(encoding="utf-8")
# More than the example has, so that each section is read.
MORE = """
[output]
folder = "plan"
[classes]
a = "ore"
[[periods]]
years = 1
[haulage]
pit_exit = [1, 2, 3]
ramp_gradient = 0.1
cost = { ore = 1, waste = 1 }
[schedule]
years = 4
milp = { gap = 0.1, seconds = 5 }
minimum = { feed = 1 }
[[schedule.stockpiles]]
reclaim_cost = 1
opening = { tonnes = 1, rock_type = "R", class = "a", cu = 1, as = 1 }
accepts = { cu = { max = 1 } }
[[schedule.limits]]
column = "cu"
per_tonne = true
max = 1
[[dumps]]
name = "near"
[cash_flow]
depreciation = { years = 8 }
[sensitivity]
[[sensitivity.hill]]
parameter = "economics.mining_cost"
values = [1, 2]
[[sensitivity.hill]]
parameter = "economics.processing_cost"
values = [1, 2]
[price_paths]
[price_paths.metals.copper]
long_term = 1
speed = 1
volatility = 1
[scenarios]
columns = { copper = "cu_*" }
[[scenarios.prices]]
copper = 1
[constraints]
as_mined = "a.csv"
topography = { file = "b.csv" }
[[constraints.areas]]
polygon = { file = "c.csv" }
exclude = "inside"
[figures]
[pushbacks]
count = 1
"""
SMELTER = """
[metals.smelter]
concentrate_grade = 20
price_participation = { base = 1, share = 0.1 }
[[metals.smelter.penalties]]
column = "as"
steps = [[1, 1]]
[slopes]
"""
PROCESSES = """
[[processes]]
name = "mill"
cost = 1
capacity = 10
recovery = { copper = 1 }
accepts = { cu = { min = 0 } }
feed = { cu = { max = 1 } }
"""


def whole():
    """A project with each section but [[processes]]."""
    text = PROJECT.replace("[slopes]\n", SMELTER).replace('rock_type = "rock"', 'rock_type = "rock"\nclass = "class"')
    text = text.replace("[shells]\n", "[shells]\nspecified = { pushbacks = [0.5] }\n")
    missing = 'missing_blocks = { tonnes = 1, rock_type = "R", domain = "1", class = "a" }'
    return text.replace('file = "blocks.csv"', f'file = "blocks.csv"\n{missing}') + MORE


def several():
    """A project with [[processes]]."""
    text = PROJECT.replace("processing_cost = 10\n", "").replace("recovery = 0.5\n", "")
    return text.replace("processing_capacity = 100\n", "") + PROCESSES


def entry(data, section):
    """The section of a project by its path, the first entry of lists."""
    for part in section.split(".") if section else ():
        data = data.setdefault(part, {})
        data = data[0] if isinstance(data, list) else data
    return data
