"""Random small projects with every feature at once, as the text of a project.toml and of its files."""

from __future__ import annotations

from dataclasses import dataclass
from random import Random
from typing import Any


@dataclass(frozen=True)
class Drawn:
    """A project: the text of its project.toml, and of each other file by name."""

    text: str
    files: dict[str, str]


def draw(seed: int) -> Drawn:
    """The project of a seed. Each feature is there in some of the projects, in any combination that pitplan takes."""
    rng = Random(seed)
    size = (rng.choice([8, 10, 12.5]), rng.choice([8, 10]), rng.choice([5, 8, 10]))
    shape = rng.choice([(3, 2, 2), (5, 4, 3), (6, 5, 4), (7, 3, 5), (7, 6, 6)])
    several = rng.choice([0, 0, 2, 3])
    files = {"blocks.csv": with_arsenic(Random(seed), table(rng, size, shape))}
    of_table = table_section(rng, files, size, shape)
    sections = [
        of_table,
        classes(rng) if "class =" in of_table else "",
        f"[grid]\nsize = [{size[0]}, {size[1]}, {size[2]}]",
        economics(rng, several, size[2] * shape[2]),
        *with_terms(Random(seed), metals(rng, several), several),
        *(process(rng, number) for number in range(several)),
        slopes(rng),
        shells(rng, several),
        '[constraints]\nmust_mine = "must"\nexclude = "never"' if rng.random() < 0.5 else "",
    ]
    sections += periods(rng, several, "\n".join(sections)) if rng.random() < 0.4 else []
    return Drawn("\n\n".join(filter(None, sections)) + "\n", files)


def table(rng: Random, size: tuple[float, float, float], shape: tuple[int, int, int]) -> str:
    """A hill of two rocks and two domains, with ore of two metals, at coordinates of a mine or of a country."""
    west, south, floor = rng.choice([(0, 0, 0), (512_000.5, 6_203_500, 1200)])
    rows = ["name,x,y,z,tonnes,cu,au,rock,region,must,never,mc,pc,cls"]
    rich = rng.choice([0.08, 0.25, 0.6])
    for i in range(shape[0]):
        for j in range(shape[1]):
            for k in range(rng.randint(max(1, shape[2] - 2), shape[2])):
                x, y, z = (low + at * edge for low, at, edge in zip((west, south, floor), (i, j, k), size))
                cu = round(rng.lognormvariate(-1.2, 0.9), rng.choice([1, 3])) if rng.random() < rich else 0
                au = round(rng.lognormvariate(-1.5, 0.9), 2) if rng.random() < rich / 2 else 0
                tonnes = rng.choice([0, 900.5, 1000, 1187.5]) if rng.random() < 0.3 else 1000
                marks = f"{int(rng.random() < 0.01)},{int(rng.random() < 0.02)}"
                codes = f"{rng.choice('RRS')},{'12'[i * 2 > shape[0]]}"
                more = f"{factors(rng, tonnes)},{rng.choice(CLASSES)}"
                rows.append(f"b{i}-{j}-{k},{x},{y},{z},{tonnes},{cu},{au},{codes},{marks},{more}")
    return "\n".join(rows) + "\n"


# Of these the last three are waste unless a rule says otherwise.
CLASSES = ("measured", "measured", "IND", "4", "Inferred", "potential", "")


def classes(rng: Random) -> str:
    """Rules of resource classes, in projects that name their column."""
    return pick(rng, "", '[classes]\nInferred = "ore"\n4 = "waste"', '[classes]\n"" = "ore"\npotential = "waste"')


def factors(rng: Random, tonnes: float) -> str:
    """The factors of mining and processing cost; a block without tonnes may have none."""
    mining, processing = (round(rng.uniform(low, 1.7), rng.choice([1, 3])) for low in (0, 0.4))
    return f"{'' if not tonnes and rng.random() < 0.5 else mining},{processing}"


def table_section(rng: Random, files: dict[str, str], size: Any, shape: Any) -> str:
    text = '[table]\nfile = "blocks.csv"\nid = "name"\nrock_type = "rock"\ndomain = "region"\nmissing_blocks = "air"'
    text += pick(rng, "", '\nclass = "cls"')
    if rng.random() < 0.4:
        files["ground.csv"] = ground(rng, files["blocks.csv"], size, shape)
        text += '\ntopography = "ground.csv"'
    return text


def ground(rng: Random, blocks: str, size: Any, shape: Any) -> str:
    """A surface that rises and falls from west to east only, over the whole model and a block beyond it."""
    rows = [row.split(",") for row in blocks.splitlines()[1:]]
    low = [min(float(row[axis]) for row in rows) for axis in (1, 2, 3)]
    ends = [(low[axis] - 1.5 * size[axis], low[axis] + (shape[axis] + 0.5) * size[axis]) for axis in (0, 1)]
    bends = [ends[0][0], low[0] + rng.choice([0.5, 1, 2.25]) * size[0], ends[0][1]]
    top = low[2] + (shape[2] - 0.5) * size[2]
    heights = [round(top - rng.choice([0, 0.3, 0.71, 1.43]) * size[2], 3) for _ in bends]
    points = [f"{x},{y},{z}" for x, z in zip(bends, heights) for y in ends[1]]
    return "\n".join(["x,y,z", *points]) + "\n"


def pick(rng: Random, *texts: str) -> str:
    return rng.choice(texts)


def recovery(rng: Random) -> str:
    curve = "[[0.2, 0.4], [1, 0.72], [6, 0.91]]"
    return pick(rng, "0.83", curve, "{ R = 0.87, S = 0.61 }", f"{{ R = {curve}, S = 0.61 }}")


def economics(rng: Random, several: int, high: float) -> str:
    lines = ["[economics]", "mining_cost = " + pick(rng, "2", "{ R = 2, S = 2.35 }")]
    lines.append(
        pick(
            rng,
            "",
            "mining_cost_per_bench = 0.11",
            f"mining_cost_per_bench = 0.07\nmining_cost_reference = {high / 2}",
            f"mining_cost_by_elevation = [[{-rng.randint(1, 9)}, {rng.randint(1, 99) / 100}], [{30 + rng.randint(0, 30)}, 0]]",
        )
    )
    lines.append("" if several else "processing_cost = " + pick(rng, "10", "{ R = 9, S = 11.5 }"))
    lines.append(pick(rng, "", "mining_recovery = 0.943", "mining_recovery = { domain = { 1 = 0.91, 2 = 0.97 } }"))
    lines.append(pick(rng, "", "dilution = 0.057", "dilution = { R = 0.04, S = 0.11 }"))
    lines += [pick(rng, "", 'mcaf = "mc"'), pick(rng, "", 'pcaf = "pc"')]
    lines.append(pick(rng, "", "royalty = 0.035"))
    lines.append(pick(rng, "", "royalty_per_tonne = 0.37"))
    lines.append(pick(rng, "", "fixed_cost_per_year = 777.5"))
    lines.append(pick(rng, "", "capex = [[1, 4000], [3, 990]]"))
    lines.append(pick(rng, "", "decimals = 2", "decimals = 0"))
    lines.append(pick(rng, "", "", 'cutoff = "base_price"'))
    return "\n".join(filter(None, lines))


def metals(rng: Random, several: int) -> list[str]:
    price = pick(rng, "price = 8000", 'price = 3.6287\nprice_per = "lb"', 'price = 8\nprice_per = "kg"')
    yearly = pick(rng, "", "prices = [{0}, {1}, {2}]")
    if yearly:
        base = float(price.split("\n")[0].split(" = ")[1])
        yearly = yearly.format(*(round(base * share, 4) for share in (1, 1.14, 0.91)))
    own = (
        []
        if several
        else [f"recovery = {recovery(rng)}", pick(rng, "", "tail_grade = 0.08", "tail_grade = { R = 0.05 , S = 0.1 }")]
    )
    copper = ["[[metals]]", 'name = "copper"', 'column = "cu"', 'unit = "percent"', price, yearly, *own]
    found = ["\n".join(filter(None, copper))]
    if several or rng.random() < 0.5:
        gold = ["[[metals]]", 'name = "gold"', 'column = "au"', 'unit = "gram_per_tonne"']
        gold += [pick(rng, "price = 60\nselling_cost = 1.5", 'price = 1866.21\nprice_per = "oz"\nselling_cost = 46.5')]
        found.append("\n".join([*gold, *([] if several else [f"recovery = {recovery(rng)}"])]))
    return found


def with_arsenic(rng: Random, blocks: str) -> str:
    """The table with a column of arsenic."""
    head, *rows = blocks.splitlines()
    return "\n".join([f"{head},as_ppm", *(f"{row},{rng.choice([0, 12, 85.5, 340])}" for row in rows)]) + "\n"


def with_terms(rng: Random, texts: list[str], several: int) -> list[str]:
    """The metals, of which some are sold by smelter terms and not at a selling cost, or by these in some processes."""
    found = [smelter(rng, text) if rng.random() < 0.4 else text for text in texts]
    return [of_processes(rng, *pair, several) if several else pair[1] for pair in zip(texts, found)]


def of_processes(rng: Random, before: str, text: str, several: int) -> str:
    """The terms of some of the processes that recover the metal, or of all: the first one recovers no gold."""
    if before == text:
        return text
    names = PROCESSES[0 if "percent" in text else 1 : several]
    if len(names) < 2 or rng.random() < 0.4:
        return text.replace("[metals.smelter]", '[metals.smelter]\nprocesses = "all"')
    some = rng.sample(names, rng.randint(1, len(names) - 1))
    costs = [line for line in before.splitlines() if line.startswith("selling_cost")] or ["selling_cost = 0.06"]
    quoted = ", ".join(f'"{name}"' for name in some)
    return text.replace("[metals.smelter]", f"{costs[0]}\n[metals.smelter]\nprocesses = [{quoted}]")


def smelter(rng: Random, text: str) -> str:
    kept = "\n".join(line for line in text.splitlines() if not line.startswith("selling_cost"))
    price, grade = float(text.split("\nprice = ")[1].split("\n")[0]), "26.5" if "percent" in text else "41.7"
    terms = [f"concentrate_grade = {grade}", pick(rng, "", "payable = 0.965"), pick(rng, "", "minimum_deduction = 1.1")]
    terms += [pick(rng, "", "treatment_charge = 87.5"), pick(rng, "", f"refining_charge = {round(price * 0.02, 4)}")]
    # Below the base only with a charge that exceeds the credit.
    base = round(price * rng.choice([0.9, 1.05] if terms[-1] else [0.9]), 3)
    applies = pick(rng, "", ', applies = "above"', ', applies = "both"')
    terms.append(pick(rng, "", f"price_participation = {{ base = {base}, share = 0.07{applies} }}"))
    terms.append(pick(rng, "", "freight = 61.3", "freight = 61.3\nmoisture = 0.083"))
    kinds = (
        'column = "as_ppm"\nrecovery = 0.62\nsteps = [[900, 3], [2000, 5.5]]\nper = 100',
        'column = "as_ppm"\nsteps = [[0, 0.002]]',
    )
    terms.append(pick(rng, "", f"[[metals.smelter.penalties]]\n{pick(rng, *kinds)}"))
    return "\n".join([kept, "[metals.smelter]", *filter(None, terms)])


PROCESSES = ("leach", "mill", "fine")


def process(rng: Random, number: int) -> str:
    """Each costs more than the one before, and recovers gold but for the first."""
    gold = f", gold = {recovery(rng)}" if number else ""
    cost = pick(rng, str(2 + 5 * number), f"{{ R = {2 + 5 * number}, S = {2.5 + 5 * number} }}")
    name, copper = PROCESSES[number], pick(rng, "0.5", recovery(rng))
    taken = pick(rng, "", "", "", '\naccepts = { rock_type = "R" }', "\naccepts = { cu = { min = 0.3, max = 2.5 } }")
    return f'[[processes]]\nname = "{name}"\ncost = {cost}\ncapacity = {2500 * (number + 1)}\nrecovery = {{ copper = {copper}{gold} }}{taken}'


def slopes(rng: Random) -> str:
    def domain() -> str:
        return pick(
            rng,
            'pattern = "1:5"',
            'pattern = "1:9"',
            f"angle = {rng.randint(30, 70)}",
            f"azimuths = [[0, {rng.randint(35, 60)}], [90, {rng.randint(35, 60)}], [220, {rng.randint(35, 60)}]]",
            f'azimuths = [[10, {rng.randint(35, 60)}], [200, {rng.randint(35, 60)}]]\nazimuth_of = "dip"',
            "bench = { height = 10, face_angle = 66, berm_width = 4 }",
            "offsets = [[0, 0, 1], [1, 0, 1], [-1, 1, 2]]",
        )

    first = "[slopes]\nprecedence_benches = " + str(rng.randint(1, 5))
    second = f'[[slopes.domains]]\ndomain = "2"\n{domain()}' if rng.random() < 0.5 else ""
    return "\n".join(filter(None, [first, second, f"[[slopes.domains]]\n{domain()}"]))


def shells(rng: Random, several: int) -> str:
    factors = sorted({0.5, 1.0, rng.choice([0.25, 0.731, 0.9]), rng.choice([1.2, 1.75])})
    lines = ["[shells]", f"revenue_factors = {factors}", f"discount_rate = {rng.choice([0.08, 0.1, 0.125])}"]
    lines.append("" if several else f"processing_capacity = {rng.choice([1500, 2600, 9000])}")
    lines.append(pick(rng, "", f"mining_capacity = {rng.choice([3300, 7000])}"))
    lines.append(pick(rng, "", 'discounting = "continuous"', 'discounting = "mid_year"'))
    pushbacks = [[0.5], [factors[0], 1.0], factors[1:]]
    lag = pick(rng, "", ", bench_lag = 1", ", bench_lag = 3")
    lines.append(f"specified = {{ pushbacks = {rng.choice(pushbacks)}{lag} }}" if rng.random() < 0.5 else "")
    return "\n".join(filter(None, lines))


def periods(rng: Random, several: int, text: str) -> list[str]:
    """One to three periods with other capacities, prices and costs than the rest of the project, where it does not set these by year."""
    found = []
    count = rng.randint(1, 3)
    for number in range(count):
        lines = ["[[periods]]", pick(rng, "", "years = 2")]
        closed = number + 1 < count and rng.random() < 0.3
        most = 0 if closed else rng.choice([1700, 4000])
        lines.append(pick(rng, "", f"capacity = {{ leach = {most} }}" if several else f"processing_capacity = {most}"))
        lines.append(pick(rng, "", "mining_capacity = 5200" if "mining_capacity" in text else ""))
        prices = {"copper": 'price_per = "lb"' in text and 3.9 or 'price_per = "kg"' in text and 8.6 or 7300}
        lines.append("" if "\nprices" in text else pick(rng, "", f"prices = {{ copper = {prices['copper']} }}"))
        lines.append(pick(rng, "", "fixed_cost_per_year = 450"))
        lines.append(pick(rng, "", "mining_cost_factor = 1.25", "mining_cost_factor = 0.9"))
        lines.append(pick(rng, "", "", "processing_cost_factor = 1.2", "processing_cost_factor = 0.8"))
        lines.append(pick(rng, "", "", "selling_cost_factor = 1.5", "selling_cost_factor = 0.5"))
        lines.append("" if "\ncapex" in text else pick(rng, "", "capex = 1234.5"))
        is_by_year = "\nprices" in text or "\ncapex" in text
        lines.append("" if is_by_year else pick(rng, "", "", "period_months = 6", "period_months = 24"))
        if "period_months = 24" in lines and "years = 2" not in lines and rng.random() < 0.5:
            lines.append("years = 4")
        found.append("\n".join(filter(None, lines)))
    return found
