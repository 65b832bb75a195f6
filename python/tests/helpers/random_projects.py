"""Random projects with many of their keys at once, and their table."""

import numpy as np
from conftest import rows

GOLD = '[[metals]]\nname = "gold"\ncolumn = "au"\nunit = "gram_per_tonne"\nprice = 60\nselling_cost = 1.5\n'


def table_of(rng):
    """A hill of two rocks and regions; ore of copper and gold in the middle, forced and barred blocks, and rows that are lacking."""
    table = rows(
        20,
        12,
        6,
        tonnes=lambda i, j, k: 99.7 + 0.013 * i,
        rock=lambda i, j, k: "RS"[(i + j + k) % 3 == 0],
        region=lambda i, j, k: "12"[i > 6],
    )
    ore = (table["z"] < 40) & table["x"].between(35, 95) & table["y"].between(35, 85) & (rng.random(len(table)) < 0.6)
    table["cu"] = np.where(ore, rng.lognormal(0.4, 0.8, len(table)).round(2), 0)
    table["au"] = np.where(ore, rng.lognormal(-0.5, 0.8, len(table)).round(3), 0)
    table["must"] = ((table["x"] == 65) & (table["y"] == 65) & (table["z"] == 45)).astype(int)
    table["never"] = (table["x"] > 120).astype(int)
    table["cls"] = rng.choice(["measured", "Indicated", "inferred", ""], len(table), p=[0.5, 0.3, 0.15, 0.05])
    table["mc"], table["pc"] = (rng.uniform(low, 1.6, len(table)).round(4) for low in (0, 0.4))
    return table[(table["z"] < 50) | (table["x"] < 70)]


def pick(rng, *texts):
    return texts[rng.integers(len(texts))]


def recovery(rng):
    curve = "[[0.2, 0.4], [1, 0.72], [6, 0.91]]"
    return pick(rng, "0.83", curve, "{ R = 0.87, S = 0.61 }", f"{{ R = {curve}, S = 0.61 }}")


def by_elevation(rng):
    """Costs whose interpolation at the levels' centres, 5, 15 .. m, ends in a half of a millionth now and then."""
    return f"mining_cost_by_elevation = [[{rng.integers(-9, 9)}, {rng.integers(1, 99) / 100}], [{50 + rng.integers(0, 30)}, 0]]\n"


def haulage(rng):
    """A road with a ramp that is no whole number of millimetres long, or nothing."""
    road = f"[haulage]\npit_exit = [{rng.integers(0, 200)}, {rng.integers(-50, 0)}, 60]\nramp_gradient = {pick(rng, 0.07, 0.12, 0.083)}\ncost = 0.12\n"
    return pick(rng, "", road)


def processes(rng):
    """Several processes, or nothing where there is one."""
    names = ["leach", "mill", "fine"][: rng.integers(0, 4)]
    text = ""
    for number, name in enumerate(names, 1):
        of_gold = f", gold = {recovery(rng)}" if number > 1 else ""
        text += f'[[processes]]\nname = "{name}"\ncost = {2 + 5 * number}\ncapacity = {150 * number}\nrecovery = {{ copper = {recovery(rng)}{of_gold} }}\n'
    return text


def project_of(rng):
    """The text of a project, and whether it has one process alone."""
    several = processes(rng)
    money = "mining_cost = { R = 2, S = 2.3 }\n" + pick(rng, "", "mining_cost_per_bench = 0.11\n", by_elevation(rng))
    money += pick(rng, "", "mining_recovery = 0.943\n", "mining_recovery = { domain = { 1 = 0.91, 2 = 0.97 } }\n")
    money += pick(rng, "", "dilution = 0.057\n", "dilution = { R = 0.04, S = 0.11 }\n") + pick(
        rng, "", "royalty = 0.035\n"
    )
    money += (
        pick(rng, "", "royalty_per_tonne = 0.37\n")
        + pick(rng, "", "fixed_cost_per_year = 777.5\n")
        + pick(rng, "", "capex = [[1, 4000], [3, 990]]\n")
    )
    money += pick(rng, "", 'mcaf = "mc"\n') + pick(rng, "", 'pcaf = "pc"\n')
    money += pick(rng, "decimals = 2\n", "") + pick(rng, "", 'cutoff = "base_price"\n')
    tail = "" if several else pick(rng, "", "tail_grade = 0.08\n")
    metal = (
        "price = 8000\n"
        + ("" if several else f"recovery = {recovery(rng)}\n")
        + tail
        + pick(rng, "", "prices = [8000, 9100, 7300]\n")
    )
    gold = GOLD + ("" if several else f"recovery = {recovery(rng)}\n")
    domain = pick(
        rng,
        'pattern = "1:9"',
        "angle = 47",
        "bench = { height = 20, face_angle = 66, berm_width = 7 }",
        "offsets = [[0, 0, 1], [1, 0, 1], [-1, 1, 2]]",
    )
    changes = [
        (
            "mining_cost = 2\nprocessing_cost = 10\n",
            money + ("" if several else "processing_cost = { R = 9, S = 11 }\n"),
        )
    ]
    changes += [
        ("price = 8000\nrecovery = 0.5\n", metal),
        ("[slopes]\n", f"{gold}{several}[slopes]\n"),
        ('pattern = "1:5"', domain),
    ]
    changes += [
        (
            "discount_rate = 0.1",
            f'discount_rate = 0.1\ndiscounting = "{pick(rng, "continuous", "mid_year", "end_of_year")}"',
        )
    ]
    changes += [
        (
            "processing_capacity = 100",
            ("" if several else "processing_capacity = 310\n") + pick(rng, "", "mining_capacity = 1900"),
        )
    ]
    classes = 'class = "cls"\n' if rng.random() < 0.5 else ""
    rules = pick(rng, "", '[classes]\nIndicated = "waste"\ninferred = "ore"\n') if classes else ""
    changes += [
        ("[grid]\n", rules + "[grid]\n"),
        (
            'file = "blocks.csv"',
            f'{classes}file = "blocks.csv"\n' + pick(rng, "", "", "reblock = [2, 1, 1]\n", 'missing_blocks = "air"\n'),
        ),
    ]
    return changes, not several
