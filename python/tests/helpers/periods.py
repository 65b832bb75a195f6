"""A column of ore with periods, and what is written of it."""

import pandas as pd
from conftest import PROJECT, rows
from helpers.processes import deposit
from helpers.verified import wrong
from helpers.writings import PLAIN, UNVERIFIED

import pitplan

SCHEDULE = "[pushbacks]\ncount = 2\n[schedule]\nyears = 9\nmining_capacity = 9000\n"


def column():
    """Four levels of 100 t of ore, each worth 3200 - 1000 - 200 = 2000 at a price of 8000."""
    return rows(1, 1, 4, cu=lambda i, j, k: 0.8)


def periods(*texts):
    return PROJECT + entries(*texts)


def entries(*texts):
    return "".join(f"[[periods]]\n{text}\n" for text in texts)


def solved(path):
    """The row of the pit at the base price, and its years in the best case."""
    shells = pitplan.write_shells(path, writing=PLAIN).set_index("revenue_factor").loc[1.0]
    years = pd.read_csv(path.parent / "plan" / "tables/years.csv")
    is_shown = (years["case"] == "best") & (years["revenue_factor"] == 1.0)
    return shells, years[is_shown].set_index("period" if "period" in years else "year")


def schedule_of(plan_folder, *texts, more="", writing=UNVERIFIED):
    """Schedules a project with periods, and demands that its folder is right; gives the folder."""
    plain = PROJECT.replace("mining_cost = 2\n", "mining_cost = 0.3\n")
    plain = plain.replace("capacity = 100\n", "capacity = 400\nmining_capacity = 2000\n")
    path = plan_folder(deposit(), plain + SCHEDULE + more + entries(*texts))
    pitplan.write_schedule(path, folder=path.parent / "plan", writing=writing)
    assert wrong(path.parent / "plan") == set()
    return path.parent / "plan"
