"""Mine planning over the proved solver `pitshell`: from a block model to shells, pushbacks, schedules and reports.

    import pitplan

    plan = pitplan.Plan.from_project("project.toml")    # plan.blocks: one row per block; plan.notes: what was rounded and clipped
    shells = plan.shells()                              # shells.table: one row per revenue factor; shells.blocks, shells.years
    parts = shells.pushbacks(count=2)                   # parts.table: one row per pushback
    schedule = parts.schedule(mining_capacity=2e6)      # schedule.methods, schedule.table, schedule.years
    schedule.write("out")                               # tables, figures, report and record, verified

A block model may come from pandas: `BlockModel.from_frame(frame, id="block")`. `Plan.from_model` takes it with the sections of a
project.toml as arguments, `economics={..}, metals=[..], slopes={..}, shells={..}`.

Only `write` writes files. Each result holds the plan that it was made from. Warnings are `InputWarning` and `ResultWarning`.

Functions write what the subcommands write, by default into the output folder of the project. `check` writes nothing.

    notes = pitplan.check("project.toml")                  # validates all inputs, without solving
    table = pitplan.write_shells("project.toml", "out")    # one row per revenue factor, verified
    pitplan.view("out")                                    # the path of view.html
    pitplan.write_report("out")                            # the path of report.html
    pitplan.write_export("out", "csv")                     # the path of pit.csv; or table, xlsx, vti, vtu, dxf, stl ..
    pitplan.write_export("out", "dxf", 0.80, out="a.dxf")  # the pit of one revenue factor, into a file of any name
    pitplan.audit("out", 0.80)                             # the path of a folder that proves one shell
    rules = pitplan.verify("out")                          # one Rule per check: what holds, what differs
    pits = pitplan.write_pit("project.toml", 1.00)         # one row with the constraints and one without
    pushbacks = pitplan.write_pushbacks("project.toml")    # one row per pushback
    methods = pitplan.write_schedule("project.toml")       # one row per method: rule, lp
    cases = pitplan.write_sensitivity("project.toml")      # one row per case: parameters changed by a share
    runs = pitplan.compare(["out", "other"])               # runs.inputs, runs.results, runs.periods, runs.bridge
    found = pitplan.write_scenarios("project.toml")        # found.probability, found.table, found.quantiles; found.notes
    each = pitplan.write_scenarios("project.toml", request=pitplan.Request(by="block"))     # each.schedules

`write_block_schedule("project.toml")` schedules blocks without constraints: one row with NPV, upper bound and optimality gap.
`Writing` sets how a function writes its folder, `Request` where and how scenarios are solved, and `Where` the same for cases of a
sensitivity. `gather(folder)` gathers scenarios that other machines have solved.

Functions `plot_...` draw on your own axes, return them, and leave the backend of matplotlib unchanged. Import their module first, as
`import pitplan.figures.pits`. They take:

- `pits.plot_pit_by_pit`: `shells.table`
- `schedule.plot_years`: `shells.years`
- `plans_sections`: its `scene_of(shells)`
- `pushbacks`: its `scene_of(pushbacks)`
- `scenarios`: `found.likely(1.0)` or `found.table`
- `sensitivity`: a table of cases

The library `libpitshell` solves if it is installed, otherwise the program `pitshell`. `dataclasses.replace(project, solver="program")`, or
"library", selects one. The proof covers both: given block values and precedences, a shell is the smallest closed set of maximal value.
This package is tested, not proved. `plan.notes` lists what it rounded, removed and filled.
"""

from __future__ import annotations

from importlib import import_module
from importlib.util import find_spec
from typing import TYPE_CHECKING, Any

if TYPE_CHECKING:
    from pitplan.config.project import Project, load
    from pitplan.results.pit_states import Shape
    from pitplan.solver.program import Solution
    from pitplan.studies.dask_pool import Where
    from pitplan.studies.scenarios.result import ScenarioResult

    from .blockmodel.block_model import BlockModel
    from .commands.compare import Comparison, compare
    from .commands.outputs import audit, view, write_export, write_report
    from .commands.plans import check, write_pit, write_pushbacks, write_shells
    from .commands.scenarios import gather, write_scenarios
    from .commands.schedule import write_block_schedule, write_schedule
    from .commands.sensitivity import write_sensitivity
    from .commands.verification import Rule, verify
    from .commands.writing import Writing
    from .errors import BudgetUsedUp, InputWarning, MissingPackage, PlanError, PlanWarning, ProgramError, ResultWarning
    from .pits.shells import Shells
    from .plan import Plan
    from .pushbacks.nested import Pushbacks
    from .scheduling.blocks.tables import BlockSchedule
    from .scheduling.pushback_schedule import PushbackSchedule
    from .studies.scenarios.run import Request
else:

    def __getattr__(name: str) -> Any:
        """Imports a public name, or a module of the package, on first use."""
        if name in PLACES:
            found = getattr(import_module(f".{PLACES[name]}", __name__), name)
        elif not name.startswith("_") and find_spec(f"{__name__}.{name}"):
            return import_module(f".{name}", __name__)
        else:
            raise AttributeError(f"module {__name__!r} has no attribute {name!r}")
        globals()[name] = found
        return found


__version__ = "0.2.0"

# The public names by their modules, which are imported on first use: `import pitplan` alone takes neither pandas nor matplotlib.
MODULES = {
    "blockmodel.block_model": ("BlockModel",),
    "commands.compare": ("Comparison", "compare"),
    "commands.outputs": ("audit", "view", "write_export", "write_report"),
    "commands.plans": ("check", "write_pit", "write_pushbacks", "write_shells"),
    "commands.scenarios": ("gather", "write_scenarios"),
    "commands.schedule": ("write_block_schedule", "write_schedule"),
    "commands.sensitivity": ("write_sensitivity",),
    "commands.verification": ("Rule", "verify"),
    "commands.writing": ("Writing",),
    "config.project": ("Project", "load"),
    "errors": (
        *("BudgetUsedUp", "InputWarning", "MissingPackage", "PlanError", "PlanWarning", "ProgramError"),
        "ResultWarning",
    ),
    "pits.shells": ("Shells",),
    "plan": ("Plan",),
    "pushbacks.nested": ("Pushbacks",),
    "results.pit_states": ("Shape",),
    "scheduling.blocks.tables": ("BlockSchedule",),
    "scheduling.pushback_schedule": ("PushbackSchedule",),
    "solver.program": ("Solution",),
    "studies.dask_pool": ("Where",),
    "studies.scenarios.run": ("Request",),
    "studies.scenarios.result": ("ScenarioResult",),
}
PLACES = {name: module for module, names in MODULES.items() for name in names}

__all__ = [
    "BlockModel",
    "BlockSchedule",
    "BudgetUsedUp",
    "Comparison",
    "InputWarning",
    "MissingPackage",
    "Plan",
    "PlanError",
    "PlanWarning",
    "ProgramError",
    "Project",
    "PushbackSchedule",
    "Pushbacks",
    "Request",
    "ResultWarning",
    "Rule",
    "ScenarioResult",
    "Shape",
    "Shells",
    "Solution",
    "Where",
    "Writing",
    "audit",
    "check",
    "compare",
    "gather",
    "load",
    "verify",
    "view",
    "write_block_schedule",
    "write_export",
    "write_pit",
    "write_pushbacks",
    "write_report",
    "write_scenarios",
    "write_schedule",
    "write_sensitivity",
    "write_shells",
]


def __dir__() -> list[str]:
    return __all__
