"""The colours of processes, stockpiles, dumps, resource classes and codes, the same in all figures and in the 3D page."""

from __future__ import annotations

from collections.abc import Iterable, Sequence

import pandas as pd

from pitplan.config.material import MILL, ranked

ORE, WASTE = "#3b6ea5", "#cfc9bd"
# How the columns of the mill feed of a process begin.
OF_PROCESS = "feed_tonnes_"
# Of processes in their order; that of one process is ORE.
PROCESSES = (ORE, "#c8792b", "#4c8c4a", "#7b4fa3", "#b23a48")
# Of stockpiles in their order.
STOCKPILES = ("#dcc04e", "#9fc79d", "#b9a3cf", "#d99fb0")
# Of dumps in their order.
DUMPS = ("#cfc9c0", "#aaa39a", "#87817a", "#e3d8c5", "#b9ae98")
# Of resource classes, from the best known on; further ones are pale.
CLASSES, OTHER_CLASS = ("#1f4e79", "#5b93c7", "#b9d3ea", "#d9d4c8", "#ece8df"), "#dddddd"
# Of other codes, from the most frequent on: colours that the colour-blind distinguish (Okabe and Ito), then paler ones.
CODES = (
    *("#0072b2", "#e69f00", "#009e73", "#cc79a7", "#56b4e9", "#d55e00", "#f0e442", "#7f7f7f"),
    *("#8fb3d9", "#f3cf80", "#80cfb9", "#e6bcd3", "#abdaf4", "#eaaf80", "#f8f2a1", "#c0c0c0"),
)


def of_processes(names: Iterable[str]) -> dict[str, str]:
    """Returns the colour of each process by its name, "mill" for that of a project that names none."""
    return {name or MILL: PROCESSES[number % len(PROCESSES)] for number, name in enumerate(names)}


def layers_of(table: pd.DataFrame) -> dict[str, tuple[str, str]]:
    """Returns column and colour of each layer of mill feed in a table of shells or years, by its label: of several processes one each."""
    names = [name.removeprefix(OF_PROCESS) for name in table if name.startswith(OF_PROCESS)]
    found = {name: (OF_PROCESS + name, colour) for name, colour in of_processes(names).items()}
    return found or {"ore": ("feed_tonnes", ORE)}


def of_stockpiles(names: Iterable[str]) -> dict[str, str]:
    """Returns the colour of each stockpile by its name."""
    return {name: STOCKPILES[number % len(STOCKPILES)] for number, name in enumerate(names)}


def of_dumps(names: Iterable[str]) -> dict[str, str]:
    return {name: DUMPS[number % len(DUMPS)] for number, name in enumerate(names)}


def of_classes(classes: Sequence[str]) -> dict[str, str]:
    """Returns the colour of each of all resource classes of a model."""
    return {
        name: CLASSES[number] if number < len(CLASSES) else OTHER_CLASS for number, name in enumerate(ranked(classes))
    }
