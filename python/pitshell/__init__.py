"""The proved pit solver on numpy arrays.

    import pitshell
    found = pitshell.solve(values, needs)
    found.in_pit        whether each block is in the pit: bool, shape (blocks,)
    found.worth         the value of the pit, exact
    found.rounded       how many values were rounded to millionths

    nested = pitshell.shells(revenues, costs, needs, factors=range(300, 1001, 50))
    nested.first        for each block the number of the first factor whose pit contains it
    nested.worths       the value of each pit at its factor, exact

    shown = pitshell.certificate(values, needs)
    pitshell.check(values, needs, shown.in_pit, shown.flow)      # whether the flow proves that this is the pit

`LIBRARY` is the file of the library. The proof covers the library: it marks exactly the pits of the mine that the arrays encode, on one
thread (docs/LIBRARY.md). This package, which converts arguments to arrays and refusals to exceptions, is tested.
"""

from ._certifying import Certificate, certificate, check
from ._library import FILE as LIBRARY
from ._nesting import Shells, shells
from ._refusals import NoMemory, Refusal
from ._solving import BARRED, FORCED, FREE, Pit, solve

__version__ = "0.2.0"

__all__ = [
    "BARRED",
    "FORCED",
    "FREE",
    "LIBRARY",
    "Certificate",
    "NoMemory",
    "Pit",
    "Refusal",
    "Shells",
    "certificate",
    "check",
    "shells",
    "solve",
]
