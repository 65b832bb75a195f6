"""How many random cases the tests try: a few that are always the same in the gate, many new ones in `make thorough`.

PITPLAN_TESTS names the profile, `gate` (the default) or `thorough`. The random cases of `thorough` follow from PITPLAN_SEED, a whole number,
and from pytest's --hypothesis-seed, which `make thorough` sets to the time and prints.
"""

from __future__ import annotations

import os

from hypothesis import settings

GATE, THOROUGH = "gate", "thorough"
PROFILE = os.environ.get("PITPLAN_TESTS", GATE)
# The factor by which `thorough` has more examples of each property.
MORE = 25

settings.register_profile(GATE, deadline=None, max_examples=40, derandomize=True, database=None)
settings.register_profile(THOROUGH, deadline=None, max_examples=40 * MORE, database=None, print_blob=True)


def load_profile() -> None:
    """Loads the profile of hypothesis. Raises KeyError if PITPLAN_TESTS names no profile."""
    settings.load_profile({GATE: GATE, THOROUGH: THOROUGH}[PROFILE])


def examples(gate: int, **more: object) -> settings:
    """The settings of a property with so many examples in the gate, and MORE times as many in `thorough`."""
    return settings(max_examples=gate * (MORE if PROFILE == THOROUGH else 1), **more)


def seeds(gate: int, thorough: int) -> range:
    """The seeds of random cases: the first ones in the gate, and as many as are named from PITPLAN_SEED on in `thorough`."""
    first = int(os.environ.get("PITPLAN_SEED", "1000"))
    return range(first, first + thorough) if PROFILE == THOROUGH else range(gate)
