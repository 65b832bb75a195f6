"""A solver that fails ends the run with its status."""

from types import SimpleNamespace

import numpy as np
import pytest
from helpers.benches import benches_of

from pitplan import PlanError
from pitplan.config.material import Dump
from pitplan.scheduling.flow import closures, material, model

FAILED = SimpleNamespace(status=4, message="Numerical difficulties encountered.", x=None, fun=None)


def test_waste_without_a_solution_is_an_error_with_the_status(monkeypatch):
    monkeypatch.setattr(material, "linprog", lambda *args, **options: FAILED)
    ones, endless = np.ones((1, 1)), np.full((1, 2), np.inf)
    limits = np.zeros((1, 2)), endless, endless
    waste = material.Waste(
        (Dump("far", 1.0),), ones > 0, 100 * ones, np.zeros((1, 0)), np.zeros(0, dtype=int), *limits, np.ones(2)
    )
    with pytest.raises(PlanError, match="HiGHS found no dump for the waste: status 4: Numerical difficulties"):
        waste.placed(np.full((1, 2), 50.0))


def test_benches_without_a_closure_are_an_error_with_the_status(monkeypatch):
    """Without the library HiGHS finds closures."""
    monkeypatch.setattr(closures, "linprog", lambda *args, **options: FAILED)
    monkeypatch.setattr(closures.library, "package", lambda: None)
    with pytest.raises(PlanError, match="HiGHS found no closure of benches: status 4: Numerical"):
        model.paying(np.array([1.0, -1.0]), benches_of((1, 0, 100, 0, 1), (1, 1, 100, 0, -1)))
