"""Published schedules, `.cpit`: read as they are, refused where they are none, and solved, by hand."""

from decimal import Decimal

import numpy as np
import pandas as pd
import pytest

from minelib import MinelibError, schedule_models
from pitplan.scheduling.blocks.__main__ import main
from pitplan.scheduling.blocks.from_minelib import of_minelib

CPIT = """NAME: by hand     % two pillars
TYPE: CPIT
NBLOCKS: 4
NPERIODS: 3
NRESOURCE_SIDE_CONSTRAINTS: 2
DISCOUNT_RATE: 0.10
OBJECTIVE_FUNCTION:
3 5
0 -1
1 1e1
2 -1.0
RESOURCE_CONSTRAINT_COEFFICIENTS:
0 0 1
1 0 1
2 0 1
3 0 1
1 1 7
3 1 7
RESOURCE_CONSTRAINT_LIMITS:
0 0 L 2
0 1 I 0 2
0 2 L 2
1 0 l 7.5
EOF
"""
PREC = "0 0\n1 1 0\n2 0\n3 1 2\n"


def written(path, text, changes):
    """A model with each change, whose old words stand in it once, and the precedences beside it."""
    for old, new in changes:
        assert text.count(old) == 1, old
        text = text.replace(old, new)
    path.write_text(text)
    prec = path.with_suffix(".prec")
    prec.write_text(PREC)
    return path, prec


@pytest.fixture
def published(tmp_path):
    """Writes both files, the model with changes; gives their paths."""

    def write(*changes):
        return written(tmp_path / "mine.cpit", CPIT, changes)

    return write


def test_a_cpit_is_read_as_it_stands(published):
    model = schedule_models.read(published()[0])
    assert (model.name, model.periods, model.rate, model.unnamed) == ("by hand", 3, Decimal("0.10"), 0)
    assert model.values == [(-1,), (10,), (-1,), (5,)]
    assert model.taken == [{(0, 0): 1, (1, 0): 1, (2, 0): 1, (3, 0): 1}, {(1, 0): 7, (3, 0): 7}]
    assert model.limits == {(0, 0): (None, 2), (0, 1): (0, 2), (0, 2): (None, 2), (1, 0): (None, Decimal("7.5"))}


def test_its_problem_is_discounted_from_the_second_period_on(published):
    problem = of_minelib(*published())
    assert problem.values[:, 0].tolist() == [
        [pytest.approx(value / 1.1**period) for period in range(3)] for value in (-1, 10, -1, 5)
    ]
    assert [limit.most.tolist() for limit in problem.limits] == [[2, 2, 2], [7.5, np.inf, np.inf]]
    assert [limit.amounts[:, 0].tolist() for limit in problem.limits] == [[1, 1, 1, 1], [0, 7, 0, 7]]
    assert list(zip(problem.precedences.users, problem.precedences.predecessors)) == [(1, 0), (3, 2)]


def test_the_certificate_of_two_pillars_by_hand(published, tmp_path, capsys):
    """9 + 4 * 0.909091 = 12.636364, of which the resource that each block takes has two units a period."""
    paths = [str(path) for path in published()]
    assert main([*paths, "--quiet", "--seconds", "60", "--certificate", str(tmp_path / "made")]) == 0
    out = capsys.readouterr().out
    assert "proved by pitschedule" in out and "is worth 12.64; no schedule within them is worth more than 12.64" in out
    text = (tmp_path / "made/certificate/schedule.problem").read_text()
    assert "DISCOUNTS 1 0.909091 0.826446\nCAPACITIES 2 2 2\nCAPACITIES 7.500000 " in text


def test_bound_and_schedule_of_two_pillars_by_hand(published, tmp_path, capsys):
    """The richer pillar in the first period and the other in the second: 9 + 4 / 1.1, which no schedule exceeds."""
    paths = [str(path) for path in published()]
    assert main([*paths, "--out", str(tmp_path / "periods.csv"), "--quiet", "--seconds", "60"]) == 0
    said = dict(line.split(": ") for line in capsys.readouterr().out.splitlines())
    assert (
        float(said["BOUND"]) == pytest.approx(9 + 4 / 1.1, abs=1e-5) == float(said["VALUE"])
        and said["GAP"] == "0.0000 %"
    )
    assert pd.read_csv(tmp_path / "periods.csv").to_numpy().tolist() == [[0, 0], [1, 0], [2, 1], [3, 1]]


@pytest.mark.parametrize(
    ("change", "said"),
    [
        (("NPERIODS: 3\n", ""), "mine.cpit: has no header NPERIODS:"),
        (("NPERIODS: 3\n", "NPERIODS: 3\nNPERIODS: 4\n"), "mine.cpit line 5: NPERIODS: stands twice"),
        (
            ("NPERIODS: 3\n", "NPERIODS: 3\nGENERAL_CONSTRAINTS: 4\n"),
            "mine.cpit line 5: GENERAL_CONSTRAINTS: is no header of a CPIT",
        ),
        (("TYPE: CPIT", "TYPE:"), "mine.cpit: is of no type, and schedules are read of a CPIT or a PCPSP"),
        (("TYPE: CPIT", "TYPE: UPIT"), "mine.cpit: is a UPIT, and schedules are read of a CPIT or a PCPSP"),
        (
            ("NPERIODS: 3\n", "NPERIODS: 3\nNDESTINATIONS: 1\n"),
            "mine.cpit line 5: NDESTINATIONS: is no header of a CPIT",
        ),
        (("3 5\n", "4 5\n"), "mine.cpit line 8: 4, where NBLOCKS: is 4 and numbers count from 0"),
        (("3 5\n", "3 5 6\n"), "mine.cpit line 8: 3 fields, where a block and its value are due"),
        (("3 5\n", "0 5\n"), "mine.cpit line 9: block 0 has a value already"),
        (("3 1 7\n", "1 1 7\n"), "mine.cpit line 18: block 1 has an amount of resource 1 already"),
        (("3 1 7\n", "3 2 7\n"), "mine.cpit line 18: 2, where NRESOURCE_SIDE_CONSTRAINTS: is 2"),
        (("0 2 L 2\n", "0 1 L 2\n"), "mine.cpit line 22: resource 0 has a limit in period 1 already"),
        (("0 2 L 2\n", "0 3 L 2\n"), "mine.cpit line 22: 3, where NPERIODS: is 3"),
        (("0 2 L 2\n", "0 2 E 2\n"), "mine.cpit line 22: a limit is L or G and a number, or I and two"),
        (("0 1 I 0 2\n", "0 1 I 3 2\n"), "mine.cpit line 21: 3 is above 2"),
        (("0 1 I 0 2\n", "0 1 I 2\n"), "mine.cpit line 21: a limit is L or G and a number, or I and two"),
        (("NAME: by hand     % two pillars\n", "5\n"), "mine.cpit line 1: a header such as NAME: is due"),
    ],
)
def test_what_is_no_cpit_is_refused(published, capsys, change, said):
    paths = published(change)
    with pytest.raises(MinelibError) as error:
        of_minelib(*paths)
    assert said in str(error.value)
    assert main([*map(str, paths), "--quiet"]) == 1 and said in capsys.readouterr().err


@pytest.mark.parametrize(("change", "most"), [(("0 2 L 2\n", "0 2 I 2 2\n"), 2), (("0 2 L 2\n", "0 2 G 2\n"), np.inf)])
def test_a_least_amount_is_kept(published, tmp_path, change, most):
    """Two blocks must be dug in the last period: the poorer pillar waits for it, 9 + 4 / 1.21."""
    paths = published(change)
    limit = of_minelib(*paths).limits[0]
    assert limit.floor.tolist() == [0, 0, 2] and limit.most.tolist() == [2, 2, most]
    assert main([*map(str, paths), "--out", str(tmp_path / "periods.csv"), "--quiet", "--seconds", "60"]) == 0
    assert pd.read_csv(tmp_path / "periods.csv")["period"].tolist() == [0, 0, 2, 2]


def test_a_file_that_is_read_is_not_written_over(published, capsys):
    paths = published()
    before = [path.read_bytes() for path in paths]
    for path in paths:
        assert main([*map(str, paths), "--out", str(path), "--quiet"]) == 1
        assert capsys.readouterr().err == f"pitplan: {path}: would be written over: name another file by --out\n"
    assert [path.read_bytes() for path in paths] == before


def test_a_least_amount_that_is_not_there_is_told(published, capsys):
    """Six blocks of four."""
    paths = published(("0 2 L 2\n", "0 2 G 6\n"))
    assert main([*map(str, paths), "--quiet"]) == 1
    assert "infeasible: no schedule meets the minimum of resource 0 in year 3" in capsys.readouterr().err


def test_a_negative_amount_is_refused(published, capsys):
    assert main([*map(str, published(("3 1 7\n", "3 1 -7\n"))), "--quiet"]) == 1
    assert "resource 1: an amount is negative or not a number" in capsys.readouterr().err


# Waste is destination 0, the mill 1, leach 2. The mill takes 10 a period (resource 1), the shovels two blocks (resource 0).
PCPSP = """NAME: by hand
TYPE: PCPSP
NBLOCKS: 4
NPERIODS: 2
NDESTINATIONS: 3
NRESOURCE_SIDE_CONSTRAINTS: 2
NGENERAL_SIDE_CONSTRAINTS: 0
DISCOUNT_RATE: 0.25
OBJECTIVE_FUNCTION:
0 -1 -1 -1
1 -1 20 8
2 -1 -1 -1
3 -1 12 9
RESOURCE_CONSTRAINT_COEFFICIENTS:
{taken}RESOURCE_CONSTRAINT_LIMITS:
0 0 L 4
0 1 L 4
1 0 L 10
1 1 L 10
EOF
"""


def taken(order):
    """A block each of resource 0 in each destination, and 10 of resource 1 of both ores in the mill."""
    lines = [(block, destination, 0, 1) for block in range(4) for destination in range(3)] + [
        (1, 1, 1, 10),
        (3, 1, 1, 10),
    ]
    return "".join(f"{b} {d} {r} {v}\n" if order == "destination" else f"{b} {r} {d} {v}\n" for b, d, r, v in lines)


@pytest.fixture
def with_destinations(tmp_path):
    def write(order="destination", *changes):
        return written(tmp_path / "mine.pcpsp", PCPSP.replace("{taken}", taken(order)), changes)

    return write


@pytest.mark.parametrize("order", ["destination", "resource"])
def test_a_pcpsp_is_read_in_either_order(with_destinations, order):
    """There are three destinations and two resources, so a 2 is a destination."""
    model = schedule_models.read(with_destinations(order)[0])
    assert model.values == [(-1, -1, -1), (-1, 20, 8), (-1, -1, -1), (-1, 12, 9)] and model.rate == Decimal("0.25")
    assert model.taken == [
        {(block, destination): 1 for block in range(4) for destination in range(3)},
        {(1, 1): 10, (3, 1): 10},
    ]


def test_bound_and_schedule_of_destinations_by_hand(with_destinations, tmp_path, capsys):
    """All four blocks may be dug in the first period, and the mill takes one ore of 10: 20 there, and 9 in leach for the other, less 2 for
    the waste: 27. Milled in the second period the other were (12 - 1) / 1.25, 8.8, where leach earns 9 - 1 at once: so 19 + 8.8.
    """
    paths = [str(path) for path in with_destinations()]
    assert main([*paths, "--out", str(tmp_path / "periods.csv"), "--quiet", "--seconds", "60"]) == 0
    said = dict(line.split(": ") for line in capsys.readouterr().out.splitlines())
    assert float(said["VALUE"]) == pytest.approx(19 + 8.8) == pytest.approx(float(said["BOUND"]))
    table = pd.read_csv(tmp_path / "periods.csv")
    assert table["period"].tolist() == [0, 0, 1, 1] and table.loc[[1, 3], "share_1"].tolist() == [1, 1]


@pytest.mark.parametrize(
    ("change", "said"),
    [
        (
            ("NGENERAL_SIDE_CONSTRAINTS: 0", "NGENERAL_SIDE_CONSTRAINTS: 2"),
            "mine.pcpsp line 7: general side constraints are not scheduled",
        ),
        (
            ("RESOURCE_CONSTRAINT_LIMITS:", "GENERAL_CONSTRAINT_COEFFICIENTS:\n0 0 0 1\nRESOURCE_CONSTRAINT_LIMITS:"),
            "line 30: general side constraints are not scheduled",
        ),
        (("NDESTINATIONS: 3\n", ""), "mine.pcpsp: has no header NDESTINATIONS:"),
        (("NDESTINATIONS: 3", "NDESTINATIONS: 0"), "mine.pcpsp line 5: there is no destination"),
        (("1 -1 20 8\n", "1 -1 20\n"), "mine.pcpsp line 11: 3 fields, where a block and 3 values are due"),
        (
            ("3 1 1 10\n", "3 1 10\n"),
            "mine.pcpsp line 28: 3 fields, where a block, a destination, a resource and an amount are due",
        ),
        (
            ("3 1 1 10\n", "1 1 1 10\n"),
            "mine.pcpsp line 28: block 1 has an amount of resource 1 in destination 1 already",
        ),
        (("3 1 1 10\n", "3 5 1 10\n"), "mine.pcpsp line 28: 5, where NDESTINATIONS: is 3 and numbers count from 0"),
    ],
)
def test_what_is_no_pcpsp_is_refused(with_destinations, change, said):
    with pytest.raises(MinelibError) as error:
        of_minelib(*with_destinations("destination", change))
    assert said in str(error.value)


def test_an_order_that_nothing_tells_must_be_said(with_destinations, capsys):
    """Two destinations and two resources: "1 0 .." may be waste's second resource or the mill's first."""
    lines = "".join(f"{b} {d} 0 1\n" for b in range(4) for d in range(2)) + "1 1 1 10\n3 1 1 10\n"
    text = PCPSP.replace("{taken}", lines).replace("NDESTINATIONS: 3", "NDESTINATIONS: 2")
    for line in ("0 -1 -1 -1", "1 -1 20 8", "2 -1 -1 -1", "3 -1 12 9"):
        text = text.replace(line, line.rsplit(" ", 1)[0])
    model, prec = with_destinations()
    model.write_text(text)
    assert main([str(model), str(prec), "--quiet"]) == 1
    why = "what stands behind the block may be a destination or a resource: say which by --behind-block"
    assert f"mine.pcpsp line 14: RESOURCE_CONSTRAINT_COEFFICIENTS: {why}" in capsys.readouterr().err
    assert of_minelib(model, prec, "destination").limits[0].amounts.tolist() == [[1, 1]] * 4
    assert main([str(model), str(prec), "--quiet", "--behind-block", "destination"]) == 0
    assert "VALUE: 27.8" in capsys.readouterr().out
