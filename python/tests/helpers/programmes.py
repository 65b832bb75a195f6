"""The programme of a schedule by pushback, stated a second time, and its integer optimum by scipy."""

import numpy as np
from helpers.benches import amounts_of, ramp_of, rate_of, yearly_limits
from hypothesis import strategies as st
from scipy.optimize import Bounds, LinearConstraint, milp

from .benches import amounts


def statement(benches, limits, years):
    """The same programme stated anew, by what is dug in a year: gains, rows of (coefficients, most), and the greatest cumulative share.

    Unknowns are x(bench, year).
    """
    count = len(benches)
    before = [
        [
            other
            for other in range(count)
            if (benches.pushback[other] == benches.pushback[bench] and benches.level[other] < benches.level[bench])
            or (
                benches.pushback[other] < benches.pushback[bench]
                and benches.level[other] <= benches.level[bench] + benches.lag
            )
        ]
        for bench in range(count)
    ]
    # A bench waits for others by those that wait in turn.
    for bench in range(count):
        before[bench] = sorted(set(before[bench]).union(*(before[other] for other in before[bench])))
    gain = {
        (bench, year): benches.of("cash_flow")[bench] / 1.1 ** (year + 1)
        for bench in range(count)
        for year in range(years)
    }
    ramp_up = [ramp_of(limits)[min(year, len(ramp_of(limits)) - 1)] for year in range(years)]
    most = [
        {name: amount * (ramp if name == "feed_tonnes" else 1) for name, amount in amounts_of(limits).items()}
        for ramp in ramp_up
    ]
    rows = [({(bench, year): 1.0 for year in range(years)}, 1.0) for bench in range(count)]
    for year in range(years):
        rows += [
            ({(bench, year): benches.of(name)[bench] for bench in range(count)}, most[year][name])
            for name in limits.most
        ]
        for pushback in set(benches.pushback.tolist()) if np.isfinite(rate_of(limits)) else ():
            rows.append(
                (
                    {(bench, year): 1.0 for bench in range(count) if benches.pushback[bench] == pushback},
                    rate_of(limits),
                )
            )
        for bench in range(count):
            for other in before[bench]:
                rows.append(
                    ({**{(bench, t): 1.0 for t in range(year + 1)}, **{(other, t): -1.0 for t in range(year + 1)}}, 0.0)
                )
            # By the end of the year all before it is dug, and of it what the limits leave.
            for name in limits.most:
                room = sum(most[t][name] for t in range(year + 1)) - sum(
                    benches.of(name)[other] for other in before[bench]
                )
                own = benches.of(name)[bench]
                rows.append(
                    ({(bench, t): 1.0 for t in range(year + 1)}, max(0.0, room / own) if own else float(room >= 0))
                )
            if np.isfinite(rate_of(limits)):
                above = sum(benches.pushback[other] == benches.pushback[bench] for other in before[bench])
                rows.append(
                    (
                        {(bench, t): 1.0 for t in range(year + 1)},
                        max(0.0, rate_of(limits) * (year + 1) - above),
                    )
                )
    return gain, rows, before


def pace(benches, limits, years):
    """Further rows, which schedules of whole benches keep, since the benches of a pushback are dug one after the other: a share x of a bench by a
    year follows the same share of one above it, if between both, at x = 0 and at x = 1, lies as much as the limits let be dug since.
    """
    rows = []
    for low, high in ((low, high) for low in range(len(benches)) for high in range(low)):
        if benches.pushback[low] != benches.pushback[high]:
            continue
        takes = {name: benches.of(name) for name in limits.most} | {"benches": np.ones(len(benches))}
        for first, last in ((first, last) for last in range(years) for first in range(max(0, last - 3), last)):
            ramp_up = [ramp_of(limits)[min(year, len(ramp_of(limits)) - 1)] for year in range(first + 1, last + 1)]
            most = {name: amount * (last - first) for name, amount in amounts_of(limits).items()}
            most |= {"benches": rate_of(limits) * (last - first)}
            most |= {"feed_tonnes": amounts_of(limits)["feed_tonnes"] * sum(ramp_up)} if "feed_tonnes" in most else {}
            if any(
                takes[name][high] > 0
                and min(takes[name][high:low].sum(), takes[name][high + 1 : low + 1].sum()) >= amount - 1e-9
                for name, amount in most.items()
            ):
                ahead = {(high, t): -1.0 for t in range(first + 1)}
                rows.append(({(low, t): 1.0 for t in range(last + 1)} | ahead, 0.0))
    return rows


def integer_optimum(benches, limits, years):
    """The most that a schedule earns that can be dug: whole unknowns say whether a bench may be begun."""
    gain, rows, before = statement(benches, limits, years)
    place = {key: number for number, key in enumerate(gain)}
    size = len(place)
    table, most = [], []
    for coefficients, right in rows:
        row = np.zeros(2 * size)
        for key, factor in coefficients.items():
            row[place[key]] += factor
        table.append(row)
        most.append(right)
    for (bench, year), number in place.items():
        row = np.zeros(2 * size)
        row[number], row[size + number] = 1, -1
        table.append(row)
        most.append(0)
        for other in before[bench]:
            row = np.zeros(2 * size)
            row[size + number] = 1
            row[[place[other, t] for t in range(year + 1)]] = -1
            table.append(row)
            most.append(1e-9)
    cost = -np.concatenate([list(gain.values()), np.zeros(size)])
    whole = np.repeat([0, 1], size)
    found = milp(
        cost, integrality=whole, bounds=Bounds(0, 1), constraints=LinearConstraint(np.array(table), -np.inf, most)
    )
    assert found.status == 0, found.message
    return -found.fun


small = st.lists(st.tuples(st.integers(0, 1), st.lists(amounts, min_size=1, max_size=3)), min_size=1, max_size=2)
limits = st.builds(
    lambda ore, rock, sinking, ramp_up: yearly_limits({"feed_tonnes": ore, "total_tonnes": rock}, ramp_up, sinking),
    st.sampled_from([40.0, 110.0]),
    st.sampled_from([70.0, 200.0, 1e6]),
    st.sampled_from([0.7, 1.5, np.inf]),
    st.sampled_from([(1.0,), (0.5, 1.0)]),
)
