"""Certificates of schedules that mine nothing."""

from helpers.six_blocks import POOR, RICH, six_blocks
from helpers.verified import wrong
from helpers.writings import UNVERIFIED

import pitplan


def test_pushbacks_that_do_not_pay_have_a_certificate(tmp_path):
    path = six_blocks(tmp_path, RICH, "", ("ultimate_pit = 1\n", "ultimate_pit = 1\nmining_cost_added = [500]\n"))
    methods = pitplan.write_schedule(path, writing=UNVERIFIED, certificate=True)
    assert methods["npv"].max() == 0.0
    folder = path.parent / "plan/schedule"
    assert wrong(folder) == set() and "SHARES 0" in (folder / "certificate/schedule.shares").read_text()


def test_blocks_that_cannot_be_mined_in_time_have_a_certificate(tmp_path):
    """The first year has no mill, and there is no other."""
    changes = (("[schedule]\nyears = 3", "[schedule]\nyears = 2\nramp_up = [0, 0, 1]"),)
    path = six_blocks(tmp_path, POOR, "", *changes)
    found = pitplan.write_block_schedule(path, writing=UNVERIFIED, certificate=True)
    assert found["npv"].tolist() == [0.0]
    assert wrong(path.parent / "plan/block_schedule") == set()
