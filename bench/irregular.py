"""Times the program in mode single next to the strongest of other people's maximum flows on mines whose ore lies otherwise than in three
bodies: sheets that dip, pipes, noise, and values near zero (tools/make_mine.py --ore). The rest is as in the suite `table`."""

from kit import BODIES
from make_mine import KINDS
from table import STRONGEST, measure

ORES = [ore for ore in KINDS if ore != BODIES]


def main(words: list[str]) -> None:
    measure(words, "irregular", __doc__, [100000, 500000], {STRONGEST}, ORES)
