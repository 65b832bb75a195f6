"""Times all of other people's maximum flows that there are next to the program in mode single, on mines of up to 500,000 blocks. The rest is
as in the suite `table`, which has the strongest of them and larger mines."""

from peers import NAMES
from table import measure


def main(words: list[str]) -> None:
    measure(words, "peers", __doc__, [50000, 100000, 500000], set(NAMES))
