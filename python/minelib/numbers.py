"""Decimals as the program takes them: twelve digits before the point and six behind it, scaled where that keeps more."""

from __future__ import annotations

from dataclasses import dataclass
from decimal import ROUND_HALF_EVEN, Context, Decimal, localcontext
from typing import Iterator

from .text import MinelibError

DIGITS, PLACES = 12, 6
UNIT = Decimal(1).scaleb(-PLACES)
# More digits than any number that `text` lets through has, so that nothing is rounded unasked.
EXACT = Context(prec=400, rounding=ROUND_HALF_EVEN)


@dataclass(frozen=True)
class Fitted:
    """Numbers as the program takes them.

    power    each was multiplied by 10**power first
    changed  how many were rounded then
    largest  the greatest change, in the unit of the file that was read
    """

    values: list[Decimal]
    power: int
    changed: int
    largest: Decimal

    def texts(self) -> Iterator[str]:
        """Without zeros at the end, and without exponents."""
        for value in self.values:
            text = f"{value:f}"
            text = text.rstrip("0").rstrip(".") if "." in text else text
            yield "0" if text == "-0" else text

    def as_json(self) -> dict[str, object]:
        return {
            "values": len(self.values),
            "multiplied_by": f"1e{self.power}" if self.power else "1",
            "rounded": self.changed,
            "largest_rounding": f"{self.largest:f}",
        }

    def note(self, what: str) -> list[str]:
        """What a reader should know, where anything was done."""
        notes = []
        if self.power:
            notes.append(f"{what} are multiplied by 1e{self.power}, and so is all that is summed of them")
        if self.changed:
            notes.append(f"{self.changed:,} of {len(self.values):,} {what} were rounded, by {self.largest:.2g} at most")
        return notes


def places_of(value: Decimal) -> int:
    """How many decimals a number needs; below 0 where it ends in zeros before the point."""
    _, digits, exponent = value.as_tuple()
    text = "".join(map(str, digits))
    kept = text.rstrip("0")
    return -(int(exponent) + len(text) - len(kept)) if kept else 0


def fit(values: list[Decimal]) -> Fitted:
    """The same numbers, exact where a power of ten brings them all within twelve digits and six decimals; otherwise with the
    power that leaves the most decimals, and the rest rounded, halves to the even one."""
    with localcontext(EXACT):
        places = max(map(places_of, values), default=0)
        room = DIGITS - max((value.adjusted() + 1 for value in values if value), default=0)
        power = min(max(places - PLACES, 0), room)
        result = rounded(values, power)
        if any(abs(value) >= 10**DIGITS for value in result.values):
            result = rounded(values, power - 1)
        return result


def rounded(values: list[Decimal], power: int) -> Fitted:
    kept = [value.scaleb(power).quantize(UNIT) for value in values]
    off = [abs(new.scaleb(-power) - old) for new, old in zip(kept, values)]
    changed = sum(difference != 0 for difference in off)
    return Fitted(kept, power, changed, max(off, default=Decimal(0)).normalize())


def whole_places(values: list[Decimal], what: str) -> tuple[list[int], int]:
    """Coordinates as whole numbers, multiplied by a power of ten where they have decimals, and that power.

    Raises MinelibError where one does not fit the program's 32 bits then.
    """
    with localcontext(EXACT):
        power = max(0, max(map(places_of, values), default=0))
        numbers = [int(value.scaleb(power)) for value in values]
    if any(not -(2**31) <= number < 2**31 for number in numbers):
        raise MinelibError(
            f"{what}: coordinates with {power} decimals do not fit the 32 bits that the program has for them"
        )
    return numbers, power
