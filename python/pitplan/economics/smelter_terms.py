"""Net smelter return: what a unit of recovered metal earns and costs by its smelter terms, or by its selling cost.

The grade of a concentrate is fixed, so every charge is a constant per unit of recovered metal. All are rounded to twelve decimals, as
converted prices are. Penalties depend on the element in each block, so they are a cost of blocks.
"""

from __future__ import annotations

from decimal import ROUND_HALF_EVEN, Context, Decimal

from pitplan.config.economics import ABOVE, BOTH, GRADE_UNITS, PRICE_PLACES, Metal, Participation, Penalty
from pitplan.errors import PlanError

SELLING, TREATMENT, REFINING, PARTICIPATION, FREIGHT = "selling", "treatment", "refining", "participation", "freight"
PENALTIES = "penalties"
# Enough digits for any amount of a project.
DIGITS = Context(prec=60)


def rounded(value: Decimal) -> Decimal:
    return value.quantize(PRICE_PLACES, ROUND_HALF_EVEN, DIGITS)


def payable_share(metal: Metal) -> Decimal:
    """Returns the share of the recovered metal that is paid: `payable`, or less by the minimum deduction from the concentrate's grade."""
    terms = metal.smelter
    if terms is None:
        return Decimal(1)
    grade = terms.concentrate_grade
    if grade is None or not terms.minimum_deduction:
        return terms.payable
    return min(terms.payable, rounded((grade - terms.minimum_deduction) / grade))


def paid(metal: Metal, price: Decimal) -> Decimal:
    """Returns what is paid for a recovered tonne or gram at a price, in the unit of the metal's price."""
    whole = metal.by_quantity(price)
    return whole if metal.smelter is None else rounded(payable_share(metal) * whole)


def concentrate(metal: Metal) -> Decimal:
    """Returns the dry tonnes of concentrate per recovered tonne or gram; 0 if the terms do not count them."""
    terms = metal.smelter
    if terms is None or terms.concentrate_grade is None or not terms.is_shipped:
        return Decimal(0)
    return rounded(1 / (terms.concentrate_grade * GRADE_UNITS[metal.unit]))


def charges(metal: Metal, price: Decimal) -> dict[str, Decimal]:
    """Returns the charges per recovered tonne or gram by line, at a price. Without smelter terms the selling cost is the only one."""
    terms = metal.smelter
    if terms is None:
        return {SELLING: metal.by_quantity(metal.selling_cost)}
    dry, share = concentrate(metal), payable_share(metal)
    found = {TREATMENT: rounded(terms.treatment_charge * dry)} if terms.treatment_charge else {}
    found[REFINING] = rounded(share * metal.by_quantity(terms.refining_charge))
    if terms.price_participation:
        above = shared(terms.price_participation, price)
        found[PARTICIPATION] = rounded(share * metal.by_quantity(above * terms.price_participation.share))
    if terms.freight:
        found[FREIGHT] = rounded(terms.freight / (1 - terms.moisture) * dry)
    return found


def shared(rule: Participation, price: Decimal) -> Decimal:
    """Returns the part of a price that the smelter shares: what is above the base, and below 0 what lacks to it if the rule applies to both."""
    above = price - rule.base
    return above if rule.applies == BOTH else max(Decimal(0), above)


def charge(metal: Metal, price: Decimal) -> Decimal:
    """Returns the sum of the charges; below 0 if price participation credits more than they are."""
    return sum(charges(metal, price).values(), Decimal(0))


def charge_of_ore(metal: Metal) -> Decimal:
    """Returns the charges at the base price, as a cost of ore. Raises PlanError if they are below 0."""
    found = charge(metal, metal.price)
    if found < 0 and metal.smelter and metal.smelter.price_participation:
        raise PlanError(
            f"[metals.smelter] price_participation of {metal.name}: at the price {metal.price} it credits more than all other charges, and leaves "
            f'{found:.6g} per recovered {metal.quantity}: check base, {metal.smelter.price_participation.base}, and share, or set applies = "{ABOVE}"'
        )
    return found


def multiplied(metal: Metal) -> Decimal:
    """Returns the charges that a factor of selling costs multiplies: all but the price participation, which follows from the price."""
    return sum((it for kind, it in charges(metal, metal.price).items() if kind != PARTICIPATION), Decimal(0))


def net(metal: Metal, price: Decimal, royalty: Decimal) -> Decimal:
    """Returns what a recovered tonne or gram earns at a price, less royalty and charges, without penalties."""
    return paid(metal, price) * (1 - royalty) - charge(metal, price)


def penalty_rates(metal: Metal, penalty: Penalty) -> list[tuple[Decimal, Decimal]]:
    """Returns for each step the content of the element per recovered tonne or gram above which it applies, and what it adds to the charge per unit
    of content: the product of the column's unit and tonnes."""
    dry, found, before = concentrate(metal), [], Decimal(0)
    for grade, amount in penalty.steps:
        found.append((rounded(grade * dry), rounded((amount - before) / penalty.per)))
        before = amount
    return found
