"""Verifies a case of a study as a plan of its own, by the rules of plans."""

from __future__ import annotations

from planaudit.blocks import constraints
from planaudit.ground import slopes
from planaudit.inputs.answer import Answer
from planaudit.pits import sums, years
from planaudit.rules import Rule, rule


def verify(whole: Answer, pits: Answer) -> dict[str, Rule]:
    """Verifies the pits of a case.

    Parameters
    ----------
    whole : Answer
        All blocks, with the project and the pits of the case.
    pits : Answer
        The mined blocks with their costs and revenue, and the row of each pit in `shells`.

    Returns
    -------
    dict of str to Rule
        By the name of what is verified; NPVs if the rows have them.
    """
    found = {
        "slopes": slopes.verify(whole),
        "steepness": slopes.verify_steepness(whole),
        "constraints": constraints.verify(whole),
        "shells": sums.verify(pits),
        "values": rule("values", "", sums.unlike_worth(pits)),
    }
    return found | ({"years": years.verify(pits)} if "npv_best" in pits.shells else {})


def joined(name: str, holds: str, found: list[Rule]) -> Rule:
    """Returns one rule of several cases."""
    return rule(name, holds, [said for it in found for said in it.differences], sum(it.count for it in found))
