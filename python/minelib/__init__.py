"""MineLib's files as others publish them, written as the program `pitshell` reads them. Standard library alone.

    record = minelib.convert([Path("name.upit"), Path("name.prec")], Path("out"))

Reads `.upit`, `.cpit` and `.pcpsp` models, `.prec` and `.blocks`: comments behind %, headers in any order and case,
exponents, ids in any order, a last line EOF, text columns, needs that stand twice.

- Where a number needs more than six decimals, or more than twelve digits before the point, all values are multiplied by a power of
  ten, which changes no pit; where no power keeps them all, the rest is rounded, halves to the even one.
- Of a `.cpit` or `.pcpsp` the pit alone is kept; of several destinations a block takes the one of greatest value. A block without a
  value takes 0, with a note; two values are refused, since both cannot be meant.
- In `.blocks` texts become numbers, with the key in the record. Each column has a power of its own, and a note says where they
  differ: `pitshell shells` needs revenue and cost of the same.
- Pairs above what the program takes are reduced to those that no others lead to, or both counts are in the refusal. That was tried on
  small files alone.

What was scaled, rounded, dropped or joined is in the record and in its notes, sections that are passed over with their lines.
"""

from .convert import FORMATS, Limits, convert
from .text import MinelibError

__all__ = ["FORMATS", "Limits", "MinelibError", "convert"]
