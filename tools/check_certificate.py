#!/usr/bin/env python3
"""Checks a certificate by the definition alone, for a reader who trusts no program but this short one.

    tools/check_certificate.py MODEL PREC CERTIFICATE [--fixed FILE]

It writes yes where the blocks are closed, the flow leaves no deficit in them and no excess outside, none comes in from
outside, and each block is reached, by steps along pairs and back over pairs with flow, from one with an excess; and else no
(status 4). A yes shows the smallest closed set of greatest worth (Picard 1976). A text that is no certificate is refused by
its first fault, and a mine that is none without one (status 1).

With fixed blocks, all that the forced ones need must be in, all that needs barred ones out, and no flow touch either; the
conditions on excess and reach are then those of the other blocks alone. A yes shows the smallest of the best closed sets that
hold the forced blocks and none of the barred ones. Where there is none, since a forced block needs a barred one, the fixed
file is refused.
"""
import argparse
import decimal
import graphlib
import re
import sys

WORDS = {3: "wrong header", 4: "over the limit", 5: "not a whole number", 7: "id out of place",
         11: "wrong number of fields", 12: "ends early", 13: "line after the end", 17: "counts differ"}
Fault = type("Fault", (Exception,), {})


class Fixed:
    """The blocks forced in and barred, as listed; and what follows: all that must be dug, and all that must be left."""

    def __init__(self, text, n, pairs):
        rows = [fields for _, fields in rows_of(text)[0]]
        demand_mine(all(len(row) == 2 and row[0] in (b"in", b"out") and re.fullmatch(rb"\d{1,10}", row[1]) for row in rows))
        ids = [int(block) for _, block in rows]
        demand_mine(all(block < after for block, after in zip(ids, [*ids[1:], n])))
        self.forced, self.barred = ([int(block) for word, block in rows if word == named] for named in (b"in", b"out"))
        self.dug = closure(self.forced, pairs)
        self.left = closure(self.barred, [(p, u) for u, p in pairs])
        if clash := self.dug & set(self.barred):
            raise Fault(f"error 21: fixed blocks clash at block {min(clash)}\n")


def closure(blocks, pairs):
    """The blocks with all that the pairs lead to from them."""
    leads = {}
    for u, p in pairs:
        leads.setdefault(u, []).append(p)
    found = set(queue := list(blocks))
    while queue:
        new = set(leads.get(queue.pop(), ())) - found
        queue += new
        found |= new
    return found


def rows_of(text):
    """The lines with fields, by number, and how many lines there are."""
    pieces = text.split(b"\n")
    lines = [piece[:-1] if piece.endswith(b"\r") else piece for piece in pieces[:-1]]
    lines += [pieces[-1]] if pieces[-1] else []
    split = [(k, [f for f in line.replace(b"\t", b" ").split(b" ") if f]) for k, line in enumerate(lines, 1)]
    return [(k, fields) for k, fields in split if fields], len(lines)


class Lines:
    """The lines with fields of a named text, handed out one after another. A fault names the line that was handed out last."""

    def __init__(self, text, name):
        rows, self.count = rows_of(text)
        self.left, self.name, self.line = iter(rows), name, 0

    def demand(self, holds, number):
        if not holds:
            raise Fault(f"error {number}: {WORDS[number]} in {self.name} line {self.line}\n")

    def fields(self, few=None):
        """The next line's fields; where so many are due, another number of them is a fault."""
        self.line, fields = next(self.left, (self.count + 1, None))
        self.demand(fields, 12)
        self.demand(few is None or len(fields) == few, 11)
        return fields

    def head(self, word):
        fields = self.fields()
        self.demand(len(fields) == 2 and fields[0] == word, 3)
        return fields[1]

    def number(self, field, most=10):
        self.demand(1 <= len(field) <= most and all(48 <= byte <= 57 for byte in field), 5)
        return int(field)

    def end(self):
        self.line, fields = next(self.left, (0, None))
        self.demand(not fields, 13)


def demand_mine(holds):
    if not holds:
        raise Fault("the model, the precedence or the fixed file is not lawful\n")


def read_mine(model, prec):
    """The values in millionths, and the pairs (u, p) of "u needs p" in order; arc k is the k-th of them, from 0."""
    text = b"\n".join(b" ".join(fields) for _, fields in rows_of(model)[0])
    found = re.fullmatch(rb"NAME:(?: [^\n]*)?\nTYPE: UPIT\nNBLOCKS: (\d{1,10})\nOBJECTIVE_FUNCTION:(.*)", text, re.DOTALL)
    lines = found[2].split(b"\n")[1:] if found else []
    demand_mine(found and found[2][:1] in (b"", b"\n") and int(found[1]) == len(lines) <= 2**22)
    for block, line in enumerate(lines):
        demand_mine(re.fullmatch(rb"\d{1,10} [+-]?\d{1,12}(\.\d{1,6})?", line) and int(line.split()[0]) == block)
    values = [int(decimal.Decimal(line.split()[1].decode()).scaleb(6)) for line in lines]
    needs, last = {}, -1
    for _, fields in rows_of(prec)[0]:
        demand_mine(len(fields) > 1 and all(re.fullmatch(rb"\d{1,10}", field) for field in fields))
        block, few, *those = map(int, fields)
        demand_mine(last < block < len(values) and few == len(those) == len(set(those)) and block not in those)
        demand_mine(all(p < len(values) for p in those))
        needs[block], last = those, block
    try:
        graphlib.TopologicalSorter(needs).prepare()
    except graphlib.CycleError:
        demand_mine(False)
    return values, sorted((u, p) for u in needs for p in needs[u])


def read_certificate(text, n, pairs, fixed):
    """The blocks, and the amount on each pair that has a line. Format 2 names the fixed blocks too; format 1 is for none."""
    lines = Lines(text, "certificate")

    def blocks(word, wanted=None):
        """Rising blocks behind their count; where others are wanted, the first line that differs is a fault."""
        few = lines.number(lines.head(word))
        lines.demand(few <= n, 4)
        lines.demand(wanted is None or few == len(wanted), 17)
        found = [-1]
        for place in range(few):
            block = lines.number(lines.fields(1)[0])
            lines.demand(found[-1] < block < n, 7)
            lines.demand(wanted is None or block == wanted[place], 17)
            found.append(block)
        return found[1:]

    title = lines.fields()
    lines.demand(title in ([b"PITCERT", b"1"], [b"PITCERT", b"2"]), 3)
    lines.demand(title[1] == b"2" or not (fixed.forced or fixed.barred), 17)
    for word, known in ((b"BLOCKS:", n), (b"ARCS:", len(pairs))):
        lines.demand(lines.number(lines.head(word)) == known, 17)
    if title[1] == b"2":
        blocks(b"FORCED:", fixed.forced)
        blocks(b"BARRED:", fixed.barred)
    pit = blocks(b"IN:")
    few = lines.number(lines.head(b"FLOW:"))
    lines.demand(few <= len(pairs), 4)
    flow, known, last = {}, set(pairs), (-1, -1)
    for _ in range(few):
        u, p, amount = lines.fields(3)
        pair = (lines.number(u), lines.number(p))
        lines.demand(pair in known and pair > last, 7)
        flow[pair], last = lines.number(amount, 31), pair
        lines.demand(0 < flow[pair] <= 10**30, 4)
    lines.end()
    return set(pit), flow


def certifies(values, pairs, fixed, pit, flow):
    settled = fixed.dug | fixed.left
    if not fixed.dug <= pit or pit & fixed.left or any(u in settled or p in settled for u, p in flow):
        return False
    free = pit - settled
    excess, steps = list(values), {u: [] for u in free}
    for u, p in pairs:
        amount = flow.get((u, p), 0)
        excess[u], excess[p] = excess[u] - amount, excess[p] + amount
        if (u in pit and p not in pit) or (u not in pit and p in pit and amount):
            return False
        if u in free and p in free:
            steps[u].append(p)
            steps[p] += [u] if amount else []
    reached = set(queue := [u for u in free if excess[u] > 0])
    while queue:
        for b in steps[queue.pop()]:
            queue += [b] if b not in reached else []
            reached.add(b)
    return reached == free and all(e >= 0 if u in pit else e <= 0 for u, e in enumerate(excess) if u not in settled)


def answer(model, prec, text, fixed=b""):
    """What goes to standard output and to standard error, and the exit status."""
    try:
        values, pairs = read_mine(model, prec)
        settled = Fixed(fixed, len(values), pairs)
        pit, flow = read_certificate(text, len(values), pairs, settled)
    except Fault as fault:
        return "", str(fault), 1
    return ("yes\n", "", 0) if certifies(values, pairs, settled, pit, flow) else ("no\n", "", 4)


if __name__ == "__main__":
    parser = argparse.ArgumentParser(description=__doc__, formatter_class=argparse.RawDescriptionHelpFormatter)
    for name in ("model", "prec", "certificate"):
        parser.add_argument(name, type=argparse.FileType("rb"), metavar=name.upper())
    parser.add_argument("--fixed", type=argparse.FileType("rb"), metavar="FILE")
    given = parser.parse_args()
    files = [file.read() for file in (given.model, given.prec, given.certificate, given.fixed) if file]
    out, err, status = answer(*files)
    sys.stdout.write(out)
    sys.stderr.write(err)
    sys.exit(status)
