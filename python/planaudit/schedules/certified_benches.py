"""The benches and blocks of ore of a certificate, and their precedences, next to those of the run."""

from __future__ import annotations

from collections.abc import Iterator
from dataclasses import dataclass
from functools import cached_property

import numpy as np

from planaudit.schedules.certificate_texts import Texts
from planaudit.schedules.opening import OpeningLots
from planaudit.schedules.pushback_bounds import MIN, Bound

# How far from a toe an elevation may lie, in benches.
SLIGHT = 1e-6


@dataclass(frozen=True)
class CertifiedBenches:
    """The blocks of the texts by their names in schedule.blocks.

    Attributes
    ----------
    bound : Bound
        The benches and blocks of the run.
    texts : Texts
    """

    bound: Bound
    texts: Texts

    @cached_property
    def names(self) -> list[str]:
        return [" ".join(words) for words in self.texts.words("blocks")]

    def places(self, kind: str) -> np.ndarray:
        """Returns the numbers of the blocks of the texts of a kind."""
        return np.array([n for n, name in enumerate(self.names) if name.startswith(f"{kind} ")], dtype=int)

    @cached_property
    def bench_places(self) -> np.ndarray:
        """The number of each bench of the run among the blocks of the texts; -1 if it is missing."""
        answer, found = self.bound.answer, {}
        for place in self.places("bench"):
            pushback, elevation = self.names[place].split()[1:]
            level = (answer.toes[0] - float(elevation)) / answer.size[2]
            if abs(level - round(level)) < SLIGHT:
                found[int(pushback), round(level)] = int(place)
        return np.array([found.get((int(p), int(z)), -1) for p, z in self.bound.benches.to_numpy()], dtype=int)

    @cached_property
    def ore_places(self) -> np.ndarray:
        return self.places("block")

    @cached_property
    def lot_places(self) -> np.ndarray:
        return self.places("opening")

    @cached_property
    def ore(self) -> np.ndarray:
        """The number of each block of ore among those of the pushbacks; -1 if it is not in one."""
        ids = self.bound.answer.said["id"].to_numpy()[self.bound.blocks.inside]
        number = {int(it): place for place, it in enumerate(ids)}
        return np.array([number.get(int(self.names[place].split()[1]), -1) for place in self.ore_places], dtype=int)

    @cached_property
    def bench_of_ore(self) -> np.ndarray:
        """The bench of each block of ore, by its number among the blocks of the texts."""
        return np.asarray(self.bench_places[self.bound.bench_of[self.ore]])

    def differences(self) -> Iterator[str]:
        """Yields benches, blocks of ore and lots that are missing, double or unknown, and precedences that differ."""
        known = len(self.bound.benches) + len(self.ore_places) + len(self.lot_places)
        if (self.bench_places < 0).any() or known != len(self.texts.amounts) or len(self.names) != known:
            yield f"{len(self.names)} blocks are named for {len(self.texts.amounts)}, and {len(self.bound.benches)} benches"
            return
        if (self.ore < 0).any() or len(set(self.ore.tolist())) != len(self.ore):
            yield "a block of ore is unknown, or is there twice"
            return
        missing = np.setdiff1d(np.flatnonzero(self.pays), self.ore)
        if len(missing):
            yield f"{len(missing)} blocks that pay are missing, such as {self.bound.answer.said['id'].to_numpy()[self.bound.blocks.inside[missing[0]]]}"
        lots = [f"opening {it['name']}" for _, it, _ in OpeningLots(self.bound.blocks).given]
        if [self.names[place] for place in self.lot_places] != lots:
            yield f"lots {[self.names[place] for place in self.lot_places]} for {lots}"
        yield from self.unlike_precedences()

    @property
    def pays(self) -> np.ndarray:
        """Whether each block of the pushbacks pays in some process, or may be asked for by a minimum or a limit on a grade."""
        blocks = self.bound.blocks
        asked = bool(blocks.grades) or any(side == MIN for _, side in self.bound.limits)
        return np.asarray((blocks.takes & (asked | (blocks.gain > 0))).any(axis=0))

    def unlike_precedences(self) -> Iterator[str]:
        """Yields benches whose ore is not one chain after the bench, and benches that do not come after the chains of those on which they depend."""
        needed = {int(words[0]): {int(it) for it in words[2:]} for words in self.texts.words("prec") if words}
        last = {int(place): int(place) for place in self.bench_places}
        bench = dict(zip(self.ore_places.tolist(), self.bench_of_ore.tolist()))
        after: dict[int, list[int]] = {}
        for block in bench:
            for other in needed.get(block, set()):
                after.setdefault(other, []).append(block)
        counts = np.bincount(self.bench_of_ore, minlength=len(self.texts.amounts))
        for place in last:
            seen, at = 0, place
            while len(after.get(at, [])) == 1 and len(needed[after[at][0]]) == 1 and bench[after[at][0]] == place:
                at, seen = after[at][0], seen + 1
            last[place] = at
            if seen != counts[place]:
                yield f"{self.names[place]}: {seen} blocks of ore in a chain for {counts[place]}"
        for place, others in self.precedences.items():
            due = {last[other] for other in others}
            if needed.get(place, set()) != due:
                yield f"{self.names[place]}: {len(needed.get(place, set()))} predecessors for {len(due)}"

    @property
    def precedences(self) -> dict[int, set[int]]:
        """The benches on which each bench depends directly, by their numbers among the blocks of the texts; implied ones are left out."""
        before: dict[int, set[int]] = {bench: set() for bench in range(len(self.bound.benches))}
        direct: dict[int, set[int]] = {bench: set() for bench in before}
        for bench, other in self.bound.precedences:
            direct[bench].add(other)
            before[bench] |= {other} | before[other]
        places = self.bench_places
        return {
            int(places[bench]): {
                int(places[other]) for other in others if not any(other in before[it] for it in others)
            }
            for bench, others in direct.items()
        }
