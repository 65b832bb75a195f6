"""What became of a mutant that was tried."""

from typing import NamedTuple

from mutation.edits import Mutant


class Outcome(NamedTuple):
    """By what the mutant was refused, or why it counts as not refused."""

    mutant: Mutant
    refused: str
    wrong: str = ""

    def __str__(self) -> str:
        return f"{self.mutant.name}: {self.wrong or f'refused: {self.refused}'}"
