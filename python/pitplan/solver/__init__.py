"""The optimiser: a mine as the solver takes it, and the proved library or program that solves it."""
