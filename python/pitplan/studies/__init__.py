"""Studies over many runs of a project: sensitivity and scenarios."""
