"""Mutation testing of the Rattle crates: mutants as files, what must refuse each, and the lock file of verdicts."""
