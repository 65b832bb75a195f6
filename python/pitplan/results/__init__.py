"""Conventions of the files in a results folder: rounding, units in words, and pit states."""
