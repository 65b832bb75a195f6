"""Schedules of pushbacks and of blocks."""
