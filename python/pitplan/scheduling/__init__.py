"""Yearly schedules: pushbacks bench by bench, and in `blocks` block by block."""
