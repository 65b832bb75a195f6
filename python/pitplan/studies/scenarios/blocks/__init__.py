"""Schedules by block for each scenario, and the common schedule of all."""
