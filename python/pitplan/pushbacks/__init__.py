"""Pushbacks: pushbacks chosen from nested shells, their benches and minimum mining width."""
