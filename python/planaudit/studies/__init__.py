"""Sensitivities and scenarios."""
