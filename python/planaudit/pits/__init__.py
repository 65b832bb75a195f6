"""Shells and pushbacks."""
