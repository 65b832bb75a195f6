"""Slopes, topographies and as-mined surfaces."""
