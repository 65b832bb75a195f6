"""Nested pit shells: their tables, best and worst case, and the pit skin."""
