"""Slope precedences: wall angles by geotechnical domain as arcs between blocks."""
