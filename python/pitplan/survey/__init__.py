"""Readers of survey files: points, strings, drawings, maps and rasters."""
