"""Exports to other programs: tables, workbooks, VTK, drawings, meshes and lines."""
