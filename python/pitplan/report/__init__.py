"""The report and the 3D page."""
