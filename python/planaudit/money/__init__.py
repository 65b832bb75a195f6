"""Mill feed, block values and annual cash flow."""
