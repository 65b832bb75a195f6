"""Scenarios: simulated models of the grades, each solved at each set of prices, or its blocks scheduled, on one machine or on many."""
