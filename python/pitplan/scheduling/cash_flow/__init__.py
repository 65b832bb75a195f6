"""Cash flow by line of a schedule: revenue, costs, capex, tax, and what follows from these.

An `operation` sums the material of a schedule by period, `of_pushbacks` and `of_blocks` that of each kind of schedule. `lines` values it line
by line, `finance` adds closure, depreciation and tax, and finds NPVs, IRR and payback; `tables` has the written tables.
"""
