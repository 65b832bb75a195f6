"""Material flow of pushbacks: what is mined of each bench in each year, and where its ore goes.

Ore is divided into parcels: the blocks of one bench whose best process and value bin are the same. In each year a parcel that is mined goes to
any process, to a stockpile or to waste, in shares. One linear programme chooses sequence and flows (`programme`); with its Lagrange
multipliers the value of every block at its best destination gives an upper bound that no flow of blocks exceeds (`bound`). Feasible schedules
are sequences of benches (`scheduler`) whose flows a second linear programme optimises.
"""
