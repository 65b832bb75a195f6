"""An oracle of mine plans that shares nothing with pitplan: small projects, all pits by maximum flow or by trying every closed set.

It reads a project by tomllib and its table by csv, counts money in exact fractions, takes the precedences from the definition of the cone,
unreduced, and finds each pit as the least minimum cut of a maximum flow (Picard 1976). `mine` has the blocks of a project, `pits` its
shells, `years` their years, and `tables` the totals that pitplan writes. `projects` draws random projects with every feature at once.
"""
