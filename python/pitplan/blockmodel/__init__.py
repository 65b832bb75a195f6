"""The block model: tables of blocks, grids, reblocking, missing blocks, topography and depletion."""
