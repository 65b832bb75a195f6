"""Economic block values: prices, costs, recoveries, processes, haulage and period costs."""
