"""The tolerances of all computations, each with its reason.

A tolerance is relative unless its comment has a unit. What two amounts may differ by in a written table is a matter of `planaudit`, which has
tolerances of its own.
"""

# Sums of floats: amounts, shares and lengths that differ by less are equal, and a limit may be exceeded by this share of it.
SUM_ERROR = 1e-9
# Sums that are compared before shares of them are shipped, and years: tighter than SUM_ERROR, so that shipping ends within it.
STRICT_SUM_ERROR = 1e-12
# Shares and flows that HiGHS may leave: its feasibility tolerance is 1e-7 for each row and bound.
SOLVER_SHARE = 1e-7
# Sums of ten or so of such shares, and shares of limits and dual values that are sums.
SOLVER_SUM = 1e-6
# The share of a limit or minimum by which a schedule may miss it and still keep it.
MISSED_LIMIT = 1e-8
# Dual values of HiGHS below this are zero.
ZERO_PRICE = 1e-15
# NPVs that differ by less than this amount in the currency are equal, as are those within SUM_ERROR.
EQUAL_MONEY = 1e-3
# Tonnes by which a year may be above or below a capacity.
TONNES_ERROR = 1e-9
# Millionths of a share: a product of floats may lie this far below a whole number.
MILLIONTHS_ERROR = 1e-6
# Money of a block in the currency by which two years may differ besides SUM_ERROR, and still have one price.
BLOCK_MONEY = 1e-6
# Degrees by which a slope may be steeper than its angle and still keep it.
SLOPE_ERROR = 1e-6
# Roots of equations: the error of a rate or grade that is found by bisection.
ROOT_ERROR = 1e-12
# Blocks: a centroid this close below the side of a block lies on it.
SIDE_ERROR = 1e-6
# Components of unit vectors, and numbers in single precision.
SINGLE_PRECISION = 1e-6
# Metres by which the ends of a closed line may lie apart.
OPEN_LINE = 1e-3
# The share by which the volume of a triangle mesh may differ from that of its blocks.
MESH_VOLUME = 1e-3
