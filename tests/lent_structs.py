"""Site, grid, scan and sweep as the library gets them."""
from itertools import cycle

from far_numbers import far_from
from lent_lists import MARGIN
from library import Grid, Scan, Site, Sweep
from second_program import record
from second_program.placement import Hrap

# Any number but 0 means by quality, and the side of an HRAP grid plays no part. Each call gets the next of these. 14 and 11 have no
# common divisor, so that in turn every weighting meets every side.
WEIGHTINGS = (1, 2, 256, 65_536, 2**31, 2**32 - 1, -1, *far_from(1))
SIDES = (476_250, 0, -1, *far_from(476_250), 2**31)
NEXT_WEIGHTING, NEXT_SIDE = cycle(WEIGHTINGS), cycle(SIDES)


def site_struct(at):
    """The site of a gate or of a scan."""
    return Site(at.latitude, at.longitude)


def grid_struct(grid):
    numbers = record.grid_numbers(grid)
    if isinstance(grid, Hrap):
        numbers["side"] = next(NEXT_SIDE)
    return Grid(**numbers)


def scan_struct(scan):
    weighting = next(NEXT_WEIGHTING) if scan.by_quality else 0
    numbers = (scan.rays, scan.gates, scan.first, scan.spacing)
    return Scan(site_struct(scan), *numbers, grid_struct(scan.grid), weighting)


def within(held):
    """The scan, to be written, in the middle of a list with margins."""
    return Scan.from_buffer(held, MARGIN * held.itemsize)


def sweep_within(held):
    """The state of a sweep in the middle of a list with margins."""
    return Sweep.from_buffer(held, MARGIN * held.itemsize)
