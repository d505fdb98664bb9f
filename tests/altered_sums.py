"""Sums that a caller has altered, at both sides of each width before a group is taken."""
from itertools import product
from typing import NamedTuple

from good_scans import AZIMUTHS, PLACES, QUALITIES, VALUES, any_scan, at_corner
from second_program import placement, scan as rules
from second_program.placement import Hrap, Radolan
from second_program.scan import Scan
from sweep_calls import rays_of

KINDS = (Radolan, Hrap)


class Group(NamedTuple):
    """Rays from start to end of a scan, whose shares in the sums the caller has made room for."""

    words: str
    scan: Scan
    start: int
    end: int

    def rays(self):
        return rays_of(self.scan, self.start, self.end)

    def shares(self):
        """What the group adds to each sum of each cell."""
        scan = self.scan._replace(**self.rays()._asdict())
        return rules.sums_of(scan, rules.ledger(scan.grid, rules.positions(scan)))


# Groups that lie in one cell. The radar is away from the lines of both grids, and all gates are within a few centimetres.

SITES = {Radolan: (510_000, 100_000), Hrap: (350_000, -975_000)}
SIDES = {Radolan: 100_000, Hrap: Hrap.side}
CORNERS = {"first": (0, 0), "last": (2, 1)}  # column and row, of 3 columns and 2 rows


def in_cell(kind, by_quality, cell, values, qualities, rays, gates):
    """A scan whose gates all lie in this cell, with one ray more before the group and one behind it."""
    latitude, longitude = SITES[kind]
    x, y = placement.position(latitude, longitude, kind.sphere, 0, 0)
    side, (column, row) = SIDES[kind], CORNERS[cell]
    # HRAP's lines are where they are.
    middle = 0 if kind is Hrap else side // 2
    grid = at_corner(kind, x - column * side - middle, y - row * side - middle, side, 3, 2)
    numbers = (rays + 2, gates, 0, 1, latitude, longitude, grid, by_quality)
    around = [1] * gates
    return Scan(*numbers, [700_000 * ray for ray in range(rays + 2)], around + values + around, around + qualities + around)


# Values and qualities of a group of so many rays and gates.
CONTENTS = {
    "one gate": (1, 1, [7], [50]),
    "one gate, the greatest": (1, 1, [65_533], [100]),
    "one gate of no echo": (1, 1, [65_534], [100]),
    "one gate of quality 0": (1, 1, [65_533], [0]),
    "one gate, not measured": (1, 1, [65_535], [100]),
    "five gates": (1, 5, [1, 65_533, 7, 300, 2], [100, 1, 50, 99, 1]),
    "five gates, no echo and quality 0 among them": (1, 5, [65_534, 0, 65_533, 7, 65_534], [0, 100, 0, 1, 100]),
    "three rays, not measured among them": (
        *(3, 4, [65_535, 3, 65_535, 9, 65_533, 65_535, 65_534, 0, 8, 5, 4, 65_535]),
        [100, 1, 0, 2, 100, 100, 7, 100, 50, 60, 1, 100],
    ),
    "four rays of the greatest": (4, 3, [65_533] * 12, [100] * 12),
}


def groups_in_cells():
    for kind, by_quality, cell, (words, (rays, gates, *lists)) in product(KINDS, (False, True), CORNERS, CONTENTS.items()):
        scan = in_cell(kind, by_quality, cell, *lists, rays, gates)
        yield Group(f"{words} in the {cell} cell", scan, 1, rays + 1)


def spread_groups(draw):
    """Groups over several cells and outside the grid."""
    while True:
        kind, by_quality, place = draw.choice(KINDS), draw.random() < 0.5, draw.choice(PLACES[:2])
        values, qualities, azimuths = draw.choice(VALUES[:3]), draw.choice(QUALITIES), draw.choice(AZIMUTHS)
        rays, gates = draw.randint(2, 8), draw.randint(2, 12)
        scan = any_scan(draw, kind, by_quality, place, values, qualities, azimuths, rays, gates)
        if scan.grid.columns * scan.grid.rows <= 2_000:
            start = draw.randrange(rays)
            yield Group("over several cells", scan, start, draw.randint(start + 1, rays))


def steps_of(share, widest):
    """Steps from the sum with which the share just fits: the share passes the width where the step is above 0."""
    wanted = {-1, 0, 1, 2, share - 1, share, -(widest - share)}
    return sorted(step for step in wanted if share - widest <= step <= share)
