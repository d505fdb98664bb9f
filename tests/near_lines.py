"""Gates and scans near lines: where the exact position may lie on the other side, and at both sides of each limit of the mark."""
import random
from itertools import chain, islice, product

import good_gates
import good_scans
from good_gates import RADOLAN_GRIDS, Gate, any_gate, position
from good_scans import at_corner, filled
from good_sweeps import KINDS
from marked_gates import COLUMNS, CROSSINGS, GRIDS, ROWS, by_range, sites_of
from second_program import placement
from second_program.placement import Hrap, Radolan
from second_program.scan import NO_ECHO, NOT_MEASURED, positions
from second_program.sine import TURN

SEED = 20270709

# Steps of the computed position from a line, to the east or the north. At the first ones the exact position may be found on the
# other side: computed positions were found up to some 4 centimetres from it.
CROSSED = tuple(range(-4, 4))
AT_LIMITS = (-50, -49, 48, 49)
UNMARKED = (50, 51, 55, 60, 100, -51, -52, -56, -61, -101)
AWAY = 1_000
STEPS = (*CROSSED, *AT_LIMITS, *UNMARKED, AWAY)
# On both lines, or a centimetre before one or both: here the exact position is most often on the other side.
NEAREST = list(product((-1, 0), repeat=2))

# Places of a crossing in a grid, by the column and the row whose south-west corner it is.
INSIDE_AND_CORNERS = [(2, 1), *product((0, COLUMNS), (0, ROWS))]
EDGES_AND_BEYOND = list(product((-1, 0, 2, COLUMNS, COLUMNS + 1), (-1, 0, 1, ROWS, ROWS + 1)))


def grids_about(kind, side, crossing, places):
    """A grid for each place of the crossing."""
    x, y = crossing
    return [at_corner(kind, x - column * side, y - row * side, side, COLUMNS, ROWS) for column, row in places]


# Single gates.


def moved_to(draw, pairs):
    """A gate anywhere for each pair of steps, and the crossing from which it has them: a RADOLAN line may be anywhere."""
    for east, north in pairs:
        gate = any_gate(draw, RADOLAN_GRIDS[0])
        x, y = position(gate)
        yield gate, (x - east, y - north)


def aimed_at(draw, pairs):
    """A gate a few kilometres from its site for each pair of steps, and the crossing of the HRAP mesh from which it has them."""
    for (latitude, longitude), crossing, aims in sites_of(draw, Hrap, pairs):
        for azimuth, distance in aims.values():
            yield Gate(latitude, longitude, None, azimuth, distance), crossing


def about_crossings(draw, lists, places):
    """Each pair of steps on grids of both kinds, of the least and the greatest side, with the crossing at each place."""
    for (kind, side), pairs in product(GRIDS, lists):
        for gate, crossing in (aimed_at if kind is Hrap else moved_to)(draw, pairs):
            for grid in grids_about(kind, side, crossing, places):
                yield gate._replace(grid=grid)


def far_out(draw):
    """Gates far out at low latitudes, where computed positions are farthest from exact ones, at each step from one line."""
    for _ in range(300):
        latitude, distance = draw.randint(200_000, 220_000), draw.randint(40_000_000, 46_000_000)
        gate = any_gate(draw, RADOLAN_GRIDS[0])._replace(latitude=latitude, range=distance)
        x, y = position(gate)
        for east, north in chain(product(CROSSED, [AWAY]), product([AWAY], CROSSED)):
            (grid,) = grids_about(Radolan, 10_000, (x - east, y - north), [(2, 1)])
            yield gate._replace(grid=grid)


def gates():
    """Groups of gates, each once."""
    draw, every_pair = random.Random(SEED), [[(east, north) for north in STEPS] for east in STEPS]
    for name, chosen in (
        ("about a cell's line, RADOLAN", good_gates.radolan_lines(draw)),
        ("about a cell's line, HRAP", good_gates.hrap_lines(draw)),
        ("at the edges of the grid, HRAP", good_gates.hrap_edges(draw)),
        ("about crossings of lines", about_crossings(draw, every_pair, CROSSINGS)),
        ("far from the radar", far_out(draw)),
        ("nearest to crossings of lines", about_crossings(draw, [NEAREST] * 320, INSIDE_AND_CORNERS)),
    ):
        yield name, list(dict.fromkeys(chosen))


# Scans.

VALUES = (0, 7, NO_ECHO, NOT_MEASURED)
FINE, COARSE = 1, 40  # spacings
MOST_RAYS = 5
MOST_CELLS = 500


def groups_of_aims(draw, aims):
    """Aims for a scan, its spacing, and the gates before and behind: all gates near the crossing, or unmarked ones among them."""
    for _ in range(2):
        yield {steps: aims[steps] for steps in draw.sample(list(aims), MOST_RAYS)}, FINE, 1
    most = max(by_range(aims, COARSE), key=len)
    yield dict(islice(most.items(), MOST_RAYS)), COARSE, 2


def scan_over(draw, site, grid, aims, spacing, beyond):
    """A scan with a ray for each aim and one away from all, and so many gates before the nearest aim and behind the farthest."""
    distances = [distance for _, distance in aims.values()]
    azimuths = [azimuth for azimuth, _ in aims.values()]
    azimuths.append((azimuths[0] + TURN // 2) % TURN)
    first = min(distances) - beyond * spacing
    gates = (max(distances) - first) // spacing + 1 + beyond
    numbers = (len(azimuths), gates, first, spacing, *site, grid, draw.random() < 0.5)
    return filled(draw, numbers, VALUES, range(101), lambda *_: azimuths)


def scans_about_crossings(draw):
    for (kind, side), _ in product(GRIDS, range(5)):
        site, crossing, aims = next(sites_of(draw, kind, list(product(CROSSED, repeat=2))))
        for group in groups_of_aims(draw, aims):
            for grid in grids_about(kind, side, crossing, draw.sample(EDGES_AND_BEYOND, 12)):
                yield scan_over(draw, site, grid, *group)


def scans_of_one_aim(draw):
    """Scans with one gate near a crossing, so that a cell's exact count may need just this one."""
    for (kind, side), _ in product(GRIDS, range(40)):
        site, crossing, aims = next(sites_of(draw, kind, NEAREST))
        for (steps, aim), grid in product(aims.items(), grids_about(kind, side, crossing, INSIDE_AND_CORNERS)):
            yield scan_over(draw, site, grid, {steps: aim}, FINE, 0)


def any_scans(draw, kinds):
    """Scans of any site and range on grids of few cells."""
    while True:
        kind, place = draw.choice(kinds), draw.choice(good_scans.PLACES[:2])
        azimuths, rays, gates = draw.choice(good_scans.AZIMUTHS), draw.randint(1, 6), draw.randint(1, 6)
        scan = good_scans.any_scan(draw, kind, draw.random() < 0.5, place, VALUES, range(101), azimuths, rays, gates)
        if scan.grid.columns * scan.grid.rows <= MOST_CELLS:
            yield scan


def moved_scans(draw):
    """Scans whose RADOLAN lines are moved, so that one gate lies near a crossing."""
    for scan in any_scans(draw, [Radolan]):
        x, y = draw.choice(positions(scan))
        grid, (east, north) = scan.grid, draw.choices(CROSSED, k=2)
        corner_x, corner_y = grid.x + (x - east - grid.x) % grid.side, grid.y + (y - north - grid.y) % grid.side
        yield scan._replace(grid=at_corner(Radolan, corner_x, corner_y, grid.side, grid.columns, grid.rows))


def scans_on_meridians(draw):
    """Radars on a line of the grid, the meridian, with rays along it: there exact positions lie on the line itself."""
    for kind, latitude in product(KINDS, (200_000, 510_000, 750_000)):
        side, longitude = Hrap.side if kind is Hrap else 100_000, kind.sphere.meridian
        x, y = placement.position(latitude, longitude, kind.sphere, 0, 0)
        grid = at_corner(kind, x - 3 * side, y - 3 * side, side, 6, 6)
        numbers = (8, 5, 0, side // 2, latitude, longitude, grid, False)
        yield filled(draw, numbers, VALUES, range(101), good_scans.quarter_azimuths)


def scans():
    """Groups of scans."""
    draw = random.Random(SEED + 1)
    yield "about crossings of lines", scans_about_crossings(draw)
    yield "with one gate nearest to a crossing", scans_of_one_aim(draw)
    yield "of any range with a gate near a crossing", islice(moved_scans(draw), 40)
    yield "of radars on a meridian", scans_on_meridians(draw)
    yield "at random", islice(any_scans(draw, KINDS), 30)
