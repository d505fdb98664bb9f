"""Gates at both sides of each limit of the mark, by themselves and in scans, on grids of both kinds, of the least and the greatest side.

They lie about a crossing of two lines, which is in the grid, one of its corners or beyond it.
"""
import random
from itertools import chain, product
from typing import NamedTuple

from gate_at import gate_at
from good_gates import Gate, position
from good_scans import any_site, at_corner
from second_program import placement
from second_program.placement import OUTSIDE, Hrap, Radolan
from second_program.scan import NO_ECHO, NOT_MEASURED, Scan, centre

SEED = 20270412

# Steps from a line, to the east or the north, and whether they mark a gate: remainders under 50, or of at least the side less 50, do.
STEPS = {0: True, 49: True, 50: False, -51: False, -50: True, -1: True}

GRIDS = ((Radolan, 10_000), (Radolan, 10_000_000), (Hrap, Hrap.side))
COLUMNS, ROWS = 4, 3
# The column and the row whose south-west corner is the crossing.
CROSSINGS = ((2, 1), (0, 0), (4, 3), (-3, 1), (2, -2), (-3, -2), (7, 1), (2, 5), (7, 5))
FARTHEST = 300_000  # from the site to the crossing on each axis, before it is moved to a line of HRAP
MOST_SITES = 50  # tried for one grid
SPACING = 5
BEYOND = 20  # gates of a ray before the nearest aim and behind the farthest
MEASURED = (0, 1, 7, 65_533, NO_ECHO)


# What has to be met.


class Mixture(NamedTuple):
    kind: str  # of grid
    side: int
    east: int  # the remainder of X less the corner
    north: int  # that of Y
    west_of_corner: bool
    south_of_corner: bool
    inside: bool


PLACES = ((False, False, True), *((west, south, False) for west, south in product((False, True), repeat=2)))
WANTED = {
    Mixture(kind.__name__, side, east % side, north % side, *place)
    for (kind, side), east, north, place in product(GRIDS, STEPS, STEPS, PLACES)
}


def mixture(gate):
    grid, (x, y), (corner_x, corner_y) = gate.grid, position(gate), gate.grid.corner
    remainders = (x - corner_x) % grid.side, (y - corner_y) % grid.side
    inside = placement.cell(grid, x, y) != OUTSIDE
    return Mixture(type(grid).__name__, grid.side, *remainders, x < corner_x, y < corner_y, inside)


def not_met(gates):
    """The mixtures that none of these gates is."""
    return [f"no gate is {one}" for one in sorted(WANTED - set(map(mixture, gates)))]


# Aims: the azimuth and the range of a gate, by its steps from a crossing.


def crossing_near(draw, site, kind):
    """The position of a crossing. For RADOLAN it may be anywhere, HRAP's lines are where they are."""
    x, y = (place + draw.randint(1_000, FARTHEST) for place in placement.position(*site, kind.sphere, 0, 0))
    return (x // Hrap.side * Hrap.side, y // Hrap.side * Hrap.side) if kind is Hrap else (x, y)


def aims_from(site, sphere, crossing, wanted):
    """The aims for those of the wanted steps at which a gate is found."""
    x, y = crossing
    found = {(east, north): gate_at(site, sphere, x + east, y + north) for east, north in wanted}
    return {steps: aim for steps, aim in found.items() if aim is not None}


def by_range(aims, spacing):
    """The aims in groups whose ranges are whole spacings apart, so that a scan can have them."""
    for start in range(spacing):
        group = {steps: aim for steps, aim in aims.items() if aim[1] % spacing == start}
        if group:
            yield group


def sites_of(draw, kind, wanted):
    """Site, crossing and the aims from there, one site after another until every pair of steps that is wanted is met."""
    for _ in range(MOST_SITES):
        site = any_site(draw)
        crossing = crossing_near(draw, site, kind)
        aims = aims_from(site, kind.sphere, crossing, wanted)
        yield site, crossing, aims
        wanted = [steps for steps in wanted if steps not in aims]
        if not wanted:
            return


def aims_of(draw, kind):
    """Site, crossing and a group of aims, until every pair of steps is met."""
    for site, crossing, aims in sites_of(draw, kind, list(product(STEPS, repeat=2))):
        yield from ((site, crossing, group) for group in by_range(aims, SPACING))


# Scans and their aimed gates.


def gate_of(scan, number):
    ray, gate = divmod(number, scan.gates)
    return Gate(scan.latitude, scan.longitude, scan.grid, scan.azimuths[ray], centre(scan, gate))


class AimedScan(NamedTuple):
    scan: Scan
    marks: dict  # of each aimed gate, by its number, the mark that it has to have

    def other_marks(self, marks):
        """The aimed gates that do not have their mark in the list of all marks."""
        return [
            f"{gate_of(self.scan, number)} has the mark {marks[number]}, meant to have {mark}"
            for number, mark in self.marks.items()
            if marks[number] != mark
        ]


def scan_of(draw, site, grid, aims):
    """A scan with two rays for each aim. Of their gates at each range one is measured and the other is not."""
    distances = [distance for _, distance in aims.values()]
    first = min(distances) - BEYOND * SPACING
    rays, gates = 2 * len(aims), (max(distances) - first) // SPACING + 1 + BEYOND
    azimuths = [azimuth for azimuth, _ in aims.values() for _ in range(2)]
    numbers = product(range(rays), range(gates))
    values = [NOT_MEASURED if (ray + gate) % 2 else draw.choice(MEASURED) for ray, gate in numbers]
    qualities = draw.choices(range(101), k=rays * gates)
    return Scan(rays, gates, first, SPACING, *site, grid, draw.random() < 0.5, azimuths, values, qualities)


def aimed_marks(scan, aims):
    """The marks that aimed gates have to have, by gate number."""
    marks = {}
    for place, ((east, north), (_, distance)) in enumerate(aims.items()):
        gate = (distance - scan.first) // scan.spacing
        for ray in (2 * place, 2 * place + 1):
            marks[ray * scan.gates + gate] = int(STEPS[east] or STEPS[north])
    return marks


def aimed_scans_on(draw, kind, side):
    for (site, (x, y), aims), (column, row) in product(aims_of(draw, kind), CROSSINGS):
        grid = at_corner(kind, x - column * side, y - row * side, side, COLUMNS, ROWS)
        scan = scan_of(draw, site, grid, aims)
        yield AimedScan(scan, aimed_marks(scan, aims))


def aimed_scans():
    draw = random.Random(SEED)
    return list(chain.from_iterable(aimed_scans_on(draw, *grid) for grid in GRIDS))


def aimed_gates():
    """Each aimed gate by itself, with the mark that it has to have."""
    return {gate_of(scan, number): mark for scan, marks in aimed_scans() for number, mark in marks.items()}


def met_in(aimed):
    """How many mixtures are met by aimed gates, measured ones and others, and those that are not met."""
    chosen, missing = [(scan, number) for scan, marks in aimed for number in marks], []
    for measured in (True, False):
        gates = [gate_of(scan, number) for scan, number in chosen if (scan.values[number] != NOT_MEASURED) == measured]
        missing += [f"measured {measured}: {line}" for line in not_met(gates)]
    return f"{2 * len(WANTED) - len(missing)} of {2 * len(WANTED)} mixtures, measured and not", missing
