"""Good scans for records, most of them small, the largest that can be written, and scans that are too large to write."""
import random
from itertools import cycle, product

from good_scans import AZIMUTHS, FARTHEST, QUALITIES, SPECIAL_VALUES, VALUES, any_azimuths, any_centres, any_site, filled
from good_scans import limited
from second_program.placement import Hrap, Radolan
from second_program.scan import Scan

SEED = 20270203

CELLS = (1, 1_500)  # columns or rows
CORNERS = (-2_000_000_000, 2_000_000_000)
SIDES = (10_000, 10_000_000)
MESH = (-10_000, 10_000)  # I or J
LATITUDES = (200_000, 750_000)
LONGITUDES = (-1_800_000, 1_800_000)

# Gates, first centre and spacing with the last centre, or one of the three, at an end.
CENTRES = ((1, FARTHEST, 1), (1, FARTHEST, 1_000_000), (47, 0, 1_000_000), (3, 0, 1), (2, FARTHEST - 1, 1))
# At both sides of what one byte or two bytes hold.
EDGES = (0, 1, 127, 128, 255, 256, 32_767, 32_768)
AZIMUTH_EDGES = (*EDGES, 65_535, 65_536, 3_599_999)
# Rays and gates, one of them large or both. 217 x 151 is 32,767, the most that can be written.
LARGE = ((720, 1), (1, 1_000), (255, 1), (256, 1), (1, 255), (1, 256), (128, 64), (720, 45), (217, 151))
TOO_LARGE = ((128, 256), (33, 993), (720, 46), (66, 1_000), (256, 256), (720, 1_000))


def any_number(draw, ends):
    """One end, a number near 0 or any number."""
    return draw.choice((*ends, limited(draw.randint(-300, 300), *ends), draw.randint(*ends)))


def any_grid(draw, kind):
    columns, rows = any_number(draw, CELLS), any_number(draw, CELLS)
    if kind is Hrap:
        return Hrap(any_number(draw, MESH), any_number(draw, MESH), columns, rows)
    return Radolan(any_number(draw, CORNERS), any_number(draw, CORNERS), any_number(draw, SIDES), columns, rows)


def any_scan(draw, kind, by_quality, rays, gates, values, qualities, azimuths):
    numbers = (rays, gates, *any_centres(draw, gates), *any_site(draw), any_grid(draw, kind), by_quality)
    return filled(draw, numbers, values, qualities, azimuths)


def every_mixture(draw):
    """Both grids, both weightings, every pool of values, qualities and azimuths."""
    for kind, by_quality, values, qualities, azimuths in product(
        (Radolan, Hrap), (False, True), VALUES, QUALITIES, AZIMUTHS
    ):
        rays, gates = draw.randint(1, 8), draw.randint(1, 8)
        yield any_scan(draw, kind, by_quality, rays, gates, values, qualities, azimuths)


def at_random(draw):
    for _ in range(3_000):
        kind, by_quality = draw.choice((Radolan, Hrap)), draw.random() < 0.5
        rays, gates = draw.randint(1, 5), draw.randint(1, 6)
        values, qualities = draw.choice(VALUES), draw.choice(QUALITIES)
        yield any_scan(draw, kind, by_quality, rays, gates, values, qualities, any_azimuths)


def one_gate(draw):
    """Numbers at both sides of what one byte or two bytes hold."""
    values = dict.fromkeys((*EDGES, *SPECIAL_VALUES))
    weightings = cycle((False, True, True))
    for kind, value, quality, azimuth in product((Radolan, Hrap), values, (0, 1, 100), AZIMUTH_EDGES):
        first = draw.choice((*EDGES, 65_535, 65_536, FARTHEST))
        numbers = (1, 1, first, max(1, first % 1_000_000), *any_site(draw), any_grid(draw, kind), next(weightings))
        yield Scan(*numbers, [azimuth], [value], [quality])


def at_ends(draw):
    """Every number at both ends: site, centres and grid."""
    radolan = [Radolan(*ends) for ends in product(CORNERS, CORNERS, SIDES, CELLS, CELLS)]
    hrap = [Hrap(*ends) for ends in product(MESH, MESH, CELLS, CELLS)]
    weightings = cycle((False, True, True))
    for grid, latitude, longitude, (gates, first, spacing) in product(radolan + hrap, LATITUDES, LONGITUDES, CENTRES):
        numbers = (1, gates, first, spacing, latitude, longitude, grid, next(weightings))
        yield filled(draw, numbers, SPECIAL_VALUES, (0, 100), any_azimuths)


def of_sizes(draw, sizes):
    for (rays, gates), kind in product(sizes, (Radolan, Hrap)):
        yield any_scan(draw, kind, draw.random() < 0.5, rays, gates, VALUES[1], range(101), any_azimuths)


def groups():
    draw = random.Random(SEED)
    yield "of every mixture", every_mixture(draw)
    yield "at random", at_random(draw)
    yield "of one gate", one_gate(draw)
    yield "at the ends of the numbers", at_ends(draw)
    yield "of many rays or gates, up to 32,767 gates", of_sizes(draw, LARGE)


def too_large():
    """Good scans of more than 32,767 gates."""
    return of_sizes(random.Random(SEED + 1), TOO_LARGE)
