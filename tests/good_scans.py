"""Good scans of every kind, each list drawn from a pool of numbers."""
import random
from itertools import cycle, product

from second_program import placement
from second_program.placement import Hrap, Radolan
from second_program.scan import Scan
from second_program.sine import QUARTER, TURN

SEED = 20270118
FARTHEST = 46_000_000

SPECIAL_VALUES = (0, 65_533, 65_534, 65_535)
VALUES = (
    SPECIAL_VALUES,
    range(65_536),
    (0, 1, 7, 300, *SPECIAL_VALUES),
    (65_535,),
    (65_534,),
    (65_533,),
)
QUALITIES = ((0, 100), range(101), (100,), (0,), (0, 1, 99, 100))
QUARTER_LINES = [(line + step) % TURN for line in range(0, TURN, QUARTER) for step in (-1, 0, 1)]
PLACES = ("around the radar", "partly away", "wholly away")

# The sheet program's example in document 01; both gates lie in the second cell.
SHEET = Scan(1, 2, 0, 100_000, 600_000, -1_050_000, Hrap(400, 932, 2, 1), True, [0], [1, 7], [90, 10])


def equal_azimuths(draw, rays):
    return [draw.randrange(TURN)] * rays


def three_azimuths(draw, rays):
    return draw.choices([draw.randrange(TURN) for _ in range(3)], k=rays)


def even_azimuths(draw, rays):
    start = draw.randrange(TURN)
    return [(start + ray * TURN // rays) % TURN for ray in range(rays)]


def quarter_azimuths(draw, rays):
    return draw.choices(QUARTER_LINES, k=rays)


def any_azimuths(draw, rays):
    return [draw.randrange(TURN) for _ in range(rays)]


AZIMUTHS = (equal_azimuths, three_azimuths, even_azimuths, quarter_azimuths, any_azimuths)


def limited(number, least, greatest):
    return max(least, min(greatest, number))


def grid_for(draw, kind, latitude, longitude, reach, place):
    """A grid of about the scan's size at a place relative to the radar."""
    x, y = placement.position(latitude, longitude, kind.sphere, 0, 0)
    side = Hrap.side if kind is Hrap else limited(draw.randint(reach // 80, reach // 4 + 1), 10_000, 10_000_000)
    columns, rows = (limited(reach * draw.randint(2, 7) // (2 * side), 1, 1_500) for _ in range(2))
    corner_x, corner_y = x - columns * side // 2, y - rows * side // 2
    if place == "partly away":
        corner_x += draw.choice((-1, 1)) * columns * side // draw.randint(2, 3)
        corner_y += draw.choice((-1, 0, 1)) * rows * side // draw.randint(2, 3)
    if place == "wholly away":
        # A length on the map is less than twice the length on the sphere.
        corner_x += draw.choice((-1, 1)) * (columns * side + 2 * reach + side)
        corner_y += draw.choice((-1, 0, 1)) * rows * side
    return at_corner(kind, corner_x, corner_y, side, columns, rows)


def at_corner(kind, corner_x, corner_y, side, columns, rows):
    """The grid whose corner is this one, or for HRAP the nearest to the south-west."""
    if kind is Hrap:
        return Hrap(corner_x // side + 401, corner_y // side + 1_601, columns, rows)
    corner_x, corner_y = (limited(corner, -2_000_000_000, 2_000_000_000) for corner in (corner_x, corner_y))
    return Radolan(corner_x, corner_y, side, columns, rows)


def any_site(draw):
    return draw.randint(200_000, 750_000), draw.randint(-1_800_000, 1_800_000)


def any_centres(draw, gates):
    """First centre and spacing."""
    widest = min(1_000_000, FARTHEST // max(1, gates - 1))
    spacing = draw.choice((draw.randint(1, widest), widest, min(100_000, widest), min(25_000, widest), 1))
    latest = FARTHEST - (gates - 1) * spacing
    return draw.choice((0, 0, min(spacing // 2, latest), draw.randint(0, latest))), spacing


def any_scan(draw, kind, by_quality, place, values, qualities, azimuths, rays, gates):
    latitude, longitude = any_site(draw)
    first, spacing = any_centres(draw, gates)
    reach = max(1_000, first + (gates - 1) * spacing)
    grid = grid_for(draw, kind, latitude, longitude, reach, place)
    numbers = (rays, gates, first, spacing, latitude, longitude, grid, by_quality)
    return filled(draw, numbers, values, qualities, azimuths)


def filled(draw, numbers, values, qualities, azimuths):
    """A scan of these numbers, with lists drawn from the pools."""
    rays, gates = numbers[:2]
    count = rays * gates
    return Scan(*numbers, azimuths(draw, rays), draw.choices(values, k=count), draw.choices(qualities, k=count))


def every_mixture(draw):
    """Both grids, both weightings, every pool of values at every place."""
    azimuths = cycle(AZIMUTHS)
    for by_quality, place, values, kind in product((False, True), PLACES, VALUES, (Radolan, Hrap)):
        rays, gates, qualities = draw.randint(1, 24), draw.randint(1, 80), draw.choice(QUALITIES)
        yield any_scan(draw, kind, by_quality, place, values, qualities, next(azimuths), rays, gates)


def at_random(draw):
    for _ in range(120):
        kind, by_quality, place = draw.choice((Radolan, Hrap)), draw.random() < 0.5, draw.choice(PLACES[:2])
        values, qualities, azimuths = draw.choice(VALUES), draw.choice(QUALITIES), draw.choice(AZIMUTHS)
        rays, gates = draw.randint(1, 60), draw.randint(1, 120)
        yield any_scan(draw, kind, by_quality, place, values, qualities, azimuths, rays, gates)


def smallest(draw):
    """One ray of one gate on a grid of one cell, which holds it or lies beside it."""
    for kind, by_quality, value, quality in product((Radolan, Hrap), (False, True), SPECIAL_VALUES, (0, 1, 100)):
        latitude, longitude = any_site(draw)
        azimuth, first = draw.randrange(TURN), draw.choice((0, FARTHEST, draw.randint(0, FARTHEST)))
        side = Hrap.side if kind is Hrap else draw.randint(10_000, 10_000_000)
        x, y = placement.position(latitude, longitude, kind.sphere, azimuth, first)
        # A RADOLAN cell gets its corner at the gate, HRAP's lines are where they are.
        grid = at_corner(kind, x, y, side, 1, 1)
        beside = grid._replace(x=x + 1) if kind is Radolan else grid._replace(i=grid.i + 1)
        for chosen in (grid, beside):
            yield Scan(1, 1, first, 1, latitude, longitude, chosen, by_quality, [azimuth], [value], [quality])


def at_ends(draw):
    """Both ends of site, first centre, spacing and last centre."""
    centres = ((1, FARTHEST, 1), (1, FARTHEST, 1_000_000), (47, 0, 1_000_000), (30, 0, 1), (2, FARTHEST - 1, 1))
    sites = product((200_000, 750_000), (-1_800_000, 1_800_000))
    choice = product(sites, centres, (Radolan, Hrap))
    for ((latitude, longitude), (gates, first, spacing), kind), by_quality in zip(choice, cycle((False, True, True))):
        reach = max(1_000, first + (gates - 1) * spacing)
        grid = grid_for(draw, kind, latitude, longitude, reach, PLACES[0])
        numbers = (12, gates, first, spacing, latitude, longitude, grid, by_quality)
        yield filled(draw, numbers, VALUES[2], range(101), quarter_azimuths)


def long_rows(draw):
    """Grids of 1,500 columns and one row, one column and 1,500 rows; scans of 720 rays of one gate and of one ray."""
    for kind, by_quality, (columns, rows), (rays, gates, spacing) in product(
        (Radolan, Hrap), (False, True), ((1_500, 1), (1, 1_500)), ((720, 1, 1_000_000), (1, 1_000, 20_000))
    ):
        latitude, longitude = any_site(draw)
        side = Hrap.side if kind is Hrap else 2_000_000
        x, y = placement.position(latitude, longitude, kind.sphere, 0, 0)
        grid = at_corner(kind, x - columns * side // 2, y - rows * side // 2, side, columns, rows)
        numbers = (rays, gates, 100_000, spacing, latitude, longitude, grid, by_quality)
        yield filled(draw, numbers, VALUES[2], range(101), any_azimuths)


def large_grids(draw):
    """Grids of 1,500 by 1,500 cells around the radar, partly and wholly away from it."""
    for kind, by_quality in product((Radolan, Hrap), (False, True)):
        latitude, longitude = any_site(draw)
        # RADOLAN cells of 200 m, so that the grid is less wide than the scan.
        side = Hrap.side if kind is Hrap else 20_000
        x, y = placement.position(latitude, longitude, kind.sphere, 0, 0)
        grid = at_corner(kind, x - 750 * side, y - 750 * side, side, 1_500, 1_500)
        numbers = (90, 230, 0, 100_000, latitude, longitude, grid, by_quality)
        yield filled(draw, numbers, VALUES[2], range(101), any_azimuths)
    for kind, value, corner in ((Radolan, 65_533, 0), (Hrap, 65_534, 0), (Radolan, 7, 100), (Hrap, 65_533, 1_600)):
        latitude, longitude = any_site(draw)
        x, y = placement.position(latitude, longitude, kind.sphere, 0, 0)
        side = Hrap.side if kind is Hrap else 50_000
        grid = at_corner(kind, x - (1_499 - corner) * side, y - 1_499 * side, side, 1_500, 1_500)
        yield Scan(1, 1, 0, 1, latitude, longitude, grid, True, [0], [value], [100])


def large_scans(draw):
    """720 rays of 1,000 gates: over a large grid, and all in one cell with the largest value and quality."""
    # The radar is in column 570 and row 314 of the mesh.
    numbers = (720, 1_000, 46_000, 46_000, 350_000, -975_000, Hrap(500, 250, 1_500, 1_500), False)
    yield filled(draw, numbers, VALUES[2], (0, 37, 100), even_azimuths)
    x, y = placement.position(510_000, 100_000, Radolan.sphere, 0, 0)
    grid = Radolan(x - 100_000, y - 100_000, 200_000, 1, 1)
    yield filled(draw, (720, 1_000, 0, 1, 510_000, 100_000, grid, True), (65_533,), (100,), even_azimuths)


def groups():
    draw = random.Random(SEED)
    yield "of every mixture", every_mixture(draw)
    yield "at random", at_random(draw)
    yield "of one gate on one cell", smallest(draw)
    yield "at the ends of the numbers", at_ends(draw)
    yield "of one long row, column or ray", long_rows(draw)
    yield "on 1,500 by 1,500 cells", large_grids(draw)
    yield "of 720 rays of 1,000 gates", large_scans(draw)
