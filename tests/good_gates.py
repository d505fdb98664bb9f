"""Single gates of every kind, on grids of both kinds."""
import random
from itertools import cycle, product
from typing import NamedTuple

from second_program import placement
from second_program.placement import Grid, Hrap, Radolan
from second_program.sine import QUARTER, TURN

SEED = 20261203

RANGES = (0, 1, 45_999_999, 46_000_000)
LATITUDES = (200_000, 200_001, 749_999, 750_000)
LONGITUDES = (-1_800_000, -1_799_999, 1_799_999, 1_800_000) + tuple(
    grid.sphere.meridian + step for grid in (Radolan, Hrap) for step in (-1, 0, 1)
)
AZIMUTHS = tuple((line + step) % TURN for line in range(0, TURN, QUARTER) for step in (-1, 0, 1))

# The first two RADOLAN grids hold every gate, the others a part or none.
RADOLAN_GRIDS = (
    Radolan(-2_000_000_000, -2_000_000_000, 10_000_000, 1_500, 1_500),
    Radolan(-900_000_000, -900_000_000, 1_200_000, 1_500, 1_500),
    Radolan(-52_346_220, -465_864_470, 100_000, 900, 900),
    Radolan(-900_000_000, -900_000_000, 1_200_000, 750, 1_500),
    Radolan(-900_000_000, -900_000_000, 1_200_000, 1_500, 750),
    Radolan(0, 0, 600_000, 1_500, 1_499),
    Radolan(2_000_000_000, 2_000_000_000, 10_000, 1, 1),
)
HRAP_GRIDS = (
    Hrap(401, 1_601, 1_500, 1_500),
    Hrap(-1_099, 1_601, 1_500, 1_500),
    Hrap(-1_099, 101, 1_500, 1_500),
    Hrap(401, 101, 1_500, 1_500),
    Hrap(-349, 851, 1_500, 1_499),
    Hrap(1, 1, 1_499, 1_500),
    Hrap(10_000, -10_000, 1, 1),
)


class Gate(NamedTuple):
    latitude: int
    longitude: int
    grid: Grid
    azimuth: int
    range: int


def position(gate):
    return placement.position(gate.latitude, gate.longitude, gate.grid.sphere, gate.azimuth, gate.range)


# The gates.


def range_ends():
    """Both ends of every range of the table, the quarter lines of the azimuth and both meridians, with neighbours."""
    for grids in (RADOLAN_GRIDS, HRAP_GRIDS):
        chosen = product(RANGES, LATITUDES, LONGITUDES, AZIMUTHS)
        for (distance, latitude, longitude, azimuth), grid in zip(chosen, cycle(grids)):
            yield Gate(latitude, longitude, grid, azimuth, distance)


def grid_ends():
    """Both ends of every grid number."""
    corners = (-2_000_000_000, -1_999_999_999, 1_999_999_999, 2_000_000_000)
    firsts = (-10_000, -9_999, 9_999, 10_000)
    sides = (10_000, 10_001, 9_999_999, 10_000_000)
    counts = (1, 2, 1_499, 1_500)
    grids = [Radolan(*numbers) for numbers in product(corners, corners, sides, (1, 1_500), (1, 1_500))]
    grids += [Radolan(-900_000_000, -900_000_000, 1_200_000, *numbers) for numbers in product(counts, counts)]
    grids += [Hrap(*numbers) for numbers in product(firsts, firsts, (1, 1_500), (1, 1_500))]
    grids += [Hrap(1, 1, *numbers) for numbers in product(counts, counts)]
    for grid in grids:
        yield Gate(510_000, 100_000, grid, 0, 0)
        yield Gate(350_000, -975_000, grid, 2_345_678, 23_000_000)


def any_gate(draw, grid):
    return Gate(
        draw.randint(200_000, 750_000),
        draw.randint(-1_800_000, 1_800_000),
        grid,
        draw.randrange(TURN),
        draw.randint(0, 46_000_000),
    )


# How far gates lie to the west or south of a line: on it, up to 3 centimetres beside it, and at both sides of each limit of the mark.
FROM_LINE = (-50, -49, *range(-3, 4), 50, 51)


def radolan_lines(draw):
    """Gates about a cell's line, where the line bounds the grid or lies in it."""
    for side in (10_000, 10_000_000, 100_000, 47_625) + tuple(draw.randint(10_000, 10_000_000) for _ in range(44)):
        gate = any_gate(draw, RADOLAN_GRIDS[0])
        x, y = position(gate)
        # The corner stays within its limits.
        columns, rows = (draw.randint(1, min(1_500, 1_000_000_000 // side)) for _ in range(2))
        column, row = draw.randrange(columns), draw.randrange(rows)
        # A line number k is the west or south line of column or row k.
        for step in FROM_LINE:
            for line in {0, 1, column, columns - 1, columns}:
                corner_x, corner_y = x - line * side + step, y - row * side - side // 2
                yield gate._replace(grid=Radolan(corner_x, corner_y, side, columns, rows))
            for line in {0, 1, row, rows - 1, rows}:
                corner_x, corner_y = x - column * side - side // 2, y - line * side + step
                yield gate._replace(grid=Radolan(corner_x, corner_y, side, columns, rows))
            for other in range(-3, 4):
                corner_x, corner_y = x - column * side + step, y - row * side + other
                yield gate._replace(grid=Radolan(corner_x, corner_y, side, columns, rows))


def mesh_cell(gate):
    """Column and row of the whole HRAP mesh."""
    x, y = position(gate)
    return x // Hrap.side + 401, y // Hrap.side + 1_601


def hrap_edges(draw):
    """Gates in the corner cells of a grid and in the cells just west, south, east and north of it."""
    gates = [any_gate(draw, HRAP_GRIDS[0]) for _ in range(80)]
    # At range 0 these lie on a line of the mesh or near one.
    for latitude, quarter, step in product((200_000, 456_789, 750_000), (0, QUARTER, 2 * QUARTER), (-1, 0, 1)):
        gates.append(Gate(latitude, Hrap.sphere.meridian + quarter + step, HRAP_GRIDS[0], draw.randrange(TURN), 0))
    for gate in gates:
        column, row = mesh_cell(gate)
        columns, rows = draw.randint(1, 1_500), draw.randint(1, 1_500)
        for west, south in product((-1, 0, columns - 1, columns), (-1, 0, rows - 1, rows)):
            yield gate._replace(grid=Hrap(column - west, row - south, columns, rows))


def range_before_line(gate, axis):
    """A range such that one centimetre more leads over a line of the mesh, or None where 20 kilometres meet no line."""

    def cell_at(distance):
        return mesh_cell(gate._replace(range=distance))[axis]

    near, far = gate.range, gate.range + 2_000_000
    if cell_at(near) == cell_at(far):
        return None
    while far - near > 1:
        middle = (near + far) // 2
        if cell_at(middle) == cell_at(near):
            near = middle
        else:
            far = middle
    return near


def hrap_lines(draw):
    """Gates a few centimetres before, on and behind a line of the mesh, and 2 metres behind; it bounds the grid or lies in it."""
    for axis in (0, 1):
        found = 0
        while found < 30:
            gate = any_gate(draw, HRAP_GRIDS[0])._replace(range=draw.randint(2, 43_000_000))
            near = range_before_line(gate, axis)
            if near is None:
                continue
            found += 1
            first, second = (mesh_cell(gate._replace(range=distance)) for distance in (near, near + 1))
            line, across = max(first[axis], second[axis]), second[1 - axis]
            # The line is the grid's west or south edge, its east or north edge, or between its two halves.
            for distance, before in product((*range(near - 2, near + 4), near + 200), (0, 10, 5)):
                i, j = (line - before, across - 5) if axis == 0 else (across - 5, line - before)
                yield gate._replace(range=distance, grid=Hrap(i, j, 10, 10))


def whole_circle():
    """Azimuths all around a site, and sites all around the pole, also at the quarter lines of longitude less meridian."""
    distances = cycle((1_000, 12_345_678, 25_000_000, 45_987_654, 46_000_000))
    for grids, longitude in ((RADOLAN_GRIDS, 100_000), (HRAP_GRIDS, -975_000)):
        choice = cycle(grids[:6])
        for azimuth in range(0, TURN, 7_499):
            yield Gate(467_800, longitude, next(choice), azimuth, next(distances))
        for longitude in range(-1_800_000, 1_800_001, 12_497):
            yield Gate(271_828, longitude, next(choice), 3_141_592, next(distances))
        lines = range(grids[0].sphere.meridian - TURN, TURN, QUARTER)
        near_lines = [line + step for line in lines if abs(line) < 1_800_000 for step in (-1, 0, 1)]
        for longitude, azimuth, distance in product(near_lines, (0, 1_234_567), (0, 23_456_789)):
            yield Gate(345_678, longitude, next(choice), azimuth, distance)


def at_random(draw):
    for _ in range(600):
        gate = any_gate(draw, RADOLAN_GRIDS[0])
        x, y = position(gate)
        side = draw.choice((draw.randint(10_000, 100_000), draw.randint(10_000, 1_000_000)))
        columns, rows = draw.randint(1, 1_500), draw.randint(1, 1_500)
        corner_x = x - draw.randint(-columns * side // 4, columns * side * 5 // 4)
        corner_y = y - draw.randint(-rows * side // 4, rows * side * 5 // 4)
        corner_x, corner_y = (max(-2_000_000_000, min(2_000_000_000, corner)) for corner in (corner_x, corner_y))
        yield gate._replace(grid=Radolan(corner_x, corner_y, side, columns, rows))

        gate = gate._replace(grid=HRAP_GRIDS[0])
        column, row = mesh_cell(gate)
        i = column - draw.randint(-columns // 4, columns * 5 // 4)
        j = row - draw.randint(-rows // 4, rows * 5 // 4)
        yield gate._replace(grid=Hrap(i, j, columns, rows))


def groups():
    draw = random.Random(SEED)
    yield "at the ends of every range", list(range_ends())
    yield "at the ends of the grid numbers", list(grid_ends())
    yield f"about a cell's line, RADOLAN, seed {SEED}", list(radolan_lines(draw))
    yield f"about a cell's line, HRAP, seed {SEED}", list(hrap_lines(draw))
    yield f"at the edges of the grid, HRAP, seed {SEED}", list(hrap_edges(draw))
    yield "around the whole circle", list(whole_circle())
    yield f"at random, seed {SEED}", list(at_random(draw))
