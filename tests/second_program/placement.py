"""Document 01's placement of one gate: from the arc to the position, the column, the row, the cell and the refusals; T-02's mark.

It is written from document 01 and T-02 alone and shares nothing with the library.
Angles are whole numbers of ten-thousandths of a degree, lengths are whole numbers of centimetres.
"""
from fractions import Fraction
from functools import lru_cache
from operator import attrgetter, floordiv
from typing import Callable, NamedTuple

from second_program import sine

ONE_PLUS_SINE_60 = Fraction("1.86602540378")
OUTSIDE = 4_294_967_295
NEAR = 50  # centimetres from a line


class Sphere(NamedTuple):
    radius: int
    meridian: int

    @property
    def exact_k(self):
        return self.radius * ONE_PLUS_SINE_60

    @property
    def k(self):
        return sine.nearest(self.exact_k)


class Radolan(NamedTuple):
    x: int
    y: int
    side: int
    columns: int
    rows: int

    kind = 1
    sphere = Sphere(radius=637_004_000, meridian=100_000)

    @property
    def corner(self):
        return self.x, self.y

    def allowed(self):
        return (
            -2_000_000_000 <= self.x <= 2_000_000_000
            and -2_000_000_000 <= self.y <= 2_000_000_000
            and 10_000 <= self.side <= 10_000_000
            and 1 <= self.columns <= 1_500
            and 1 <= self.rows <= 1_500
        )


class Hrap(NamedTuple):
    i: int
    j: int
    columns: int
    rows: int

    kind = 2
    sphere = Sphere(radius=637_120_000, meridian=-1_050_000)
    side = 476_250

    @property
    def corner(self):
        return (self.i - 401) * self.side, (self.j - 1601) * self.side

    def allowed(self):
        return (
            -10_000 <= self.i <= 10_000
            and -10_000 <= self.j <= 10_000
            and 1 <= self.columns <= 1_500
            and 1 <= self.rows <= 1_500
        )


class OtherKind(NamedTuple):
    """A grid is one of two kinds. Of any other kind no numbers are right."""

    kind: int
    x: int
    y: int
    side: int
    columns: int
    rows: int

    def allowed(self):
        return False


Grid = Radolan | Hrap | OtherKind


class Reading(NamedTuple):
    """The formulas are read in two ways: with whole numbers and floors, or with no floor and Q read as 1."""

    q: int
    quotient: Callable
    sine: Callable
    cosine: Callable
    k: Callable


def exact_quotient(dividend, divisor):
    return Fraction(dividend) / divisor


cached = lru_cache(maxsize=None)
# floordiv goes towards minus infinity.
FLOORED = Reading(sine.Q, floordiv, cached(sine.sine), cached(sine.cosine), attrgetter("k"))
EXACT = Reading(1, exact_quotient, cached(sine.exact_sine), cached(sine.exact_cosine), attrgetter("exact_k"))


@cached
def arc(range, radius, reading):
    """The sine and the cosine of the arc."""
    q, quotient = reading.q, reading.quotient
    d = quotient(range * q, radius)
    d2 = quotient(d * d, q)
    d3 = quotient(d2 * d, q)
    d4 = quotient(d2 * d2, q)
    d5 = quotient(d4 * d, q)
    sd = d - quotient(d3, 6) + quotient(d5, 120)
    cd = q - quotient(d2, 2) + quotient(d4, 24)
    return sd, cd


def read_position(latitude, longitude, sphere, azimuth, range, reading):
    q, quotient, k = reading.q, reading.quotient, reading.k(sphere)
    sp, cp = reading.sine(latitude), reading.cosine(latitude)
    sa, ca = reading.sine(azimuth), reading.cosine(azimuth)
    sd, cd = arc(range, sphere.radius, reading)
    sl, cl = reading.sine(longitude - sphere.meridian), reading.cosine(longitude - sphere.meridian)
    w = quotient(sd * ca, q)
    e = quotient(sd * sa, q)
    n = quotient(sp * cd + cp * w, q)
    m = quotient(cp * cd - sp * w, q)
    u = quotient(e * cl + m * sl, q)
    v = quotient(m * cl - e * sl, q)
    x = quotient(k * u, q + n)
    y = quotient(-k * v, q + n)
    return x, y


@cached
def position(latitude, longitude, sphere, azimuth, range):
    """X and Y, whole numbers."""
    return read_position(latitude, longitude, sphere, azimuth, range, FLOORED)


def exact_position(latitude, longitude, sphere, azimuth, range):
    """The exact X and Y, fractions."""
    return read_position(latitude, longitude, sphere, azimuth, range, EXACT)


def column_and_row(grid, x, y):
    corner_x, corner_y = grid.corner
    return (x - corner_x) // grid.side, (y - corner_y) // grid.side


def cell(grid, x, y):
    column, row = column_and_row(grid, x, y)
    if 0 <= column < grid.columns and 0 <= row < grid.rows:
        return row * grid.columns + column
    return OUTSIDE


def near_line(distance, side):
    """Whether the remainder by the side, never negative, is under 50 or at least the side less 50."""
    remainder = distance % side
    return remainder < NEAR or remainder >= side - NEAR


def mark(grid, x, y):
    """1 for a position near a line, 0 for any other. The lines go on beyond the grid."""
    corner_x, corner_y = grid.corner
    return int(near_line(x - corner_x, grid.side) or near_line(y - corner_y, grid.side))


def refusal(latitude, longitude, grid, azimuth, range):
    """The refusal number of one gate, 0 where none applies."""
    if not 0 <= range <= 46_000_000:
        return 3
    if not (200_000 <= latitude <= 750_000 and -1_800_000 <= longitude <= 1_800_000):
        return 4
    if not grid.allowed():
        return 5
    if not 0 <= azimuth <= 3_599_999:
        return 7
    return 0


class Placed(NamedTuple):
    """The answer for one gate. A refusal has no cell, no position and no mark."""

    refusal: int
    cell: int | None
    x: int | None
    y: int | None
    mark: int | None


def place(latitude, longitude, grid, azimuth, range):
    number = refusal(latitude, longitude, grid, azimuth, range)
    if number != 0:
        return Placed(number, None, None, None, None)
    x, y = position(latitude, longitude, grid.sphere, azimuth, range)
    return Placed(0, cell(grid, x, y), x, y, mark(grid, x, y))
