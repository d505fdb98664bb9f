"""Sweeps of good scans: the rays divided into groups, and operations between them that have to be refused."""
from itertools import cycle, product
from typing import Any, NamedTuple

from good_scans import AZIMUTHS, PLACES, QUALITIES, VALUES, any_scan, at_ends, large_grids, large_scans, long_rows, smallest
from second_program.placement import Hrap, Radolan
from sweep_calls import CELLS, ENTRIES_AND_SUMS, SUMS, Rays, rays_of

MOST_CELLS = 12_000  # of the scans that are divided
KINDS = (Radolan, Hrap)


# Scans and their divisions. A division is a list of ends: each group begins where the one before it ends.


def one_by_one(scan):
    return list(range(1, scan.rays + 1))


def all_at_once(scan):
    return [scan.rays]


def any_division(draw, rays):
    """Many small groups or a few large ones."""
    ends = draw.sample(range(1, rays), draw.choice((0, 1, 2, rays // 3, rays // 2, rays - 1)) % rays)
    return [*sorted(ends), rays]


def few_cells(scans):
    return [scan for scan in scans if scan.grid.columns * scan.grid.rows <= MOST_CELLS]


def mixed_scans(draw):
    """Both grids, both weightings, every pool of values at every place."""
    azimuths = cycle(AZIMUTHS)
    for kind, by_quality, place, values in product(KINDS, (False, True), PLACES, VALUES):
        rays, gates, qualities = draw.randint(1, 24), draw.randint(1, 40), draw.choice(QUALITIES)
        yield any_scan(draw, kind, by_quality, place, values, qualities, next(azimuths), rays, gates)


def random_scans(draw):
    for _ in range(120):
        kind, by_quality, place = draw.choice(KINDS), draw.random() < 0.5, draw.choice(PLACES[:2])
        values, qualities, azimuths = draw.choice(VALUES), draw.choice(QUALITIES), draw.choice(AZIMUTHS)
        rays, gates = draw.randint(2, 40), draw.randint(1, 30)
        yield any_scan(draw, kind, by_quality, place, values, qualities, azimuths, rays, gates)


def divided_scans(draw):
    """Scans with two divisions each."""
    for scan in few_cells([*mixed_scans(draw), *random_scans(draw)]):
        for _ in range(2):
            yield scan, any_division(draw, scan.rays)


def by_ones_and_at_once(draw):
    """Scans whose rays come one by one, and all at once."""
    for scan in few_cells([*mixed_scans(draw), *smallest(draw), *at_ends(draw), *list(long_rows(draw))[::2]]):
        for division in (one_by_one(scan), all_at_once(scan)):
            yield scan, division


def largest(draw):
    """720 rays of 1,000 gates in one cell with the largest value and quality, and a gate on 1,500 by 1,500 cells."""
    yield list(large_scans(draw))[-1], [1, 2, 360, 719, 720]
    yield list(large_grids(draw))[-1], [1]


# Operations to be refused. The number is the one that they have to be refused with.


class Wrong(NamedTuple):
    number: int
    operation: str
    given: tuple = ()  # the rays, for taking
    steps: Any = {}  # from the exact length, by name of a lent list


def with_number(numbers, place, number):
    return [*numbers[:place], number, *numbers[place + 1 :]]


def bad_ray(draw, rays):
    """The rays, one of which has a bad azimuth or a gate with a bad quality."""
    if draw.random() < 0.5:
        place = draw.randrange(len(rays.azimuths))
        return 7, rays._replace(azimuths=with_number(rays.azimuths, place, draw.choice((3_600_000, 2**32 - 1))))
    place = draw.randrange(len(rays.qualities))
    return 8, rays._replace(qualities=with_number(rays.qualities, place, draw.choice((101, 255))))


def wrong_length(draw, rays):
    """The rays with values or qualities that are too few or too many."""
    name = draw.choice(("values", "qualities"))
    numbers = getattr(rays, name)
    return rays._replace(**{name: draw.choice((numbers[:-1], [*numbers, 7], [], [*numbers, *numbers]))})


def wrong_operations(draw, scan, start, end):
    """Some operations to be refused before the rays from start to end are taken."""
    rays, left = rays_of(scan, start, end), scan.rays - start
    again = rays_of(scan, max(0, start - 1), start) if start > 0 else rays
    number, bad = bad_ray(draw, draw.choice((rays, again)))
    too_many = Rays([0] * (left + 1), [1] * ((left + 1) * scan.gates), [100] * ((left + 1) * scan.gates))
    choice = (
        Wrong(number, "take", (bad,)),
        Wrong(6, "take", (wrong_length(draw, rays),)),
        Wrong(6, "take", (rays,), {draw.choice(ENTRIES_AND_SUMS): draw.choice((-1, 1, 5))}),
        Wrong(6, "take", (Rays([], [], []),)),
        Wrong(17, "take", (draw.choice((too_many, too_many._replace(values=[], qualities=[]))),)),
        Wrong(18, "close"),
    )
    return draw.sample(choice, draw.randint(0, 3))


def wrong_at_the_end(draw, scan):
    """Operations to be refused once all rays are taken."""
    yield Wrong(17, "take", (rays_of(scan, 0, 1),))
    yield Wrong(6, "take", (Rays([], [], []),))
    yield Wrong(6, "close", (), {draw.choice((*SUMS, *CELLS)): draw.choice((-1, 1, 5))})


def wrong_after_closing(scan):
    yield Wrong(19, "take", (rays_of(scan, 0, 1),))
    yield Wrong(19, "take", (Rays([], [], []),))
    yield Wrong(19, "close")
    yield Wrong(19, "close", (), {"means": -1})
