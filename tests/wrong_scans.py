"""Good scans with something changed: wrong numbers, lengths and contents, alone and together."""
from itertools import combinations, cycle, product
from typing import NamedTuple

from far_numbers import FAR, far_from
from second_program.placement import Hrap, OtherKind, Radolan
from second_program.record import grid_numbers
from second_program.scan import Lent, Scan, Sums

GIVEN = ("azimuths", "values", "qualities")


class Change(NamedTuple):
    """What is changed in a good scan, and the number that this has to be refused with, 0 for none."""

    number: int
    numbers: dict  # by name in scan or grid
    lengths: dict  # steps from the exact length, by name of the list
    contents: dict  # (thousandths of the list's length, number) by name of the list


def number_changes(number, allowed, refused):
    """Changes of the scan's numbers alone."""
    return [Change(0, numbers, {}, {}) for numbers in allowed] + [Change(number, numbers, {}, {}) for numbers in refused]


def named(name, *values):
    return [{name: value} for value in values]


# The refusal number for each number of a scan's head; all others are 5.
NUMBER_OF = {"rays": 1, "gates": 2, "first": 3, "spacing": 3, "latitude": 4, "longitude": 4}
EMPTY = -(2**20)  # more than any list of a good scan is long
LISTS = (*GIVEN, *Lent._fields)
WRONG_LISTS = (
    Change(6, {}, {"values": 1}, {}),
    Change(7, {}, {}, {"azimuths": (999, 3_600_000)}),
    Change(8, {}, {}, {"qualities": (999, 101)}),
)


def scan_changes():
    yield from number_changes(1, named("rays", 1, 720), named("rays", -1, 0, 721, 2**16 + 3, 2**31 + 3, 2**32 - 1))
    yield from number_changes(
        2,
        named("gates", 1, 5) + [{"gates": 1_000, "spacing": 1}],
        named("gates", -1, 0) + [{"gates": 1_001, "spacing": 1}] + named("gates", 2**16 + 5, 2**31 + 5, 2**32 - 1),
    )
    # The good scans have 5 gates with a spacing of 100,000.
    yield from number_changes(
        3,
        [
            *named("first", 0, 45_600_000),
            *named("spacing", 1, 1_000_000),
            {"first": 46_000_000, "gates": 1},
            {"first": 0, "spacing": 1_000_000, "gates": 47},
            {"first": 46, "spacing": 46_046, "gates": 1_000},
            {"first": 46_000_000, "spacing": 1_000_000, "gates": 1},
        ],
        [
            *named("first", -1, 45_600_001, 46_000_000, 46_000_001, 2**31, 2**32 - 400_000, 2**32 - 1),
            *named("spacing", -1, 0, 1_000_001, 2**30, 2**31, 2**32 - 1),
            {"first": 46_000_001, "gates": 1},
            {"spacing": 0, "gates": 1},
            {"spacing": 1_000_001, "gates": 1},
            {"first": 1, "spacing": 1_000_000, "gates": 47},
            {"first": 0, "spacing": 1_000_000, "gates": 48},
            {"first": 47, "spacing": 46_046, "gates": 1_000},
        ],
    )
    yield from number_changes(
        4,
        named("latitude", 200_000, 750_000) + named("longitude", -1_800_000, 1_800_000),
        named("latitude", 199_999, 750_001, 0, -500_000, 2**32 + 500_000, *FAR)
        + named("longitude", -1_800_001, 1_800_001, -3_600_000, 2**32, *FAR),
    )
    for name in ("columns", "rows"):
        yield from number_changes(5, named(name, 1, 1_500), named(name, -1, 0, 1_501, 2**16 + 1, 2**31, 2**32 - 1))
    yield from number_changes(5, [], named("kind", -1, 0, 3, 2**8 + 1, 2**16 + 2, 2**31, 2**32 - 1))
    for name, step in product(LISTS, (-1, 1, 3, EMPTY)):
        yield Change(6, {}, {name: step}, {})
    yield Change(6, {}, {"values": 1, "qualities": -1}, {})
    yield Change(6, {}, {"ledger": 1, "marks": -1}, {})
    yield Change(6, {}, {"values": 5, "qualities": 5, "ledger": 5, "marks": 5}, {})
    yield Change(6, {}, dict.fromkeys(Sums._fields, 1), {})
    yield Change(6, {}, dict.fromkeys(Sums._fields, -1), {})
    yield Change(6, {}, dict.fromkeys(LISTS, EMPTY), {})
    for place in (0, 500, 999):
        for azimuth in (0, 3_599_999):
            yield Change(0, {}, {}, {"azimuths": (place, azimuth)})
        for azimuth in (3_600_000, 2**31, 2**32 - 1):
            yield Change(7, {}, {}, {"azimuths": (place, azimuth)})
        for value in (0, 65_534, 65_535):
            for quality in (0, 100):
                yield Change(0, {}, {}, {"qualities": (place, quality), "values": (place, value)})
            for quality in (101, 255):
                yield Change(8, {}, {}, {"qualities": (place, quality), "values": (place, value)})


def radolan_changes():
    for name in ("x", "y"):
        ends = (-2_000_000_000, 2_000_000_000)
        yield from number_changes(5, named(name, *ends), named(name, ends[0] - 1, ends[1] + 1, 2**32, *FAR))
    yield from number_changes(5, named("side", 10_000, 10_000_000), named("side", 9_999, 10_000_001, -1, 0, 1, 2**32 - 1))


def hrap_changes():
    for name in ("i", "j"):
        yield from number_changes(
            5, named(name, -10_000, 10_000), named(name, -10_001, 10_001, 2**16 + 1, 2**32 + 1, *FAR)
        )


def far_changes(good):
    """Each number of the head far beyond its limits. A weighting and the side of an HRAP grid have none."""
    numbers = {name: getattr(good, name) for name in NUMBER_OF} | {"kind": good.grid.kind} | good.grid._asdict()
    for name, number in numbers.items():
        yield from number_changes(NUMBER_OF.get(name, 5), [], named(name, *far_from(number)))


# 3 rays, 15 gates and 8 cells: no list has the length of another kind.
RADOLAN_SCAN = Scan(
    *(3, 5, 200_000, 100_000, 510_000, 100_000, Radolan(-800_000, -421_300_000, 400_000, 4, 2), True),
    *([0, 1_200_000, 2_400_000], list(range(1, 16)), list(range(60, 75))),
)
HRAP_SCAN = Scan(
    *(3, 5, 200_000, 100_000, 600_000, -1_050_000, Hrap(399, 931, 4, 2), False),
    *([0, 1_200_000, 2_400_000], list(range(1, 16)), list(range(60, 75))),
)


def resized(numbers, length):
    """The numbers, repeated or cut to the length."""
    return [number for number, _ in zip(cycle(numbers), range(length))]


def changed(scan, name, number):
    """The scan with another number."""
    if name in Scan._fields:
        return scan._replace(**{name: number})
    return scan._replace(grid=changed_grid(scan.grid, name, number))


def changed_grid(grid, name, number):
    if name == "kind":
        return OtherKind(**grid_numbers(grid) | {"kind": number})
    return grid._replace(**{name: number})


def lendable(number, most, good):
    """The number, or the good one where no list has this length or the list would be too long."""
    return number if 0 <= number <= most else good


def apply(good, changes):
    """The changed scan and the lengths of its lists. Lengths are exact, but for lists that cannot be lent."""
    scan = good
    for change in changes:
        for name, number in change.numbers.items():
            scan = changed(scan, name, number)
    rays = lendable(scan.rays, 721, good.rays)
    gates = rays * lendable(scan.gates, 1_001, good.gates)
    cells = lendable(scan.grid.columns, 1_501, good.grid.columns) * lendable(scan.grid.rows, 1_501, good.grid.rows)
    lengths = dict(zip(LISTS, (rays, *[gates] * 4, *[cells] * 4)))
    for change in changes:
        for name, step in change.lengths.items():
            lengths[name] = max(0, lengths[name] + step)
    given = {name: resized(getattr(good, name), lengths[name]) for name in GIVEN}
    for change in changes:
        for name, (place, number) in change.contents.items():
            if given[name]:
                given[name][len(given[name]) * place // 1_000] = number
    return scan._replace(**given), Lent(*(lengths[name] for name in Lent._fields))


def changes_of_each():
    yield RADOLAN_SCAN, [*scan_changes(), *radolan_changes()]
    yield HRAP_SCAN, [*scan_changes(), *hrap_changes()]


def limits():
    """Good scans with one change: everything that is allowed and everything that is refused."""
    for good, changes in changes_of_each():
        for change in changes:
            yield good, [change]


def touched(change):
    return {*change.numbers, *change.lengths, *change.contents}


def pairs():
    """Good scans with two changes that are refused with different numbers."""
    for good, changes in changes_of_each():
        refused = [change for change in changes if change.number != 0]
        for one, other in combinations(refused, 2):
            if one.number != other.number and not touched(one) & touched(other):
                yield good, [one, other]


def far_numbers():
    """Good scans with one number far beyond its limits."""
    for good in (RADOLAN_SCAN, HRAP_SCAN):
        for change in far_changes(good):
            yield good, [change]


def far_pairs():
    """Good scans with two such numbers, or one and a wrong list, that are refused with different numbers."""
    for good in (RADOLAN_SCAN, HRAP_SCAN):
        for one, other in combinations([*far_changes(good), *WRONG_LISTS], 2):
            if one.number != other.number:
                yield good, [one, other]


def together(draw):
    """Good scans with one change for every number of a set, for every set of three to eight numbers."""
    for good, changes in changes_of_each():
        for size in range(3, 9):
            for numbers in combinations(range(1, 9), size):
                yield good, draw_apart(draw, [[change for change in changes if change.number == n] for n in numbers])


def draw_apart(draw, options):
    """One change of every option, such that no two of them touch the same thing."""
    while True:
        chosen = [draw.choice(option) for option in options]
        if all(not touched(one) & touched(other) for one, other in combinations(chosen, 2)):
            return chosen
