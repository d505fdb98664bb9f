"""Document 01's whole scan: the refusals, the ledger, the sums and the cells; T-02's marks; T-05's tally and its publishing.

It is written from document 01, T-01's rule for altered sums, T-02 and T-05 alone and shares nothing with the library.
The position follows the same rule as that of one gate in placement.py. Here it is spelled out in whole numbers, so that what
the site decides is worked once a scan, what the azimuth decides once a ray, and what the range decides once a gate number.
"""
from typing import Any, NamedTuple, Sequence

from second_program import placement
from second_program.placement import FLOORED, NEAR, OUTSIDE, Grid

NO_ECHO = 65_534  # measured, counts as 0
NOT_MEASURED = 65_535
NO_MEAN = 65_535
GREATEST_MEAN = 65_533
GREATEST_QUALITY = 100


class Scan(NamedTuple):
    rays: int
    gates: int
    first: int
    spacing: int
    latitude: int
    longitude: int
    grid: Grid
    by_quality: bool
    azimuths: Sequence[int]
    values: Sequence[int]
    qualities: Sequence[int]


class Sums(NamedTuple):
    """Something for each of the lists of sums, a number a cell: its length, or what it holds."""

    counts: Any
    quality_sums: Any
    value_sums: Any  # of the values
    weighted_sums: Any  # of value x quality


class Lent(NamedTuple):
    """The same for each of the lists that a tally writes."""

    ledger: Any
    marks: Any
    counts: Any
    quality_sums: Any
    value_sums: Any
    weighted_sums: Any

    @property
    def sums(self):
        return Sums(*self[2:])


class Cells(NamedTuple):
    """The same for each of the lists that are published."""

    means: Any
    cell_qualities: Any


class Tallied(NamedTuple):
    """The answer for a scan. After a refusal there are no lists: the lent ones stay as they came in."""

    refusal: int
    lists: Lent | None


def centre(scan, gate):
    return scan.first + gate * scan.spacing


def lent_lengths(scan):
    """The exact lengths of the lists that a tally writes."""
    gates, cells = scan.rays * scan.gates, scan.grid.columns * scan.grid.rows
    return Lent(gates, gates, cells, cells, cells, cells)


# Refusals.


def given_lengths(scan):
    """The exact lengths of the lists that are given."""
    return scan.rays, scan.rays * scan.gates, scan.rays * scan.gates


def given_exact(scan):
    return (len(scan.azimuths), len(scan.values), len(scan.qualities)) == given_lengths(scan)


def wrong_numbers_where(scan, exact):
    """All refusal numbers that apply, where the lengths of the lists are exact or not."""
    right = {
        1: 1 <= scan.rays <= 720,
        2: 1 <= scan.gates <= 1_000,
        3: 0 <= scan.first <= 46_000_000
        and 1 <= scan.spacing <= 1_000_000
        and centre(scan, scan.gates - 1) <= 46_000_000,
        4: 200_000 <= scan.latitude <= 750_000 and -1_800_000 <= scan.longitude <= 1_800_000,
        5: scan.grid.allowed(),
        6: exact,
        7: all(0 <= azimuth <= 3_599_999 for azimuth in scan.azimuths),
        8: all(0 <= quality <= 100 for quality in scan.qualities),
    }
    return [number for number in right if not right[number]]


def wrong_numbers(scan, lengths):
    """All refusal numbers that apply, where the lists to be written have these lengths."""
    return wrong_numbers_where(scan, given_exact(scan) and lengths == lent_lengths(scan))


def refusal(scan, lengths):
    """The lowest refusal number that applies, 0 where none does."""
    return min(wrong_numbers(scan, lengths), default=0)


# Ledger, marks and sums.


def positions(scan):
    """X and Y of each gate."""
    sphere = scan.grid.sphere
    q, k = FLOORED.q, sphere.k
    sp, cp = FLOORED.sine(scan.latitude), FLOORED.cosine(scan.latitude)
    sl, cl = FLOORED.sine(scan.longitude - sphere.meridian), FLOORED.cosine(scan.longitude - sphere.meridian)
    arcs = [placement.arc(centre(scan, gate), sphere.radius, FLOORED) for gate in range(scan.gates)]
    places = []
    for azimuth in scan.azimuths:
        sa, ca = FLOORED.sine(azimuth), FLOORED.cosine(azimuth)
        for sd, cd in arcs:
            # // goes towards minus infinity.
            w = sd * ca // q
            e = sd * sa // q
            n = (sp * cd + cp * w) // q
            m = (cp * cd - sp * w) // q
            u = (e * cl + m * sl) // q
            v = (m * cl - e * sl) // q
            x = k * u // (q + n)
            y = -k * v // (q + n)
            places.append((x, y))
    return places


def ledger(grid, places):
    """The entry of each position."""
    corner_x, corner_y = grid.corner
    side, columns, rows = grid.side, grid.columns, grid.rows
    entries = []
    for x, y in places:
        column = (x - corner_x) // side
        row = (y - corner_y) // side
        inside = 0 <= column < columns and 0 <= row < rows
        entries.append(row * columns + column if inside else OUTSIDE)
    return entries


def marks(grid, places):
    """The mark of each position."""
    corner_x, corner_y = grid.corner
    side, last = grid.side, grid.side - NEAR
    found = []
    for x, y in places:
        # % is never negative.
        east, north = (x - corner_x) % side, (y - corner_y) % side
        found.append(int(east < NEAR or east >= last or north < NEAR or north >= last))
    return found


def counted(value):
    """What a measured gate counts."""
    return 0 if value == NO_ECHO else value


def sums_of(scan, entries):
    """The sums of the cells. The weighting plays no part."""
    cells = scan.grid.columns * scan.grid.rows
    sums = Sums([0] * cells, [0] * cells, [0] * cells, [0] * cells)
    for entry, value, quality in zip(entries, scan.values, scan.qualities):
        if entry == OUTSIDE or value == NOT_MEASURED:
            continue
        sums.counts[entry] += 1
        sums.quality_sums[entry] += quality
        sums.value_sums[entry] += counted(value)
        sums.weighted_sums[entry] += counted(value) * quality
    return sums


def tally(scan, lengths):
    """The answer, where the lists to be written have these lengths."""
    number = refusal(scan, lengths)
    if number != 0:
        return Tallied(number, None)
    places = positions(scan)
    entries = ledger(scan.grid, places)
    return Tallied(0, Lent(entries, marks(scan.grid, places), *sums_of(scan, entries)))


# Publishing.


def quotient(total, divisor, without):
    """The floor of the quotient, or what stands there without a divisor."""
    return total // divisor if divisor != 0 else without


def publish(by_quality, sums, lengths):
    """Means and cell qualities of any sums, where the two lists to be written have these lengths; 6 unless all lists are equally long."""
    if len({*map(len, sums), *lengths}) != 1:
        return 6
    totals, divisors = (sums.weighted_sums, sums.quality_sums) if by_quality else (sums.value_sums, sums.counts)
    means = [quotient(total, divisor, NO_MEAN) for total, divisor in zip(totals, divisors)]
    qualities = [quotient(total, count, 0) for total, count in zip(sums.quality_sums, sums.counts)]
    return Cells(
        [mean if mean <= GREATEST_MEAN else NO_MEAN for mean in means],
        [min(quality, GREATEST_QUALITY) for quality in qualities],
    )


# Document 01's cells, worked from the gates themselves and not from lists of sums.


class Contributor(NamedTuple):
    value: int
    quality: int


def contributors(scan, entries):
    """The measured gates of each cell that has any, by the cell's number."""
    cells = {}
    for entry, value, quality in zip(entries, scan.values, scan.qualities):
        if entry != OUTSIDE and value != NOT_MEASURED:
            cells.setdefault(entry, []).append(Contributor(counted(value), quality))
    return cells


def mean_of(by_quality, gates):
    """Document 01's mean of the measured gates of a cell."""
    if by_quality:
        return quotient(sum(gate.value * gate.quality for gate in gates), sum(gate.quality for gate in gates), NO_MEAN)
    return quotient(sum(gate.value for gate in gates), len(gates), NO_MEAN)


def quality_of(gates):
    return quotient(sum(gate.quality for gate in gates), len(gates), 0)


def contributing_values(by_quality, gates):
    """Those between which a mean lies; gates of quality 0 are left out by quality."""
    return [gate.value for gate in gates if not by_quality or gate.quality != 0]
