"""T-01's sweep, a scan that is fed ray by ray: opening, taking rays and closing; with T-02's marks and T-05's sums.

It is written from T-01, T-02, T-05 and document 01 alone and shares nothing with the library.
The state is handed over and handed back by value. Each operation answers with the new state and the lists that it has
written, or with the refusal number.
"""
from typing import NamedTuple

from second_program import record, scan as rules
from second_program.placement import Hrap, OtherKind, Radolan
from second_program.scan import Scan, Sums

LARGEST = 2**32 - 1


class Sweep(NamedTuple):
    """The state. The scan's rays are those announced, and its lists are empty."""

    scan: Scan
    taken: int
    closed: bool


# The greatest number of each width: counts and quality sums have 32 bits, both value sums 64.
WIDEST = Sums(2**32 - 1, 2**32 - 1, 2**64 - 1, 2**64 - 1)


# The state as numbers.


def counted(number):
    """A number that 32 bits without a sign cannot hold counts as the largest that they can."""
    return number if 0 <= number <= LARGEST else LARGEST


def grid_of(kind, x, y, side, columns, rows):
    side, columns, rows = map(counted, (side, columns, rows))
    if kind == Radolan.kind:
        return Radolan(x, y, side, columns, rows)
    if kind == Hrap.kind:
        return Hrap(x, y, columns, rows)
    return OtherKind(kind, x, y, side, columns, rows)


def scan_of(numbers):
    """The scan of thirteen numbers in the order of a record's head."""
    latitude, longitude, rays, gates, first, spacing, *grid, weighting = numbers
    counts = map(counted, (rays, gates, first, spacing))
    return Scan(*counts, latitude, longitude, grid_of(*grid), weighting != 0, [], [], [])


def sweep_of(numbers):
    """The state of fifteen numbers, which may have been altered."""
    *head, taken, closed = numbers
    return Sweep(scan_of(head), counted(taken), closed != 0)


def numbers_of(sweep):
    """The fifteen numbers of a state that is written."""
    return [*record.head_of(sweep.scan).values(), sweep.taken, int(sweep.closed)]


# The operations.


def cells_of(scan):
    return scan.grid.columns * scan.grid.rows


def open_sweep(scan, lengths):
    """The new state and the sums, where the lists of sums have these lengths. The scan's own lists play no part."""
    scan = scan._replace(azimuths=[], values=[], qualities=[])
    cells = cells_of(scan)
    wrong = rules.wrong_numbers_where(scan, all(length == cells for length in lengths))
    if wrong:
        return min(wrong)
    return Sweep(scan, 0, False), Sums([0] * cells, [0] * cells, [0] * cells, [0] * cells)


def take(sweep, rays, ledger, marks, sums):
    """The new state, ledger, marks and sums, once these rays are taken: an object with azimuths, values and qualities."""
    if sweep.closed:
        return 19
    if sweep.taken + len(rays.azimuths) > sweep.scan.rays:
        return 17
    group = sweep.scan._replace(azimuths=rays.azimuths, values=rays.values, qualities=rays.qualities)
    wrong = rules.wrong_numbers_where(group, group_exact(group, ledger, marks, sums))
    if wrong:
        return min(wrong)
    places = rules.positions(group)
    entries = rules.ledger(group.grid, places)
    grown = Sums(*map(added, sums, rules.sums_of(group, entries)))
    if any(total > widest for totals, widest in zip(grown, WIDEST) for total in totals):
        return 31
    start = sweep.taken * group.gates
    ledger = written_from(start, ledger, entries)
    marks = written_from(start, marks, rules.marks(group.grid, places))
    return sweep._replace(taken=sweep.taken + len(rays.azimuths)), ledger, marks, grown


def written_from(start, held, numbers):
    """What a list holds once these numbers are written from this place on."""
    return [*held[:start], *numbers, *held[start + len(numbers) :]]


def group_exact(group, ledger, marks, sums):
    """Whether there is a ray and each list has its length; ledger and marks are those of all rays announced."""
    rays = len(group.azimuths)
    return (
        rays >= 1
        and len(group.values) == len(group.qualities) == rays * group.gates
        and len(ledger) == len(marks) == group.rays * group.gates
        and all(len(held) == cells_of(group) for held in sums)
    )


def added(held, shares):
    return [one + other for one, other in zip(held, shares)]


def close(sweep, sums, lengths):
    """The new state, and means and cell qualities in its weighting, where the two lists to be written have these lengths."""
    if sweep.closed:
        return 19
    if sweep.taken > sweep.scan.rays:
        return 17
    wrong = rules.wrong_numbers_where(sweep.scan, True)
    if wrong:
        return min(wrong)
    if sweep.taken < sweep.scan.rays:
        return 18
    if any(length != cells_of(sweep.scan) for length in (*map(len, sums), *lengths)):
        return 6
    return sweep._replace(closed=True), *rules.publish(sweep.scan.by_quality, sums, lengths)
