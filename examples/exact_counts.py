"""Reads a scan record from standard input, and prints how far gates near lines leave the count of each cell open.

    python3 examples/exact_counts.py < examples/crossing.scan

prints column, row and count of a cell, then the least and the greatest count that exact positions could give. The least are
the measured gates of the cell without a mark. The greatest are these and all marked measured gates whose column and row each
differ from the cell's by no more than one, also those outside the grid. Cells whose greatest count is 0 are left out.

    python3 examples/exact_counts.py COLUMN ROW < examples/crossing.scan

prints these marked gates of one cell: ray and gate, x and y, and their own column and row, which the grid may not have.
"""
import sys
from pathlib import Path
from typing import NamedTuple

sys.path.insert(0, str(Path(__file__).resolve().parent.parent / "bindings" / "python"))

import uldrevin  # noqa: E402

USAGE = "usage: exact_counts.py [COLUMN ROW] < RECORD"


class Counts(NamedTuple):
    """The count of a cell, and the least and the greatest that exact positions could give."""

    count: int
    least: int
    greatest: int


class MarkedGate(NamedTuple):
    """A gate near a line: where it is in the scan, its position, and the column and row of that, which the grid may not have."""

    ray: int
    gate: int
    x: int
    y: int
    column: int
    row: int


def measured(scan):
    """Whether each gate is measured. Values come flat or as a list of rays, as tally takes them."""
    values = uldrevin.flat(scan.values) if hasattr(scan.values, "tolist") else scan.values
    rays = values if hasattr(values[0], "__len__") else [values]
    return [value != uldrevin.NOT_MEASURED for ray in rays for value in ray]


def corner_and_side(grid):
    """X and y of the grid's south-west corner, and the side of a cell."""
    if isinstance(grid, uldrevin.Hrap):
        return (grid.i - 401) * 476_250, (grid.j - 1_601) * 476_250, 476_250
    return grid.x, grid.y, grid.side


def tally_of(scan):
    """The tally of a uldrevin.Scan, whose weighting plays no part."""
    return uldrevin.tally(*scan[:2], *scan[3:])


def marked_measured(scan, tally):
    """The marked measured gates."""
    corner_x, corner_y, side = corner_and_side(scan.grid)
    marks = uldrevin.flat(tally.marks)
    for number, (mark, is_measured) in enumerate(zip(marks, measured(scan))):
        if mark == 1 and is_measured:
            ray, gate = divmod(number, len(marks) // len(scan.azimuths))
            x, y, *_ = uldrevin.place(scan.site, scan.grid, scan.azimuths[ray], scan.first + gate * scan.spacing)
            # // goes towards minus infinity, so that west and south of the grid numbers are negative.
            yield MarkedGate(ray, gate, x, y, (x - corner_x) // side, (y - corner_y) // side)


def cells_near(grid, gate):
    """The cells of the grid whose column and row each differ from the gate's by no more than one."""
    for row in range(max(0, gate.row - 1), min(grid.rows, gate.row + 2)):
        for column in range(max(0, gate.column - 1), min(grid.columns, gate.column + 2)):
            yield row * grid.columns + column


def cell_counts(scan):
    """The Counts of each cell of a uldrevin.Scan, row by row from the south-west."""
    tally = tally_of(scan)
    counts = uldrevin.flat(tally.sums.counts)
    least, open_to = [0] * len(counts), [0] * len(counts)
    for cell, mark, is_measured in zip(uldrevin.flat(tally.ledger), uldrevin.flat(tally.marks), measured(scan)):
        if cell != uldrevin.OUTSIDE and mark == 0 and is_measured:
            least[cell] += 1
    for gate in marked_measured(scan, tally):
        for cell in cells_near(scan.grid, gate):
            open_to[cell] += 1
    return [Counts(count, fewest, fewest + more) for count, fewest, more in zip(counts, least, open_to)]


def print_counts(scan):
    print("column row count least greatest")
    for cell, counts in enumerate(cell_counts(scan)):
        if counts.greatest != 0:
            print(cell % scan.grid.columns, cell // scan.grid.columns, *counts)


def print_gates(scan, cell):
    """The marked measured gates that leave the count of a cell open."""
    print("ray gate x y column row")
    for gate in marked_measured(scan, tally_of(scan)):
        if cell in cells_near(scan.grid, gate):
            print(*gate)


def main():
    try:
        column, row = map(int, sys.argv[1:]) if sys.argv[1:] else (None, None)
    except ValueError:
        print(USAGE, file=sys.stderr)
        return 2
    try:
        scan = uldrevin.read_record(sys.stdin.buffer.read())
    except uldrevin.Refusal as refusal:
        print("refused", refusal.number)
        return 1
    columns, rows = scan.grid.columns, scan.grid.rows
    if column is None:
        print_counts(scan)
    elif 0 <= column < columns and 0 <= row < rows:
        print_gates(scan, row * columns + column)
    else:
        print(f"the grid of {columns} columns and {rows} rows has no cell at column {column}, row {row}", file=sys.stderr)
        return 1
    return 0


if __name__ == "__main__":
    sys.exit(main())
