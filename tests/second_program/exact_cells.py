"""T-10's exact cells: the cell that a gate has by its exact position, and how far marked gates leave a cell's count open.

It is written from document 01, T-02 and T-10 alone and shares nothing with the library.
"""
from collections import Counter
from functools import lru_cache
from typing import NamedTuple

from second_program import placement, scan as rules
from second_program.scan import NOT_MEASURED, centre

KEPT = 4_000  # exact positions; a gate may be asked for on several grids

exact_position = lru_cache(maxsize=KEPT)(placement.exact_position)


# One gate. Column, row and span go by the rule for any position; of fractions too // is the floor.


def exact_column_and_row(latitude, longitude, grid, azimuth, range):
    return placement.column_and_row(grid, *exact_position(latitude, longitude, grid.sphere, azimuth, range))


def exact_cell(latitude, longitude, grid, azimuth, range):
    """The cell's number, or OUTSIDE."""
    return placement.cell(grid, *exact_position(latitude, longitude, grid.sphere, azimuth, range))


# A scan, or the rays of it that are there so far.


def exact_ledger(scan):
    """The exact cell of each gate, measured or not."""
    return [
        exact_cell(scan.latitude, scan.longitude, scan.grid, azimuth, centre(scan, gate))
        for azimuth in scan.azimuths
        for gate in range(scan.gates)
    ]


def exact_counts(scan):
    """For each cell, the measured gates in it by exact positions."""
    return rules.sums_of(scan, exact_ledger(scan)).counts


class MarkedGate(NamedTuple):
    """A gate with a mark: its number, and its column and row by the computed position, in the grid or beyond it."""

    number: int
    column: int
    row: int

    def near(self, column, row):
        """Whether its column and row each differ from these by no more than one."""
        return abs(self.column - column) <= 1 and abs(self.row - row) <= 1


def marked_measured(scan, marks, places):
    """The marked measured gates, by the marks and the computed positions of all gates."""
    return [
        MarkedGate(number, *placement.column_and_row(scan.grid, *place))
        for number, (value, mark, place) in enumerate(zip(scan.values, marks, places))
        if mark == 1 and value != NOT_MEASURED
    ]


def unmarked_counts(scan, ledger, marks):
    """For each cell, the unmarked measured gates in it by the ledger."""
    found = Counter(entry for entry, mark, value in zip(ledger, marks, scan.values) if mark == 0 and value != NOT_MEASURED)
    return [found[cell] for cell in range(scan.grid.columns * scan.grid.rows)]


def least_and_greatest(scan, ledger, marks, places):
    """For each cell, the least and the greatest count that exact positions could give."""
    marked = marked_measured(scan, marks, places)
    bounds = []
    for cell, least in enumerate(unmarked_counts(scan, ledger, marks)):
        row, column = divmod(cell, scan.grid.columns)
        bounds.append((least, least + sum(gate.near(column, row) for gate in marked)))
    return bounds
