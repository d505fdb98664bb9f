"""Reads a scan record from standard input, and prints its sheet and its ledger with the marks.

    python3 examples/first_grid.py < examples/hrap.scan
"""
import sys
from pathlib import Path

sys.path.insert(0, str(Path(__file__).resolve().parent.parent / "bindings" / "python"))

import uldrevin  # noqa: E402


def print_sheet(grid, gates, counts, cells):
    counts, means, qualities = map(uldrevin.flat, (counts, *cells))
    print("grid", grid.columns, grid.rows)
    print("gates", gates, "placed", sum(counts))
    for cell, count in enumerate(counts):
        if count != 0:
            print(cell % grid.columns, cell // grid.columns, means[cell], qualities[cell], count)


def print_ledger(gates_in_ray, ledger, marks):
    print("ledger")
    for gate, (cell, mark) in enumerate(zip(ledger, marks)):
        print(gate // gates_in_ray, gate % gates_in_ray, "outside" if cell == uldrevin.OUTSIDE else cell, mark)


def main():
    try:
        scan = uldrevin.read_record(sys.stdin.buffer.read())
    except uldrevin.Refusal as refusal:
        print("refused", refusal.number)
        return 1
    tally = uldrevin.tally(scan.site, scan.grid, scan.first, scan.spacing, scan.azimuths, scan.values, scan.qualities)
    cells = uldrevin.publish(scan.weighting, *tally.sums)
    ledger, marks = uldrevin.flat(tally.ledger), uldrevin.flat(tally.marks)
    print_sheet(scan.grid, len(ledger), tally.sums.counts, cells)
    print_ledger(len(ledger) // len(scan.azimuths), ledger, marks)
    return 0


if __name__ == "__main__":
    sys.exit(main())
