"""Runs of examples/exact_counts.py: the words and the record that it is given, and what it has to print by the second program."""
from itertools import islice, product
from pathlib import Path
from random import Random
from typing import NamedTuple

import near_lines
from good_scans import SHEET
from second_program import exact_cells, programs, record, scan as rules

EXAMPLES = Path(__file__).resolve().parent.parent / "examples"
RECORDS = ("hrap.scan", "radolan.scan", "crossing.scan")

CELLS_HEADING = "column row count least greatest".split()
GATES_HEADING = "ray gate x y column row".split()
USAGE = b"usage: exact_counts.py [COLUMN ROW] < RECORD\n"
MOST_BYTES = 20_000  # of a record that is written here
BAD_WORDS = (["1"], ["1", "2", "3"], ["a", "b"], ["1", "b"], ["", "0"], ["1.0", "0"], ["--help"])

# What is run: the example itself, or code that imports it.
ITSELF = f"import runpy; runpy.run_path({str(EXAMPLES / 'exact_counts.py')!r}, run_name='__main__')"
IMPORTED = f"import io, sys; sys.path.insert(0, {str(EXAMPLES)!r}); import exact_counts, uldrevin"

# One run for all cells. It is given the grid's columns and rows.
EVERY_CELL = f"""{IMPORTED}
data, (columns, rows) = sys.stdin.buffer.read(), map(int, sys.argv[1:])
for cell in range(columns * rows):
    sys.argv[1:] = str(cell % columns), str(cell // columns)
    sys.stdin = io.TextIOWrapper(io.BytesIO(data))
    print("status", exact_counts.main())
"""

# The counts of a scan whose lists are as they come back, plain, and lists of rays.
EVERY_LIST = f"""{IMPORTED}
scan = uldrevin.read_record(sys.stdin.buffer.read())
plain = scan._replace(**{{name: uldrevin.flat(getattr(scan, name)) for name in ("azimuths", "values", "qualities")}})
gates = len(plain.values) // len(plain.azimuths)
rays = [slice(start, start + gates) for start in range(0, len(plain.values), gates)]
by_ray = plain._replace(values=[plain.values[ray] for ray in rays], qualities=[plain.qualities[ray] for ray in rays])
for one in (scan, plain, by_ray):
    print(*(number for counts in exact_counts.cell_counts(one) for number in counts))
"""


class Run(NamedTuple):
    code: str
    words: list
    data: bytes  # its standard input
    output: bytes
    errors: bytes
    status: int


def example_records():
    """The bytes and the scan of each example record."""
    for name in RECORDS:
        data = (EXAMPLES / name).read_bytes()
        scan, _ = record.read_scan(data)
        yield data, scan


# What is expected.


def cell_rows(scan):
    """Column, row, count, least and greatest of each cell."""
    lists = rules.tally(scan, rules.lent_lengths(scan)).lists
    bounds = exact_cells.least_and_greatest(scan, lists.ledger, lists.marks, rules.positions(scan))
    for cell, (count, (least, greatest)) in enumerate(zip(lists.counts, bounds)):
        row, column = divmod(cell, scan.grid.columns)
        yield column, row, count, least, greatest


def gate_rows(scan, column, row):
    """Ray, gate, position, column and row of each marked measured gate that leaves the count of a cell open."""
    places = rules.positions(scan)
    for gate in exact_cells.marked_measured(scan, rules.marks(scan.grid, places), places):
        if gate.near(column, row):
            yield *divmod(gate.number, scan.gates), *places[gate.number], gate.column, gate.row


def cells_text(scan):
    return programs.lines([CELLS_HEADING, *(row for row in cell_rows(scan) if row[-1] != 0)])


def gates_text(scan, column, row):
    return programs.lines([GATES_HEADING, *gate_rows(scan, column, row)])


# The runs.


def whole_runs(data, scan):
    """The cells of a record, and the gates of each."""
    columns, rows = scan.grid.columns, scan.grid.rows
    yield Run(ITSELF, [], data, cells_text(scan), b"", 0)
    texts = [gates_text(scan, column, row) + b"status 0\n" for row, column in product(range(rows), range(columns))]
    yield Run(EVERY_CELL, [str(columns), str(rows)], data, b"".join(texts), b"", 0)


def single_runs(data, scan):
    """The gates of the last cell alone, and the counts from every form of lists."""
    column, row = scan.grid.columns - 1, scan.grid.rows - 1
    yield Run(ITSELF, [str(column), str(row)], data, gates_text(scan, column, row), b"", 0)
    numbers = [number for _, _, *counts in cell_rows(scan) for number in counts]
    yield Run(EVERY_LIST, [], data, programs.lines([numbers] * 3), b"", 0)


def refused_runs(data):
    """Records that are cut, lengthened or have a quality of 101."""
    for wrong in (data[:-1], b"", data + b"\0", data[:-1] + bytes([101])):
        yield Run(ITSELF, [], wrong, programs.refused(record.read_scan(wrong)), b"", 1)
    yield Run(ITSELF, ["0", "0"], data[:-1], programs.refused(11), b"", 1)


def bad_words_runs(data, scan):
    """Cells that the grid has not, and other words."""
    columns, rows = scan.grid.columns, scan.grid.rows
    for column, row in ((columns, 0), (0, rows), (-1, 0), (0, -1)):
        told = f"the grid of {columns} columns and {rows} rows has no cell at column {column}, row {row}\n"
        yield Run(ITSELF, [str(column), str(row)], data, b"", told.encode(), 1)
    for words in BAD_WORDS:
        yield Run(ITSELF, words, data, b"", USAGE, 2)


def marked_scans():
    """Document 01's sheet, and scans of both kinds of grid whose gates are about crossings of lines, outside the grid too."""
    yield SHEET
    yield from islice(near_lines.scans_about_crossings(Random(near_lines.SEED)), 0, None, 55)


def runs():
    for data, scan in example_records():
        yield from whole_runs(data, scan)
        yield from single_runs(data, scan)
        yield from refused_runs(data)
    yield from bad_words_runs(data, scan)
    for scan in marked_scans():
        yield from whole_runs(record.write_record(scan, MOST_BYTES), scan)


def shown_in_readme():
    """The commands of examples/README.md, each with the lines that stand below it."""
    scan, _ = record.read_scan((EXAMPLES / "crossing.scan").read_bytes())
    command = "python3 examples/exact_counts.py"
    yield f"{command} < examples/crossing.scan | sed -n 1,4p", cells_text(scan).decode().splitlines()[:4]
    yield f"{command} 1 4 < examples/crossing.scan", gates_text(scan, 1, 4).decode().splitlines()
