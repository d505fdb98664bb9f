"""What the programs sheet, ledger and gate print, as bytes.

The sheet is written from document 01 and T-05 alone, the other two from the README. Nothing is shared with the library.
"""
import re

from second_program import placement, record, scan as rules
from second_program.placement import OUTSIDE, Hrap, Radolan
from second_program.scan import NOT_MEASURED

MOST_BYTES = 16_384
MOST_GATES = 4_096
MOST_CELLS = 1_024
TOO_LARGE = b"too large\n"

HEADING = "ray gate azimuth range value quality x y column row mark".split()
USAGE = b"usage: gate latitude longitude azimuth range (hrap i j | radolan x y side) columns rows\n"

# An optional sign and 1 to 18 digits.
NUMBER = re.compile(rb"-?[0-9]{1,18}")
GRIDS = {b"hrap": Hrap, b"radolan": Radolan}


def lines(rows):
    """Each row is a line of words with one space between."""
    return "".join(" ".join(map(str, row)) + "\n" for row in rows).encode()


def refused(number):
    return lines([("refused", number)])


# The sheet.


def sheet_text(data):
    """What the sheet program prints of any bytes."""
    if len(data) > MOST_BYTES:
        return TOO_LARGE
    answer = record.read_scan(data)
    if isinstance(answer, int):
        return refused(answer)
    scan, _ = answer
    if scan.rays * scan.gates > MOST_GATES or scan.grid.columns * scan.grid.rows > MOST_CELLS:
        return TOO_LARGE
    return lines(sheet_rows(scan))


def sheet_rows(scan):
    lists = rules.tally(scan, rules.lent_lengths(scan)).lists
    cells = rules.publish(scan.by_quality, lists.sums, rules.Cells(len(lists.counts), len(lists.counts)))
    measured_inside = [
        entry != OUTSIDE and value != NOT_MEASURED for entry, value in zip(lists.ledger, scan.values)
    ]
    yield "grid", scan.grid.columns, scan.grid.rows
    yield "gates", scan.rays * scan.gates, "placed", sum(measured_inside)
    for cell, count in enumerate(lists.counts):
        if count != 0:
            row, column = divmod(cell, scan.grid.columns)
            yield column, row, cells.means[cell], cells.cell_qualities[cell], count


# The ledger.


def ledger_text(data):
    """What the ledger program prints of any bytes."""
    answer = record.read_scan(data)
    if isinstance(answer, int):
        return refused(answer)
    scan, _ = answer
    return lines(ledger_rows(scan))


def ledger_rows(scan):
    yield HEADING
    for number, (value, quality) in enumerate(zip(scan.values, scan.qualities)):
        ray, gate = divmod(number, scan.gates)
        azimuth, distance = scan.azimuths[ray], rules.centre(scan, gate)
        placed = placement.place(scan.latitude, scan.longitude, scan.grid, azimuth, distance)
        words = place_words(scan.grid, placed.cell)
        yield ray, gate, azimuth, distance, value, quality, placed.x, placed.y, *words, placed.mark


def place_words(grid, cell):
    """Column and row, or one word."""
    if cell == OUTSIDE:
        return ("outside",)
    row, column = divmod(cell, grid.columns)
    return column, row


# The single gate.


def gate_text(words):
    """What the gate program prints for any words, each of them bytes."""
    gate = gate_of(words)
    if gate is None:
        return USAGE
    latitude, longitude, azimuth, distance, grid = gate
    placed = placement.place(latitude, longitude, grid, azimuth, distance)
    if placed.refusal != 0:
        return refused(placed.refusal)
    if placed.cell == OUTSIDE:
        return lines([("outside", placed.x, placed.y, placed.mark)])
    return lines([("inside", placed.x, placed.y, *place_words(grid, placed.cell), placed.cell, placed.mark)])


def gate_of(words):
    """Latitude, longitude, azimuth, range and grid, or nothing where the words are no such numbers."""
    kind = GRIDS.get(words[4]) if len(words) > 4 else None
    if kind is None or len(words) != 5 + len(kind._fields):
        return None
    numbers = [*words[:4], *words[5:]]
    if not all(NUMBER.fullmatch(word) for word in numbers):
        return None
    latitude, longitude, azimuth, distance, *of_grid = map(int, numbers)
    return latitude, longitude, azimuth, distance, kind(*of_grid)
