"""The plain sheet and the quality sheet of one scan, from one tally, and a cell in which they differ, with its gates.

    python3 examples/two_sheets.py

The scan is the storm of storm.py, on a window of 7 by 9 HRAP cells at the edge of its ridge, behind which gates have two fifths of their
quality. It prints the means of both sheets, south at the bottom, with a * behind those that differ; then of the cell with the greatest
difference, the first such, its gates, its four sums, and both means as divisions, which are never rounded upwards.
"""
from storm import GATES, flat, storm  # which puts the module for Python on the path

import uldrevin
from uldrevin import BY_QUALITY, NO_MEAN, PLAIN

FIRST_COLUMN, FIRST_ROW = 52, 66  # in the storm's own window
COLUMNS, ROWS = 7, 9
GATES_IN_LINE = 4


def scan_on_window():
    scan = storm()
    return scan._replace(grid=uldrevin.Hrap(scan.grid.i + FIRST_COLUMN, scan.grid.j + FIRST_ROW, COLUMNS, ROWS))


def differences(plain, by_quality):
    """How far the two means of each cell are apart."""
    return [abs(one - other) for one, other in zip(plain, by_quality)]


# The two maps.


def mean_text(mean, apart):
    return f"{'-' if mean == NO_MEAN else mean:>5}{'*' if apart else ' '}"


def map_lines(plain, by_quality):
    """Both sheets side by side, a line a row, the northernmost first."""
    apart, width = differences(plain, by_quality), 6 * COLUMNS
    yield f"row  {'plain sheet':^{width}}   {'quality sheet':^{width}}".rstrip()
    for row in reversed(range(ROWS)):
        cells = range(row * COLUMNS, (row + 1) * COLUMNS)
        sheets = ("".join(mean_text(means[cell], apart[cell]) for cell in cells) for means in (plain, by_quality))
        yield f"{row:>3}  {'   '.join(sheets)}".rstrip()
    numbers = "".join(f"{column:>5} " for column in range(COLUMNS))
    yield f"col  {numbers}   {numbers}".rstrip()


# One cell.


def gate_text(scan, place):
    """Ray, gate, value and quality of a gate."""
    return f"{place // GATES:>3} {place % GATES:>4} {scan.values[place]:>5} {scan.qualities[place]:>7}"


def gate_lines(scan, places):
    """Some gates in each line."""
    heading = "ray gate value quality"
    yield "   ".join([heading] * min(GATES_IN_LINE, len(places)))
    for start in range(0, len(places), GATES_IN_LINE):
        yield "   ".join(gate_text(scan, place) for place in places[start : start + GATES_IN_LINE])


def division(words, dividend, divisor, mean):
    return f"{words} {dividend:,} / {divisor:,} = {mean:,}"


def cell_lines(scan, tally, cell, plain, by_quality):
    """The gates of a cell, its sums, and how its two means come from them."""
    places = [place for place, entry in enumerate(flat(tally.ledger)) if entry == cell]
    count, quality_sum, value_sum, weighted_sum = (flat(sums)[cell] for sums in tally.sums)
    yield f"Column {cell % COLUMNS}, row {cell // COLUMNS}, cell {cell}, has the greatest difference. Its gates:"
    yield from gate_lines(scan, places)
    yield f"count {count:,}, quality sum {quality_sum:,}, value sum {value_sum:,}, sum of value x quality {weighted_sum:,}"
    yield division("plain", value_sum, count, plain[cell])
    yield division("by quality", weighted_sum, quality_sum, by_quality[cell])


def main():
    scan = scan_on_window()
    tally = uldrevin.tally(scan.site, scan.grid, scan.first, scan.spacing, scan.azimuths, scan.values, scan.qualities)
    plain, by_quality = (flat(uldrevin.publish(weighting, *tally.sums).means) for weighting in (PLAIN, BY_QUALITY))
    apart = differences(plain, by_quality)
    print("One tally, published twice: mean rain in hundredths of a millimetre an hour, south at the bottom")
    print("\n".join(map_lines(plain, by_quality)))
    print(f"{sum(map(bool, apart))} of {len(apart)} cells differ (*)")
    print("\n".join(cell_lines(scan, tally, apart.index(max(apart)), plain, by_quality)))


if __name__ == "__main__":
    main()
