"""T-10 through the compiled library: its cells, marks and counts beside exact ones, in the second program's fractions."""
import random
from collections import Counter
from itertools import product
from typing import NamedTuple

import compare_placement
import compare_scan
import library
import near_lines
from compare_scan import ONE_GATE, RADOLAN_GATE, described
from exact_counts_runs import example_records
from good_scans import SHEET
from good_sweeps import KINDS, any_division
from lent_lists import within_margins
from near_lines import SEED
from second_program import exact_cells, placement, scan as rules
from second_program.placement import OUTSIDE, Hrap, Radolan
from second_program.scan import NO_ECHO, NOT_MEASURED
from sweep_calls import Desk, beside_meant, exact_lengths, rays_of

# Single gates.

FEWEST = 5_000  # marked gates, by their positions, and unmarked ones on all grids
INWARDS, OUTWARDS = "outside and exactly inside", "inside and exactly outside"
# How far the exact column and row of a gate may lie from the computed ones.
STEPS = tuple(product((-1, 0, 1), repeat=2))
WANTED_GATES = {*STEPS, *product((kind.__name__ for kind in KINDS), (INWARDS, OUTWARDS))}


def place_of(gate):
    """What a gate's position is from."""
    return gate.latitude, gate.longitude, gate.grid.sphere, gate.azimuth, gate.range


def in_cell(gate, column, row):
    """Whether the exact position is on the west and south line of this column and row, or beyond it by less than the side."""
    (x, y), (corner_x, corner_y), side = exact_cells.exact_position(*place_of(gate)), gate.grid.corner, gate.grid.side
    return 0 <= x - corner_x - column * side < side and 0 <= y - corner_y - row * side < side


def gate_beside_exact(gate, got):
    """What kinds of gate it is by the library's answer and its exact cell, and where these break T-10."""
    column, row = placement.column_and_row(gate.grid, got.x, got.y)
    exact_column, exact_row = exact_cells.exact_column_and_row(*gate)
    steps, exact = (exact_column - column, exact_row - row), exact_cells.exact_cell(*gate)
    told, lines = f"{gate} is {got} in the library, exactly in column {exact_column}, row {exact_row}, cell {exact}", []
    if not in_cell(gate, exact_column, exact_row):
        lines.append(f"{told}, where its exact position is not")
    if steps not in STEPS:
        lines.append(f"{told}, farther than one from column {column}, row {row}")
    if got.mark == 0:
        return ["unmarked"], lines if got.cell == exact else [*lines, f"{told}, and unmarked"]
    kinds = ["marked", steps]
    if got.cell != exact:
        kinds.append("elsewhere")
        if got.cell == OUTSIDE:
            kinds.append((type(gate.grid).__name__, INWARDS))
        if exact == OUTSIDE:
            kinds.append((type(gate.grid).__name__, OUTWARDS))
    return kinds, lines


def gates_told(tally):
    across = sum(tally[kind.__name__, way] for kind, way in product(KINDS, (INWARDS, OUTWARDS)))
    lying = f"{tally['elsewhere']} marked ones with another exact cell, {across} of these inside in one and outside in the other"
    return f"{tally['marked']} marked, {tally['unmarked']} unmarked, {lying}"


def single_gates(compiled):
    total, places = Counter(), {"marked": set(), "elsewhere": set()}
    for name, gates in near_lines.gates():
        tally, lines = Counter(), []
        for gate in gates:
            got, found = compare_placement.answer(compiled, gate)
            if got.refusal != 0:
                lines.append(f"{gate} is refused with {got.refusal}")
                continue
            kinds, others = gate_beside_exact(gate, got)
            tally.update(kinds)
            for kind in places.keys() & set(kinds):
                places[kind].add(place_of(gate))
            lines += found + others
        total += tally
        yield f"{len(gates)} gates {name} beside their exact cells, seed {SEED}: {gates_told(tally)}", lines
    missing = [f"no marked gate is {one}" for one in sorted(WANTED_GATES - total.keys(), key=str)]
    marked, elsewhere = map(len, places.values())
    if marked < FEWEST or total["unmarked"] < FEWEST:
        missing.append(f"{marked} positions of marked gates or {total['unmarked']} unmarked gates are too few")
    met = f"{len(WANTED_GATES & total.keys())} of {len(WANTED_GATES)} kinds of marked gates met"
    positions = f"{marked} positions of marked gates, {elsewhere} of them with another exact cell on some grid"
    yield f"all these gates: {gates_told(total)}; {positions}; {met}", missing


# Whole scans and sweeps.


class OpenCell(NamedTuple):
    """A cell's counts, and how many of the marked gates near it are of which kind."""

    count: int  # in the library
    exact: int
    least: int
    greatest: int
    of_other_cells: int  # measured, by computed positions
    outside: int
    at_corners: int  # in another column and another row
    unmeasured: int


WANTED_CELLS = {
    "a least count over 0, with marked gates near it": lambda cell: 0 < cell.least < cell.greatest,
    "an exact count over its least": lambda cell: cell.exact > cell.least,
    "an exact count under its greatest": lambda cell: cell.exact < cell.greatest,
    "its least count exactly, with marked gates near it": lambda cell: cell.exact == cell.least < cell.greatest,
    "its greatest count exactly, with marked gates near it": lambda cell: cell.least < cell.exact == cell.greatest,
    "an exact count under the library's": lambda cell: cell.exact < cell.count,
    "an exact count that needs a gate of another computed cell": lambda cell: cell.exact > cell.greatest - cell.of_other_cells,
    "an exact count that needs a gate computed outside": lambda cell: cell.exact > cell.greatest - cell.outside,
    "an exact count that needs a gate of a cell at its corner": lambda cell: cell.exact > cell.greatest - cell.at_corners,
    "a marked unmeasured gate near it": lambda cell: cell.unmeasured > 0,
}


def open_cells(scan, ledger, marks, counts):
    """Each cell of a scan, or of the rays of it that are there so far, by the library's ledger, marks and counts."""
    places = rules.positions(scan)
    bounds = exact_cells.least_and_greatest(scan, ledger, marks, places)
    all_marked = exact_cells.marked_measured(scan._replace(values=[NO_ECHO] * len(ledger)), marks, places)
    for cell, (count, exact, (least, greatest)) in enumerate(zip(counts, exact_cells.exact_counts(scan), bounds)):
        row, column = divmod(cell, scan.grid.columns)
        near = [gate for gate in all_marked if gate.near(column, row)]
        measured = [gate for gate in near if scan.values[gate.number] != NOT_MEASURED]
        entries = Counter(ledger[gate.number] for gate in measured)
        others = len(measured) - entries[cell] - entries[OUTSIDE]
        at_corners = sum(gate.column != column and gate.row != row for gate in measured)
        yield OpenCell(count, exact, least, greatest, others, entries[OUTSIDE], at_corners, len(near) - len(measured))


def counts_beside_exact(scan, ledger, marks, counts):
    """What the cells of a scan are, and where their counts go against T-10."""
    tally, lines = Counter(), []
    for number, cell in enumerate(open_cells(scan, ledger, marks, counts)):
        tally.update(["cells", *(name for name, met in WANTED_CELLS.items() if met(cell))])
        tally["of one count"] += cell.least == cell.greatest
        tally["of another count"] += cell.exact != cell.count
        for name, count in (("exact", cell.exact), ("library's", cell.count)):
            if not cell.least <= count <= cell.greatest:
                bounds = f"the least is {cell.least} and the greatest {cell.greatest}"
                lines.append(f"{described(scan)}: the {name} count of cell {number} is {count}, {bounds}")
    return tally, lines


def cells_told(tally):
    cells = f"{tally['cells']} cells, {tally['of one count']} with the same least and greatest count"
    return f"{cells}, {tally['of another count']} with an exact count other than the library's"


def kinds_met(words, tally):
    """How many kinds of cells were met, and those that were not."""
    missing = [f"no cell has {name}" for name in WANTED_CELLS if tally[name] == 0]
    return f"{words}: {len(WANTED_CELLS) - len(missing)} of {len(WANTED_CELLS)} kinds of cells met", missing


def scan_groups():
    yield from near_lines.scans()
    yield "of the examples", [scan for _, scan in example_records()]


def tallied(compiled, scan):
    """The library's lists of a whole scan, and where it refuses it or changes what is given."""
    number, _, lists, lines = compare_scan.answer(compiled, scan, rules.lent_lengths(scan))
    if number != 0:
        lines.append(f"{described(scan)}: refused with {number}")
    return rules.Lent(*map(within_margins, lists)), lines


def whole_scans(compiled):
    total = Counter()
    for name, scans in scan_groups():
        tally, lines, count = Counter(), [], 0
        for scan in scans:
            lists, found = tallied(compiled, scan)
            counted, others = counts_beside_exact(scan, lists.ledger, lists.marks, lists.counts)
            tally += counted
            lines += found + others
            count += 1
        total += tally
        yield f"{count} scans {name} beside their exact counts, seed {SEED}: {cells_told(tally)}", lines
    yield kinds_met("all cells of these scans", total)


def swept(compiled, scan, division):
    """A sweep after its opening and after each group: how many rays are taken, the desk, and what differs from the rules."""
    desk = Desk(compiled, exact_lengths(scan))
    yield 0, desk, beside_meant(*desk.open(scan), 0)
    for start, end in zip((0, *division), division):
        yield end, desk, beside_meant(*desk.take(rays_of(scan, start, end)), 0)


def sweeps(compiled):
    """The same scans in groups of rays. The counts are those of the rays taken so far."""
    draw, unfinished = random.Random(SEED + 2), Counter()
    for name, scans in scan_groups():
        tally, lines, count, times = Counter(), [], 0, 0
        for scan in scans:
            for taken, desk, found in swept(compiled, scan, any_division(draw, scan.rays)):
                so_far = scan._replace(**rays_of(scan, 0, taken)._asdict())
                ledger, marks = (desk.numbers(entries)[: taken * scan.gates] for entries in ("ledger", "marks"))
                counted, others = counts_beside_exact(so_far, ledger, marks, desk.numbers("counts"))
                tally += counted
                if taken < scan.rays:
                    unfinished += counted
                lines += [f"{described(scan)}, {taken} rays taken: {line}" for line in found] + others
                times += 1
            count += 1
        looked = f"after opening and after each group, {times} times"
        yield f"{count} sweeps {name} beside their exact counts, {looked}, seed {SEED}: {cells_told(tally)}", lines
    yield kinds_met("all cells of these sweeps before the last ray", unfinished)


# Least, greatest and exact counts by hand. The gate is at range 0 on a meridian: X is 0, and exactly 0. On HRAP it lies in column
# 401 and row 932 of the mesh, and no line is near Y. On RADOLAN Y is -420,928,583.


def on_mesh(i, j, columns=1, rows=1, **changes):
    return ONE_GATE._replace(grid=Hrap(i, j, columns, rows), **changes)


def on_raster(east, north, columns=3, rows=1, **changes):
    """Cells whose corner lies so far to the west and the south of the gate."""
    return RADOLAN_GATE._replace(grid=Radolan(-east, -420_928_583 - north, 10_000_000, columns, rows), **changes)


MIDDLE = 5_000_000
NONE, ONE, OPEN = (0, 0), (1, 1), (0, 1)  # least and greatest
BY_HAND = (
    # Marked, in the only cell, in a place about it, and farther away.
    (on_mesh(401, 932), [OPEN], [1]),
    *((on_mesh(401 - column, 932 - row), [OPEN], [0]) for column, row in STEPS if (column, row) != (0, 0)),
    *((on_mesh(401 - column, 932 - row), [NONE], [0]) for column, row in product((-2, 2), (-2, -1, 0, 1, 2))),
    *((on_mesh(401 - column, 932 - row), [NONE], [0]) for column, row in product((-1, 0, 1), (-2, 2))),
    (on_mesh(399, 932, columns=5), [NONE, OPEN, OPEN, OPEN, NONE], [0, 0, 1, 0, 0]),
    (on_mesh(401, 930, rows=5), [NONE, OPEN, OPEN, OPEN, NONE], [0, 0, 1, 0, 0]),
    (on_mesh(400, 931, columns=4, rows=4), [OPEN, OPEN, OPEN, NONE] * 3 + [NONE] * 4, [0, 0, 0, 0, 0, 1] + [0] * 10),
    # Not measured, and with no echo.
    (on_mesh(401, 932, values=[NOT_MEASURED]), [NONE], [0]),
    (on_mesh(401, 932, values=[NO_ECHO]), [OPEN], [1]),
    (on_raster(MIDDLE, MIDDLE, values=[NOT_MEASURED]), [NONE] * 3, [0, 0, 0]),
    (on_raster(MIDDLE, MIDDLE, values=[NO_ECHO]), [ONE, NONE, NONE], [1, 0, 0]),
    # At both sides of each limit of the mark.
    (on_raster(-51, MIDDLE), [NONE, NONE, NONE], [0, 0, 0]),
    (on_raster(-50, MIDDLE), [OPEN, NONE, NONE], [0, 0, 0]),
    (on_raster(-1, MIDDLE), [OPEN, NONE, NONE], [0, 0, 0]),
    (on_raster(0, MIDDLE), [OPEN, OPEN, NONE], [1, 0, 0]),
    (on_raster(49, MIDDLE), [OPEN, OPEN, NONE], [1, 0, 0]),
    (on_raster(50, MIDDLE), [ONE, NONE, NONE], [1, 0, 0]),
    (on_raster(9_999_949, MIDDLE), [ONE, NONE, NONE], [1, 0, 0]),
    (on_raster(9_999_950, MIDDLE), [OPEN, OPEN, NONE], [1, 0, 0]),
    (on_raster(10_000_000, MIDDLE), [OPEN, OPEN, OPEN], [0, 1, 0]),
    (on_raster(10_000_050, MIDDLE), [NONE, ONE, NONE], [0, 1, 0]),
    (on_raster(29_999_999, MIDDLE), [NONE, OPEN, OPEN], [0, 0, 1]),
    (on_raster(30_000_000, MIDDLE), [NONE, NONE, OPEN], [0, 0, 0]),
    (on_raster(30_000_050, MIDDLE), [NONE, NONE, NONE], [0, 0, 0]),
    (on_raster(MIDDLE, -51, 1, 3), [NONE, NONE, NONE], [0, 0, 0]),
    (on_raster(MIDDLE, -50, 1, 3), [OPEN, NONE, NONE], [0, 0, 0]),
    (on_raster(MIDDLE, 49, 1, 3), [OPEN, OPEN, NONE], [1, 0, 0]),
    (on_raster(MIDDLE, 50, 1, 3), [ONE, NONE, NONE], [1, 0, 0]),
    (on_raster(MIDDLE, 9_999_949, 1, 3), [ONE, NONE, NONE], [1, 0, 0]),
    (on_raster(MIDDLE, 9_999_950, 1, 3), [OPEN, OPEN, NONE], [1, 0, 0]),
    (on_raster(MIDDLE, 10_000_049, 1, 3), [OPEN, OPEN, OPEN], [0, 1, 0]),
    (on_raster(MIDDLE, 30_000_049, 1, 3), [NONE, NONE, OPEN], [0, 0, 0]),
    (on_raster(MIDDLE, 30_000_050, 1, 3), [NONE, NONE, NONE], [0, 0, 0]),
    # Two gates. To the north both are on the line, to the east the second lies 1 kilometre from it.
    (SHEET, [(0, 2), (0, 2)], [0, 2]),
    (SHEET._replace(values=[NOT_MEASURED, 7]), [OPEN, OPEN], [0, 1]),
    (SHEET._replace(azimuths=[900_000]), [OPEN, (1, 2)], [0, 2]),
    (SHEET._replace(azimuths=[900_000], values=[NOT_MEASURED, 7]), [NONE, ONE], [0, 1]),
    (SHEET._replace(azimuths=[900_000], values=[1, NOT_MEASURED]), [OPEN, OPEN], [0, 1]),
)


def by_hand(compiled):
    lines = []
    for scan, bounds, exact in BY_HAND:
        lists, found = tallied(compiled, scan)
        got = exact_cells.least_and_greatest(scan, lists.ledger, lists.marks, rules.positions(scan))
        if (got, exact_cells.exact_counts(scan)) != (bounds, exact):
            found.append(f"least and greatest are {got}, exact {exact_cells.exact_counts(scan)}, by hand {bounds} and {exact}")
        lines += [f"{described(scan)}: {line}" for line in found]
    yield f"least, greatest and exact counts of {len(BY_HAND)} scans by hand", lines


def comparisons():
    compiled = library.load()
    yield from by_hand(compiled)
    yield from single_gates(compiled)
    yield from whole_scans(compiled)
    yield from sweeps(compiled)
