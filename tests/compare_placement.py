"""The placement of one gate by the compiled library against the second program's, and against the exact position."""
from fractions import Fraction

import library
import marked_gates
from good_gates import AZIMUTHS, Gate, groups, position
from lent_lists import MARGIN, changed_lines, earlier, filled_with, lending
from lent_structs import grid_struct, site_struct
from marked_gates import WANTED
from second_program import placement
from second_program.placement import Hrap, Placed, Radolan
from wrong_gates import far_refusals, joint_refusals, single_refusals

BOUND = 50  # centimetres, demand 3


# The library's answers.

# What the lent numbers hold before a call: cell, x, y and mark, each lent as a list of one number with margins.
LENT = (2_863_311_531, -1_234_567_890_123_456_789, 987_654_321_987_654_321, 165)
HELD = [filled_with(earlier(letter, 1), [number]) for letter, number in zip("IqqB", LENT)]


def answer(compiled, gate):
    """The library's answer, and what it changed besides. After a refusal that left the lent numbers alone they are None."""
    given, lists = (site_struct(gate), grid_struct(gate.grid)), [held[:] for held in HELD]
    before = [bytes(struct) for struct in given]
    number = compiled.uldrevin_place(*given, gate.azimuth, gate.range, *(lending(held)[0] for held in lists))
    lent = tuple(held[MARGIN] for held in lists)
    lines = changed_lines(("site", "grid"), given, before)
    if lists != [filled_with(held, [one]) for held, one in zip(HELD, lent)]:
        lines.append("what stands beside a lent number has been changed")
    if number != 0 and lent == LENT:
        lent = (None,) * len(LENT)
    return Placed(number, *lent), lines


def compared(compiled, gates):
    """The library's answers, and where they differ from the second program's."""
    answers, differences = [], []
    for gate in gates:
        (got, lines), expected = answer(compiled, gate), placement.place(*gate)
        answers.append(got)
        if got != expected:
            lines.append(f"it is {got} in the library and {expected} by the rule")
        differences += [f"{gate}: {line}" for line in lines]
    return answers, differences


def tally(gates):
    """How many gates lie in the grid, west or south of it, and on a line, and how many are marked."""
    inside = west_or_south = on_line = marked = 0
    for gate in gates:
        x, y = position(gate)
        column, row = placement.column_and_row(gate.grid, x, y)
        corner_x, corner_y = gate.grid.corner
        inside += placement.cell(gate.grid, x, y) != placement.OUTSIDE
        west_or_south += column < 0 or row < 0
        on_line += (x - corner_x) % gate.grid.side == 0 or (y - corner_y) % gate.grid.side == 0
        marked += placement.mark(gate.grid, x, y)
    lying = f"{inside} inside, {west_or_south} west or south, {on_line} on a line"
    return f"{lying}, {marked} marked, {len(gates) - marked} unmarked"


def beside_exact(placed):
    """Compares pairs of a gate and its answer. Gates of the same site, azimuth, range and sphere count once."""
    positions = {}
    for gate, got in placed:
        if got.refusal == 0:
            positions[gate.latitude, gate.longitude, gate.grid.sphere, gate.azimuth, gate.range, got.x, got.y] = gate
    differences, largest = [], Fraction(0)
    for (*place, x, y), gate in positions.items():
        exact_x, exact_y = placement.exact_position(*place)
        distance = max(abs(x - exact_x), abs(y - exact_y))
        largest = max(largest, distance)
        if distance > BOUND:
            differences.append(f"{gate} at ({x}, {y}) is {float(distance):.3f} centimetres from the exact position")
    title = f"all {len(positions)} positions of these gates beside the exact ones"
    return f"{title}, at most {float(largest):.3f} centimetres apart", differences


def at_limits_of_the_mark(compiled):
    """Each aimed gate has the mark that it is meant to have, and every mixture is met."""
    meant = marked_gates.aimed_gates()
    gates, missing = list(meant), marked_gates.not_met(meant)
    answers, differences = compared(compiled, gates)
    for gate, got in zip(gates, answers):
        if got.mark != meant[gate]:
            differences.append(f"{gate} is {got} in the library and meant to have the mark {meant[gate]}")
    title = f"placement of {len(gates)} gates at both sides of each limit of the mark, seed {marked_gates.SEED}"
    met = f"{len(WANTED) - len(missing)} of {len(WANTED)} mixtures of grid, remainders and place"
    return f"{title}: {met}, {tally(gates)}", differences + missing


# Refusals.


def refusal_differences(compiled, cases):
    answers, differences = compared(compiled, [gate for gate, _ in cases])
    for (gate, number), got in zip(cases, answers):
        if got.refusal != number:
            differences.append(f"{gate} is answered with {got.refusal}, the case has {number}")
    return differences


# Document 01's cases of one gate that are run and not proved.


def hrap_case(compiled):
    differences = []
    for azimuth in AZIMUTHS:
        gate = Gate(600_000, -1_050_000, Hrap(1, 1, 1_500, 1_500), azimuth, 0)
        got, _ = answer(compiled, gate)
        if got.refusal != 0 or abs(got.y + 318_560_000) > 51 or 1 + got.cell // 1_500 != 932:
            differences.append(f"{gate} is {got}")
    return differences


def radolan_case(compiled):
    differences = []
    for azimuth in AZIMUTHS:
        gate = Gate(510_000, 100_000, Radolan(-52_346_220, -465_864_470, 100_000, 900, 900), azimuth, 0)
        got, _ = answer(compiled, gate)
        if got.refusal != 0 or got.cell != 404_623:  # 449 x 900 + 523
            differences.append(f"{gate} is {got}")
    return differences


def comparisons():
    compiled = library.load()
    placed = []
    for name, gates in groups():
        answers, differences = compared(compiled, gates)
        placed += zip(gates, answers)
        yield f"placement of {len(gates)} gates {name}: {tally(gates)}", differences
    yield at_limits_of_the_mark(compiled)
    yield beside_exact(placed)
    for name, cases in (
        ("at both sides of each limit", single_refusals()),
        ("in pairs and together", joint_refusals()),
        ("with one number or two far beyond the limits", far_refusals()),
    ):
        cases = list(cases)
        yield f"refusals of one gate {name}, {len(cases)} gates", refusal_differences(compiled, cases)
    yield "latitude 600,000, range 0, HRAP: Y within 51 of -318,560,000, mesh row 932", hrap_case(compiled)
    yield "latitude 510,000, range 0, RADOLAN: column 523, row 449, ledger 404,623", radolan_case(compiled)
