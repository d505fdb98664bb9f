"""Good gates with numbers changed, alone and together, each with the refusal number that it has to be answered with, 0 for none."""
from itertools import chain, combinations, product

from far_numbers import FAR, far_from
from good_gates import HRAP_GRIDS, RADOLAN_GRIDS, Gate
from wrong_scans import changed_grid

# Each limit has its refusal number, what it is a limit of, allowed values and refused ones.
GATE_LIMITS = (
    (3, "range", (0, 46_000_000), (46_000_001, -1, 2**31, 2**32 - 1)),
    (4, "latitude", (200_000, 750_000), (199_999, 750_001, 0, -500_000, 2**32 + 500_000, *FAR)),
    (4, "longitude", (-1_800_000, 1_800_000), (-1_800_001, 1_800_001, -3_600_000, 2**32, *FAR)),
    (7, "azimuth", (0, 3_599_999), (3_600_000, -1, 2**31, 2**32 - 1)),
)
GRID_LIMITS = (
    (5, "columns", (1, 1_500), (0, 1_501, -1, 2**16 + 1, 2**32 - 1)),
    (5, "rows", (1, 1_500), (0, 1_501, -1, 2**16 + 1, 2**32 - 1)),
    (5, "kind", (), (0, 3, -1, 2**8 + 1, 2**16 + 2, 2**32 - 1)),
)
RADOLAN_LIMITS = (
    (5, "x", (-2_000_000_000, 2_000_000_000), (-2_000_000_001, 2_000_000_001, 2**32, *FAR)),
    (5, "y", (-2_000_000_000, 2_000_000_000), (-2_000_000_001, 2_000_000_001, 2**32, *FAR)),
    (5, "side", (10_000, 10_000_000), (9_999, 10_000_001, -1, 0, 1, 2**32 - 1)),
)
HRAP_LIMITS = (
    (5, "i", (-10_000, 10_000), (-10_001, 10_001, 2**16 + 1, 2**32 + 1, *FAR)),
    (5, "j", (-10_000, 10_000), (-10_001, 10_001, 2**16 + 1, 2**32 + 1, *FAR)),
)
GOOD_GATES = (
    (Gate(510_000, 100_000, RADOLAN_GRIDS[0], 1_234_567, 12_345_678), GATE_LIMITS + RADOLAN_LIMITS + GRID_LIMITS),
    (Gate(350_000, -975_000, HRAP_GRIDS[5], 1_234_567, 12_345_678), GATE_LIMITS + HRAP_LIMITS + GRID_LIMITS),
)


def changed(gate, name, value):
    if name in gate._fields:
        return gate._replace(**{name: value})
    return gate._replace(grid=changed_grid(gate.grid, name, value))


def all_changed(gate, wrong):
    """The gate with all these wrong numbers, and the lowest refusal number that applies."""
    for _, name, value in wrong:
        gate = changed(gate, name, value)
    return gate, min((number for number, *_ in wrong), default=0)


def single_refusals():
    """Gates at both sides of each limit."""
    for gate, limits in GOOD_GATES:
        for number, name, allowed, refused in limits:
            for value in allowed:
                yield changed(gate, name, value), 0
            for value in refused:
                yield changed(gate, name, value), number


def joint_refusals():
    """Gates with nothing wrong, one thing, two, three or four."""
    for gate, limits in GOOD_GATES:
        options = []
        for number in (3, 4, 5, 7):
            wrong = [(number, name, value) for n, name, _, refused in limits if n == number for value in refused[:2]]
            options.append([None] + wrong)
        for choice in product(*options):
            yield all_changed(gate, list(filter(None, choice)))


def far_refusals():
    """Gates with one number far beyond its limits, and with two of different refusal numbers."""
    for gate, limits in GOOD_GATES:
        good = gate._asdict() | {"kind": gate.grid.kind} | gate.grid._asdict()
        far = [(number, name, value) for number, name, *_ in limits for value in far_from(good[name])]
        for wrong in chain(combinations(far, 1), combinations(far, 2)):
            if len({number for number, *_ in wrong}) == len(wrong):
                yield all_changed(gate, wrong)
