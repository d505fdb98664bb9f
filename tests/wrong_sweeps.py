"""Operations of a sweep in every stage, with something changed: numbers of the state, lengths, contents, alone and together."""
from itertools import combinations, cycle, product
from typing import NamedTuple

import wrong_scans
from far_numbers import FAR, far_from
from second_program.placement import Hrap
from second_program.record import head_of
from sweep_calls import CELLS, ENTRIES_AND_SUMS, HELD, SUMS, Rays
from wrong_scans import EMPTY, GIVEN, HRAP_SCAN, RADOLAN_SCAN, changes_of_each, lendable, resized

# The first of these that applies is given.
ORDER = {
    "open": (1, 2, 3, 4, 5, 6),
    "take": (19, 17, 1, 2, 3, 4, 5, 6, 7, 8, 31),
    "close": (19, 17, 1, 2, 3, 4, 5, 18, 6),
}
LISTS = {"take": (*GIVEN, *ENTRIES_AND_SUMS), "close": (*SUMS, *CELLS)}

GROUP = 2  # rays


def of_six_rays(scan):
    """6 rays, 30 gates and 8 cells, a group with 10 gates: no list has the length of another kind."""
    return scan._replace(rays=6, **{name: resized(getattr(scan, name), 6 if name == "azimuths" else 30) for name in GIVEN})


SWEEPS = tuple(map(of_six_rays, (RADOLAN_SCAN, HRAP_SCAN)))


class Stage(NamedTuple):
    name: str
    taken: int
    closed: int


BEFORE, BETWEEN, ALL_TAKEN, CLOSED = STAGES = (
    Stage("before the first ray", 0, 0),
    Stage("between", 2, 0),
    Stage("all rays taken", 6, 0),
    Stage("closed", 6, 1),
)


class Change(NamedTuple):
    """What is changed in a good operation, and the number that this has to be refused with, 0 for none.

    17, 18 and 19 follow from the state and the rays of the group and are not named here.
    """

    number: int
    numbers: dict = {}  # by name in the state
    group: int = GROUP  # rays, with all lists as long as that implies
    lengths: dict = {}  # steps from the exact length, by name of the list
    contents: dict = {}  # (thousandths of the list's length, number) by name of the list
    full: tuple = ()  # sums that are the greatest of their width in every cell

    def __str__(self):
        parts = {name: part for name, part in zip(self._fields[1:], self[1:]) if part != self._field_defaults[name]}
        return ", ".join(f"{name} {part}" for name, part in parts.items())


class Case(NamedTuple):
    operation: str
    stage: Stage
    kind: type  # of grid
    state: dict
    rays: Rays
    lengths: tuple  # of the lists that the caller holds
    full: tuple
    applying: set  # all numbers that apply
    words: str

    @property
    def meant(self):
        """The first of the operation's numbers that applies, 0 where none does."""
        return next((number for number in ORDER[self.operation] if number in self.applying), 0)


def counted(number):
    """What 32 bits without a sign cannot hold counts as the largest that they can."""
    return number if number in range(2**32) else 2**32 - 1


def applying_numbers(operation, state, azimuths, changes):
    taken, rays = counted(state["taken"]), counted(state["rays"])
    if operation == "close":
        azimuths = 0
    from_state = {
        17: taken + azimuths > rays,
        18: operation == "close" and taken < rays,
        19: state["closed"] != 0,
    }
    return {number for number in from_state if from_state[number]} | {change.number for change in changes} - {0}


def case(operation, scan, stage, changes):
    """The operation with all these changes. Lengths are exact, but for lists that cannot be lent."""
    state = head_of(scan) | {"taken": stage.taken, "closed": stage.closed}
    for change in changes:
        state |= change.numbers
    rays = next((change.group for change in changes if change.group != GROUP), GROUP)
    gates = lendable(state["gates"], 1_001, scan.gates)
    cells = lendable(state["columns"], 1_501, scan.grid.columns) * lendable(state["rows"], 1_501, scan.grid.rows)
    announced = lendable(state["rays"], 721, scan.rays) * gates
    exact = (rays, *[rays * gates] * 2, *[announced] * 2, *[cells] * 6)
    lengths = dict(zip((*GIVEN, *HELD), exact))
    for change in changes:
        for name, step in change.lengths.items():
            lengths[name] = max(0, lengths[name] + step)
    given = {name: resized(getattr(scan, name), lengths[name]) for name in GIVEN}
    for change in changes:
        for name, (place, number) in change.contents.items():
            if given[name]:
                given[name][len(given[name]) * place // 1_000] = number
    held = tuple(lengths[name] for name in HELD)
    full = tuple(name for change in changes for name in change.full)
    applying = applying_numbers(operation, state, lengths["azimuths"], changes)
    kind = type(scan.grid)
    words = f"{operation}, {kind.__name__}, {stage.name}, {'; '.join(map(str, changes)) or 'nothing changed'}"
    return Case(operation, stage, kind, state, Rays(**given), held, full, applying, words)


# The changes.

IN_STATE = {"i": "x", "j": "y"}  # as a state calls them
NUMBER_OF = {"latitude": 4, "longitude": 4, "rays": 1, "gates": 2, "first": 3, "spacing": 3}
NUMBER_OF |= dict.fromkeys(("kind", "x", "y", "side", "columns", "rows"), 5)


def state_changes(scan):
    """Each of the fifteen numbers at both sides of its limits and far beyond them."""
    for good, changes in changes_of_each():
        if type(good.grid) is type(scan.grid):
            for number, numbers, *_ in changes:
                if numbers:
                    yield Change(number, {IN_STATE.get(name, name): value for name, value in numbers.items()})
    yield from far_changes(scan)
    for name, values in (
        ("rays", range(1, 10)),
        ("taken", (*range(10), 719, 720, 721, -1, 2**31, 2**32 - 2, 2**32 - 1)),
        ("closed", (0, 1, 2, -1, 256, 65_536, 2**31, 2**32 - 1)),
        ("weighting", (0, 1, 2, -1, 256, 65_536, 2**31, 2**32 - 1)),
    ):
        yield from (Change(0, {name: value}) for value in values)
    if isinstance(scan.grid, Hrap):
        yield from (Change(0, {"side": side}) for side in (476_250, 476_249, 1, 0, -1, 2**32 - 1))


def far_changes(scan):
    """Each of the fifteen numbers far beyond its limits. A weighting and the side of an HRAP grid have none."""
    free = {"side"} if isinstance(scan.grid, Hrap) else set()
    for name, number in (head_of(scan) | {"taken": 2, "closed": 0}).items():
        for far in far_from(number):
            yield Change(0 if name in free else NUMBER_OF.get(name, 0), {name: far})


def other_heads(scan):
    """The head of another good scan in the midst of a sweep: other gates, rays and grids, also of the other kind."""
    for gates, rays in ((1, 6), (4, 6), (6, 6), (6, 5), (5, 720), (7, 4)):
        yield Change(0, {"gates": gates, "rays": rays})
    for columns, rows in ((2, 4), (8, 1), (1, 8), (4, 3), (3, 2), (1, 1)):
        yield Change(0, {"columns": columns, "rows": rows})
    for step in (-2, -1, 1, 2):
        yield Change(0, {"x": head_of(scan)["x"] + step, "y": head_of(scan)["y"] - step})
    yield Change(0, {"kind": 1, "x": 399, "y": 931, "side": 476_250})
    yield Change(0, {"kind": 1, "x": -400_000, "y": -421_300_000, "side": 200_000, "latitude": 510_000, "longitude": 100_000})
    yield Change(0, {"kind": 2, "x": 399, "y": 931, "side": 5, "latitude": 600_000, "longitude": -1_050_000})
    yield Change(0, {"first": 0, "spacing": 1, "weighting": 1})
    yield Change(0, {"latitude": 200_000, "longitude": 1_800_000, "weighting": 0})


def length_changes(operation):
    for name, step in product(LISTS[operation], (-1, 1, 3, EMPTY)):
        yield Change(6, lengths={name: step})
    yield Change(6, lengths=dict.fromkeys(LISTS[operation], EMPTY))
    for step in (-1, 1):
        yield Change(6, lengths=dict.fromkeys(SUMS, step))
        yield Change(6, lengths=dict.fromkeys(CELLS if operation == "close" else ("values", "qualities"), step))
    if operation == "take":
        yield Change(6, lengths={"values": 1, "qualities": -1})
        yield Change(6, lengths={"values": 5, "qualities": 5})
        yield Change(6, lengths={"azimuths": 2**16})
        yield Change(6, lengths={"ledger": 1, "marks": -1})
        # Entries and marks of the group alone, and of the rays still to come.
        for step in (-20, -10):
            yield Change(6, lengths={"ledger": step})
            yield Change(6, lengths={"marks": step})
            yield Change(6, lengths={"ledger": step, "marks": step})


def group_changes():
    """Groups of other sizes, one of no rays among them."""
    yield Change(6, group=0)
    for rays in (1, 3, 4, 5, 6, 7, 720, 721):
        yield Change(0, group=rays)


def content_changes():
    for place in (0, 500, 999):
        for number, azimuth in ((0, 0), (0, 3_599_999), (7, 3_600_000), (7, 2**31), (7, 2**32 - 1)):
            yield Change(number, contents={"azimuths": (place, azimuth)})
        for value, (number, quality) in product((0, 65_534, 65_535), ((0, 0), (0, 100), (8, 101), (8, 255))):
            yield Change(number, contents={"qualities": (place, quality), "values": (place, value)})


FULL = [Change(31, full=(name,)) for name in SUMS]


def other_changes(operation):
    """Changes of what is lent with the state."""
    yield from length_changes(operation)
    if operation == "take":
        yield from (*group_changes(), *content_changes(), *FULL)


# Changes for each number, of which any two are made together.
STATE_PAIRED = (
    *(Change(0, {"closed": closed}) for closed in (1, -1)),
    *(Change(0, {"taken": taken}) for taken in (0, 5, 7, -1, 2**32 - 1)),
    *(Change(1, {"rays": rays}) for rays in (0, -1, 721)),
    Change(2, {"gates": 0}),
    Change(2, {"gates": 1_001, "spacing": 1}),
    Change(3, {"first": -1}),
    Change(3, {"spacing": 0}),
    Change(4, {"latitude": 199_999}),
    Change(4, {"longitude": 1_800_001}),
    Change(5, {"kind": 3}),
    Change(5, {"columns": 0}),
    Change(5, {"rows": 1_501}),
)
TAKE_PAIRED = (
    Change(0, group=7),
    Change(6, group=0),
    *(Change(6, lengths={name: step}) for name, step in zip(LISTS["take"], cycle((1, -1)))),
    Change(7, contents={"azimuths": (0, 3_600_000)}),
    Change(7, contents={"azimuths": (999, 2**32 - 1)}),
    Change(8, contents={"qualities": (0, 101)}),
    Change(8, contents={"qualities": (999, 255)}),
    *FULL,
)
CLOSE_PAIRED = tuple(Change(6, lengths={name: step}) for name, step in zip(LISTS["close"], cycle((1, -1))))
PAIRED = {"take": STATE_PAIRED + TAKE_PAIRED, "close": STATE_PAIRED + CLOSE_PAIRED}


def touched(change):
    sizes = {"azimuths"} if change.group != GROUP else set()
    return {*change.numbers, *change.lengths, *change.contents, *change.full} | sizes


def apart(one, other):
    return not touched(one) & touched(other)


# Taking and closing.

OPERATIONS = tuple(LISTS)

# The numbers with which an operation is refused in a stage, where one thing is wrong besides what the stage makes wrong.
IN_STAGE = {
    ("take", BEFORE): ORDER["take"],
    ("take", BETWEEN): ORDER["take"],
    ("take", ALL_TAKEN): (19, 17, 6),
    ("take", CLOSED): (19,),
    ("close", BEFORE): (19, 17, 1, 2, 3, 4, 5, 18),
    ("close", BETWEEN): (19, 17, 1, 2, 3, 4, 5, 18),
    ("close", ALL_TAKEN): ORDER["close"],
    ("close", CLOSED): (19,),
}


def alone():
    """Each refusal alone in every stage."""
    for scan, stage, operation in product(SWEEPS, STAGES, OPERATIONS):
        for change in (*PAIRED[operation], *other_changes(operation)):
            yield case(operation, scan, stage, [change])


def in_pairs():
    for scan, stage, operation in product(SWEEPS, STAGES, OPERATIONS):
        for pair in combinations(PAIRED[operation], 2):
            if apart(*pair):
                yield case(operation, scan, stage, pair)


def altered_states():
    """One number of the state altered, or a whole head."""
    for scan, stage, operation in product(SWEEPS, STAGES, OPERATIONS):
        for change in (*state_changes(scan), *other_heads(scan)):
            yield case(operation, scan, stage, [change])


def altered_pairs():
    """Two numbers of the state far beyond their limits, or one and something else that is wrong."""
    for scan, operation in product(SWEEPS, OPERATIONS):
        stage = BETWEEN if operation == "take" else ALL_TAKEN
        for pair in combinations([*far_changes(scan), *PAIRED[operation][len(STATE_PAIRED) :]], 2):
            if apart(*pair):
                yield case(operation, scan, stage, pair)


COUNTS = (0, 1, 2, 5, 6, 7, 719, 720, 721, 2**31, *range(2**32 - 3, 2**32 + 2), 2**33, -1, -2, *FAR)


def rays_and_taken():
    """Rays announced beside rays taken, also where 32 bits do not hold their sum with the group."""
    for rays, taken in product(COUNTS, COUNTS):
        numbers = Change(NUMBER_OF["rays"] if not 1 <= rays <= 720 else 0, {"rays": rays, "taken": taken})
        for group in (0, 1, 2):
            yield case("take", SWEEPS[0], BETWEEN, [numbers, Change(6 if group == 0 else 0, group=group)])
        yield case("close", SWEEPS[1], BETWEEN, [numbers])


# Opening.


def opening():
    """Everything allowed and everything refused in what opening takes, in groups."""
    for words, chosen in (
        ("each refusal alone, at both sides of each limit", wrong_scans.limits()),
        ("in pairs", wrong_scans.pairs()),
        ("one number far beyond its limits", wrong_scans.far_numbers()),
        ("two such numbers", wrong_scans.far_pairs()),
    ):
        yield words, [(good, changes) for good, changes in chosen if all(map(for_opening, changes))]


def for_opening(change):
    """Opening takes the numbers and lists of sums."""
    return not change.contents and {*change.lengths} <= {*SUMS}
