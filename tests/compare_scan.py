"""The tally of a whole scan by the compiled library against the second program's: the answer and every number of every list."""
import random
from itertools import combinations, product
from typing import NamedTuple

import library
import marked_gates
from good_scans import SEED, SHEET, groups
from lent_lists import GIVEN, MARGIN, changed_lines, earlier, filled_with, given_lists, lending_all
from lent_structs import SIDES, WEIGHTINGS, scan_struct
from publish_calls import SUMMED, cells_of, publish_lines
from second_program import placement, scan as rules
from second_program.placement import OUTSIDE, Hrap, Radolan
from second_program.scan import Cells, Lent, Scan, Tallied
from wrong_scans import HRAP_SCAN, RADOLAN_SCAN, apply, far_numbers, far_pairs, limits, pairs, together

SHOWN = 3  # places printed of one list

# By array's letters.
WRITTEN = Lent("I", "B", *SUMMED)


# The library's answers.


def answer(compiled, scan, lengths):
    """The library's answer, the lent lists before and after the call, and where what was given has been changed."""
    head, given = scan_struct(scan), given_lists(scan)
    given_before = [bytes(one) for one in (head, *given)]
    lists = Lent(*(earlier(letter, length) for letter, length in zip(WRITTEN, lengths)))
    before = Lent(*(held[:] for held in lists))
    number = compiled.uldrevin_tally(head, *lending_all([*given, *lists]))
    return number, before, lists, changed_lines(["scan", *GIVEN], [head, *given], given_before)


def described(scan):
    weighting = "by quality" if scan.by_quality else "plain"
    numbers = ", ".join(f"{name} {getattr(scan, name)}" for name in Scan._fields[:6])
    return f"{numbers}, {scan.grid}, {weighting}"


def place_described(scan, name, place):
    """The gate or the cell of a place. A place in the margins has none, nor have some where the lengths are wrong."""
    if name not in ("ledger", "marks"):
        if not 0 <= place < scan.grid.columns * scan.grid.rows:
            return "no cell"
        return f"column {place % scan.grid.columns}, row {place // scan.grid.columns}"
    if not 0 <= place < min(len(scan.azimuths) * scan.gates, len(scan.values), len(scan.qualities)):
        return "no gate"
    ray, gate = divmod(place, scan.gates)
    azimuth, value, quality = scan.azimuths[ray], scan.values[place], scan.qualities[place]
    return f"ray {ray}, gate {gate}, azimuth {azimuth}, value {value}, quality {quality}"


def list_differences(scan, name, got, expected, says):
    """Where two lists with margins differ."""
    if got == expected:
        return []
    places = [place - MARGIN for place, (one, other) in enumerate(zip(got, expected)) if one != other]
    lines = []
    for place in places[:SHOWN]:
        one, other = got[place + MARGIN], expected[place + MARGIN]
        lines.append(f"{name}[{place}] ({place_described(scan, name, place)}) is {one} in the library and {other} {says}")
    if len(places) > SHOWN:
        lines.append(f"{name} differs in {len(places)} places")
    return lines


def tallied_beside(compiled, scan, lengths, expected):
    """The library's lists, and where its answer and lists differ from the expected ones. After a refusal the lists are the earlier ones."""
    number, before, after, lines = answer(compiled, scan, lengths)
    if number != expected.refusal:
        lines.append(f"answered with {number} in the library and with {expected.refusal} by the rule")
    says = "by the rule" if expected.refusal == 0 else "before the call, which has to be refused"
    for place, name in enumerate(Lent._fields):
        old, got = before[place], after[place]
        wanted = filled_with(old, expected.lists[place]) if expected.refusal == 0 else old
        lines += list_differences(scan, name, got, wanted, says)
    return after, lines


def differences_from(compiled, scan, lengths, expected):
    _, lines = tallied_beside(compiled, scan, lengths, expected)
    return lines


# Whole scans.


def beside_single_gates(draw, number, scan, lists):
    """Some entries and marks of the second program's scan against its own placement of one gate."""
    lines = []
    count = scan.rays * scan.gates
    chosen = sorted(draw.sample(range(count), min(count, 25)))
    for place in chosen:
        ray, gate = divmod(place, scan.gates)
        distance = scan.first + gate * scan.spacing
        single = placement.place(scan.latitude, scan.longitude, scan.grid, scan.azimuths[ray], distance)
        entry, mark = lists.ledger[place], lists.marks[place]
        if (single.refusal, single.cell, single.mark) != (0, entry, mark):
            told = f"entry {entry} and mark {mark}, by itself {single}"
            lines.append(f"scan {number}, {described(scan)}: ray {ray}, gate {gate} has {told}")
    return len(chosen), lines


class Summary:
    """What the scans of a group were like."""

    scans = gates = inside = marked = cells = all_in = none_in = 0

    def add(self, scan, lists):
        inside = sum(entry != OUTSIDE for entry in lists.ledger)
        self.scans += 1
        self.gates += len(lists.ledger)
        self.inside += inside
        self.marked += sum(lists.marks)
        self.cells += sum(count != 0 for count in lists.counts)
        self.all_in += inside == len(lists.ledger)
        self.none_in += inside == 0

    def __str__(self):
        marks = f"{self.marked} marked, {self.gates - self.marked} unmarked"
        gates = f"{self.inside} of {self.gates} gates inside, {marks}, {self.cells} cells with a count"
        return f"{gates}, {self.all_in} scans wholly inside, {self.none_in} wholly outside"


def whole_scans(compiled):
    draw = random.Random(SEED + 1)
    singles, single_lines, scans = 0, [], 0
    for name, chosen in groups():
        summary, lines = Summary(), []
        for number, scan in enumerate(chosen):
            lengths = rules.lent_lengths(scan)
            expected = rules.tally(scan, lengths)
            if expected.refusal != 0:
                lines.append(f"scan {number}, {described(scan)}: refused with {expected.refusal} by the rule, meant as good")
                continue
            lines += [
                f"scan {number}, {described(scan)}: {line}"
                for line in differences_from(compiled, scan, lengths, expected)
            ]
            summary.add(scan, expected.lists)
            count, others = beside_single_gates(draw, number, scan, expected.lists)
            singles += count
            single_lines += others
        scans += summary.scans
        yield f"{summary.scans} scans {name}, seed {SEED}: {summary}", lines
    yield f"the second program's {scans} ledgers beside its placement of single gates, {singles} gates", single_lines


def at_limits_of_the_mark(compiled):
    """Each aimed gate has the mark that it is meant to have, and every mixture is met by measured gates and by others."""
    chosen, summary, lines = marked_gates.aimed_scans(), Summary(), []
    for number, aimed in enumerate(chosen):
        scan, lengths = aimed.scan, rules.lent_lengths(aimed.scan)
        expected = rules.tally(scan, lengths)
        found = differences_from(compiled, scan, lengths, expected) + aimed.other_marks(expected.lists.marks)
        lines += [f"scan {number}, {described(scan)}: {line}" for line in found]
        summary.add(scan, expected.lists)
    met, missing = marked_gates.met_in(chosen)
    title = f"{len(chosen)} scans at both sides of each limit of the mark, seed {marked_gates.SEED}"
    return f"{title}: {met}, {summary}", lines + missing


def in_turn(compiled):
    """Each number for a weighting, and on HRAP each side with each weighting. None of them plays a part in a tally."""
    radolan, hrap = (scan._replace(by_quality=True) for scan in (RADOLAN_SCAN, HRAP_SCAN))
    scans = [radolan] * len(WEIGHTINGS) + [hrap] * (len(WEIGHTINGS) * len(SIDES))
    scans += [radolan._replace(by_quality=False)] + [hrap._replace(by_quality=False)] * len(SIDES)
    expected = {type(scan.grid): rules.tally(scan, rules.lent_lengths(scan)) for scan in (radolan, hrap)}
    lines = []
    for scan in scans:
        found = differences_from(compiled, scan, rules.lent_lengths(scan), expected[type(scan.grid)])
        lines += [f"{described(scan)}: {line}" for line in found]
    title = f"{1 + len(WEIGHTINGS)} weightings and {len(SIDES)} sides of an HRAP grid in turn, the same lists for all"
    return f"{title}, {len(scans)} scans", lines


# Refusals.


def refusal_differences(compiled, chosen):
    """The differences, and the sets of numbers of which all and no other applied, for each kind of grid."""
    lines, met = [], set()
    for good, changes in chosen:
        scan, lengths = apply(good, changes)
        met.add((type(good.grid), *rules.wrong_numbers(scan, lengths)))
        expected = rules.tally(scan, lengths)
        found = differences_from(compiled, scan, lengths, expected)
        meant = min(change.number for change in changes)
        if expected.refusal != meant:
            found.append(f"refused with {expected.refusal} by the rule, meant to be refused with {meant}")
        given = [len(getattr(scan, name)) for name in GIVEN]
        prefix = f"{described(scan)}, lengths {given} and {list(lengths)}, changes {[tuple(change) for change in changes]}"
        lines += [f"{prefix}: {line}" for line in found]
    return lines, met


def not_met(met, size):
    """Every set of so many numbers has to be met for both kinds of grid."""
    for kind, numbers in product((Radolan, Hrap), combinations(range(1, 9), size)):
        if (kind, *numbers) not in met:
            yield f"no scan on a grid of {kind.__name__} has exactly the wrong numbers {numbers}"


def refusals(compiled):
    chosen = list(limits())
    lines, met = refusal_differences(compiled, chosen)
    lines += not_met(met, 1)
    yield f"refusals of a scan, each alone, at both sides of each limit, {len(chosen)} scans", lines
    chosen = list(pairs())
    lines, met = refusal_differences(compiled, chosen)
    lines += not_met(met, 2)
    yield f"refusals of a scan in pairs, {len(chosen)} scans", lines
    for words, chosen in (("one number", list(far_numbers())), ("two numbers", list(far_pairs()))):
        lines, _ = refusal_differences(compiled, chosen)
        yield f"refusals of a scan, {words} far beyond the limits, {len(chosen)} scans", lines
    chosen = list(together(random.Random(SEED)))
    lines, _ = refusal_differences(compiled, chosen)
    yield f"refusals of a scan, three to eight together, {len(chosen)} scans, seed {SEED}", lines


# Document 01's cases, and T-02's limits. All numbers that are expected are written here by hand.

# At range 0 and on the meridian X is 0, on a line of HRAP.
ONE_GATE = Scan(1, 1, 0, 1, 600_000, -1_050_000, Hrap(401, 932, 1, 1), False, [0], [5], [50])
RADOLAN_GATE = ONE_GATE._replace(latitude=510_000, longitude=100_000)
RASTER = Radolan(-52_346_220, -465_864_470, 100_000, 900, 900)


class Expected(NamedTuple):
    """What is to come of a scan, and of publishing its sums plain and by quality."""

    tallied: Tallied
    plain: Cells | None = None
    by_quality: Cells | None = None


def in_second_cell(sums, plain, by_quality, quality):
    """Of two gates in the second of two cells: its sums, its mean plain and by quality, and its quality."""
    lists = Lent([1, 1], [1, 1], *([0, number] for number in sums))
    return Expected(Tallied(0, lists), *(Cells([65_535, mean], [0, quality]) for mean in (plain, by_quality)))


def in_cell(cell, cells, mark=1):
    """Of a single gate with value 5 and quality 50."""

    def only(number, other=0):
        return [number if place == cell else other for place in range(cells)]

    published = Cells(only(5, 65_535), only(50))
    return Expected(Tallied(0, Lent([cell], [mark], only(1), only(50), only(5), only(250))), published, published)


def outside(cells, mark=1):
    nothing = [0] * cells
    published = Cells([65_535] * cells, nothing)
    return Expected(Tallied(0, Lent([OUTSIDE], [mark], nothing, nothing, nothing, nothing)), published, published)


# X less the corner, column and mark, for a side of 10,000,000. Y is far from any line.
ABOUT_THE_CORNER = (
    *((-9_999_951, -1, 1), (-9_999_950, -1, 0), (-51, -1, 0), (-50, -1, 1), (-1, -1, 1), (0, 0, 1), (49, 0, 1), (50, 0, 0)),
    *((9_999_949, 0, 0), (9_999_950, 0, 1), (9_999_999, 0, 1), (10_000_000, 1, 1), (10_000_049, 1, 1), (10_000_050, 1, 0)),
)

REFUSED = {number: Expected(Tallied(number, None)) for number in range(1, 9)}
PASSES = None  # the lists are left to the second program


def cases():
    title = "plain 1 and 7: 4, by quality 90 and 10: 1, cell quality 50"
    yield title, SHEET, in_second_cell((2, 100, 8, 160), 4, 1, 50)
    title = "by quality, both 0: 65,535, count 2, quality 0"
    yield title, SHEET._replace(qualities=[0, 0]), in_second_cell((2, 0, 8, 0), 4, 65_535, 0)
    yield "no echo and 7, plain: 3", SHEET._replace(values=[65_534, 7]), in_second_cell((2, 100, 7, 70), 3, 0, 50)
    yield "not measured and 7: 7", SHEET._replace(values=[65_535, 7]), in_second_cell((1, 10, 7, 70), 7, 7, 10)

    last = SHEET._replace(first=45_900_000)
    yield "last centre 46,000,000 passes", last, PASSES
    yield "last centre 46,000,001 is 3", last._replace(first=45_900_001), REFUSED[3]
    for latitude in (200_000, 750_000):
        yield f"latitude {latitude:,} passes", SHEET._replace(latitude=latitude), PASSES
    for latitude in (199_999, 750_001):
        yield f"latitude {latitude:,} is 4", SHEET._replace(latitude=latitude), REFUSED[4]
    yield "azimuth 3,599,999 passes", SHEET._replace(azimuths=[3_599_999]), PASSES
    yield "azimuth 3,600,000 is 7", SHEET._replace(azimuths=[3_600_000]), REFUSED[7]
    unmeasured = SHEET._replace(values=[65_535, 7], qualities=[101, 10])
    yield "quality 101 on an unmeasured gate is 8", unmeasured, REFUSED[8]
    no_rays = SHEET._replace(rays=0, azimuths=[], values=[], qualities=[], latitude=199_999)
    yield "no rays with a bad site: 1", no_rays, REFUSED[1]

    title = "range 0, longitude -1,050,000, HRAP: column 401 of the mesh"
    yield f"{title}, grid from 401", ONE_GATE, in_cell(0, 1)
    yield f"{title}, grid from 400", ONE_GATE._replace(grid=Hrap(400, 932, 2, 1)), in_cell(1, 2)
    yield f"{title}, grid up to 400", ONE_GATE._replace(grid=Hrap(400, 932, 1, 1)), outside(1)
    yield f"{title}, grid from 402", ONE_GATE._replace(grid=Hrap(402, 932, 1, 1)), outside(1)
    yield "latitude 600,000, HRAP: mesh row 932", ONE_GATE._replace(grid=Hrap(401, 931, 1, 3)), in_cell(1, 3)

    title = "range 0, longitude 100,000, RADOLAN: X = 0"
    for east, column, mark in ABOUT_THE_CORNER:
        scan = RADOLAN_GATE._replace(grid=Radolan(-east, -425_000_000, 10_000_000, 3, 1))
        expected = outside(3, mark) if column < 0 else in_cell(column, 3, mark)
        yield f"{title}, X less corner is {east:,}: column {column}, mark {mark}", scan, expected
    title = "latitude 510,000, RADOLAN: column 523, row 449, ledger 404,623"
    yield title, RADOLAN_GATE._replace(grid=RASTER), in_cell(404_623, 810_000, mark=0)


def case_differences(compiled, scan, expected):
    """The tally, and the cells that are published from it in both weightings."""
    lengths = rules.lent_lengths(scan)
    by_rule = rules.tally(scan, lengths)
    if expected is PASSES:
        lines = [] if by_rule.refusal == 0 else [f"refused with {by_rule.refusal} by the second program"]
        return lines + differences_from(compiled, scan, lengths, by_rule)
    lines = [] if by_rule == expected.tallied else ["the second program answers otherwise"]
    lists, found = tallied_beside(compiled, scan, lengths, expected.tallied)
    lines += found
    for weighting, cells in enumerate((expected.plain, expected.by_quality)):
        if cells is not None:
            found = publish_lines(compiled, weighting, lists.sums, cells_of(lists.sums), cells)
            lines += [f"published with weighting {weighting}: {line}" for line in found]
    return lines


def comparisons():
    compiled = library.load()
    yield from whole_scans(compiled)
    yield at_limits_of_the_mark(compiled)
    yield in_turn(compiled)
    yield from refusals(compiled)
    chosen = list(cases())
    lines = [
        f"{title}: {line}" for title, scan, expected in chosen for line in case_differences(compiled, scan, expected)
    ]
    yield f"document 01's cases and T-02's limits, tallied and published in both weightings, {len(chosen)} scans", lines
