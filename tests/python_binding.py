"""The Python binding by itself: its answers, its refusals and what it does not take.

    python3 tests/python_binding.py [plain]

With `plain` numpy counts as missing. It prints each difference, then how many checks were made, and ends with status 1 where one differs.
"""
import os
import pickle
import subprocess
import sys
from array import array
from pathlib import Path
from threading import Thread

if sys.argv[1:] == ["plain"]:
    sys.modules["numpy"] = None  # an import of it fails

ROOT = Path(__file__).resolve().parent.parent
BINDING = ROOT / "bindings" / "python"
sys.path.insert(0, str(BINDING))

import uldrevin  # noqa: E402
from uldrevin import BY_QUALITY, NO_ECHO, NO_MEAN, NOT_MEASURED, OUTSIDE, PLAIN, Hrap, Placement, Radolan, Site, flat  # noqa: E402

try:
    import numpy
except ImportError:
    numpy = None

RECORDS = [(name, (ROOT / "examples" / name).read_bytes()) for name in ("hrap.scan", "radolan.scan", "crossing.scan")]

# Document 01's example for the sheet program; both gates lie in the second cell, on its west edge, and are marked.
EXAMPLE = uldrevin.Scan(Site(600_000, -1_050_000), Hrap(400, 932, 2, 1), BY_QUALITY, 0, 100_000, [0], [1, 7], [90, 10])
RASTER = Radolan(-52_346_220, -465_864_470, 100_000, 900, 900)


class Checks:
    made = 0
    differences = 0

    def note(self, good, line):
        self.made += 1
        if not good:
            self.differences += 1
            print(line)

    def equal(self, what, got, expected):
        self.note(got == expected, f"{what}: {got!r} came back, expected {expected!r}")

    def refused(self, number, what, call):
        """The call raises the refusal with this number, its sentence and the text of both."""
        try:
            got = call()
        except uldrevin.Refusal as refusal:
            sentence = uldrevin.SENTENCES[number]
            expected = (number, sentence, f"refusal {number}: {sentence}")
            self.equal(what, (refusal.number, refusal.sentence, str(refusal)), expected)
        else:
            self.note(False, f"{what}: {got!r} came back, expected refusal {number}")

    def raised(self, kind, words, what, call):
        """The call raises exactly this kind of error, and its text has these words."""
        try:
            got = call()
        except (ValueError, TypeError, OverflowError, AttributeError) as error:
            expected = f"expected {kind.__name__} with {words!r}"
            self.note(type(error) is kind and words in str(error), f"{what}: {error!r} was raised, {expected}")
        else:
            self.note(False, f"{what}: {got!r} came back, expected {kind.__name__}")


def plain_lists(remapped):
    return [flat(numbers) for numbers in remapped]


# Single gates and angles.


def gates(checks):
    radar, grid = Site(353_300, -972_800), Hrap(573, 320, 6, 5)
    # The grid's west edge is at x = 81,915,000. Ranges of 450,000, 545,000 and 550,000 stand in README.md.
    placed = {
        450_000: Placement(82_026_264, -609_049_159, 12, False),
        544_920: Placement(81_915_050, -609_064_190, 12, False),
        544_925: Placement(81_915_044, -609_064_191, 12, True),
        545_000: Placement(81_914_957, -609_064_203, None, True),
        545_010: Placement(81_914_945, -609_064_204, None, False),
        550_000: Placement(81_909_098, -609_064_994, None, False),
    }
    for distance, expected in placed.items():
        got = uldrevin.place(radar, grid, 2_700_000, distance)
        checks.equal(f"a gate at {distance}", got, expected)
        checks.equal(f"the type of its mark at {distance}", type(got.mark), bool)
    checks.equal("a site as a plain pair", uldrevin.place((353_300, -972_800), grid, 2_700_000, 550_000), placed[550_000])
    checks.equal("a RADOLAN cell", uldrevin.place(Site(510_000, 100_000), RASTER, 0, 0).cell, 404_623)
    checks.refused(3, "range over its limit", lambda: uldrevin.place(radar, grid, 0, 46_000_001))
    checks.refused(4, "latitude below its limit", lambda: uldrevin.place(Site(199_999, 0), grid, 0, 0))
    checks.refused(5, "no columns", lambda: uldrevin.place(radar, grid._replace(columns=0), 0, 0))
    checks.refused(7, "azimuth over its limit", lambda: uldrevin.place(radar, grid, 3_600_000, 0))
    checks.raised(TypeError, "Radolan or an Hrap", "a plain list as grid", lambda: uldrevin.place(radar, [573, 320, 6, 5], 0, 0))


def angles(checks):
    checks.equal("the sine of a right angle", uldrevin.sine(900_000), 2**30)
    checks.equal("the sine of minus a right angle", uldrevin.sine(-900_000), -(2**30))
    checks.equal("the cosine of half a turn", uldrevin.cosine(1_800_000), -(2**30))
    checks.raised(ValueError, "angle is 9223372036854775808", "an angle of 64 bits", lambda: uldrevin.sine(2**63))
    checks.raised(TypeError, "angle has to be a whole number", "an angle of a half", lambda: uldrevin.cosine(0.5))


# Whole scans.


def marked(grid, placement):
    """Document 02's rule for the mark of a position."""
    if isinstance(grid, Radolan):
        x, y, side = grid.x, grid.y, grid.side
    else:
        x, y, side = (grid.i - 401) * 476_250, (grid.j - 1_601) * 476_250, 476_250
    return any(not 50 <= length % side < side - 50 for length in (placement.x - x, placement.y - y))


def placements_of(scan, gates_in_ray):
    """Each gate placed by itself."""
    centres = [scan.first + gate * scan.spacing for gate in range(gates_in_ray)]
    return [uldrevin.place(scan.site, scan.grid, azimuth, centre) for azimuth in flat(scan.azimuths) for centre in centres]


def tally_of(scan):
    """The tally of a scan, which has no weighting."""
    return uldrevin.tally(*scan[:2], *scan[3:])


def plain_tally(tally):
    return plain_lists([tally.ledger, tally.marks, *tally.sums])


def sums_by_ledger(scan, ledger):
    """Counts, quality sums, value sums and weighted sums."""
    sums = [[0] * (scan.grid.columns * scan.grid.rows) for _ in range(4)]
    for cell, value, quality in zip(ledger, flat(scan.values), flat(scan.qualities)):
        if cell == OUTSIDE or value == NOT_MEASURED:
            continue
        rain = 0 if value == NO_ECHO else value
        for own, number in zip(sums, (1, quality, rain, rain * quality)):
            own[cell] += number
    return sums


def expected_tally(scan, placements):
    ledger = [OUTSIDE if placement.cell is None else placement.cell for placement in placements]
    marks = [int(marked(scan.grid, placement)) for placement in placements]
    return [ledger, marks, *sums_by_ledger(scan, ledger)]


def expected_mean(dividend, divisor):
    """Document 01's mean, and document 02's where it would be too great."""
    mean = dividend // divisor if divisor else NO_MEAN
    return mean if mean <= 65_533 else NO_MEAN


def expected_cells(weighting, counts, quality_sums, value_sums, weighted_sums):
    pairs = zip(value_sums, counts) if weighting == PLAIN else zip(weighted_sums, quality_sums)
    means = [expected_mean(*pair) for pair in pairs]
    return [means, [min(100, quality_sum // count) if count else 0 for quality_sum, count in zip(quality_sums, counts)]]


def scans(checks):
    for name, data in RECORDS:
        head, scan = uldrevin.record_head(data), uldrevin.read_record(data)
        placements = placements_of(scan, head.gates)
        for placement in placements:
            checks.equal(f"the mark of {placement} of {name}", placement.mark, marked(scan.grid, placement))
        tally, expected = tally_of(scan), expected_tally(scan, placements)
        for part, got, wanted in zip(("ledger", "marks", *uldrevin.Sums._fields), plain_tally(tally), expected):
            checks.equal(f"{part} of {name}", got, wanted)
        for weighting in (PLAIN, BY_QUALITY):
            cells = expected_cells(weighting, *expected[2:])
            checks.equal(f"cells of {name}, weighting {weighting}", plain_lists(uldrevin.publish(weighting, *tally.sums)), cells)
            remapped = uldrevin.remap(*scan._replace(weighting=weighting))
            for part, got, wanted in zip(uldrevin.Remapped._fields, plain_lists(remapped), [*expected, *cells]):
                checks.equal(f"{part} of {name}, remapped with weighting {weighting}", got, wanted)
            checks.equal(f"the sums of {name}, remapped with weighting {weighting}", plain_lists(remapped.sums), expected[2:])
        checks.equal(f"the sums of {name} after publishing", plain_lists(tally.sums), expected[2:])
    crossing = uldrevin.read_record(RECORDS[2][1])
    ledger, marks, *_ = plain_lists(uldrevin.remap(*crossing))
    met = {(cell == OUTSIDE, mark) for cell, mark in zip(ledger, marks)}
    not_measured = {mark for value, mark in zip(flat(crossing.values), marks) if value == NOT_MEASURED}
    checks.equal("gates inside and outside, marked and not, and so not measured", (len(met), len(not_measured)), (4, 2))


def rows_of(numbers, width):
    return [numbers[start : start + width] for start in range(0, len(numbers), width)]


def forms_of_lists(checks):
    """The same scan from lists of every form gives the same numbers and the same record."""
    data = RECORDS[0][1]
    scan, width = uldrevin.read_record(data), uldrevin.record_head(data).gates
    expected = plain_lists(uldrevin.remap(*scan))
    plain = [flat(numbers) for numbers in scan[5:]]
    azimuths, values, qualities = plain
    forms = {
        "flat lists": plain,
        "arrays": [array(letter, numbers) for letter, numbers in zip("IHB", plain)],
        "arrays of other types": [array("q", numbers) for numbers in plain],
        "lists of rays": [azimuths, rows_of(values, width), rows_of(qualities, width)],
        "values by ray, qualities flat": [azimuths, rows_of(values, width), qualities],
        "qualities as bytes": [azimuths, values, bytes(qualities)],
    }
    if numpy is not None:
        forms |= numpy_forms(*scan[5:])
    for name, lists in forms.items():
        asked = uldrevin.Scan(*scan[:5], *lists)
        checks.equal(f"a scan from {name}", plain_lists(uldrevin.remap(*asked)), expected)
        checks.equal(f"a tally from {name}", plain_tally(tally_of(asked)), expected[:6])
        checks.equal(f"a record from {name}", uldrevin.write_record(*asked), data)
    small = EXAMPLE._replace(azimuths=iter([0]), values=bytes([1, 7]), qualities=range(90, 9, -80))
    checks.equal("a scan from an iterator, bytes and a range", flat(uldrevin.remap(*small).weighted_sums), [0, 1 * 90 + 7 * 10])
    checks.equal("the given lists afterwards", [flat(numbers) for numbers in scan[5:]], plain)


def numpy_forms(azimuths, values, qualities):
    read_only = [numbers.copy() for numbers in (azimuths, values, qualities)]
    for numbers in read_only:
        numbers.flags.writeable = False
    odd_place = numpy.frombuffer(b"\0" + values.tobytes(), numpy.uint16, offset=1).reshape(values.shape)
    return {
        "numpy arrays": [azimuths, values, qualities],
        "numpy arrays that are only to be read": read_only,
        "numpy arrays by column": [azimuths, numpy.asfortranarray(values), numpy.asfortranarray(qualities)],
        "parts of numpy arrays": [numpy.repeat(azimuths, 2)[::2], numpy.repeat(values, 3, 1)[:, ::3], qualities[::-1][::-1]],
        "a numpy array at an odd address": [azimuths, odd_place, qualities],
        "a numpy array and lists": [flat(azimuths), values, flat(qualities)],
        "lists of numpy numbers": [list(azimuths), list(values), list(qualities)],
    }


def kinds_of_lists(checks):
    """What comes back is typed, and with numpy shaped."""
    scan = uldrevin.read_record(RECORDS[0][1])
    tally = tally_of(scan)
    lists = [*scan[5:], *uldrevin.remap(*scan), tally.ledger, tally.marks, *tally.sums, *uldrevin.publish(PLAIN, *tally.sums)]
    letters = "IHB" + "IBIIQQHB" * 2
    checks.equal("the kinds of a tally and of its sums", (type(tally), type(tally.sums)), (uldrevin.Tally, uldrevin.Sums))
    if numpy is None:
        checks.equal("the types of arrays", [numbers.typecode for numbers in lists], list(letters))
        return
    checks.equal("the dtypes", [numbers.dtype for numbers in lists], [numpy.dtype(letter) for letter in letters])
    by_gate, by_cell = (12, 20), (5, 6)
    shapes = [(12,), *[by_gate] * 4, *[by_cell] * 6, *[by_gate] * 2, *[by_cell] * 6]
    checks.equal("the shapes", [numbers.shape for numbers in lists], shapes)


# Publishing, from sums that a tally gives and from others.

# Sums of a cell, on both sides of each limit.
SUMS = [
    (0, 0, 0, 0),
    (2, 100, 8, 160),
    (2, 0, 7, 0),
    (0, 0, 8, 160),
    (0, 100, 8, 160),
    (1, 100, 65_533, 65_533 * 100),
    (1, 101, 65_534, 65_534 * 101 - 1),
    (2, 201, 2 * 65_534 - 1, 65_534 * 201),
    (2, 202, 2 * 65_534, 65_534 * 202 - 1),
    (3, 299, 2**32, 2**32 + 7),
    (1, 2**32 - 1, 2**64 - 1, 0),
    (2**32 - 1, 1, 0, 2**64 - 1),
    (2**32 - 1, 2**32 - 1, 2**64 - 1, 2**64 - 1),
]


def sums_of_cells(cells):
    """The first so many of the sums, as four lists."""
    return [[sums[place] for sums in SUMS[:cells]] for place in range(4)]


def publishing(checks):
    """Any sums, of any number of cells, in any weighting."""
    for weighting in (PLAIN, BY_QUALITY, 2, -1, 2**32, -(2**63), 2**63 - 1):
        for cells in range(len(SUMS) + 1):
            lists = sums_of_cells(cells)
            expected = expected_cells(weighting, *lists)
            checks.equal(f"{cells} cells, weighting {weighting}", plain_lists(uldrevin.publish(weighting, *lists)), expected)
    expected = [[NO_MEAN, 4, 3, NO_MEAN, NO_MEAN, 65_533, NO_MEAN], [0, 50, 0, 0, 0, 100, 100]]
    checks.equal("plain means and qualities", plain_lists(uldrevin.publish(PLAIN, *sums_of_cells(7))), expected)
    expected = [[NO_MEAN, 1, NO_MEAN, NO_MEAN, 1, 65_533, 65_533], [0, 50, 0, 0, 0, 100, 100]]
    checks.equal("means and qualities by quality", plain_lists(uldrevin.publish(BY_QUALITY, *sums_of_cells(7))), expected)


def forms_of_sums(checks):
    """The same sums in lists of every form give the same cells, of the shape that the sums have."""
    plain = sums_of_cells(12)
    forms = {
        "flat lists": plain,
        "arrays": [array(letter, numbers) for letter, numbers in zip("IIQQ", plain)],
        "arrays of other types": [array("Q", numbers) for numbers in plain],
        "tuples": [tuple(numbers) for numbers in plain],
    }
    shaped = {} if numpy is None else numpy_sums(plain)
    for weighting in (PLAIN, BY_QUALITY):
        expected = expected_cells(weighting, *plain)
        for name, lists in {**forms, **shaped}.items():
            cells = uldrevin.publish(weighting, *lists)
            checks.equal(f"cells from {name}, weighting {weighting}", plain_lists(cells), expected)
            kinds_of_cells(checks, name, cells, (3, 4) if name in shaped else (12,))
        cells = uldrevin.publish(weighting, *(iter(numbers) for numbers in plain))
        checks.equal(f"cells from iterators, weighting {weighting}", plain_lists(cells), expected)
    checks.equal("the given sums afterwards", [list(numbers) for numbers in forms["arrays"]], plain)


def kinds_of_cells(checks, name, cells, shape):
    """Published cells are typed, and with numpy shaped."""
    checks.equal(f"the kind of cells from {name}", type(cells), uldrevin.Cells)
    if numpy is None:
        checks.equal(f"the types of cells from {name}", [numbers.typecode for numbers in cells], ["H", "B"])
        return
    checks.equal(f"the dtypes of cells from {name}", [numbers.dtype for numbers in cells], [numpy.dtype(letter) for letter in "HB"])
    checks.equal(f"the shapes of cells from {name}", [numbers.shape for numbers in cells], [shape] * 2)


def numpy_sums(plain):
    """Sums of three rows and four columns."""
    dtypes = ("uint32", "uint32", "uint64", "uint64")
    arrays = [numpy.array(numbers, dtype).reshape(3, 4) for numbers, dtype in zip(plain, dtypes)]
    read_only = [numbers.copy() for numbers in arrays]
    for numbers in read_only:
        numbers.flags.writeable = False
    return {
        "numpy arrays": arrays,
        "numpy arrays that are only to be read": read_only,
        "numpy arrays by column": [numpy.asfortranarray(numbers) for numbers in arrays],
        "parts of numpy arrays": [numpy.repeat(numbers, 2, 1)[:, ::2] for numbers in arrays],
        "a numpy array of counts and lists": [arrays[0], *plain[1:]],
        "lists and a numpy array of weighted sums": [*plain[:3], arrays[3]],
    }


def publishing_refusals(checks):
    """6 for lists that are not equally long."""
    for place in range(4):
        for change in (-1, 1, 1_000):
            lists = sums_of_cells(2)
            lists[place] = [1] * (2 + change)
            checks.refused(6, f"2 cells, {change} in list {place}", lambda: uldrevin.publish(PLAIN, *lists))
        alone = [[1] if place == other else [] for other in range(4)]
        checks.refused(6, f"no cells, one number in list {place}", lambda: uldrevin.publish(BY_QUALITY, *alone))
    if numpy is not None:
        dtypes = ("uint32", "uint32", "uint64", "uint64")
        for place in range(4):
            lists = [numpy.ones((2, 4 if place == other else 3), dtype) for other, dtype in enumerate(dtypes)]
            checks.refused(6, f"a column more in list {place}", lambda: uldrevin.publish(PLAIN, *lists))


def sums_not_taken(checks):
    good = dict(zip(uldrevin.Sums._fields, sums_of_cells(2)))
    wrong = [
        (ValueError, "counts holds -1 at place 1", {"counts": [2, -1]}),
        (ValueError, "counts holds 4294967296 at place 0", {"counts": [2**32, 2]}),
        (ValueError, "quality_sums holds 4294967296 at place 1", {"quality_sums": array("Q", [0, 2**32])}),
        (ValueError, "value_sums holds 18446744073709551616 at place 0", {"value_sums": [2**64, 0]}),
        (ValueError, "weighted_sums holds -160 at place 1", {"weighted_sums": [0, -160]}),
        (ValueError, "weighting is 9223372036854775808", {"weighting": 2**63}),
        (TypeError, "weighting has to be a whole number", {"weighting": 1.0}),
        (TypeError, "weighting has to be a whole number", {"weighting": None}),
        (TypeError, "counts must be a list of whole numbers, and is 2", {"counts": 2}),
        (TypeError, "quality_sums must hold whole numbers", {"quality_sums": [0.0, 100.0]}),
        (TypeError, "value_sums must hold whole numbers", {"value_sums": [[0, 8]]}),
        (TypeError, "weighted_sums must be a list of whole numbers, and is None", {"weighted_sums": None}),
    ]
    if numpy is not None:
        wrong += numpy_sums_not_taken()
    for kind, words, change in wrong:
        given = {"weighting": PLAIN} | good | change
        checks.raised(kind, words, f"publish with {change}", lambda: uldrevin.publish(**given))


def numpy_sums_not_taken():
    row = {name: numpy.ones((1, 2), dtype) for name, dtype in zip(uldrevin.Sums._fields, ("uint32", "uint32", "uint64", "uint64"))}
    return [
        (TypeError, "counts must have the dtype uint32, and has int64", {"counts": numpy.array([[0, 2]])}),
        (TypeError, "quality_sums must have the dtype uint32, and has uint64", {"quality_sums": row["value_sums"]}),
        (TypeError, "value_sums must have the dtype uint64, and has uint32", {"value_sums": row["counts"]}),
        (TypeError, "weighted_sums must not be a masked array", {"weighted_sums": numpy.ma.array(row["weighted_sums"])}),
        (ValueError, "counts must have a shape (rows, columns), and has (2,)", {"counts": row["counts"][0]}),
        (ValueError, "counts have the shape (1, 2) and weighted_sums (2, 1)", row | {"weighted_sums": row["weighted_sums"].T}),
        (ValueError, "value_sums have the shape (1, 2) and weighted_sums (2, 1)",
         {"value_sums": row["value_sums"], "weighted_sums": row["weighted_sums"].T}),
    ]


# Other threads.


class Meddled:
    """Stands in for the library: during each call another thread tries to lengthen the given arrays. A call with a longer one is not made."""

    def __init__(self, library, lists):
        self.library, self.lists, self.told = library, lists, []

    def lengthen(self):
        for numbers in self.lists:
            try:
                numbers.append(0)
                self.told.append("lengthened")
            except BufferError:
                self.told.append("held")

    def __getattr__(self, name):
        function = getattr(self.library, name)

        def called(*arguments):
            thread = Thread(target=self.lengthen)
            thread.start()
            thread.join()
            return function(*arguments) if "lengthened" not in self.told else 6

        return called


def held_arrays(checks):
    """The given arrays are held during each call that these functions make with them, and free once they have returned or raised."""
    library = uldrevin._library
    wrong = EXAMPLE._replace(spacing=0)
    for name, scan, calls in (("tally", EXAMPLE, 2), ("write_record", EXAMPLE, 2), ("tally", wrong, 1), ("write_record", wrong, 1)):
        lists = [array(letter, numbers) for letter, numbers in zip("IHB", scan[5:])]
        given = (*scan[:2], *scan[3:5], *lists) if name == "tally" else (*scan[:5], *lists)
        uldrevin._library = meddled = Meddled(library, lists)
        what = f"{name} with spacing {scan.spacing}"
        try:
            ended = getattr(uldrevin, name)(*given)
        except uldrevin.Refusal as refusal:
            ended = refusal  # kept, since its traceback keeps the function's variables
        finally:
            uldrevin._library = library
        checks.equal(f"{what}, the arrays during its calls", meddled.told, ["held"] * 3 * calls)
        checks.equal(f"{what}, its refusal", getattr(ended, "number", None), 3 if scan is wrong else None)
        meddled.told.clear()
        meddled.lengthen()
        checks.equal(f"{what}, the arrays afterwards", meddled.told, ["lengthened"] * 3)


def held_sums(checks):
    """Given arrays of sums are held while cells are published."""
    library, lists = uldrevin._library, [array(letter, numbers) for letter, numbers in zip("IIQQ", sums_of_cells(2))]
    uldrevin._library = meddled = Meddled(library, lists)
    try:
        uldrevin.publish(PLAIN, *lists)
    finally:
        uldrevin._library = library
    checks.equal("sums during publishing", meddled.told, ["held"] * 4)
    meddled.told.clear()
    meddled.lengthen()
    checks.equal("sums after publishing", meddled.told, ["lengthened"] * 4)


# Sweeps.


def opened(scan, rays, gates):
    return uldrevin.Sweep(*scan[:5], rays=rays, gates=gates)


def sweep_of(data):
    """A record's scan and head, and a sweep that is open for its rays."""
    scan, head = uldrevin.read_record(data), uldrevin.record_head(data)
    return scan, head, opened(scan, head.rays, head.gates)


def some_rays(scan, head, start, end):
    """The rays from start on, up to the one before end, as flat lists."""
    gates = slice(start * head.gates, end * head.gates)
    return flat(scan.azimuths)[start:end], flat(scan.values)[gates], flat(scan.qualities)[gates]


def held_by(sweep):
    return [sweep.taken, sweep.closed, *(flat(getattr(sweep, name)) for name in uldrevin.Remapped._fields)]


def part_way(scan, head, taken):
    """What a sweep holds once it has taken so many rays of a scan, by the whole scan of these rays."""
    ledger, marks, *sums, means, qualities = plain_lists(uldrevin.remap(*scan[:5], *some_rays(scan, head, 0, taken)))
    left = head.gates * (head.rays - taken)
    return [taken, False, ledger + [OUTSIDE] * left, marks + [0] * left, *sums, [NO_MEAN] * len(means), [0] * len(qualities)]


def sweeps(checks):
    """However its rays are divided, a sweep has the lists of the whole scan."""
    for name, data in RECORDS:
        for weighting in (PLAIN, BY_QUALITY):
            for size in (1, 2, 5, 11, 16):
                scan, head = uldrevin.read_record(data)._replace(weighting=weighting), uldrevin.record_head(data)
                sweep = opened(scan, head.rays, head.gates)
                what = f"{name} by {size} rays, weighting {weighting}"
                checks.equal(f"{what}, its head", sweep.head, head._replace(weighting=weighting))
                for start in range(0, head.rays, size):
                    end = min(start + size, head.rays)
                    sweep.take(*some_rays(scan, head, start, end))
                    checks.equal(f"{what}, {end} rays taken", held_by(sweep), part_way(scan, head, end))
                expected = plain_lists(uldrevin.remap(*scan))
                checks.equal(f"{what}, closed", plain_lists(sweep.close()), expected)
                checks.equal(f"{what}, the sweep itself", held_by(sweep), [head.rays, True, *expected])
                for asked in (PLAIN, BY_QUALITY):
                    cells = plain_lists(uldrevin.publish(asked, *sweep.sums))
                    checks.equal(f"{what}, its sheet with weighting {asked}", cells, expected_cells(asked, *expected[2:6]))


def forms_of_rays(checks):
    """The first ray by itself and the others together, from lists of every form."""
    data = RECORDS[0][1]
    scan, head, _ = sweep_of(data)
    ([azimuth], *ray), (azimuths, *rays) = some_rays(scan, head, 0, 1), some_rays(scan, head, 1, head.rays)
    width = head.gates
    forms = {
        "flat lists": [(azimuth, *ray), (azimuths, *rays)],
        "lists of rays": [([azimuth], *([row] for row in ray)), (azimuths, *(rows_of(numbers, width) for numbers in rays))],
        "one azimuth in a list": [([azimuth], *ray), (azimuths, rows_of(rays[0], width), rays[1])],
        "arrays": [(azimuth, array("H", ray[0]), array("B", ray[1])), map(array, "IHB", (azimuths, *rays))],
        "arrays of other types": [(azimuth, *(array("q", row) for row in ray)), (array("q", numbers) for numbers in (azimuths, *rays))],
        "iterators and bytes": [(azimuth, iter(ray[0]), bytes(ray[1])), (iter(azimuths), iter(rays[0]), bytes(rays[1]))],
    }
    if numpy is not None:
        first, others = ([numbers[part] for numbers in scan[5:]] for part in (0, slice(1, None)))
        forms["numpy arrays"] = [first, others]
        forms["numpy arrays of one ray"] = [(numbers[:1] for numbers in scan[5:]), others]
        forms["numpy arrays by column"] = [first, (others[0], *map(numpy.asfortranarray, others[1:]))]
        forms["numpy arrays and lists"] = [(azimuth, first[1], ray[1]), (azimuths, others[1], rays[1])]
        forms["parts of numpy arrays"] = [(first[0], numpy.repeat(first[1], 2)[::2], first[2]), others]
    for name, (one, several) in forms.items():
        sweep = opened(scan, head.rays, head.gates)
        sweep.take(*one)
        sweep.take(*several)
        checks.equal(f"a sweep from {name}", plain_lists(sweep.close()), plain_lists(uldrevin.remap(*scan)))


def swept_lists(checks):
    """They are of the kinds that remap gives, and stay the sweep's own."""
    scan, _, sweep = sweep_of(RECORDS[0][1])
    whole = uldrevin.remap(*scan)
    for name, expected in whole._asdict().items():
        own = getattr(sweep, name)
        checks.equal(f"the type of a sweep's {name}", type(own), type(expected))
        if numpy is None:
            checks.equal(f"the numbers of a sweep's {name}", own.typecode, expected.typecode)
        else:
            checks.equal(f"the dtype and shape of a sweep's {name}", (own.dtype, own.shape), (expected.dtype, expected.shape))
    for name, own in sweep.sums._asdict().items():
        checks.note(own is getattr(sweep, name), f"the {name} among a sweep's sums are another list than its own")
    for name in (*whole._fields, "sums", "head", "taken", "closed"):
        checks.raised(AttributeError, "", f"a sweep's {name}, set", lambda: setattr(sweep, name, getattr(sweep, name)))


def fresh_lists(checks):
    """Each call has lists of its own: what it gave stays when another scan of as many gates and cells is remapped or swept."""
    other = EXAMPLE._replace(azimuths=[900_000], first=50_000, values=[3, NOT_MEASURED], qualities=[50, 60])
    first, sweep = uldrevin.remap(*EXAMPLE), opened(EXAMPLE, 1, 2)
    sweep.take(*EXAMPLE[5:])
    swept, held = sweep.close(), plain_lists(first)
    checks.equal("the marks of two scans", [flat(uldrevin.remap(*scan).marks) for scan in (EXAMPLE, other)], [[1, 1], [0, 0]])
    again = opened(other, 1, 2)
    checks.equal("a second sweep", held_by(again), [0, False, [OUTSIDE] * 2, *[[0, 0]] * 5, [NO_MEAN] * 2, [0, 0]])
    again.take(*other[5:])
    checks.equal("the lists of the first scan", plain_lists(first), held)
    checks.equal("the lists of the first sweep", plain_lists(swept), held)


def fed_sweeps(checks):
    """After a refused ray the sweep goes on, and so does the generator."""
    scan, head, sweep = sweep_of(RECORDS[0][1])

    def turning():
        for ray in range(head.rays):
            azimuths, values, qualities = some_rays(scan, head, ray, ray + 1)
            if ray in (0, 7):
                yield azimuths[0], values, [101] * head.gates
            yield azimuths[0], values, qualities

    rays = turning()
    for taken in (0, 7):
        checks.refused(8, "a bad ray of a generator", lambda: sweep.feed(rays))
        checks.equal("rays taken before the bad one", sweep.taken, taken)
    sweep.feed(rays)
    expected = plain_lists(uldrevin.remap(*scan))
    checks.equal("a sweep from a generator", plain_lists(sweep.close()), expected)
    other = opened(scan, head.rays, head.gates)
    other.feed([some_rays(scan, head, 0, 5), some_rays(scan, head, 5, head.rays)])
    checks.equal("a sweep from a list of groups", plain_lists(other.close()), expected)


class Slow:
    """Stands in for the library: while it works on one ray, another thread feeds the next."""

    def __init__(self, library, feed):
        self.library, self.told = library, []
        self.thread = Thread(target=feed)

    def uldrevin_sweep_take(self, *arguments):
        self.told.append("begun")
        if len(self.told) == 1:
            self.thread.start()
            self.thread.join(0.2)  # time for the other thread to begin
        refusal = self.library.uldrevin_sweep_take(*arguments)
        self.told.append("ended")
        return refusal


def held_rays(checks):
    """During a call the given arrays are held, and so are the sweep's own, and another thread's ray waits."""
    library, sweep = uldrevin._library, opened(EXAMPLE, 2, 2)
    lists = [array(letter, numbers) for letter, numbers in zip("IHB", EXAMPLE[5:])]
    own = [] if numpy is not None else [sweep.ledger, sweep.marks, *sweep.sums]
    uldrevin._library = meddled = Meddled(library, [*lists, *own])
    try:
        sweep.take(*lists)
    finally:
        uldrevin._library = library
    checks.equal("arrays during a take", meddled.told, ["held"] * len([*lists, *own]))
    meddled = Meddled(library, lists)
    meddled.lengthen()
    checks.equal("arrays after a take", meddled.told, ["lengthened"] * 3)

    shared, ray = opened(EXAMPLE, 2, 2), (0, [1, 7], [90, 10])
    uldrevin._library = slow = Slow(library, lambda: shared.take(*ray))
    try:
        shared.take(*ray)
        slow.thread.join()
    finally:
        uldrevin._library = library
    checks.equal("two threads, one sweep", (slow.told, shared.taken), (["begun", "ended"] * 2, 2))


# Refusals.


def sweep_refused(checks, number, what, sweep, call):
    """The call raises this refusal, and the sweep holds what it held."""
    before = held_by(sweep)
    checks.refused(number, what, call)
    checks.equal(f"{what}, the sweep", held_by(sweep), before)


def opening_refusals(checks):
    wrong = {
        1: {"rays": 0, "gates": 0},
        2: {"gates": 1_001, "spacing": 0},
        3: {"spacing": 0, "site": Site(0, 0)},
        4: {"site": Site(199_999, 0), "grid": Hrap(400, 932, 0, 1)},
        5: {"grid": Hrap(400, 932, 2, 2**32 - 1)},
    }
    good = dict(zip(EXAMPLE._fields[:5], EXAMPLE), rays=1, gates=2)
    for number, change in [*wrong.items(), (1, {"rays": 2**63 - 1}), (1, {"rays": -1}), (2, {"gates": 2**32 + 2})]:
        checks.refused(number, f"a sweep with {change}", lambda: uldrevin.Sweep(**(good | change)))
    checks.raised(ValueError, "rays is 9223372036854775808", "a sweep of 2^63 rays", lambda: uldrevin.Sweep(**good | {"rays": 2**63}))
    for name, given in {"gates": 2.0, "rays": None, "spacing": "100000", "first": [0]}.items():
        words = f"{name} has to be a whole number"
        checks.raised(TypeError, words, f"a sweep with {name} {given!r}", lambda: uldrevin.Sweep(**good | {name: given}))


def sweep_refusals(checks):
    """Each refusal before the first ray, between the rays, after the last and after closing."""
    ray = EXAMPLE[5:]
    sweep = opened(EXAMPLE, 2, 2)
    groups = [
        (6, "no rays", ([], [], [])),
        (6, "no rays with values", ([], [1], [101])),
        (6, "a value too few", (3_600_000, [1], [101, 10])),
        (6, "a quality too many", (0, [1, 7], [90, 10, 101])),
        (6, "values of ten rays", (0, [1, 7] * 10, [90, 10])),
        (7, "an azimuth of 360 degrees", (3_600_000, [1, 7], [101, 10])),
        (8, "a quality of 101", (0, [1, NOT_MEASURED], [90, 101])),
    ]
    for taken in (0, 1, 2):
        for number, what, group in groups:
            expected = 17 if taken == 2 and group[0] != [] else number
            sweep_refused(checks, expected, f"{what}, {taken} rays taken", sweep, lambda: sweep.take(*group))
        sweep_refused(checks, 17, f"3 rays, {taken} rays taken", sweep, lambda: sweep.take([3_600_000] * 3, [], [101]))
        if taken < 2:
            sweep_refused(checks, 18, f"closed with {taken} rays", sweep, sweep.close)
            sweep.take(*ray)
    sweep.close()
    for _, what, group in groups:
        sweep_refused(checks, 19, f"{what}, closed", sweep, lambda: sweep.take(*group))
    sweep_refused(checks, 19, "a good ray, closed", sweep, lambda: sweep.take(*ray))
    sweep_refused(checks, 19, "closed again", sweep, sweep.close)
    pair = opened(EXAMPLE, 2, 2)
    sweep_refused(checks, 8, "two rays, one bad", pair, lambda: pair.take([0, 0], [[1, 7], [1, 7]], [[90, 10], [90, 101]]))


def lengthened_lists(checks):
    """Without numpy a caller can lengthen a list of the sweep, and it is refused."""
    for name in ("ledger", "marks", *uldrevin.Sums._fields):
        sweep = opened(EXAMPLE, 1, 2)
        getattr(sweep, name).append(0)
        sweep_refused(checks, 6, f"a sweep with a longer list of {name}", sweep, lambda: sweep.take(*EXAMPLE[5:]))


def alter(sweep, sums):
    """Writes the four sums of the second cell, where the gates of document 01's ray lie."""
    for own, number in zip(sweep.sums, sums):
        own[1 if numpy is None else (0, 1)] = number


def with_sums(weighting, sums):
    """A sweep for that ray, whose caller has altered these sums."""
    sweep = opened(EXAMPLE._replace(weighting=weighting), 1, 2)
    alter(sweep, sums)
    return sweep


GROWTH = (2, 100, 8, 160)  # of these sums by the ray
LIMITS = (2**32 - 1, 2**32 - 1, 2**64 - 1, 2**64 - 1)


def full_sums(checks, weighting):
    """31 just where a sum would pass its width, whatever the weighting."""
    for place in range(4):
        most = [limit - growth if place == k else 0 for k, (limit, growth) in enumerate(zip(LIMITS, GROWTH))]
        full, over = with_sums(weighting, most), with_sums(weighting, [number + (place == k) for k, number in enumerate(most)])
        full.take(*EXAMPLE[5:])
        sums = [flat(own)[1] for own in full.sums]
        checks.equal(f"sums that are just full, from {most}", sums, [number + growth for number, growth in zip(most, GROWTH)])
        sweep_refused(checks, 31, f"one more than {most}, weighting {weighting}", over, lambda: over.take(*EXAMPLE[5:]))


def altered_sums(checks):
    """What is refused, and what is published on closing, of sums that no ray gives."""
    for weighting in (PLAIN, BY_QUALITY):
        full_sums(checks, weighting)
        for sums in SUMS:
            sweep = opened(EXAMPLE._replace(weighting=weighting), 1, 2)
            sweep.take(*EXAMPLE[5:])
            alter(sweep, sums)
            closed = sweep.close()
            cells = expected_cells(weighting, *([0, number] for number in sums))
            checks.equal(f"published of {sums}, weighting {weighting}", plain_lists([closed.means, closed.cell_qualities]), cells)


def scan_refusals(checks):
    changes = {
        1: {"azimuths": [], "values": [], "qualities": [], "spacing": 0},
        2: {"values": [], "qualities": [], "spacing": 0},
        3: {"spacing": 0, "site": Site(0, 0)},
        4: {"site": Site(199_999, 0), "grid": Hrap(400, 932, 0, 1)},
        5: {"grid": Hrap(400, 932, 2, 2**32 - 1), "azimuths": [3_600_000]},
        6: {"qualities": [101], "azimuths": [3_600_000]},
        7: {"azimuths": [3_600_000], "qualities": [101, 101]},
        8: {"values": [NOT_MEASURED, 7], "qualities": [101, 10]},
    }
    for number, change in changes.items():
        scan = EXAMPLE._replace(**change)
        checks.refused(number, f"tally with {change}", lambda: tally_of(scan))
        checks.refused(number, f"remap with {change}", lambda: uldrevin.remap(*scan))
        checks.refused(number, f"write_record with {change}", lambda: uldrevin.write_record(*scan))
    no_gates = EXAMPLE._replace(values=[[]], qualities=[[]])
    checks.refused(2, "a ray of no gates", lambda: uldrevin.remap(*no_gates))
    many_rays = EXAMPLE._replace(azimuths=[0] * 721, values=[1] * 721, qualities=[1] * 721)
    checks.refused(1, "721 rays", lambda: uldrevin.remap(*many_rays))
    too_many = EXAMPLE._replace(azimuths=[0] * 512, values=[1] * 32_768, qualities=[1] * 32_768, spacing=1)
    checks.equal("gates of a scan too large for a record", len(flat(uldrevin.remap(*too_many).ledger)), 32_768)
    checks.refused(15, "32,768 gates", lambda: uldrevin.write_record(*too_many))


def record_refusals(checks):
    data = uldrevin.write_record(*EXAMPLE)
    damaged = {
        4: data[:3] + bytes(4) + data[7:],
        8: data[:-1] + b"\x65",
        11: data[:-1],
        12: b"\2" + data[1:],
        13: data[:41] + b"\2" + data[42:],
        14: data + b"\0",
    }
    for number, wrong in damaged.items():
        checks.refused(number, "record_head", lambda: uldrevin.record_head(wrong))
        checks.refused(number, "read_record", lambda: uldrevin.read_record(wrong))
        checks.refused(number, "record_field", lambda: uldrevin.record_field(wrong, 1))
        checks.refused(number, "record_field of no field", lambda: uldrevin.record_field(wrong, 8))
    checks.refused(11, "no bytes", lambda: uldrevin.read_record(b""))


def refusal_itself(checks):
    """16 cannot be met, since the binding makes the buffer itself."""
    refusal = uldrevin.Refusal(16)
    checks.equal("the text of refusal 16", str(refusal), f"refusal 16: {uldrevin.SENTENCES[16]}")
    checks.equal("the numbers with a sentence", list(uldrevin.SENTENCES), [*range(1, 9), *range(11, 20), 31])
    checks.equal("a refusal sent to another process", str(pickle.loads(pickle.dumps(refusal))), str(refusal))


# Records.


def records(checks):
    for name, data in [*RECORDS, ("example", uldrevin.write_record(*EXAMPLE))]:
        scan = uldrevin.read_record(data)
        checks.equal(f"{name} read and written", uldrevin.write_record(*scan), data)
        head = uldrevin.record_head(data)
        checks.equal(f"the site and grid of {name}", (head.site, head.grid), (scan.site, scan.grid))
        numbers = (len(scan.azimuths), len(flat(scan.values)) // len(scan.azimuths), scan.first, scan.spacing, scan.weighting)
        checks.equal(f"the numbers of {name}", (head.rays, head.gates, head.first, head.spacing, head.weighting), numbers)
    scan = uldrevin.read_record(uldrevin.write_record(*EXAMPLE))
    checks.equal("the example written and read", (*scan[:5], *map(flat, scan[5:])), tuple(EXAMPLE))


def fields(checks):
    for name, data in RECORDS:
        parts = [uldrevin.record_field(data, number) for number in range(1, 8)]
        joined = b"".join(bytes([tag]) + len(part).to_bytes(2, "big") + part for tag, part in enumerate(parts, 1))
        checks.equal(f"the fields of {name}, joined", joined, data)
        for number in (0, 8, 256 + 1, 2**32 + 1, -1, 2**70):
            checks.equal(f"field {number} of {name}", bytes(uldrevin.record_field(data, number)), b"")
    data = RECORDS[0][1]
    own = bytearray(data)
    part = uldrevin.record_field(own, 7)
    own[-1] = 33
    checks.equal("the last quality, after the caller has changed it", part[-1], 33)
    part[-1] = 34
    checks.equal("the caller's record, after the part has been changed", own[-1], 34)
    checks.equal("a field of a part of some bytes", uldrevin.record_field(memoryview(b"--" + data)[2:], 1), data[3:11])
    checks.raised(TypeError, "", "a text as record", lambda: uldrevin.read_record("record"))
    checks.raised(TypeError, "", "a number as record", lambda: uldrevin.read_record(61))


# Numbers that 64 bits hold are all asked of the library, others are not.


def numbers_of_64_bits(checks):
    wrong = [
        (3, {"first": -1}),
        (3, {"first": -(2**63)}),
        (3, {"spacing": 2**32 + 100_000}),
        (3, {"spacing": 2**63 - 1}),
        (4, {"site": Site(2**63 - 1, 0)}),
        (4, {"site": Site(600_000, -(2**63))}),
        (5, {"grid": Hrap(2**32 + 400, 932, 2, 1)}),
        (5, {"grid": Hrap(400, -(2**63), 2, 1)}),
        (5, {"grid": Hrap(400, 932, -1, 1)}),
        (5, {"grid": Hrap(400, 932, 2, 2**32 + 1)}),
        (5, {"grid": RASTER._replace(x=2**63 - 1)}),
        (5, {"grid": RASTER._replace(y=2**32)}),
        (5, {"grid": RASTER._replace(side=-1)}),
        (5, {"grid": RASTER._replace(side=2**32 + 100_000)}),
    ]
    for number, change in wrong:
        scan = EXAMPLE._replace(**change)
        checks.refused(number, f"tally with {change}", lambda: tally_of(scan))
        checks.refused(number, f"remap with {change}", lambda: uldrevin.remap(*scan))
        checks.refused(number, f"write_record with {change}", lambda: uldrevin.write_record(*scan))
    site, grid = EXAMPLE.site, EXAMPLE.grid
    for far in (-1, 2**32, -(2**63), 2**63 - 1):
        checks.refused(7, f"azimuth {far}", lambda: uldrevin.place(site, grid, far, 0))
        checks.refused(3, f"range {far}", lambda: uldrevin.place(site, grid, 0, far))
        by_quality = EXAMPLE._replace(weighting=far)
        checks.equal(f"means with weighting {far}", flat(uldrevin.remap(*by_quality).means), [NO_MEAN, 1])
        checks.equal(f"a record with weighting {far}", uldrevin.write_record(*by_quality), uldrevin.write_record(*EXAMPLE))


def numbers_not_held(checks):
    wrong = {
        "latitude is 1180591620717411303424": {"site": Site(2**70, 0)},
        "longitude is -9223372036854775809": {"site": Site(600_000, -(2**63) - 1)},
        "columns is 18446744073709551618": {"grid": Hrap(400, 932, 2**64 + 2, 1)},
        "rows is -18446744073709551615": {"grid": Hrap(400, 932, 2, 1 - 2**64)},
        "i is 9223372036854775808": {"grid": Hrap(2**63, 932, 2, 1)},
        "side is 18446744073709651616": {"grid": RASTER._replace(side=2**64 + 100_000)},
        "first is 18446744073709551616": {"first": 2**64},
        "spacing is 18446744073709651616": {"spacing": 2**64 + 100_000},
        "weighting is 18446744073709551616": {"weighting": 2**64},
        "azimuths holds -1 at place 0": {"azimuths": [-1]},
        "values holds 65536 at place 1": {"values": [1, 65_536]},
        "qualities holds 256 at place 0": {"qualities": array("q", [256, 10])},
    }
    for words, change in wrong.items():
        scan = EXAMPLE._replace(**change)
        checks.raised(ValueError, words, f"remap with {change}", lambda: uldrevin.remap(*scan))
        checks.raised(ValueError, words, f"write_record with {change}", lambda: uldrevin.write_record(*scan))
    both = EXAMPLE._replace(weighting=2**64, spacing=0)
    checks.raised(ValueError, "weighting is 18446744073709551616", "remap with two wrong numbers", lambda: uldrevin.remap(*both))
    site, grid = EXAMPLE.site, EXAMPLE.grid
    checks.raised(ValueError, "azimuth is -18446744073709551616", "azimuth -2^64", lambda: uldrevin.place(site, grid, -(2**64), 0))
    checks.raised(ValueError, "range is 9223372036854775808", "range 2^63", lambda: uldrevin.place(site, grid, 0, 2**63))


def lists_not_taken(checks):
    wrong = {
        "values must hold whole numbers": (TypeError, {"values": [1.0, 7.0]}),
        "spacing has to be a whole number": (TypeError, {"spacing": 1e5}),
        "each ray of values must have as many gates": (ValueError, {"values": [[1], [7, 8]]}),
        "values have the shape (2, 1) and qualities (1, 2)": (ValueError, {"values": [[1], [7]], "qualities": [[90, 10]]}),
    }
    for words, (kind, change) in wrong.items():
        scan = EXAMPLE._replace(**change)
        checks.raised(kind, words, f"remap with {change}", lambda: uldrevin.remap(*scan))


def rays_not_taken(checks):
    sweep = opened(EXAMPLE, 3, 2)
    wrong = [
        (TypeError, "azimuths must be a list of whole numbers, and is 0.5", (0.5, [1, 7], [90, 10])),
        (TypeError, "azimuths must be a list of whole numbers, and is None", (None, [1, 7], [90, 10])),
        (TypeError, "azimuths must hold whole numbers", ("0", [1, 7], [90, 10])),
        (TypeError, "values must be a list of whole numbers, and is 1", (0, 1, [90, 10])),
        (TypeError, "values must hold whole numbers", (0, "17", [90, 10])),
        (TypeError, "values must hold whole numbers", (0, [1.0, 7.0], [90, 10])),
        (TypeError, "qualities must be a list of whole numbers, and is None", (0, [1, 7], None)),
        (TypeError, "qualities must hold whole numbers", (0, [1, 7], [90, None])),
        (ValueError, "values holds -7 at place 1", (0, [1, -7], [90, 10])),
        (ValueError, "azimuths holds -1 at place 0", (-1, [1, 7], [90, 10])),
        (ValueError, "azimuths holds 4294967296 at place 0", (2**32, [1, 7], [90, 10])),
        (ValueError, "qualities holds 256 at place 1", (0, [1, 7], [90, 256])),
        (TypeError, "values must hold whole numbers", (0, [[1, 7]], [90, 10])),
        (ValueError, "must have the shape (3, 2) for these azimuths, and have (2, 3)", ([0] * 3, [[1, 7, 1], [7, 1, 7]], [90] * 6)),
        (ValueError, "must have the shape (1, 2) for these azimuths, and have (2, 1)", ([0], [1, 7], [[90], [10]])),
    ]
    if numpy is not None:
        row, qualities = numpy.array([1, 7], "uint16"), numpy.array([90, 10], "uint8")
        wrong += [
            (ValueError, "values must have a shape (gates,), and has (1, 2)", (0, row[None], qualities[None])),
            (ValueError, "values must have a shape (rays, gates), and has (2,)", ([0], row, qualities)),
            (ValueError, "and have (2, 1)", ([0], row[:, None], qualities[:, None])),
            (TypeError, "values must have the dtype uint16", (0, row.astype(int), qualities)),
            (ValueError, "values have the shape (2,) and qualities (1,)", (0, row, qualities[:1])),
            (ValueError, "one of the sweep's own", (sweep.counts.ravel(), [[1, 7]] * 2, [[90, 10]] * 2)),
            (ValueError, "one of the sweep's own", (0, sweep.ledger.view("uint16")[0, :2], qualities)),
            (ValueError, "one of the sweep's own", (0, row, sweep.marks[2])),
            (ValueError, "one of the sweep's own", (0, row, sweep.weighted_sums.view("uint8")[0, -2:])),
        ]
    else:
        wrong += [
            (ValueError, "one of the sweep's own", (sweep.counts, [1, 7] * 2, [90, 10] * 2)),
            (ValueError, "one of the sweep's own", ([0] * 3, [1, 7] * 3, sweep.marks)),
        ]
    for kind, words, given in wrong:
        checks.raised(kind, words, f"a sweep given {given}", lambda: sweep.take(*given))
    checks.equal("the sweep after what it does not take", held_by(sweep), held_by(opened(EXAMPLE, 3, 2)))


def arrays_not_taken(checks):
    wrong = [
        (TypeError, "azimuths must have the dtype uint32", {"azimuths": numpy.array([0])}),
        (TypeError, "values must have the dtype uint16", {"values": numpy.array([[1, 7]])}),
        (TypeError, "values must have the dtype uint16", {"values": numpy.array([[1, 7]], ">u2")}),
        (TypeError, "qualities must have the dtype uint8", {"qualities": numpy.array([[90, 10]], float)}),
        (TypeError, "values must not be a masked array", {"values": numpy.ma.array([[1, 7]], dtype="uint16")}),
        (ValueError, "azimuths must have a shape (rays,)", {"azimuths": numpy.array([[0]], "uint32")}),
        (ValueError, "values must have a shape (rays, gates)", {"values": numpy.array([1, 7], "uint16")}),
        (ValueError, "qualities must have a shape (rays, gates)", {"qualities": numpy.array([[[90, 10]]], "uint8")}),
    ]
    turned = {"values": numpy.array([[1, 7]], "uint16"), "qualities": numpy.array([[90], [10]], "uint8")}
    for kind, words, change in [*wrong, (ValueError, "values have the shape (1, 2) and qualities (2, 1)", turned)]:
        scan = EXAMPLE._replace(**change)
        checks.raised(kind, words, f"remap with {change}", lambda: uldrevin.remap(*scan))
    two_rays = EXAMPLE._replace(values=numpy.ones((2, 2), "uint16"), qualities=numpy.ones((2, 2), "uint8"))
    checks.refused(6, "two rays with one azimuth", lambda: uldrevin.remap(*two_rays))
    many_rays = EXAMPLE._replace(values=numpy.zeros((2**32, 0), "uint16"))
    checks.refused(1, "2^32 rays of no gates", lambda: uldrevin.remap(*many_rays))


# Where the library is.


def imported(library):
    """What an interpreter says that imports the binding with this file as library and prints a sine."""
    program = f"import sys; sys.path.insert(0, {str(BINDING)!r}); import uldrevin; print(uldrevin.sine(300_000))"
    environment = {**os.environ, "ULDREVIN_LIBRARY": str(library)}
    return subprocess.run([sys.executable, "-c", program], env=environment, capture_output=True, text=True, timeout=60)


def libraries(checks):
    checks.equal("a library that is named", imported(ROOT / "target" / "libuldrevin.so").stdout, "536870912\n")
    for name in (ROOT / "target" / "no-such-file.so", Path(__file__)):
        told = imported(name).stderr.splitlines()[-1:]
        found = bool(told) and told[0].startswith("ImportError: ") and "make library" in told[0]
        checks.note(found, f"with {name.name} as library: {told}, expected an ImportError that names `make library`")


def main():
    checks = Checks()
    for part in (gates, angles, scans, forms_of_lists, kinds_of_lists, held_arrays, scan_refusals, record_refusals, refusal_itself):
        part(checks)
    for part in (publishing, forms_of_sums, held_sums, publishing_refusals, sums_not_taken):
        part(checks)
    for part in (sweeps, forms_of_rays, swept_lists, fresh_lists, fed_sweeps, held_rays, opening_refusals, sweep_refusals, altered_sums):
        part(checks)
    for part in (records, fields, numbers_of_64_bits, numbers_not_held, lists_not_taken, rays_not_taken, libraries):
        part(checks)
    if numpy is None:
        lengthened_lists(checks)
    else:
        arrays_not_taken(checks)
    print(f"{checks.made} checks {'without numpy' if numpy is None else f'with numpy {numpy.__version__}'}")
    return 1 if checks.differences else 0


if __name__ == "__main__":
    sys.exit(main())
