"""Inputs of the programs: records for sheet and ledger, words for gate, each with a few words on what it is."""
import random
from itertools import chain, cycle, islice, product
from operator import itemgetter

import damaged_records
import good_records
import marked_gates
from compare_record import described
from good_records import EDGES
from good_scans import AZIMUTHS, FARTHEST, QUALITIES, SHEET, VALUES, any_azimuths, any_site, at_corner, filled, limited
from record_faults import fields_of, joined
from second_program import placement
from second_program.placement import Hrap, Radolan
from second_program.programs import MOST_BYTES
from second_program.sine import TURN

SEED = 20270307
KINDS = (Radolan, Hrap)


def each_once(groups, key):
    """The groups as lists, without the inputs whose key an earlier one has."""
    seen = set()
    for name, chosen in groups:
        kept = []
        for one in chosen:
            if key(one) not in seen:
                seen.add(key(one))
                kept.append(one)
        yield name, kept


# Records.


def with_words(scans):
    for scan in scans:
        yield described(scan), joined(fields_of(scan))


def small_scan(draw, kind, by_quality, values, qualities, azimuths, size=None, cells=None):
    """A scan on a grid around the radar or beside it, of rays and gates and of columns and rows, few unless given."""
    rays, gates = size or (draw.randint(1, 20), draw.randint(1, 25))
    columns, rows = cells or (draw.randint(1, 12), draw.randint(1, 12))
    side = Hrap.side if kind is Hrap else draw.choice((10_000, 100_000, draw.randint(10_000, 1_000_000)))
    wide = side * max(columns, rows) * draw.randint(1, 3) // (2 * gates)
    spacing = limited(wide, 1, min(1_000_000, FARTHEST // gates))
    latitude, longitude = any_site(draw)
    x, y = placement.position(latitude, longitude, kind.sphere, 0, 0)
    corner_x = x - draw.randint(-1, columns) * side - draw.randrange(side)
    corner_y = y - draw.randint(-1, rows) * side - draw.randrange(side)
    grid = at_corner(kind, corner_x, corner_y, side, columns, rows)
    numbers = (rays, gates, draw.choice((0, spacing // 2, spacing)), spacing, latitude, longitude, grid, by_quality)
    return filled(draw, numbers, values, qualities, azimuths)


def every_mixture(draw):
    """Both grids, both weightings, every pool of values and qualities."""
    azimuths = cycle(AZIMUTHS)
    for kind, by_quality, values, qualities in product(KINDS, (False, True), VALUES, QUALITIES):
        yield small_scan(draw, kind, by_quality, values, qualities, next(azimuths))


def at_random(draw, number):
    for _ in range(number):
        pools = (draw.choice(pool) for pool in (KINDS, (False, True), VALUES[:3], QUALITIES, AZIMUTHS))
        yield small_scan(draw, *pools)


def good_ones(draw, number):
    """Small scans, and every so many of the good records, most of whose grids are too large or lie elsewhere."""
    yield from with_words([SHEET, *every_mixture(draw), *at_random(draw, number)])
    for _, scans in good_records.groups():
        yield from with_words(islice(scans, 0, 2_400, 60))


def damaged_ones(most):
    """Of every group as many as this at even steps, or all."""
    for _, records in damaged_records.groups():
        records = list(records)
        yield from records[:: -(-len(records) // most)]


# Rays and gates of 4,096 or fewer, and of more.
SIZES = ((16, 256), (512, 8), (5, 819), (720, 5), (4, 1_000)), ((17, 241), (683, 6), (5, 820), (720, 6), (5, 1_000))
# Columns and rows of 1,024 cells or fewer, and of more.
CELLS = ((32, 32), (1_024, 1), (1, 1_024), (3, 341)), ((41, 25), (1_025, 1), (1, 1_025), (1_500, 1_500), (205, 5))


def scan_of_size(draw, size, cells):
    return small_scan(draw, draw.choice(KINDS), draw.random() < 0.5, VALUES[2], range(101), any_azimuths, size, cells)


def at_both_sizes(draw):
    """Scans of the most gates and cells, of one more and of many more, and with a wrong number besides."""
    few, many = zip(SIZES, CELLS)
    for size, cells in chain(product(*few), product(many[0], few[1][:1]), product(few[0][:1], many[1])):
        yield scan_of_size(draw, size, cells)
    for size, cells in (((17, 241), (2, 2)), ((2, 2), (41, 25)), ((17, 241), (41, 25))):
        scan = scan_of_size(draw, size, cells)
        yield scan
        yield scan._replace(latitude=750_001)
        yield scan._replace(azimuths=[*scan.azimuths[:-1], TURN])
        yield scan._replace(qualities=[*scan.qualities[:-1], 101])


def of_both_lengths(draw):
    """Good, cut and lengthened records of 16,384 bytes, one less and one more."""
    # 59 + 4 x 653 + 3 x 653 x 7 is 16,384. No such record has 4,096 gates or fewer.
    exact = joined(fields_of(small_scan(draw, Radolan, True, VALUES[2], range(101), any_azimuths, (653, 7))))
    longer = joined(fields_of(small_scan(draw, Hrap, True, VALUES[2], range(101), any_azimuths, (6, 1_000))))
    shorter = joined(fields_of(SHEET))
    yield "653 rays of 7 gates", exact
    for name, data in (("653 rays of 7 gates", exact), ("6 rays of 1,000 gates", longer), ("the example", shorter)):
        for length in (MOST_BYTES - 1, MOST_BYTES, MOST_BYTES + 1):
            yield f"{name}, cut or with zeros to {length} bytes", data[:length].ljust(length, b"\0")
    for length in (0, 1, 2, 3, MOST_BYTES, MOST_BYTES + 1, 200_000):
        yield f"{length} zeros", bytes(length)
        yield f"{length} random bytes", draw.randbytes(length)


def large_ones(draw):
    """Records of the most gates that can be written, the longest record, and input of 200,000 bytes."""
    most, longest = (
        joined(fields_of(small_scan(draw, kind, True, VALUES[2], range(101), any_azimuths, size, (40, 40))))
        for kind, size in ((Hrap, (217, 151)), (Radolan, (712, 46)))
    )
    yield "217 rays of 151 gates", most
    yield "712 rays of 46 gates, the longest record", longest
    yield "the longest record without its last byte", longest[:-1]
    for length in (len(longest) + 1, len(longest) + 2, 200_000):
        yield f"the longest record with zeros to {length} bytes", longest.ljust(length, b"\0")
    yield "most gates, with zeros to 200,000 bytes", most.ljust(200_000, b"\0")
    yield "200,000 zeros", bytes(200_000)
    yield "200,000 random bytes", draw.randbytes(200_000)


# Rays and gates of records whose fields are in order. Those of 16,383 or 8,191 rays are longer than any good record.
TOO_MANY = ((16_383, 2), (16_383, 1), (16_383, 0), (8_191, 4), (721, 45), (32, 1_001))


def too_many():
    """Records with nothing wrong but the number of rays, 1, or of gates, 2."""
    for (kind, scan), (rays, gates) in product(damaged_records.BASES.items(), TOO_MANY):
        lists = {"azimuths": [0] * rays, "values": [0] * (rays * gates), "qualities": [0] * (rays * gates)}
        data = joined(fields_of(scan._replace(rays=rays, gates=gates, spacing=1, **lists)))
        words = f"{kind} of {rays} rays and {gates} gates"
        yield words, data
        yield f"{words}, without its last byte", data[:-1]
        yield f"{words}, with a byte after it", data + b"\0"
        yield f"{words}, with zeros to 200,000 bytes", data.ljust(200_000, b"\0")


def at_limits_of_the_mark(draw):
    """Some of the scans with gates at both sides of each limit of the mark."""
    return [aimed.scan for aimed in draw.sample(marked_gates.aimed_scans(), 24)]


def every_sheet_group():
    draw = random.Random(SEED)
    yield "good records", good_ones(draw, 250)
    yield "damaged records", damaged_ones(90)
    yield "records at 4,096 gates and 1,024 cells", with_words(at_both_sizes(draw))
    yield "inputs at 16,384 bytes", of_both_lengths(draw)


def every_ledger_group():
    draw = random.Random(SEED + 1)
    yield "good records", good_ones(draw, 60)
    yield "damaged records", damaged_ones(25)
    yield "records up to the longest and inputs of 200,000 bytes", large_ones(draw)
    yield "records of too many rays or gates", too_many()
    yield "records at both sides of each limit of the mark", with_words(at_limits_of_the_mark(draw))


def sheet_groups():
    return each_once(every_sheet_group(), itemgetter(1))


def ledger_groups():
    return each_once(every_ledger_group(), itemgetter(1))


# Words.

ENDS = {
    "latitude": (200_000, 750_000),
    "longitude": (-1_800_000, 1_800_000),
    "azimuth": (0, 3_599_999),
    "range": (0, 46_000_000),
    "i": (-10_000, 10_000),
    "j": (-10_000, 10_000),
    "x": (-2_000_000_000, 2_000_000_000),
    "y": (-2_000_000_000, 2_000_000_000),
    "side": (10_000, 10_000_000),
    "columns": (1, 1_500),
    "rows": (1, 1_500),
}
GATE = ("latitude", "longitude", "azimuth", "range")
NAMES = {Hrap: (*GATE, "hrap", *Hrap._fields), Radolan: (*GATE, "radolan", *Radolan._fields)}
BASES = {
    Hrap: dict(zip(NAMES[Hrap], (600_000, -1_050_000, 0, 100_000, "hrap", 400, 932, 2, 1))),
    Radolan: dict(
        zip(NAMES[Radolan], (510_000, 100_000, 0, 0, "radolan", -52_346_220, -465_864_470, 100_000, 900, 900))
    ),
}

# Around what 16, 31, 32 and 63 bits hold, and the most digits that a number may have.
LARGE = (2**15, 2**16, 2**16 + 1, 2**31 - 1, 2**31, 2**32 - 1, 2**32, 2**32 + 1, 10**17, 10**18 - 1)
# Each is a number.
NUMBERS = ("-0", "007", "00", "-007", "0" * 18, "-" + "0" * 18, "0" * 12 + "600000", "9" * 18, "-" + "9" * 18)
# Each is none.
NONE = (
    *("", "-", "+1", "--1", "1-", "-+1", " 1", "1 ", "1\n", "\n", "1.0", "1,000", "1_000", "1e5", "0x10", "a", "1a"),
    *("a1", "1" * 19, "-" + "1" * 19, "0" * 19, "1" * 20, "9" * 40, str(2**64 + 1), "1" * 5_000, "/1", "1:", "hrap"),
    *("\u0661", "\u00b2", "\uff11", "\u22121", "\u2010" + "1", "1\u00a0", "\x01", "1\t", "*", "nan", "-inf"),
)
OTHER_KINDS = ("", "HRAP", "Hrap", "hra", "hrapp", "hrap ", " hrap", "RADOLAN", "radola", "radolane", "1", "2", "0", "-")


def any_gate(draw, kind):
    """A gate of any site on a grid around its position or anywhere."""
    latitude, longitude = any_site(draw)
    azimuth, distance = draw.randrange(TURN), draw.choice((0, FARTHEST, draw.randint(0, FARTHEST), draw.choice(EDGES)))
    x, y = placement.position(latitude, longitude, kind.sphere, azimuth, distance)
    side = Hrap.side if kind is Hrap else draw.choice((10_000, 100_000, 10_000_000, draw.randint(10_000, 10_000_000)))
    columns, rows = draw.choice(((1, 1), (1_500, 1_500), (draw.randint(1, 1_500), draw.randint(1, 30))))
    away_x, away_y = draw.randint(-1, columns), draw.randint(-1, rows)
    # For RADOLAN the gate often lies on an edge, one centimetre beside it or at a limit of the mark.
    edges = (-1, 0, 1, 49, 50, side - 51, side - 50, side - 1)
    corner_x, corner_y = (
        place - away * side - draw.choice((draw.choice(edges), draw.randrange(side)))
        for place, away in ((x, away_x), (y, away_y))
    )
    return latitude, longitude, azimuth, distance, at_corner(kind, corner_x, corner_y, side, columns, rows)


def gate_words(latitude, longitude, azimuth, distance, grid):
    return latitude, longitude, azimuth, distance, NAMES[type(grid)][4], *grid


def any_gates(draw):
    for kind, _ in product(KINDS, range(200)):
        yield gate_words(*any_gate(draw, kind))


def aimed_gates(draw):
    """Some of the gates at both sides of each limit of the mark."""
    for gate in draw.sample(list(marked_gates.aimed_gates()), 200):
        yield gate_words(gate.latitude, gate.longitude, gate.azimuth, gate.range, gate.grid)


def at_ends(draw):
    """Each number at its ends, one beside them, near 0 and large, alone and with another one changed."""
    for base in BASES.values():
        numbers = [name for name in base if name in ENDS]
        for name in numbers:
            least, most = ENDS[name]
            near = (-1, 0, 1, *(end + step for end in (least, most) for step in (-1, 0, 1)))
            for number in dict.fromkeys((*near, *LARGE, *(-number for number in LARGE))):
                yield (base | {name: number}).values()
                if draw.random() < 0.4:
                    other = draw.choice([one for one in numbers if one != name])
                    wrong = draw.choice((ENDS[other][0] - 1, ENDS[other][1] + 1, draw.choice(LARGE)))
                    yield (base | {name: number, other: wrong}).values()


def several_wrong(draw):
    """Two to five numbers at an end or one beside it."""
    for kind, _ in product(KINDS, range(100)):
        chosen = dict(BASES[kind])
        for name in draw.sample([name for name in chosen if name in ENDS], draw.randint(2, 5)):
            least, most = ENDS[name]
            chosen[name] = draw.choice((least - 1, most + 1, least, most))
        yield chosen.values()


def other_words():
    """Each number in another form, and each word in a form that is none."""
    for base in BASES.values():
        forms = cycle(NONE)
        for name in base:
            if name in ENDS:
                yield from ((base | {name: form}).values() for form in (*NUMBERS, *islice(forms, 12)))
        for form in NONE:
            yield (base | {"azimuth": form}).values()
            yield (base | {"rows": form}).values()
        for kind in (*OTHER_KINDS, *NUMBERS):
            yield [kind if word in ("hrap", "radolan") else word for word in base.values()]


def other_counts():
    """Too few words, too many, very many, very long ones, and one kind with the numbers of the other."""
    for base in BASES.values():
        words = list(base.values())
        for count in range(len(words)):
            yield words[:count]
            yield words[:count] + words[count + 1 :]
        for more in ("", 0, 1, "1" * 19, "hrap", "-"):
            yield [*words, more]
            yield [more, *words]
            yield [*words, more, more]
        yield words * 2
        yield [*words, *["0"] * 3_000]
        yield ["1" * 100_000, *words[1:]]
        yield [*words[:-1], "0" * 4_090]
        yield words[5:] + words[:5]
        yield [{"hrap": "radolan", "radolan": "hrap"}.get(word, word) for word in words]


def unknown_bytes():
    """Words that are no text."""
    for byte in (b"\x80", b"\xff", b"\xb9", b"\xc2", b"7\xff", b"\xff7"):
        for place in (0, 4, 8):
            words = as_bytes(BASES[Hrap].values())
            yield words[:place] + [byte] + words[place + 1 :]


def as_bytes(words):
    return [word if isinstance(word, bytes) else str(word).encode() for word in words]


def every_gate_group():
    draw = random.Random(SEED + 2)
    for name, chosen in (
        ("gates of both kinds", any_gates(draw)),
        ("gates at both sides of each limit of the mark", aimed_gates(draw)),
        ("gates at both sides of each limit", at_ends(draw)),
        ("gates with several numbers at a limit", several_wrong(draw)),
        ("other words", chain(other_words(), unknown_bytes())),
        ("words too few, too many or exchanged", other_counts()),
    ):
        yield name, map(as_bytes, chosen)


def gate_groups():
    return each_once(every_gate_group(), tuple)
