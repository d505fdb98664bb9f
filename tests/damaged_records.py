"""Damaged records, each with a few words on what is wrong. Some single changes of a good record leave it good."""
import random
from itertools import chain, combinations, product

import good_records
from good_records import SEED
from record_faults import Field, apart, damaged, faults_of, fields_of, joined, scan_faults, with_byte
from second_program import record
from second_program.placement import Hrap, Radolan
from second_program.scan import Scan

# 2 rays of 3 gates: no two lists of a record are equally long.
LISTS = ([0, 3_599_999], [1, 7, 300, 0, 65_534, 65_535], [0, 1, 50, 99, 100, 10])
BASES = {
    "RADOLAN": Scan(2, 3, 200, 100_000, 510_000, 100_000, Radolan(-800_000, -421_300_000, 400_000, 4, 2), True, *LISTS),
    "HRAP": Scan(2, 3, 200, 100_000, 600_000, -1_050_000, Hrap(399, -931, 4, 2), False, *LISTS),
}


def bases():
    for kind, scan in BASES.items():
        yield kind, joined(fields_of(scan))


def header_places(data):
    """The places of the header bytes of a good record."""
    _, places = record.read_scan(data)
    return [start - record.HEADER + byte for start, _ in places for byte in range(record.HEADER)]


def cuts():
    for kind, data in bases():
        for length in range(len(data)):
            yield f"{kind} cut to {length} bytes", data[:length]


def header_changes():
    """Each header byte with each bit turned, one more and one less, 0 and 255."""
    for kind, data in bases():
        for place in header_places(data):
            old = data[place]
            others = {old ^ 1 << bit for bit in range(8)} | {(old + 1) % 256, (old - 1) % 256, 0, 255}
            for byte in sorted(others - {old}):
                yield f"{kind} with byte {place} {byte} for {old}", with_byte(data, place, byte)


# Rays for which 4 x rays takes more than two bytes, or just does not.
RAYS = (16_383, 16_384, 16_385, 20_000, 32_768, 32_769, 49_152, 65_535)
# Rays and gates for which 2 x rays x gates, or rays x gates too, takes more than two bytes, or just does not.
SIZES = ((1, 32_767), (1, 32_768), (1, 32_769), (1, 65_535), (2, 32_768), (2, 32_769), (128, 256), (128, 512), (256, 256))
SIZES += ((3, 10_923), (3, 21_846), (181, 362), (720, 1_000), (16_383, 2), (16_383, 4), (16_383, 65_535))


def long_lists():
    """Rays and gates that no record has room for, with the low 16 bits for a length, with and without contents."""
    for (kind, scan), (rays, gates) in product(BASES.items(), [(rays, 0) for rays in RAYS] + list(SIZES)):
        first_four = fields_of(scan._replace(rays=rays, gates=gates))[:4]
        lengths = (4 * rays, 2 * rays * gates, rays * gates)
        lists = [Field(tag, length, bytes(length % 2**16)) for tag, length in enumerate(lengths, 5)]
        words = f"{kind} of {rays} rays and {gates} gates"
        yield words, joined(first_four + lists)
        lists[1].kept = record.HEADER
        yield f"{words}, no values", joined(first_four + lists)
        lists[0].kept = record.HEADER
        yield f"{words}, no azimuths", joined(first_four + lists)


def kinds_and_weightings():
    """Every kind with 17 and 9 bytes, every weighting, and the content of one kind with the length of the other."""
    for name, scan in BASES.items():
        for number, byte in product((3, 4), range(256)):
            fields = fields_of(scan)
            fields[number - 1].content = with_byte(fields[number - 1].content, 0, byte)
            yield f"{name} with {byte} in field {number}", joined(fields)
        for kind, length in product((0, 1, 2, 3, 255), range(20)):
            fields = fields_of(scan)
            content = (bytes([kind]) + fields[2].content[1:] + bytes(20))[:length]
            fields[2] = Field(3, length, content)
            yield f"{name} with kind {kind} and {length} bytes", joined(fields)


def bytes_after():
    for (kind, data), (_, other) in product(bases(), bases()):
        for more in (b"\0", b"\7", b"\xff" * 2, b"\0" * 3, b"\10\0\0", b"\10\0\1\0", data[-9:], other, b"\0" * 300):
            yield f"{kind} with {len(more)} bytes after it", data + more


def moved_fields():
    """Fields left out, exchanged, and said twice."""
    for kind, scan in BASES.items():
        fields = fields_of(scan)
        for order in chain(combinations(range(7), 6), map(exchanged, combinations(range(7), 2))):
            yield f"{kind} with fields {[place + 1 for place in order]}", joined([fields[place] for place in order])
        for place in range(7):
            yield f"{kind} with field {place + 1} twice", joined(fields[: place + 1] + fields[place:])


def exchanged(pair):
    order = list(range(7))
    one, other = pair
    order[one], order[other] = other, one
    return order


def beside_limits():
    """Each number one beside its limits, in a record with nothing else wrong."""
    for kind, scan in BASES.items():
        for fault in scan_faults(scan):
            words, data = damaged(scan, [fault])
            yield f"{kind} with {words}", data


def pairs():
    """Two faults, in every pair that does not change the same thing."""
    for kind, scan in BASES.items():
        for faults in filter(apart, combinations(faults_of(scan), 2)):
            words, data = damaged(scan, faults)
            yield f"{kind} with {words}", data


def several(draw):
    """Three to six faults of any sort, and as many of the scan alone."""
    for kind, scan in BASES.items():
        for faults, _ in product((list(faults_of(scan)), list(scan_faults(scan))), range(600)):
            chosen = draw.sample(faults, draw.randint(3, 6))
            if apart(chosen):
                words, data = damaged(scan, chosen)
                yield f"{kind} with {words}", data


def random_bytes(draw):
    """Random bytes, alone and after the beginning of a good record."""
    for number in range(500):
        yield f"random {number}", draw.randbytes(draw.randint(0, 120))
    for kind, data in bases():
        for start in range(len(data) + 1):
            for _ in range(6):
                length = draw.choice((len(data) - start, draw.randint(0, 60)))
                yield f"{kind} to byte {start}, then random", data[:start] + draw.randbytes(length)


def one_byte(draw):
    """Good records of every kind with one byte changed at random."""
    for name, scans in good_records.groups():
        for number, scan in enumerate(scans):
            data = joined(fields_of(scan))
            if len(data) > 1_000:
                continue
            # Half of the changes before the lists, most of which make a record wrong.
            place = draw.randrange(min(len(data), draw.choice((60, 1_000))))
            byte = (data[place] + draw.randrange(1, 256)) % 256
            yield f"good record {number} {name} with byte {place} {byte} for {data[place]}", with_byte(data, place, byte)


def every_group():
    draw = random.Random(SEED + 2)
    yield "cut at every length", cuts()
    yield "with a header byte changed", header_changes()
    yield "with lists of about or over 65,535 bytes", long_lists()
    yield "of every kind and weighting", kinds_and_weightings()
    yield "with bytes after the end", bytes_after()
    yield "with fields moved", moved_fields()
    yield "with a number beside its limit", beside_limits()
    yield "with two faults", pairs()
    yield "with three to six faults at random", several(draw)
    yield "of random bytes", random_bytes(draw)
    yield "with one byte changed at random", one_byte(draw)


def groups():
    """All groups, each record once: behind a cut, for one, another fault changes nothing."""
    seen = set()
    for name, records in every_group():
        yield name, new_ones(seen, records)


def new_ones(seen, records):
    for words, data in records:
        if data not in seen:
            seen.add(data)
            yield words, data
