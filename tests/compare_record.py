"""Scan records by the compiled library against the second program's: good ones, damaged ones, and what is not written."""
import random
import re
from collections import Counter
from itertools import cycle, islice, product
from pathlib import Path

import damaged_records
import good_records
import library
from good_records import SEED
from good_scans import SHEET
from lent_lists import GIVEN, changed_lines, with_margins
from record_calls import field_lines, head_lines, read_lines, refused, write_lines
from second_program import record
from wrong_scans import WRONG_LISTS, Change, apply, far_numbers, far_pairs, limits, pairs

PAGE = Path(__file__).resolve().parent.parent / "docs" / "RECORD.md"
SHOWN = 150  # bytes printed of one record
ENOUGH = 200_000  # bytes, more than any record has

# Steps from the exact lengths of azimuths, values and qualities.
ALONE = [tuple(step * (place == of) for place in range(3)) for step in (-1, 1) for of in range(3)]
STEPS = cycle((*ALONE, (0, 1, -1), (0, 1, 1), (1, 1, 1), (-1, -1, -1), (0, -1, -1)))


def shown(data):
    text = data[:SHOWN].hex(" ") or "of no bytes"
    return text if len(data) <= SHOWN else f"{text} and so on, {len(data)} bytes"


def described(scan):
    numbers = ", ".join(f"{name} {number}" for name, number in scan._asdict().items() if name not in GIVEN)
    return f"{numbers}, {', '.join(f'{len(getattr(scan, name))} {name}' for name in GIVEN)}"


# Reading.


def lengths_asked(data):
    """The lengths of the lists by the record's rays and gates, where they are there and not too large to lend."""
    rays, gates = record.unsigned(data[14:16]), record.unsigned(data[16:18])
    if len(data) < 18 or rays > 1_000 or rays * gates > record.MOST_GATES:
        return 2, 6, 6
    return rays, rays * gates, rays * gates


def reading_lines(compiled, data, expected):
    """The calls for the head and the fields, and those that fill lists of exact lengths and of lengths wrong by one."""
    held = with_margins("B", data)
    before = bytes(held)
    lines = head_lines(compiled, held, expected) + field_lines(compiled, held, data, expected)
    asked = lengths_asked(data)
    for steps in ((0, 0, 0), next(STEPS), next(STEPS), next(STEPS)):
        lengths = tuple(max(0, length + step) for length, step in zip(asked, steps))
        lines += read_lines(compiled, held, data, lengths)
    return lines + changed_lines(["the record"], [held], [before])


def writing_lines(compiled, data, draw):
    """The scan of a good record written again: with exact room, one byte too little, less and more."""
    scan, _ = record.read_scan(data)
    lines = [] if record.write_record(scan, len(data)) == data else ["the second program writes another record"]
    for room in (len(data), len(data) - 1, draw.randrange(len(data)), len(data) + draw.randint(1, 40)):
        lines += write_lines(compiled, scan, room)
    return lines


def compared(compiled, chosen, draw):
    """The differences, and how many records have each number, 0 for good ones."""
    lines, numbers = [], Counter()
    for words, data in chosen:
        expected = record.read_record(data)
        found = reading_lines(compiled, data, expected)
        if not refused(expected):
            found += writing_lines(compiled, data, draw)
        numbers[expected if refused(expected) else 0] += 1
        lines += [f"{words}: {line}; the record is {shown(data)}" for line in found]
    return lines, numbers


def good_ones(compiled, draw):
    for name, scans in good_records.groups():
        scans = list(scans)
        chosen = [(described(scan), record.write_record(scan, ENOUGH)) for scan in scans]
        lines = [
            f"{words}: not read back by the second program, {shown(data)}"
            for scan, (words, data) in zip(scans, chosen)
            if record.read_scan(data)[0] != scan
        ]
        others, _ = compared(compiled, chosen, draw)
        yield f"{len(chosen)} good records {name}, seed {SEED}", lines + others


def damaged_ones(compiled, draw):
    met = Counter()
    for name, chosen in damaged_records.groups():
        lines, numbers = compared(compiled, chosen, draw)
        met += numbers
        told = ", ".join(f"{count} with {number}" for number, count in sorted(numbers.items()) if number != 0)
        yield f"{numbers.total()} damaged records {name}, {numbers[0]} still good, refused {told}, seed {SEED}", lines
    missing = [f"no record is refused with {number}" for number in (1, 2, 3, 4, 5, 7, 8, 11, 12, 13, 14) if not met[number]]
    yield f"{met.total() - met[0]} damaged records refused, every number among them", missing


# What is not written.


def one_change(number, **numbers):
    return Change(number, numbers, {}, {})


# One change for each of the numbers 1 to 8.
CHANGES = (
    one_change(1, rays=721),
    one_change(2, gates=1_001),
    one_change(3, spacing=0),
    one_change(4, latitude=199_999),
    one_change(5, columns=0),
    *WRONG_LISTS,
)


def too_large():
    """Scans of over 32,767 gates, alone and with another number wrong."""
    scans = list(good_records.too_large())
    yield from scans
    for scan, change in product(scans[:2], CHANGES):
        yield apply(scan, [change])[0]


def not_written(compiled):
    """Each scan with a buffer of no room, of some and of enough."""
    for name, scans in (
        ("at both sides of each limit", [apply(*chosen)[0] for chosen in limits()]),
        ("with two numbers wrong, every eighth pair", [apply(*chosen)[0] for chosen in islice(pairs(), 0, None, 8)]),
        ("with a number far beyond its limits", [apply(*chosen)[0] for chosen in far_numbers()]),
        ("with two such numbers, every eighth pair", [apply(*chosen)[0] for chosen in islice(far_pairs(), 0, None, 8)]),
        ("of over 32,767 gates", list(too_large())),
    ):
        lines, numbers = [], Counter()
        for scan in scans:
            answer = record.write_record(scan, ENOUGH)
            numbers[answer if refused(answer) else 0] += 1
            for room in (0, 60, 4_000, ENOUGH):
                lines += [f"{described(scan)}: {line}" for line in write_lines(compiled, scan, room)]
        told = ", ".join(f"{count} with {number}" for number, count in sorted(numbers.items()) if number != 0)
        yield f"{len(scans)} scans to write {name}, {numbers[0]} good, refused {told}", lines


# The page.


def dump(text):
    """The offsets and the bytes of the lines of the page's dump."""
    block = re.search(r"^```\n( *0  .*?)^```$", text, re.M | re.S)
    lines = re.findall(r"^ *(\d+)  ((?:[0-9a-f]{2} )+) +\S", block.group(1), re.M) if block else []
    return [(int(offset), bytes.fromhex(octets)) for offset, octets in lines]


def page_lines():
    """Where the dump in docs/RECORD.md is not the record of document 01's example."""
    lines = dump(PAGE.read_text())
    data = b"".join(octets for _, octets in lines)
    expected = record.write_record(SHEET, ENOUGH)
    if data != expected:
        yield f"the page has {shown(data)} and the record is {shown(expected)}"
    end = 0
    for offset, octets in lines:
        if offset != end:
            yield f"the page says offset {offset} where it is {end}"
        end += len(octets)


def comparisons():
    compiled, draw = library.load(), random.Random(SEED + 3)
    yield from good_ones(compiled, draw)
    yield from damaged_ones(compiled, draw)
    yield from not_written(compiled)
    yield "the dump in docs/RECORD.md is the record of document 01's example", list(page_lines())
