"""What can be wrong with a record, one fault at a time, and records with any set of faults."""
from dataclasses import dataclass
from functools import partial
from itertools import combinations, product
from typing import Callable, NamedTuple

from second_program import record
from second_program.placement import Hrap
from wrong_scans import NUMBER_OF, Change, apply

# A record in pieces.


@dataclass
class Field:
    tag: int
    length: int
    content: bytes
    after: bytes = b""  # what stands between this field and the next
    kept: int | None = None  # the record ends after so many bytes of this field

    def __bytes__(self):
        return bytes([self.tag]) + (self.length % 2**16).to_bytes(2, "big") + self.content + self.after


def fields_of(scan):
    """The seven fields of a scan that need not be good."""
    return [Field(tag, len(content), content) for tag, content in enumerate(record.contents(scan), 1)]


def joined(fields):
    data = []
    for field in fields:
        data.append(bytes(field)[: field.kept])
        if field.kept is not None:
            break
    return b"".join(data)


def with_byte(data, place, byte):
    return data[:place] + bytes([byte]) + data[place + 1 :]


# The edits of a field.


def set_tag(tag, field):
    field.tag = tag


def lengthen(step, field):
    """The length alone, with no content to it."""
    field.length += step


def lengthen_both(field):
    """The length and the content."""
    field.length += 1
    field.content += b"\0"


def keep(kept, field):
    field.kept = kept


def cut_last(field):
    field.kept = len(bytes(field)) - 1


def put_after(field):
    field.after = b"\0"


def set_first_byte(byte, field):
    field.content = with_byte(field.content, 0, byte)


# Faults.


class Fault(NamedTuple):
    """A change of the scan, or an edit of one part of one field."""

    words: str
    change: Change | None = None
    number: int | None = None  # the field's
    part: str | None = None
    edit: Callable | None = None


def field_faults(number):
    """What can be wrong with the header or the end of a field."""
    for tag in (number - 1, number + 1):
        yield Fault(f"field {number} with tag {tag}", None, number, "tag", partial(set_tag, tag))
    for step in (-1, 1):
        yield Fault(f"field {number} with {step} to its length", None, number, "length", partial(lengthen, step))
    yield Fault(f"field {number} with a byte more", None, number, "length", lengthen_both)
    for kept in (0, 2, 3):
        yield Fault(f"field {number} cut to {kept} bytes", None, number, "end", partial(keep, kept))
    yield Fault(f"field {number} without its last byte", None, number, "end", cut_last)
    yield Fault(f"field {number} with a byte after it", None, number, "end", put_after)


def byte_faults(scan):
    """Wrong kinds and weightings."""
    for kind in (0, 3, 255, 1 if isinstance(scan.grid, Hrap) else 2):
        yield Fault(f"kind {kind}", None, 3, "content", partial(set_first_byte, kind))
    for weighting in (2, 255):
        yield Fault(f"weighting {weighting}", None, 4, "content", partial(set_first_byte, weighting))


def wrong_numbers(scan):
    """Each number one beside its limits. Where 0 is the least, the greatest of its width stands for one less."""
    last = (scan.gates - 1) * scan.spacing
    yield from (("rays", 0), ("rays", 721), ("gates", 0), ("gates", 1_001))
    yield from (("first", 2**32 - 1), ("first", 46_000_001), ("first", 46_000_001 - last))
    yield from (("spacing", 0), ("spacing", 1_000_001), ("spacing", 2**32 - 1))
    yield from (("latitude", 199_999), ("latitude", 750_001))
    yield from (("longitude", -1_800_001), ("longitude", 1_800_001))
    if isinstance(scan.grid, Hrap):
        yield from (("i", -10_001), ("i", 10_001), ("j", -10_001), ("j", 10_001))
    else:
        yield from ((name, end) for name in ("x", "y") for end in (-2_000_000_001, 2_000_000_001))
        yield from (("side", 9_999), ("side", 10_000_001))
    yield from (("columns", 0), ("columns", 1_501), ("rows", 0), ("rows", 1_501))


def scan_faults(scan):
    for name, wrong in wrong_numbers(scan):
        numbers = {name: wrong}
        if numbers == {"gates": 1_001}:
            numbers |= {"rays": 1, "spacing": 1}  # a short record with a right last centre
        yield Fault(f"{name} {wrong}", Change(NUMBER_OF.get(name, 5), numbers, {}, {}))
    for number, name, least, most in ((7, "azimuths", 3_600_000, 2**32 - 1), (8, "qualities", 101, 255)):
        for place, wrong in product((0, 999), (least, most)):
            yield Fault(f"{wrong} in {name}", Change(number, {}, {}, {name: (place, wrong)}))


def faults_of(scan):
    for number in range(1, 8):
        yield from field_faults(number)
    yield from byte_faults(scan)
    yield from scan_faults(scan)


def touched(fault):
    """What a fault changes: numbers and lists of the scan, or the edited part of a field."""
    if fault.change:
        return {*fault.change.numbers, *fault.change.contents}
    return {(fault.number, fault.part)}


def apart(faults):
    """Whether no two faults change the same thing, so that none undoes another."""
    return all(not touched(one) & touched(other) for one, other in combinations(faults, 2))


def damaged(scan, faults):
    """The words and the record of a scan with these faults."""
    wrong, _ = apply(scan, [fault.change for fault in faults if fault.change])
    fields = fields_of(wrong)
    for fault in faults:
        if fault.edit:
            fault.edit(fields[fault.number - 1])
    return ", ".join(fault.words for fault in faults), joined(fields)
