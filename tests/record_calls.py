"""The library's calls for scan records, each against the second program's answer, as lists of differences."""
from ctypes import byref, c_int64, c_uint64, sizeof
from itertools import cycle

from lent_lists import GIVEN, changed_lines, earlier, filled_with, given_lists, lending, lending_all
from lent_structs import scan_struct, within
from library import Scan
from second_program import record

HEAD = sizeof(Scan) // sizeof(c_int64)  # numbers
UNTOUCHED = 0xA5A5_5A5A_C3C3_3C3C  # what a lent number holds before a call
SHOWN = 5  # numbers printed of one list

FIELD_NUMBERS = range(9)
# Most of them have the lowest byte or two of a field's number.
LARGE_NUMBERS = cycle((9, 256, 257, 65_537, 2**31 + 3, 2**32 - 1, 2**16 + 7))


def refused(answer):
    """The second program answers with a number where it refuses."""
    return isinstance(answer, int)


def number_of(answer):
    return answer if refused(answer) else 0


def answered(got, expected):
    return [] if got == expected else [f"answered with {got} in the library and with {expected} by the rule"]


def list_lines(name, before, after, numbers):
    """Where a lent list, margins and all, does not hold the numbers from its start, or what it held where there are none."""
    wanted = before if numbers is None else filled_with(before, numbers)
    if after == wanted:
        return []
    start = next(place for place, (one, other) in enumerate(zip(after, wanted)) if one != other)
    got, other = after[start : start + SHOWN].tolist(), wanted[start : start + SHOWN].tolist()
    says = "by the rule" if numbers is not None else "before the call, which has to be refused"
    return [f"{name}, with its margin, goes on from {start} as {got} in the library and as {other} {says}"]


# Reading. The record is held with margins.


def head_lines(compiled, held, expected):
    """The call for the head."""
    head = earlier("q", HEAD)
    before = head[:]
    number = compiled.uldrevin_record_head(*lending(held), within(head))
    wanted = None if refused(expected) else expected[1].values()
    lines = answered(number, number_of(expected)) + list_lines("head", before, head, wanted)
    return [f"call for the head: {line}" for line in lines]


def field_lines(compiled, held, data, expected):
    """The calls for the places of fields."""
    lines = []
    for field in (*FIELD_NUMBERS, next(LARGE_NUMBERS)):
        place = record.field_place(data, field)
        wanted = (expected, UNTOUCHED, UNTOUCHED) if refused(expected) else (0, *place)
        start, length = c_uint64(UNTOUCHED), c_uint64(UNTOUCHED)
        number = compiled.uldrevin_record_field(*lending(held), field, byref(start), byref(length))
        got = (number, start.value, length.value)
        if got != wanted:
            lines.append(f"call for field {field}: number, start, length are {got} in the library and {wanted} by the rule")
        if place != (0, 0) and (refused(expected) or not 1 <= field <= 7):
            lines.append(f"field {field} has a part {place} by the second program")
    return lines


def read_lines(compiled, held, data, lengths):
    """The call that fills three lists, which have these lengths."""
    expected = record.read_record(data, lengths)
    lists = [earlier(letter, length) for letter, length in zip(("q", *GIVEN.values()), (HEAD, *lengths))]
    before = [lent[:] for lent in lists]
    head, *others = lists
    number = compiled.uldrevin_record_read(*lending(held), within(head), *lending_all(others))
    lines = answered(number, number_of(expected))
    wanted = [None] * 4 if refused(expected) else [expected[1].values(), *expected[2:]]
    for name, *of_list in zip(("head", *GIVEN), before, lists, wanted):
        lines += list_lines(name, *of_list)
    return [f"read into lists of {lengths}: {line}" for line in lines]


# Writing.


def write_lines(compiled, scan, room):
    """The call that writes a scan into a buffer of this room."""
    expected = record.write_record(scan, room)
    head, lists = scan_struct(scan), given_lists(scan)
    given_before = [bytes(given) for given in (head, *lists)]
    buffer, length = earlier("B", room), c_uint64(UNTOUCHED)
    before = buffer[:]
    number = compiled.uldrevin_record_write(head, *lending_all([*lists, buffer]), byref(length))
    lines = answered(number, number_of(expected)) + changed_lines(["scan", *GIVEN], [head, *lists], given_before)
    wanted = UNTOUCHED if refused(expected) else len(expected)
    if length.value != wanted:
        lines.append(f"the length is {length.value} in the library and {wanted} by the rule")
    lines += list_lines("buffer", before, buffer, None if refused(expected) else expected)
    return [f"written into {room} bytes: {line}" for line in lines]
