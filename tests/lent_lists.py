"""Lists as the library gets them: each is lent as the middle of a longer one, whose first and last numbers must stay."""
import random
from array import array
from ctypes import c_int64, c_uint8, c_uint16, c_uint32, c_uint64, sizeof
from itertools import cycle

from good_scans import SEED

# How the numbers of a list are held, by array's letters.
HELD = {"I": c_uint32, "H": c_uint16, "B": c_uint8, "Q": c_uint64, "q": c_int64}
GIVEN = {"azimuths": "I", "values": "H", "qualities": "B"}

MARGIN = 8
# What lent lists hold before a call. The length is a prime number, so that it does not repeat with the rows of a grid.
CONTENTS = random.Random(SEED).randbytes(4_093)
STARTS = cycle(range(0, len(CONTENTS), 5))


def earlier(letter, length):
    """A list with margins that holds the contents, repeated, from another start each time."""
    held = array(letter)
    assert held.itemsize == sizeof(HELD[letter])
    size = (length + 2 * MARGIN) * held.itemsize
    start = next(STARTS)
    held.frombytes((CONTENTS * (size // len(CONTENTS) + 2))[start : start + size])
    return held


def with_margins(letter, numbers):
    return array(letter, [0] * MARGIN) + array(letter, numbers) + array(letter, [0] * MARGIN)


def lending(held, step=0):
    """The pointer and the length that the library gets for a list with margins. A step makes the length wrong."""
    length = len(held) - 2 * MARGIN + step
    return (HELD[held.typecode] * length).from_buffer(held, MARGIN * held.itemsize), length


def lending_all(lists):
    return [part for held in lists for part in lending(held)]


def within_margins(held):
    return held[MARGIN : len(held) - MARGIN].tolist()


def given_lists(scan):
    return [with_margins(letter, getattr(scan, name)) for name, letter in GIVEN.items()]


def filled_with(before, numbers):
    """What a lent list holds, margins and all, once these numbers are written from its start."""
    end = MARGIN + len(numbers)
    return before[:MARGIN] + array(before.typecode, numbers) + before[end:]


def changed_lines(names, given, before):
    """Where lists and structs that are given do not hold the bytes that they held before."""
    return [
        f"{name}, which is only to be read, has been changed"
        for name, held, old in zip(names, given, before)
        if bytes(held) != old
    ]
