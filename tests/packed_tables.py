"""A table of whole numbers in the bytes of a file: how it may be packed there, and how much of a packing the file has.

A compiler may cut a table up: one that is copied to the stack stands in the file as constants of 16 bytes, in an order of the compiler's own,
or as numbers in instructions. So a packing is looked for by its pieces, wherever they stand.
"""
from fractions import Fraction
from itertools import pairwise
from typing import NamedTuple

CONSTANT, NUMBER = 16, 4  # bytes: the constant that a vector register is loaded with, the number that an instruction holds
BYTES = (4, 3, 2, 1)
ORDERS = {"little": "high byte last", "big": "high byte first"}


class Packing(NamedTuple):
    words: str
    content: bytes
    piece: int  # bytes

    def __str__(self):
        return self.words


def sequences(table):
    yield "entries", table
    yield "differences", [after - before for before, after in pairwise(table)]
    yield "differences downwards", [before - after for before, after in pairwise(table)]
    if table[0] != 0:
        yield "distances from the first entry", [abs(entry - table[0]) for entry in table]


def packed(numbers, size, order):
    """Each number in so many bytes. What they cannot hold of it is left away."""
    return b"".join((number % 256**size).to_bytes(size, order) for number in numbers)


def packings(table):
    for what, numbers in sequences(table):
        for size in BYTES:
            for order, words in ORDERS.items() if size > 1 else (("little", "one byte"),):
                yield Packing(f"{what}, {8 * size} bits, {words}", packed(numbers, size, order), CONSTANT)
    for order, words in ORDERS.items():
        yield Packing(f"entries one by one, 32 bits, {words}", packed(table, NUMBER, order), NUMBER)


def windows(data, size):
    return [data[start : start + size] for start in range(len(data) - size + 1)]


class Contents:
    """The pieces of a file's bytes, from every place on."""

    def __init__(self, data):
        self.pieces = {size: set(windows(data, size)) for size in (CONSTANT, NUMBER)}

    def share(self, packing):
        """How much of the packing is here: pieces that follow each other in it, cut from whichever byte shows the most of them."""
        here = [piece in self.pieces[packing.piece] for piece in windows(packing.content, packing.piece)]
        cuts = [here[start :: packing.piece] for start in range(packing.piece)]
        return max(Fraction(sum(cut), len(cut)) for cut in cuts)
