"""T-03: neither of the tables F and G is in a file that is built, whole or packed. Table S is in each.

The tables are made afresh from document 01's rule. The same search has to find them in files that have them: in copies of a program with a
packing put in, whole or in pieces, and in what gcc makes of the tables in C.
"""
import random
import subprocess
from itertools import pairwise
from pathlib import Path

from packed_tables import Contents, packings
from second_program import sine

SEED = 20261117
ROOT = Path(__file__).resolve().parent.parent
TARGET = ROOT / "target"
PROGRAMS = [TARGET / "bin" / name for name in ("sheet", "ledger", "gate")]
ARCHIVE = TARGET / "staticlib" / "libuldrevin.a"
BUILT = [ARCHIVE, TARGET / "libuldrevin.so", *PROGRAMS]
TABLES = {"S": sine.table_s(), "F": sine.table_f(), "G": sine.table_g()}
PACKINGS = {name: list(packings(table)) for name, table in TABLES.items()}
FINE = ("F", "G")
STANDS = 0.25  # the share of its pieces with which a packing counts as being in a file


def shares(data):
    """How much of each packing these bytes have, by table."""
    contents = Contents(data)
    return {name: {packing: contents.share(packing) for packing in PACKINGS[name]} for name in TABLES}


def standing(shares_of_one):
    return [packing for packing, share in shares_of_one.items() if share >= STANDS]


# The files that are built.


def faults_of(found):
    lines = [] if standing(found["S"]) else ["table S is not found in it"]
    for name in FINE:
        lines += [f"table {name} stands in it: {packing}" for packing in standing(found[name])]
    return lines


def built_files():
    objects = {*TARGET.glob("staticlib/*"), *TARGET.glob("bin/*"), *ROOT.glob("crates/*/out/*.o")}
    for path in [*BUILT, *sorted(objects.difference(BUILT))]:
        name = path.relative_to(ROOT)
        if not path.exists():
            yield f"the tables in {name}", ["it has not been built"]
            continue
        data = path.read_bytes()
        found = shares(data)
        most = max(share for table in FINE for share in found[table].values())
        looked = f"neither F nor G in any of {sum(len(PACKINGS[table]) for table in FINE)} packings"
        yield f"{name}, {len(data)} bytes, has table S, and {looked}: at most {float(most):.0%} of one's pieces", faults_of(found)


# Files that have a table.


def whole(data, packing):
    """The bytes with the packing at an odd place."""
    middle = len(data) // 4 * 2 + 1
    return data[:middle] + packing.content + data[middle:]


def in_pieces(data, packing):
    """The bytes with the packing's pieces in another order, each at a place of its own."""
    size = packing.piece
    pieces = [packing.content[start : start + size] for start in range(0, len(packing.content), size)]
    random.Random(SEED).shuffle(pieces)
    step = len(data) // len(pieces)
    return b"".join(data[place * step : (place + 1) * step] + piece for place, piece in enumerate(pieces))


def not_found(data, name, ways):
    for packing in PACKINGS[name]:
        for way in ways:
            if Contents(way(data, packing)).share(packing) < STANDS:
                yield f"{packing}: not found {way.__name__.replace('_', ' ')}"


def listed(type_name, numbers):
    return f"const {type_name} table[] = {{{', '.join(map(str, numbers))}}};\n"


def stored(numbers):
    lines = "".join(f"    table[{place}] = {number};\n" for place, number in enumerate(numbers))
    return f"void store(volatile uint32_t *table)\n{{\n{lines}}}\n"


# How a table may stand in C.
SOURCES = {
    "as a list of 32 bits": lambda table: listed("uint32_t", table),
    "as a list of 16 bits": lambda table: listed("uint16_t", [entry % 2**16 for entry in table]),
    "as a list of differences": lambda table: listed("int16_t", [after - before for before, after in pairwise(table)]),
    "in instructions": stored,
}


def compiled(source):
    path = TARGET / "packed_table.o"
    subprocess.run(["gcc", "-O2", "-c", "-x", "c", "-", "-o", path], input=f"#include <stdint.h>\n{source}".encode(), check=True)
    return path.read_bytes()


def wrongly_found(source, name):
    """What is wrong with the tables that are found in an object file with one table."""
    found = [one for one, of_one in shares(compiled(source)).items() if standing(of_one)]
    return [] if found == [name] else [f"found are {found}"]


def comparisons():
    yield from built_files()
    data = PROGRAMS[0].read_bytes()
    for name in FINE:
        words = f"{len(PACKINGS[name])} packings of {name}, each put into a copy of a program, whole and in pieces"
        yield f"{words}, are found there", list(not_found(data, name, (whole, in_pieces)))
    for name in FINE:
        for words, source in SOURCES.items():
            yield f"table {name} in C {words} is found, and no other", wrongly_found(source(TABLES[name]), name)
