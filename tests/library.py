"""The compiled library, target/libuldrevin.so, which `make library` builds from the proved archive: its structs and functions."""
from ctypes import CDLL, POINTER, Structure, c_int64, c_size_t, c_uint8, c_uint16, c_uint32, c_uint64
from pathlib import Path

PATH = Path(__file__).resolve().parent.parent / "target" / "libuldrevin.so"


class Site(Structure):
    _fields_ = [("latitude", c_int64), ("longitude", c_int64)]


class Grid(Structure):
    _fields_ = [(name, c_int64) for name in ("kind", "x", "y", "side", "columns", "rows")]


class Scan(Structure):
    _fields_ = [
        ("site", Site),
        *((name, c_int64) for name in ("rays", "gates", "first", "spacing")),
        ("grid", Grid),
        ("weighting", c_int64),
    ]


class Sweep(Structure):
    _fields_ = [("scan", Scan), ("taken", c_int64), ("closed", c_int64)]


def one_list(held):
    """A list is lent as a pointer and a length."""
    return [POINTER(held), c_size_t]


SITE, GRID, SCAN, SWEEP = map(POINTER, (Site, Grid, Scan, Sweep))
GATE = [POINTER(c_uint32), POINTER(c_int64), POINTER(c_int64), POINTER(c_uint8)]  # cell, x, y and mark
GIVEN = [*one_list(c_uint32), *one_list(c_uint16), *one_list(c_uint8)]
ENTRIES = [*one_list(c_uint32), *one_list(c_uint8)]  # ledger and marks
SUMS = [*one_list(c_uint32), *one_list(c_uint32), *one_list(c_uint64), *one_list(c_uint64)]
CELLS = [*one_list(c_uint16), *one_list(c_uint8)]
BYTES = one_list(c_uint8)
LENGTH = POINTER(c_uint64)

# What each function but the sine and the cosine is called with. It answers with a refusal number.
ARGUMENTS = {
    "uldrevin_place": [SITE, GRID, c_int64, c_int64, *GATE],
    "uldrevin_tally": [SCAN, *GIVEN, *ENTRIES, *SUMS],
    "uldrevin_publish": [c_int64, *SUMS, *CELLS],
    "uldrevin_sweep_open": [SCAN, *SUMS, SWEEP],
    "uldrevin_sweep_take": [SWEEP, *GIVEN, *ENTRIES, *SUMS],
    "uldrevin_sweep_close": [SWEEP, *SUMS, *CELLS],
    "uldrevin_record_head": [*BYTES, SCAN],
    "uldrevin_record_field": [*BYTES, c_uint32, LENGTH, LENGTH],
    "uldrevin_record_read": [*BYTES, SCAN, *GIVEN],
    "uldrevin_record_write": [SCAN, *GIVEN, *BYTES, LENGTH],
}


def load():
    library = CDLL(str(PATH))
    for function in (library.uldrevin_sine, library.uldrevin_cosine):
        function.argtypes, function.restype = [c_int64], c_int64
    for name, arguments in ARGUMENTS.items():
        function = getattr(library, name)
        function.argtypes, function.restype = arguments, c_uint32
    return library
