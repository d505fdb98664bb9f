"""Radar gates on the cells of an HRAP or a RADOLAN grid: Uldrevin's proved library for Python.

Whole numbers only. Angles are ten-thousandths of a degree, lengths are centimetres. Gates are numbered ray by ray, cells row by row
from the south-west, so that row 0 is the southernmost. Document 01's example, two gates in the second of two cells, on the line between
the two, and so with the mark 1, tallied once and published in both weightings:

>>> import uldrevin
>>> site = uldrevin.Site(latitude=600_000, longitude=-1_050_000)
>>> grid = uldrevin.Hrap(i=400, j=932, columns=2, rows=1)
>>> tally = uldrevin.tally(site, grid, first=0, spacing=100_000, azimuths=[0], values=[1, 7], qualities=[90, 10])
>>> uldrevin.flat(tally.ledger), uldrevin.flat(tally.marks)
([1, 1], [1, 1])
>>> [uldrevin.flat(sums)[1] for sums in tally.sums]  # count, quality sum, value sum, weighted sum
[2, 100, 8, 160]
>>> plain, by_quality = uldrevin.publish(uldrevin.PLAIN, *tally.sums), uldrevin.publish(uldrevin.BY_QUALITY, *tally.sums)
>>> uldrevin.flat(plain.means), uldrevin.flat(by_quality.means), uldrevin.flat(by_quality.cell_qualities)
([65535, 4], [65535, 1], [0, 50])

`remap` does both, in one weighting. A Sweep takes the rays of a scan one by one, or some at a time, as the antenna turns.

Lists that come back are numpy arrays where numpy can be imported: of shape (rays, gates) for gates and (rows, columns) for cells.
Otherwise they are array.array, flat. `flat` makes a plain list of either.

Lists that are given may be
- numpy arrays of exactly the dtype: azimuths uint32 of shape (rays,), values uint16 and qualities uint8 of shape (rays, gates);
- plain lists or array.array of whole numbers; values and qualities either flat, ray by ray, with as many rays as azimuths, or a list
  of rays.

Sums that are given to publish may be those that came back, or numpy arrays of exactly their dtype, counts and quality_sums uint32,
value_sums and weighted_sums uint64, of shape (rows, columns), or plain lists or array.array of whole numbers, flat.

While the library reads a given array.array, no thread can resize it: Python raises BufferError there.

A refusal of document 01 or 02 raises Refusal. Anything that the library could not be asked, such as a number beyond 64 bits, or one in a
list that the list's type does not hold, raises ValueError or TypeError. The shared library is the file that the environment variable
ULDREVIN_LIBRARY names, or else target/libuldrevin.so of the repository.
"""
import os
from array import array
from contextlib import ExitStack
from ctypes import CDLL, POINTER, Structure, c_int64, c_size_t, c_uint8, c_uint32, c_uint64, c_void_p
from math import prod
from operator import index
from pathlib import Path
from threading import Lock
from typing import Any, NamedTuple

try:
    import numpy
except ImportError:
    numpy = None

PLAIN = 0
BY_QUALITY = 1

NO_ECHO = 65_534  # a value: measured with no echo, counts as 0
NOT_MEASURED = 65_535  # a value: contributes nothing
NO_MEAN = 65_535  # a mean with nothing to divide by, or of sums that give more than 65,533, as those of a tally never do
OUTSIDE = 4_294_967_295  # the ledger entry of a gate outside the grid

SENTENCES = {
    1: "the number of rays is not 1 to 720",
    2: "the number of gates in a ray is not 1 to 1,000",
    3: "the first centre, the spacing, the last centre or the range is out of bounds",
    4: "the latitude is not 200,000 to 750,000 or the longitude is not -1,800,000 to 1,800,000",
    5: "a number of the grid is out of bounds",
    6: "the length of a list is not exact",
    7: "an azimuth is not 0 to 3,599,999",
    8: "a quality is over 100",
    11: "the record is cut short",
    12: "a tag of the record is not the next one",
    13: "a length, the kind or the weighting byte of the record is wrong",
    14: "bytes stand after field 7 of the record",
    15: "the scan has over 32,767 gates, too many for a record",
    16: "the buffer is shorter than the record",
    17: "more rays than were announced",
    18: "rays are missing",
    19: "the sweep is closed",
    31: "a count or sum of a cell would pass its width",
}
LENGTH_NOT_EXACT = 6
BUFFER_TOO_SHORT = 16


class Refusal(ValueError):
    """A refusal of document 01 or 02, with its number and a sentence on it.

    >>> str(Refusal(7))
    'refusal 7: an azimuth is not 0 to 3,599,999'
    """

    def __init__(self, number):
        super().__init__(number)
        self.number = number
        self.sentence = SENTENCES[number]

    def __str__(self):
        return f"refusal {self.number}: {self.sentence}"


class Site(NamedTuple):
    """Where the radar stands; east is positive."""

    latitude: int
    longitude: int


class Radolan(NamedTuple):
    """A RADOLAN grid: its south-west corner, the side of a cell and its size."""

    x: int
    y: int
    side: int
    columns: int
    rows: int


class Hrap(NamedTuple):
    """An HRAP grid: its first column I and first row J of the mesh and its size."""

    i: int
    j: int
    columns: int
    rows: int


class Placement(NamedTuple):
    """The position of a gate on the map; its cell: row x columns + column, or None outside the grid; and its mark, inside or outside.

    The mark is True where the remainder of x less the x of the grid's south-west corner, by the side and never negative, is under 50 or at
    least the side less 50, or the same for y. The edge lines of cells are taken as prolonged beyond the grid. Where it is False, the cell
    is the very one that the same formulas give in exact fractions, or both are outside.
    """

    x: int
    y: int
    cell: int | None
    mark: bool


class ScanHead(NamedTuple):
    """The numbers of a record or a sweep, without its lists."""

    site: Site
    rays: int
    gates: int
    first: int
    spacing: int
    grid: Radolan | Hrap
    weighting: int


class Scan(NamedTuple):
    """A scan in the order in which remap and write_record take it: `remap(*scan)`. tally takes all but the weighting."""

    site: Site
    grid: Radolan | Hrap
    weighting: int
    first: int
    spacing: int
    azimuths: Any
    values: Any
    qualities: Any


class Sums(NamedTuple):
    """For each cell: its measured gates, and the sums of their qualities, of their values, and of their values each times its quality."""

    counts: Any
    quality_sums: Any
    value_sums: Any
    weighted_sums: Any


class Tally(NamedTuple):
    """The ledger and the marks, an entry and a mark, 1 or 0, for each gate; then the sums: `publish(PLAIN, *tally.sums)`."""

    ledger: Any
    marks: Any
    sums: Sums


class Cells(NamedTuple):
    """Published numbers, one for each cell."""

    means: Any
    cell_qualities: Any


class Remapped(NamedTuple):
    """The ledger and the marks, an entry and a mark, 1 or 0, for each gate; then the sums and the published numbers, one for each cell."""

    ledger: Any
    marks: Any
    counts: Any
    quality_sums: Any
    value_sums: Any
    weighted_sums: Any
    means: Any
    cell_qualities: Any

    @property
    def sums(self):
        """The four sums, as publish takes them."""
        return Sums(self.counts, self.quality_sums, self.value_sums, self.weighted_sums)


# The library. Site, grid, scan and sweep are lent as structs of 64-bit numbers, a list as a pointer and a length.

_RADOLAN, _HRAP = 1, 2  # kinds of grid


def _fields(names):
    return [(name, c_int64) for name in names.split()]


class _Site(Structure):
    _fields_ = _fields("latitude longitude")


class _Grid(Structure):
    _fields_ = _fields("kind x y side columns rows")  # for HRAP x and y are I and J, and the side plays no part


class _Scan(Structure):
    _fields_ = [("site", _Site), *_fields("rays gates first spacing"), ("grid", _Grid), *_fields("weighting")]


class _Sweep(Structure):
    _fields_ = [("scan", _Scan), *_fields("taken closed")]


def _load():
    named = os.environ.get("ULDREVIN_LIBRARY")
    path = Path(named) if named else Path(__file__).resolve().parents[2] / "target" / "libuldrevin.so"
    try:
        return CDLL(str(path.absolute()))
    except OSError as error:
        raise ImportError(f"The shared library of Uldrevin cannot be loaded, `make library` builds it: {error}") from None


def _declare(library):
    one_list = [c_void_p, c_size_t]
    site, grid, scan, sweep, length = map(POINTER, (_Site, _Grid, _Scan, _Sweep, c_uint64))
    arguments = {
        "place": [site, grid, c_int64, c_int64, POINTER(c_uint32), POINTER(c_int64), POINTER(c_int64), POINTER(c_uint8)],
        "tally": [scan, *one_list * 9],
        "publish": [c_int64, *one_list * 6],
        "sweep_open": [scan, *one_list * 4, sweep],
        "sweep_take": [sweep, *one_list * 9],
        "sweep_close": [sweep, *one_list * 6],
        "record_head": [*one_list, scan],
        "record_field": [*one_list, c_uint32, length, length],
        "record_read": [*one_list, scan, *one_list * 3],
        "record_write": [scan, *one_list * 4, length],
    }
    for name, types in arguments.items():
        function = getattr(library, f"uldrevin_{name}")
        function.argtypes, function.restype = types, c_uint32
    for function in (library.uldrevin_sine, library.uldrevin_cosine):
        function.argtypes, function.restype = [c_int64], c_int64
    return library


_library = _declare(_load())


def _accept(number):
    if number != 0:
        raise Refusal(number)


# Single numbers. ctypes would cut a number beyond 64 bits, so they are tested here. All others are left to the library's rules.


def _number(name, number):
    try:
        number = index(number)
    except TypeError:
        raise TypeError(f"{name} has to be a whole number, and is {number!r}") from None
    if not -(2**63) <= number < 2**63:
        raise ValueError(f"{name} is {number}, and the library takes {-(2**63):,} to {2**63 - 1:,}")
    return number


def _numbers(**named):
    return [_number(name, number) for name, number in named.items()]


def _site(site):
    return _Site(*_numbers(**Site(*site)._asdict()))


def _grid(grid):
    if type(grid) not in (Radolan, Hrap):
        raise TypeError(f"the grid has to be a Radolan or an Hrap, and is {grid!r}")
    numbers = _numbers(**grid._asdict())
    if type(grid) is Radolan:
        return _Grid(_RADOLAN, *numbers)
    i, j, columns, rows = numbers
    return _Grid(_HRAP, i, j, 0, columns, rows)


def _grid_read(grid):
    if grid.kind == _RADOLAN:
        return Radolan(grid.x, grid.y, grid.side, grid.columns, grid.rows)
    return Hrap(grid.x, grid.y, grid.columns, grid.rows)


def _head_read(head):
    site = Site(head.site.latitude, head.site.longitude)
    return ScanHead(site, head.rays, head.gates, head.first, head.spacing, _grid_read(head.grid), head.weighting)


# Lists. Their types go by the letters that array and numpy share: I, H, B and Q for 32, 16, 8 and 64 bits without a sign.

_ANYWHERE = array("Q", [0])  # what the pointer of an empty list points to

# The lists that the library writes: ledger and marks, the four sums, means and cell qualities.
_ENTRIES, _SUMS, _CELLS = "IB", "IIQQ", "HB"

# The shapes of given lists, as numpy has them: azimuths, gates of several rays, gates of one ray, sums.
_BY_RAY, _BY_GATE, _OF_RAY, _BY_CELL = ("rays",), ("rays", "gates"), ("gates",), ("rows", "columns")


def _new(letter, shape, number=0):
    """A list for the library to write, which holds this number everywhere."""
    if numpy is not None:
        return numpy.full(shape, number, letter)
    return array(letter, [number]) * prod(shape)


def _empty(letters):
    """Empty lists. With these the library refuses a wrong head by its number, before lists of its size are made."""
    return [array(letter) for letter in letters]


def _asked(function, *arguments):
    """The library's answer. A list goes as its pointer and its length.

    No other thread can resize a list during the call: Python refuses it for an array.array that has a memoryview, and numpy for an
    array that anything else refers to.
    """
    with ExitStack() as held:
        for one in arguments:
            if isinstance(one, array):
                held.enter_context(memoryview(one))
        return function(*(part for one in arguments for part in _lent(one)))


def _lent(one):
    if isinstance(one, array):
        address, length = one.buffer_info()
    elif numpy is not None and isinstance(one, numpy.ndarray):
        address, length = one.ctypes.data, one.size
    else:
        return (one,)
    return (address, length) if length else (_ANYWHERE.buffer_info()[0], 0)


def _overlap(one, other):
    """Whether two lists stand in the same memory."""
    (start, length), (other_start, other_length) = _lent(one), _lent(other)
    return start < other_start + other_length * other.itemsize and other_start < start + length * one.itemsize


def flat(numbers):
    """A list that came back, as a plain list of whole numbers: ray by ray, or row by row."""
    return numbers.tolist() if isinstance(numbers, array) else numbers.ravel().tolist()


def _held(name, letter, numbers, form):
    """A given list as the library can read it, and its shape where it has one."""
    if numpy is not None and isinstance(numbers, numpy.ndarray):
        return _held_numpy(name, letter, numbers, form)
    if isinstance(numbers, array) and numbers.typecode == letter:
        return numbers, None
    if not hasattr(numbers, "__iter__"):
        raise TypeError(f"{name} must be a list of whole numbers, and is {numbers!r}")
    numbers, shape = list(numbers), None
    if form == _BY_GATE and numbers and hasattr(numbers[0], "__len__"):
        numbers, shape = _joined(name, numbers)
    return _packed(name, letter, numbers), shape


def _held_numpy(name, letter, numbers, form):
    needed = numpy.dtype(letter)
    if isinstance(numbers, numpy.ma.MaskedArray):
        raise TypeError(f"{name} must not be a masked array; its method filled makes a plain one")
    if numbers.dtype != needed:
        raise TypeError(f"{name} must have the dtype {needed}, and has {numbers.dtype}")
    if numbers.ndim != len(form):
        shape = str(form).replace("'", "")
        raise ValueError(f"{name} must have a shape {shape}, and has {numbers.shape}")
    return numpy.require(numbers, requirements=("C", "A")), numbers.shape


def _joined(name, rays):
    gates = len(rays[0])
    if any(not hasattr(ray, "__len__") or len(ray) != gates for ray in rays):
        raise ValueError(f"each ray of {name} must have as many gates as the first")
    return [number for ray in rays for number in ray], (len(rays), gates)


def _packed(name, letter, numbers):
    try:
        return array(letter, numbers)
    except TypeError as error:
        raise TypeError(f"{name} must hold whole numbers: {error}") from None
    except OverflowError:
        greatest = 256 ** array(letter).itemsize - 1
        wrong = next(place for place, number in enumerate(numbers) if not 0 <= number <= greatest)
        raise ValueError(f"{name} holds {numbers[wrong]} at place {wrong}, and the library takes 0 to {greatest:,}") from None


def _rays_given(azimuths, values, qualities, form=_BY_GATE):
    """The lists of some rays as the library takes them, and the shape of values and qualities where one of them has a shape."""
    azimuths, _ = _held("azimuths", "I", azimuths, _BY_RAY)
    values, shape = _held("values", "H", values, form)
    qualities, other = _held("qualities", "B", qualities, form)
    if shape and other and shape != other:
        raise ValueError(f"values have the shape {shape} and qualities {other}; they must have the same")
    return [azimuths, values, qualities], shape or other


def _sums_given(*sums):
    """Sums as the library takes them, and the shape of the cells: that of the counts, or of another list, where it has one."""
    held = [_held(name, letter, numbers, _BY_CELL) for name, letter, numbers in zip(Sums._fields, _SUMS, sums)]
    shaped = [(name, shape) for name, (_, shape) in zip(Sums._fields, held) if shape]
    # The library is told lengths alone, and would take rows and columns that have changed places.
    for name, shape in shaped:
        first, needed = shaped[0]
        if shape != needed and prod(shape) == prod(needed):
            raise ValueError(f"{first} have the shape {needed} and {name} {shape}; they must have the same")
    lists = [numbers for numbers, _ in held]
    return lists, shaped[0][1] if shaped else (len(lists[0]),)


def _head(site, grid, weighting, first, spacing, rays, gates):
    numbers = _numbers(rays=rays, gates=gates, first=first, spacing=spacing)
    return _Scan(_site(site), *numbers, _grid(grid), _number("weighting", weighting))


def _given(scan):
    """A scan as the library takes it: its numbers and its lists."""
    lists, shape = _rays_given(*scan[5:])
    azimuths, values, _ = lists
    rays, gates = shape or (len(azimuths), len(values) // max(1, len(azimuths)))
    return _head(*scan[:5], rays, gates), lists


# What is public.


def sine(angle):
    """The sine of an angle, times 2 to the 30th.

    >>> sine(300_000)
    536870912
    """
    return _library.uldrevin_sine(_number("angle", angle))


def cosine(angle):
    """The cosine of an angle, times 2 to the 30th."""
    return _library.uldrevin_cosine(_number("angle", angle))


def place(site, grid, azimuth, range):
    """The placement of one gate.

    >>> grid = Radolan(x=-52_346_220, y=-465_864_470, side=100_000, columns=900, rows=900)
    >>> place(Site(510_000, 100_000), grid, azimuth=0, range=0)
    Placement(x=0, y=-420928583, cell=404623, mark=False)
    >>> place(Site(510_000, 100_000), grid._replace(x=-52_300_000), azimuth=0, range=0).mark  # on a line between two columns
    True
    >>> place(Site(510_000, 100_000), grid, azimuth=3_600_000, range=0)
    Traceback (most recent call last):
    uldrevin.Refusal: refusal 7: an azimuth is not 0 to 3,599,999
    """
    numbers = _numbers(azimuth=azimuth, range=range)
    cell, x, y, mark = c_uint32(), c_int64(), c_int64(), c_uint8()
    _accept(_library.uldrevin_place(_site(site), _grid(grid), *numbers, cell, x, y, mark))
    return Placement(x.value, y.value, None if cell.value == OUTSIDE else cell.value, mark.value != 0)


def tally(site, grid, first, spacing, azimuths, values, qualities):
    """The ledger, the marks and the sums of a scan, which serve both weightings; the module's text has an example."""
    scan = Scan(site, grid, PLAIN, first, spacing, azimuths, values, qualities)  # the weighting plays no part
    head, lists = _given(scan)
    number = _asked(_library.uldrevin_tally, head, *lists, *_empty(_ENTRIES + _SUMS))
    if number != LENGTH_NOT_EXACT:
        raise Refusal(number)
    gates, cells = (head.rays, head.gates), (head.grid.rows, head.grid.columns)
    entries, sums = [_new(letter, gates) for letter in _ENTRIES], Sums(*(_new(letter, cells) for letter in _SUMS))
    _accept(_asked(_library.uldrevin_tally, head, *lists, *entries, *sums))
    return Tally(*entries, sums)


def publish(weighting, counts, quality_sums, value_sums, weighted_sums):
    """The means and the qualities of cells, from sums of any number of cells: those of a tally or a sweep, or any others.

    Plain, a mean is the value sum by the count; by quality, which is any weighting other than 0, the weighted sum by the quality sum. For
    divisor 0, and above 65,533, it is NO_MEAN. A quality is the quality sum by the count in either weighting, 0 for count 0 and 100 where
    it would be more:

    >>> sums = [2, 0, 1], [100, 3, 101], [8, 5, 65_534], [160, 10, 202]
    >>> [flat(cells) for cells in publish(PLAIN, *sums)]
    [[4, 65535, 65535], [50, 0, 100]]
    >>> [flat(cells) for cells in publish(BY_QUALITY, *sums)]
    [[1, 3, 2], [50, 0, 100]]
    >>> publish(PLAIN, [2, 0, 1], [100], [8], [160])
    Traceback (most recent call last):
    uldrevin.Refusal: refusal 6: the length of a list is not exact

    The cells have the shape of the counts where these are a numpy array. Sums of an open sweep may be published while no thread feeds it.
    """
    weighting = _number("weighting", weighting)
    sums, shape = _sums_given(counts, quality_sums, value_sums, weighted_sums)
    cells = Cells(*(_new(letter, shape) for letter in _CELLS))
    _accept(_asked(_library.uldrevin_publish, weighting, *sums, *cells))
    return cells


def remap(site, grid, weighting, first, spacing, azimuths, values, qualities):
    """A scan tallied, and published in one weighting: `remap(*scan)`. A weighting other than 0 is by quality."""
    weighting = _number("weighting", weighting)
    ledger, marks, sums = tally(site, grid, first, spacing, azimuths, values, qualities)
    return Remapped(ledger, marks, *sums, *publish(weighting, *sums))


def _own(name, words):
    """A list of a sweep: it can be read and written, and no other list can take its place."""
    return property(lambda self: getattr(self._lists, name), doc=words)


class Sweep:
    """A scan that takes its rays one by one, or some at a time, as the antenna turns. The lists are its own.

    >>> sweep = Sweep(Site(600_000, -1_050_000), Hrap(400, 932, 2, 1), BY_QUALITY, first=0, spacing=100_000, rays=3, gates=2)
    >>> sweep.take(0, [1, 7], [90, 10])
    >>> sweep.take(900_000, [3, 5], [101, 40])
    Traceback (most recent call last):
    uldrevin.Refusal: refusal 8: a quality is over 100
    >>> sweep.taken, flat(sweep.counts)
    (1, [0, 2])
    >>> sweep.take([900_000, 1_800_000], [[3, 5], [0, NOT_MEASURED]], [[60, 40], [100, 100]])
    >>> remapped = sweep.close()
    >>> flat(remapped.marks)
    [1, 1, 1, 0, 1, 1]
    >>> [flat(cells)[1] for cells in (remapped.means, remapped.cell_qualities, remapped.counts)]
    [1, 60, 5]

    The sums serve both weightings, whatever that of the sweep. It was closed by quality; the means of the plain sheet:

    >>> flat(publish(PLAIN, *sweep.sums).means)
    [65535, 3]

    A refused ray, or a group of rays with one bad ray, changes nothing, and the sweep goes on without it. The ledger and the marks of the
    rays taken, and the sums, are those that tally gives for the whole scan of these rays, however they were divided, and after closing the
    cells are those that publish gives from these sums, unless the caller has altered a list. Until its ray is taken a gate's ledger entry
    is OUTSIDE and its mark 0; until the sweep is closed each mean is NO_MEAN and each cell's quality 0. Threads that share a sweep wait for
    each other.
    """

    def __init__(self, site, grid, weighting, first, spacing, rays, gates):
        """Opens a sweep of this many rays, of this many gates each. Closing publishes in its weighting, by quality for any but 0.

        Refusals 1 to 5.
        """
        head = _head(site, grid, weighting, first, spacing, rays, gates)
        self._state, self._lock = _Sweep(), Lock()
        number = _asked(_library.uldrevin_sweep_open, head, *_empty(_SUMS), self._state)
        if number != LENGTH_NOT_EXACT:
            raise Refusal(number)
        gates, cells = (head.rays, head.gates), (head.grid.rows, head.grid.columns)
        sums = [_new(letter, cells) for letter in _SUMS]
        _accept(_asked(_library.uldrevin_sweep_open, head, *sums, self._state))
        self._lists = Remapped(_new("I", gates, OUTSIDE), _new("B", gates), *sums, _new("H", cells, NO_MEAN), _new("B", cells))

    ledger = _own("ledger", "For each gate of all rays announced: its cell, or OUTSIDE.")
    marks = _own("marks", "For each gate of all rays announced: its mark, 1 or 0; 0 until its ray is taken.")
    counts = _own("counts", "For each cell: the measured gates in it, of the rays taken.")
    quality_sums = _own("quality_sums", "For each cell: the sum of the qualities of these gates.")
    value_sums = _own("value_sums", "For each cell: the sum of the values of these gates.")
    weighted_sums = _own("weighted_sums", "For each cell: the sum of the values of these gates, each times its quality.")
    means = _own("means", "For each cell: its mean, published on closing.")
    cell_qualities = _own("cell_qualities", "For each cell: its quality, published on closing.")
    sums = _own("sums", "The four sums, as publish takes them.")
    head = property(lambda self: _head_read(self._state.scan), doc="The numbers of the scan; its rays are those announced.")
    taken = property(lambda self: self._state.taken, doc="How many rays were taken so far.")
    closed = property(lambda self: self._state.closed != 0, doc="Whether the sweep is closed.")

    def take(self, azimuths, values, qualities):
        """Takes the next ray, given as its azimuth, the values of its gates and their qualities, or several, given in lists as to tally.

        Values and qualities of one ray as numpy arrays have the shape (gates,). Refusals, in this order: 19, 17, 6 also for no rays, 7, 8,
        and 31 where the caller has altered the sums.
        """
        try:
            azimuths, form = [index(azimuths)], _OF_RAY
        except TypeError:
            form = _BY_GATE
        lists, shape = _rays_given(azimuths, values, qualities, form)
        needed = (len(lists[0]), self._state.scan.gates)
        # The library is told lengths alone, and would take rays and gates that have changed places.
        if form == _BY_GATE and shape and shape != needed and prod(shape) == prod(needed):
            raise ValueError(f"values and qualities must have the shape {needed} for these azimuths, and have {shape}")
        own = self._lists[:6]  # the ledger, the marks and the sums
        if any(_overlap(given, written) for given in lists for written in own):
            raise ValueError("a list that is given must not be one of the sweep's own")
        with self._lock:
            _accept(_asked(_library.uldrevin_sweep_take, self._state, *lists, *own))

    def feed(self, rays):
        """Takes rays until there are no more: each is a tuple of what take is given.

        A refused one raises its refusal. Fed once more with the same generator, the sweep goes on with the ray after it:

        >>> def rays():
        ...     yield 0, [1, 7], [90, 10]
        ...     yield 3_600_000, [3, 5], [60, 40]
        ...     yield 1_800_000, [0, NOT_MEASURED], [100, 100]
        >>> sweep, turning = Sweep(Site(600_000, -1_050_000), Hrap(400, 932, 2, 1), PLAIN, 0, 100_000, rays=2, gates=2), rays()
        >>> sweep.feed(turning)
        Traceback (most recent call last):
        uldrevin.Refusal: refusal 7: an azimuth is not 0 to 3,599,999
        >>> sweep.feed(turning)
        >>> sweep.taken
        2
        """
        for ray in rays:
            self.take(*ray)

    def close(self):
        """Publishes means and cell qualities in the sweep's weighting, as publish does, and ends the sweep.

        The lists, which are the sweep's own, come back as from remap. Refusals, in this order: 19, 18, 6.
        """
        with self._lock:
            _accept(_asked(_library.uldrevin_sweep_close, self._state, *self._lists[2:]))  # the sums and the cells
        return self._lists


def record_head(data):
    """The numbers of a scan record."""
    data = bytes(memoryview(data).cast("B"))
    head = _Scan()
    _accept(_library.uldrevin_record_head(data, len(data), head))
    return _head_read(head)


def record_field(data, number):
    """The content of a field, as a memoryview of the caller's own bytes; empty for a number other than 1 to 7.

    A refused record raises its refusal, where document 01 has an empty part, whatever the number:

    >>> record_field(b"", 8)
    Traceback (most recent call last):
    uldrevin.Refusal: refusal 11: the record is cut short
    """
    part = memoryview(data).cast("B")
    asked = index(number) if 0 <= index(number) < 2**32 else 0  # 0 too is a number other than 1 to 7
    start, length = c_uint64(), c_uint64()
    _accept(_library.uldrevin_record_field(bytes(part), len(part), asked, start, length))
    return part[start.value : start.value + length.value]


def read_record(data):
    """The scan of a record.

    >>> data = write_record(Site(600_000, -1_050_000), Hrap(400, 932, 2, 1), BY_QUALITY, 0, 100_000, [0], [1, 7], [90, 10])
    >>> scan = read_record(data)
    >>> scan.grid, flat(scan.values)
    (Hrap(i=400, j=932, columns=2, rows=1), [1, 7])
    >>> write_record(*scan) == data
    True
    """
    data = bytes(memoryview(data).cast("B"))
    head = record_head(data)
    gates = (head.rays, head.gates)
    lists = [_new("I", (head.rays,)), _new("H", gates), _new("B", gates)]
    _accept(_asked(_library.uldrevin_record_read, data, len(data), _Scan(), *lists))
    return Scan(head.site, head.grid, head.weighting, head.first, head.spacing, *lists)


def write_record(site, grid, weighting, first, spacing, azimuths, values, qualities):
    """The record of a scan, as bytes. A weighting other than 0 is by quality.

    >>> len(write_record(Site(600_000, -1_050_000), Hrap(400, 932, 2, 1), PLAIN, 0, 100_000, [0], [1, 7], [90, 10]))
    61
    """
    head, lists = _given(Scan(site, grid, weighting, first, spacing, azimuths, values, qualities))
    length = c_uint64()
    # With no room, to be told of all else first.
    number = _asked(_library.uldrevin_record_write, head, *lists, array("B"), length)
    if number != BUFFER_TOO_SHORT:
        raise Refusal(number)
    # Seven headers, then the contents, with the longer kind of grid.
    buffer = array("B", bytes(7 * 3 + 8 + 12 + 17 + 1 + 4 * head.rays + 3 * head.rays * head.gates))
    _accept(_asked(_library.uldrevin_record_write, head, *lists, buffer, length))
    return buffer[: length.value].tobytes()
