"""Document 01's scan record: from bytes to a scan and back, with the refusals.

It is written from document 01 alone and shares nothing with the library.
"""
from second_program import scan as rules
from second_program.placement import Hrap, Radolan
from second_program.scan import Scan

HEADER = 3  # a tag of one byte and a length of two
GRID_OF_LENGTH = {17: Radolan, 9: Hrap}  # the grid by the length of field 3
MOST_GATES = 32_767  # that can be written


class Refused(Exception):
    """A record is refused; its argument is the number."""


def unsigned(part):
    return int.from_bytes(part, "big")


def signed(part):
    return int.from_bytes(part, "big", signed=True)


def parts(content, *widths):
    """The content cut into parts of these widths."""
    ends = [sum(widths[: place + 1]) for place in range(len(widths))]
    return [content[end - width : end] for end, width in zip(ends, widths)]


def list_of(content, width):
    """The unsigned numbers of this width that fill the content."""
    return [unsigned(content[start : start + width]) for start in range(0, len(content), width)]


# Reading.


class Fields:
    """The fields of a record, taken one after the other."""

    def __init__(self, data):
        self.data = data
        self.places = []  # start and length of each content
        self.end = 0

    def take(self, *lengths):
        """The content of the next field, whose length has to be one of these."""
        start = self.end + HEADER
        if len(self.data) < start:
            raise Refused(11)
        if self.data[self.end] != len(self.places) + 1:
            raise Refused(12)
        length = unsigned(self.data[self.end + 1 : start])
        if length not in lengths:
            raise Refused(13)
        if len(self.data) < start + length:
            raise Refused(11)
        self.places.append((start, length))
        self.end = start + length
        return self.data[start : self.end]


def scan_and_places(data):
    """The scan of a record and the places of its contents, after the checks of 11 to 14."""
    fields = Fields(data)
    latitude, longitude = map(signed, parts(fields.take(8), 4, 4))
    rays, gates, first, spacing = map(unsigned, parts(fields.take(12), 2, 2, 4, 4))
    content = fields.take(17, 9)
    kind = GRID_OF_LENGTH[len(content)]
    if content[0] != kind.kind:
        raise Refused(13)
    if kind is Radolan:
        x, y, side, columns, rows = parts(content[1:], 4, 4, 4, 2, 2)
        grid = Radolan(signed(x), signed(y), unsigned(side), unsigned(columns), unsigned(rows))
    else:
        i, j, columns, rows = parts(content[1:], 2, 2, 2, 2)
        grid = Hrap(signed(i), signed(j), unsigned(columns), unsigned(rows))
    weighting = fields.take(1)[0]
    if weighting not in (0, 1):
        raise Refused(13)
    azimuths = list_of(fields.take(4 * rays), 4)
    values = list_of(fields.take(2 * rays * gates), 2)
    qualities = list_of(fields.take(rays * gates), 1)
    if fields.end != len(data):
        raise Refused(14)
    numbers = (rays, gates, first, spacing, latitude, longitude, grid, weighting == 1)
    return Scan(*numbers, azimuths, values, qualities), fields.places


def grid_numbers(grid):
    """The numbers of a grid by name; x and y are I and J for HRAP."""
    x, y = (grid.i, grid.j) if isinstance(grid, Hrap) else (grid.x, grid.y)
    return {"kind": grid.kind, "x": x, "y": y, "side": grid.side, "columns": grid.columns, "rows": grid.rows}


def head_of(scan):
    """The numbers of a scan by name, in the order of the record."""
    return {
        "latitude": scan.latitude,
        "longitude": scan.longitude,
        "rays": scan.rays,
        "gates": scan.gates,
        "first": scan.first,
        "spacing": scan.spacing,
        **grid_numbers(scan.grid),
        "weighting": int(scan.by_quality),
    }


def read_scan(data, list_lengths=None):
    """The scan and the places of the contents, or the refusal number. With no lent lists 6 is not checked."""
    try:
        scan, places = scan_and_places(data)
    except Refused as refused:
        return refused.args[0]
    exact = list_lengths is None or tuple(list_lengths) == rules.given_lengths(scan)
    wrong = rules.wrong_numbers_where(scan, exact)
    return min(wrong) if wrong else (scan, places)


def read_record(data, list_lengths=None):
    """The word head, the head's numbers and the three lists, or the refusal number. Lists of these lengths are lent."""
    answer = read_scan(data, list_lengths)
    if isinstance(answer, int):
        return answer
    scan, _ = answer
    return "head", head_of(scan), scan.azimuths, scan.values, scan.qualities


def field_place(data, number):
    """Start and length of a field's content, both 0 for an empty part."""
    answer = read_scan(data)
    if isinstance(answer, int) or not 1 <= number <= 7:
        return 0, 0
    _, places = answer
    return places[number - 1]


# Writing.


def written(width, *numbers):
    return b"".join(number.to_bytes(width, "big") for number in numbers)


def written_signed(width, *numbers):
    return b"".join(number.to_bytes(width, "big", signed=True) for number in numbers)


def grid_content(grid):
    if isinstance(grid, Radolan):
        corner = written_signed(4, grid.x, grid.y)
        return written(1, grid.kind) + corner + written(4, grid.side) + written(2, grid.columns, grid.rows)
    return written(1, grid.kind) + written_signed(2, grid.i, grid.j) + written(2, grid.columns, grid.rows)


def contents(scan):
    """The contents of the seven fields."""
    return [
        written_signed(4, scan.latitude, scan.longitude),
        written(2, scan.rays, scan.gates) + written(4, scan.first, scan.spacing),
        grid_content(scan.grid),
        written(1, int(scan.by_quality)),
        written(4, *scan.azimuths),
        written(2, *scan.values),
        written(1, *scan.qualities),
    ]


def write_record(scan, room):
    """The record, or the refusal number, where the buffer has this room."""
    wrong = rules.wrong_numbers_where(scan, rules.given_exact(scan))
    if wrong:
        return min(wrong)
    if scan.rays * scan.gates > MOST_GATES:
        return 15
    data = b"".join(
        written(1, tag) + written(2, len(content)) + content for tag, content in enumerate(contents(scan), 1)
    )
    return 16 if room < len(data) else data
