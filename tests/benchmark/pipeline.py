"""The same scan by numpy and PROJ, in floating point: geodesics on the sphere, the polar stereographic map, sums by cell.

Run by the benchmark: the numbers of the scan are the arguments, the lists and the library's ledger come on standard input. Prints
nanoseconds a gate, best of the rounds, and how many gates have another ledger entry than the library's.
"""
import sys
import time
from typing import NamedTuple

import numpy
import pyproj

OUTSIDE = 4_294_967_295
NO_ECHO, NOT_MEASURED, NO_MEAN = 65_534, 65_535, 65_535


class Head(NamedTuple):
    radius: float  # metres
    meridian: float  # degrees
    latitude: float
    longitude: float
    rays: int
    gates: int
    first: float  # metres
    spacing: float
    x: float
    y: float
    side: float
    columns: int
    rows: int
    by_quality: int
    rounds: int

    @classmethod
    def of(cls, words):
        return cls(*(kind(word) for kind, word in zip(cls.__annotations__.values(), words, strict=True)))


def lists(head, data):
    """Azimuths, values, qualities and the library's ledger, one behind the other."""
    gates, start, found = head.rays * head.gates, 0, []
    for kind, length in (("<u4", head.rays), ("<u2", gates), ("u1", gates), ("<u4", gates)):
        found.append(numpy.frombuffer(data, kind, length, start))
        start += found[-1].nbytes
    return found


def ledger_of(head, azimuths):
    sphere = pyproj.Geod(a=head.radius, b=head.radius)
    polar = pyproj.Proj(proj="stere", lat_0=90, lat_ts=60, lon_0=head.meridian, a=head.radius, b=head.radius)
    ranges = head.first + head.spacing * numpy.arange(head.gates)
    azimuth, distance = (part.ravel() for part in numpy.meshgrid(azimuths / 10_000, ranges, indexing="ij"))
    site = numpy.full(azimuth.shape, head.longitude), numpy.full(azimuth.shape, head.latitude)
    longitudes, latitudes, _ = sphere.fwd(*site, azimuth, distance)
    x, y = polar(longitudes, latitudes)
    column = numpy.floor((x - head.x) / head.side).astype(numpy.int64)
    row = numpy.floor((y - head.y) / head.side).astype(numpy.int64)
    inside = (column >= 0) & (column < head.columns) & (row >= 0) & (row < head.rows)
    return numpy.where(inside, row * head.columns + column, OUTSIDE)


def cells_of(head, ledger, values, qualities):
    """Means and cell qualities."""
    counted = (ledger != OUTSIDE) & (values != NOT_MEASURED)
    cell, quality = ledger[counted], qualities[counted].astype(numpy.float64)
    value = numpy.where(values == NO_ECHO, 0, values)[counted].astype(numpy.float64)
    cells = head.columns * head.rows
    count = numpy.bincount(cell, minlength=cells)
    quality_sum = numpy.bincount(cell, quality, cells)
    value_sum = numpy.bincount(cell, value * quality if head.by_quality else value, cells)
    divisor = quality_sum if head.by_quality else count
    mean = numpy.full(cells, NO_MEAN, numpy.uint16)
    numpy.floor_divide(value_sum, divisor, out=mean, where=divisor > 0, casting="unsafe")
    cell_quality = numpy.zeros(cells, numpy.uint8)
    numpy.floor_divide(quality_sum, count, out=cell_quality, where=count > 0, casting="unsafe")
    return mean, cell_quality


def main():
    head = Head.of(sys.argv[1:])
    azimuths, values, qualities, expected = lists(head, sys.stdin.buffer.read())
    best = float("inf")
    for _ in range(head.rounds):
        start = time.perf_counter_ns()
        ledger = ledger_of(head, azimuths)
        cells_of(head, ledger, values, qualities)
        best = min(best, time.perf_counter_ns() - start)
    print(best / len(values), numpy.count_nonzero(ledger != expected))


if __name__ == "__main__":
    main()
