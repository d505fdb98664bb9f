"""Makes the example records beside it, each from a scene: a radar, a grid, a shower and a hill.

    python3 examples/make.py

examples/README.md describes the scenes. The records are written by the second program, in whole numbers.
"""
import sys
from pathlib import Path
from typing import NamedTuple

HERE = Path(__file__).resolve().parent
sys.path.insert(0, str(HERE.parent / "tests"))

from second_program import placement, record  # noqa: E402
from second_program.placement import Hrap, Radolan  # noqa: E402
from second_program.scan import NO_ECHO, NOT_MEASURED, Scan, centre  # noqa: E402

KILOMETRE = 100_000  # centimetres
DEGREE = 10_000


class Shower(NamedTuple):
    """Rain is heaviest in the middle and fades to nothing at the edge. Lengths are on the map."""

    azimuth: int  # of the middle, from the radar
    range: int
    radius: int
    heaviest: int  # value in the middle


class Hill(NamedTuple):
    """Nothing is measured on one ray from one gate on."""

    ray: int
    gate: int


class Scene(NamedTuple):
    """First what a scan has before its lists, in a scan's order."""

    rays: int
    gates: int
    first: int
    spacing: int
    latitude: int
    longitude: int
    grid: Hrap | Radolan
    by_quality: bool
    shower: Shower
    hill: Hill


SCENES = {
    "hrap": Scene(
        rays=12,
        gates=20,
        first=KILOMETRE // 2,
        spacing=KILOMETRE,
        latitude=353_300,
        longitude=-972_800,
        grid=Hrap(573, 320, columns=6, rows=5),
        by_quality=False,
        shower=Shower(azimuth=280 * DEGREE, range=6 * KILOMETRE, radius=15 * KILOMETRE // 2, heaviest=1_200),
        hill=Hill(ray=8, gate=5),
    ),
    "radolan": Scene(
        rays=16,
        gates=24,
        first=KILOMETRE // 4,
        spacing=KILOMETRE // 2,
        latitude=513_100,
        longitude=88_000,
        grid=Radolan(-9_500_000, -418_000_000, 2 * KILOMETRE, columns=8, rows=7),
        by_quality=True,
        shower=Shower(azimuth=45 * DEGREE, range=5 * KILOMETRE, radius=6 * KILOMETRE, heaviest=800),
        hill=Hill(ray=12, gate=9),
    ),
    "crossing": Scene(
        rays=8,
        gates=10,
        first=KILOMETRE // 4,
        spacing=KILOMETRE // 2,
        latitude=510_000,
        longitude=100_000,
        grid=Radolan(-4 * KILOMETRE, -420_928_583 - 3 * KILOMETRE, KILOMETRE, columns=8, rows=6),
        by_quality=True,
        shower=Shower(azimuth=0, range=2 * KILOMETRE, radius=3 * KILOMETRE, heaviest=600),
        hill=Hill(ray=6, gate=4),
    ),
}


def value_of(scene, scan, ray, gate):
    if ray == scene.hill.ray and gate >= scene.hill.gate:
        return NOT_MEASURED
    shower = scene.shower
    x, y = position(scene, scan.azimuths[ray], centre(scan, gate))
    middle_x, middle_y = position(scene, shower.azimuth, shower.range)
    # Squares of lengths: what the radius leaves, as a part of the radius.
    left = shower.radius**2 - (x - middle_x) ** 2 - (y - middle_y) ** 2
    return shower.heaviest * left // shower.radius**2 if left > 0 else NO_ECHO


def position(scene, azimuth, distance):
    return placement.position(scene.latitude, scene.longitude, scene.grid.sphere, azimuth, distance)


def quality_of(gate):
    """Two less with every gate."""
    return 100 - 2 * gate


def scan_of(scene):
    azimuths = [360 * DEGREE * ray // scene.rays for ray in range(scene.rays)]
    scan = Scan(*scene[:8], azimuths, [], [])
    places = [(ray, gate) for ray in range(scene.rays) for gate in range(scene.gates)]
    values = [value_of(scene, scan, ray, gate) for ray, gate in places]
    return scan._replace(values=values, qualities=[quality_of(gate) for _, gate in places])


def records():
    """The records by file name."""
    return {f"{name}.scan": record.write_record(scan_of(scene), 20_000) for name, scene in SCENES.items()}


def main():
    for name, data in records().items():
        (HERE / name).write_bytes(data)
        print(f"{name}: {len(data)} bytes")


if __name__ == "__main__":
    main()
