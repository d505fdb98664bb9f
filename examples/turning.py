"""The storm of storm.py, fed to a sweep ray by ray as the antenna turns, with one bad ray among them.

    python3 examples/turning.py

The bad ray is refused and changes nothing; mended, it is fed again. At the end every list is compared with that of the whole scan, and the
status is 1 where one differs.
"""
import sys

from storm import GATES, RAYS, flat, storm  # which puts the module for Python on the path

import uldrevin

BAD_RAY, BAD_GATE, BAD_QUALITY = 180, 100, 101


def ray_of(scan, ray):
    """The azimuth of a ray, and the values and qualities of its gates."""
    gates = slice(ray * GATES, (ray + 1) * GATES)
    return scan.azimuths[ray], scan.values[gates], scan.qualities[gates]


def turning(scan):
    """The rays as they come in, one of them with a quality that cannot be."""
    for ray in range(RAYS):
        azimuth, values, qualities = ray_of(scan, ray)
        if ray == BAD_RAY:
            qualities[BAD_GATE] = BAD_QUALITY
        yield azimuth, values, qualities


def feed(sweep, scan):
    """Feeds all rays. For one that is refused, that of the scan is taken, and the antenna turns on."""
    rays = turning(scan)
    while sweep.taken < RAYS:
        try:
            sweep.feed(rays)
        except uldrevin.Refusal as refusal:
            ray = sweep.taken  # rays count from 0, so that this is the next one's number
            print(f"ray {ray} refused with {refusal.number}: {refusal.sentence}; {sweep.taken} rays taken")
            sweep.take(*ray_of(scan, ray))
            print(f"ray {ray} mended and fed again; {sweep.taken} rays taken")


def main():
    scan = storm()
    sweep = uldrevin.Sweep(*scan[:5], rays=RAYS, gates=GATES)
    print(f"sweep opened: {RAYS} rays of {GATES} gates on {scan.grid.columns} x {scan.grid.rows} cells")
    feed(sweep, scan)
    swept = sweep.close()
    print(f"sweep closed: {sweep.taken} rays taken, {sum(flat(swept.counts))} measured gates in the grid")
    whole = uldrevin.remap(*scan)
    different = [name for name in whole._fields if flat(getattr(swept, name)) != flat(getattr(whole, name))]
    if different:
        print(f"other than those of the whole scan: {', '.join(different)}")
        return 1
    print(f"the same as those of the whole scan: {', '.join(whole._fields)}")
    return 0


if __name__ == "__main__":
    sys.exit(main())
