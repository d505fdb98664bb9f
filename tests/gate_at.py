"""A gate at a given position: an azimuth and a range whose X and Y are these."""
import cmath
from itertools import product
from math import tau

from second_program import placement
from second_program.sine import TURN


def ground_offset(azimuth, distance):
    """An offset from the site on the ground, whose real axis goes north and whose imaginary axis goes west."""
    return cmath.rect(distance, -azimuth * tau / TURN)


def polar(offset):
    """Azimuth and range of such an offset."""
    return round(-cmath.phase(offset) * TURN / tau) % TURN, round(abs(offset))


def gate_at(site, sphere, x, y):
    """Azimuth and range of a gate at X and Y, or None where none is found. It has to be a few metres from the site or more.

    An offset on the map is that on the ground times a complex number, which is nearly the same all around the site.
    """

    def position(azimuth, distance):
        return placement.position(*site, sphere, azimuth, distance)

    origin = complex(*position(0, 0))
    wanted = complex(x + 0.5, y + 0.5) - origin
    azimuth, distance = polar(wanted)
    for _ in range(4):
        turned = (complex(*position(azimuth, distance)) - origin) / ground_offset(azimuth, distance)
        azimuth, distance = polar(wanted / turned)
    for step, farther in product(range(-3, 4), range(-2, 3)):
        near = (azimuth + step) % TURN, distance + farther
        if position(*near) == (x, y):
            return near
    return None
