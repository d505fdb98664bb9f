"""Sine and cosine of the compiled library against the second program's, and against the exact ones."""
import random
from fractions import Fraction

import library
from second_program import sine

# Hundredths of a unit, proved in crates/sine/specs/Bounds.antt.
SINE_ERROR = 251
SEED = 20261115


def angles():
    quarter_lines = [q * sine.QUARTER for q in range(-12, 13)]
    near_lines = [line + step for line in quarter_lines for step in range(-4, 5)]
    tenths = [tenth * 1000 + step for tenth in range(-1800, 3601) for step in (-1, 0, 1)]
    ends = [sign * 2**bits + step for bits in (31, 32, 62) for sign in (-1, 1) for step in (-1, 0, 1)]
    ends += [-(2**63), -(2**63) + 1, 2**63 - 2, 2**63 - 1]
    draw = random.Random(SEED)
    any_turn = [draw.randrange(-(2**63), 2**63) for _ in range(4000)]
    near_turns = [draw.randrange(-3 * sine.TURN, 3 * sine.TURN) for _ in range(4000)]
    return near_lines + tenths + ends + any_turn + near_turns


def comparisons():
    compiled = library.load()
    chosen = angles()
    for name, answer, rule, exact in (
        ("sine", compiled.uldrevin_sine, sine.sine, sine.exact_sine),
        ("cosine", compiled.uldrevin_cosine, sine.cosine, sine.exact_cosine),
    ):
        differences, largest = [], Fraction(0)
        for angle in chosen:
            got, expected = answer(angle), rule(angle)
            if got != expected:
                differences.append(f"{name} of {angle} is {got} in the library and {expected} by the rule")
        yield f"{name} of {len(chosen)} angles", differences

        differences = []
        for angle in chosen:
            distance = abs(answer(angle) - sine.Q * exact(angle))
            largest = max(largest, distance)
            if distance * 100 > SINE_ERROR:
                differences.append(f"{name} of {angle} is {float(distance):.3f} units from the exact one")
        yield f"{name} of {len(chosen)} angles beside the exact one, at most {float(largest):.3f} units apart", differences
