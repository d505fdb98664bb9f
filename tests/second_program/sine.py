"""Document 01, section "Projection", up to the sine of any angle, worked in exact fractions.

This is the beginning of the second program: it is written from document 01 alone and shares nothing with the library.
Angles are whole numbers of ten-thousandths of a degree.
"""
from fractions import Fraction
from functools import lru_cache
from math import factorial, floor

Q = 2**30
PI = Fraction("3.14159265358979323846")
QUARTER = 900_000
TURN = 3_600_000


def series(angle, powers):
    """The sum of x^n / n! over the powers, with alternating signs, where x is the angle in radians."""
    x = angle * PI / 1_800_000
    return sum((-1) ** k * x**n / factorial(n) for k, n in enumerate(powers))


@lru_cache(maxsize=None)
def sine_series(angle):
    return series(angle, range(1, 22, 2))


@lru_cache(maxsize=None)
def cosine_series(angle):
    return series(angle, range(0, 21, 2))


def nearest(x):
    """The nearest whole number. A tie would leave the rule without an answer."""
    below = floor(x)
    if x - below == Fraction(1, 2):
        raise ValueError("two whole numbers are equally near")
    return below if x - below < Fraction(1, 2) else below + 1


@lru_cache(maxsize=None)
def table_s():
    return [nearest(Q * sine_series(1000 * a)) for a in range(901)]


@lru_cache(maxsize=None)
def table_f():
    return [nearest(Q * sine_series(b)) for b in range(1000)]


@lru_cache(maxsize=None)
def table_g():
    return [nearest(Q * cosine_series(b)) for b in range(1000)]


def first_quarter(t):
    a, b = divmod(t, 1000)
    return floor(Fraction(table_s()[a] * table_g()[b] + table_s()[900 - a] * table_f()[b], Q))


def exact_first_quarter(t):
    a, b = divmod(t, 1000)
    return sine_series(1000 * a) * cosine_series(b) + sine_series(1000 * (900 - a)) * sine_series(b)


def by_quarters(rule, angle):
    quarter, t = divmod(angle % TURN, QUARTER)  # % is never negative here
    return [rule(t), rule(QUARTER - t), -rule(t), -rule(QUARTER - t)][quarter]


def sine(angle):
    return first_quarter(angle) if 0 <= angle <= QUARTER else by_quarters(first_quarter, angle)


def cosine(angle):
    return sine(angle + QUARTER)


def exact_sine(angle):
    return exact_first_quarter(angle) if 0 <= angle <= QUARTER else by_quarters(exact_first_quarter, angle)


def exact_cosine(angle):
    return exact_sine(angle + QUARTER)
