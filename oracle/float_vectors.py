#!/usr/bin/env python3
"""Writes exact answers of the functions of `float`, as lines of answers (README.md).

`oracle/store` puts them into the list that the program `replay` is run on.

Every answer follows document 01's 'Arithmetic the platform leaves open', with one rounding per operation: Python's
+, -, * and / on floats, its remainder `fmod`, which is exact, and its division of whole numbers, which gives the
nearest float. Nothing comes from the platform's sine, logarithm, power or rounding.

The arguments are zeros, infinities and NaNs of either sign, the ends of the subnormal and of the normal numbers,
halves, whole numbers and the ends of the integers with their neighbours, multiples of the quarter turn with theirs,
and patterns drawn from a generator with a fixed seed.
"""
import math
import random
import struct
from fractions import Fraction

NAN = float("nan")
INFINITY = float("inf")
FULL = 6.283185307179586
QUARTER = 1.5707963267948966
SINE = [(-1) ** k / math.factorial(2 * k + 1) for k in range(9)]
COSINE = [(-1) ** k / math.factorial(2 * k) for k in range(9)]
LOGARITHM = [1 / (2 * k + 1) for k in range(11)]


def number(bits):
    return struct.unpack("<d", struct.pack("<Q", bits))[0]


def pattern(x):
    return 0x7FF8000000000000 if x != x else struct.unpack("<Q", struct.pack("<d", x))[0]


def negative(x):
    return math.copysign(1.0, x) < 0


def finite(x):
    return x == x and x not in (INFINITY, -INFINITY)


def whole(n, sign):
    """A whole number from 0 up, as a float with the sign; each is below 2^1024."""
    return -float(n) if sign else float(n)


def absolute(x):
    return -x if negative(x) and x == x else x


def floor(x):
    if not finite(x):
        return x
    n = Fraction(x).__floor__()
    return whole(abs(n), negative(x))


def away(x):
    """|x| rounded to a whole number, halves up."""
    return (abs(Fraction(x)) + Fraction(1, 2)).__floor__()


def rounded(x):
    return whole(away(x), negative(x)) if finite(x) else x


def signum(x):
    return x if x != x else -1.0 if negative(x) else 1.0


def remainder(x, y):
    if x != x or y != y or not finite(x) or y == 0.0:
        return NAN
    return math.fmod(x, y)


def rem_euclid(x, y):
    r = remainder(x, y)
    return r + y if r < 0.0 else r


def polynomial(coefficients, w):
    value = coefficients[-1]
    for c in reversed(coefficients[:-1]):
        value = c + w * value
    return value


def held(x):
    return -1.0 if x < -1.0 else 1.0 if x > 1.0 else x


def sine_and_cosine(v):
    if not finite(v):
        return NAN, NAN
    z = math.fmod(v, FULL)
    y = z / QUARTER
    q = rounded(y)
    r = z - q * QUARTER
    w = r * r
    s, c = r * polynomial(SINE, w), polynomial(COSINE, w)
    quarter = (-away(y) if negative(y) else away(y)) % 4
    return held((s, c, -s, -c)[quarter]), held((c, -s, -c, s)[quarter])


def logarithm(v):
    if v != v or v < 0.0:
        return NAN
    if v == 0.0:
        return -INFINITY
    if v == INFINITY:
        return v
    m, e = math.frexp(v)
    m, e = m * 2.0, e - 1
    if m > 1.4142135623730951:
        m, e = m / 2.0, e + 1
    s = (m - 1.0) / (m + 1.0)
    return float(e) * 0.6931471805599453 + 2.0 * s * polynomial(LOGARITHM, s * s)


def cast(x, least, most):
    if x != x:
        return 0
    if not finite(x):
        return least if x < 0.0 else most
    return max(least, min(most, Fraction(x).__trunc__()))


def power(x, n):
    value = 1.0
    for _ in range(n):
        value = value * x
    return value


ONE = {
    "abs": absolute,
    "floor": floor,
    "round": rounded,
    "signum": signum,
    "to_degrees": lambda x: x * 57.29577951308232,
    "to_radians": lambda x: x * 0.017453292519943295,
    "sin": lambda x: sine_and_cosine(x)[0],
    "cos": lambda x: sine_and_cosine(x)[1],
    "ln": logarithm,
}
TWO = {
    "max": lambda x, y: y if x != x or x < y else x,
    "min": lambda x, y: y if x != x or y < x else x,
    "rem_euclid": rem_euclid,
}


def line(kind, fields, answer):
    print(kind, *["%016x" % (n % 2**64) for n in fields], "=", "%016x" % (answer % 2**64))


def near(x):
    """A number with its neighbours, in either sign."""
    bits = pattern(x)
    return [s + n for s in (0, 2**63) for n in (bits - 1, bits, bits + 1)]


def main():
    draw = random.Random(1957)
    ends = [s + n for s in (0, 2**63) for n in (
        0, 1, 2, 0xFFFFFFFFFFFFF, 0x10000000000000, 0x10000000000001, 0x7FEFFFFFFFFFFFFF, 0x7FF0000000000000,
        0x7FF0000000000001, 0x7FF8000000000000)]
    wholes = [n for x in (0.5, 1.0, 1.5, 2.5, 3.0, 0.49999999999999994, 4503599627370495.5, 2.0**52, 2.0**53, 2.0**63, 2.0**64)
              for n in near(x)]
    turns = [n for k in (0.5, 1, 1.5, 2, 2.5, 3, 3.5, 4, 5, 1000, 5215.5, 5216, 1e6, 1e15) for n in near(k * QUARTER)]
    roots = [n for x in (1.0, 1.4142135623730951, 2.0, 2.0**-1022, 2.0**-1074 * 3, 2.0**-1030, 2.718281828459045, 1e300) for n in near(x)]
    drawn = [draw.getrandbits(64) for _ in range(60)]
    middling = [pattern(draw.uniform(-10000.0, 10000.0)) for _ in range(40)]
    small = [pattern(draw.uniform(-7.0, 7.0)) for _ in range(40)]
    for kind, function in ONE.items():
        arguments = ends + drawn + small
        if kind in ("floor", "round", "signum", "to_degrees", "to_radians"):
            arguments = arguments + wholes + middling
        if kind in ("sin", "cos"):
            arguments = arguments + turns + middling
        if kind == "ln":
            arguments = arguments + roots + [n % 2**63 for n in drawn] + [draw.getrandbits(52) for _ in range(20)]
        for a in arguments:
            line(kind, [a], pattern(function(number(a))))
    for a in ends + drawn + small + wholes + middling:
        line("to_i64", [a], cast(number(a), -(2**63), 2**63 - 1))
    for a in ends + wholes + drawn + middling:
        line("to_u64", [a], cast(number(a), 0, 2**64 - 1))
    for kind, function in TWO.items():
        pairs = [(a, b) for a in ends for b in ends[:1] + ends[6:11] + ends[18:]]
        pairs += [(draw.choice(small), draw.choice(small)) for _ in range(30)] + [(draw.choice(drawn), draw.choice(drawn)) for _ in range(30)]
        pairs += [(a, pattern(d)) for a in middling for d in (FULL, 360.0)]
        if kind == "rem_euclid":
            pairs += [(pattern(x), pattern(d)) for x in (-1e-20, -360.0, -720.0, -0.0, 360.0, 1e300, -1e300) for d in (FULL, 360.0, -360.0)]
        for a, b in pairs:
            line(kind, [a, b], pattern(function(number(a), number(b))))
    for base in (2.0, 3.0, 5.0, 6.0, 7.0, -0.5, 1e10, 0.0, -0.0, INFINITY, NAN):
        for n in (0, 1, 2, 3, 4, 21, 25, 36, 63):
            line("power", [pattern(base), n], pattern(power(base, n)))
    words = [0, 1, 2**32 - 1, 2**32, 2**63, 2**64 - 1, 6364136223846793005] + [draw.getrandbits(64) for _ in range(20)]
    for _ in range(60):
        a, b = draw.choice(words), draw.choice(words)
        line("wrapping_mul", [a, b], a * b)


main()
