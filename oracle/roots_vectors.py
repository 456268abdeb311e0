#!/usr/bin/env python3
"""Writes exact answers of the square root and the cube root, as lines of answers (README.md) of the kinds sqrt and cbrt.

`oracle/store` puts them into the list that the program `replay` is run on.

Every answer is worked out with whole numbers alone, and not by the definition's way: the patterns of the finite
numbers from +0 up stand in the order of their values, so bisection over the patterns finds the last one whose power
is not above the argument, and the power of the mean of it and the next says which of the two is nearer; a tie
would go to the even pattern. Powers are compared in units of 2^-1075 to the same power.

The arguments are both zeros, infinities, NaNs of either sign, negative numbers, the ends of the subnormal and of the
normal numbers, powers of two and squares and cubes with their neighbours, the numbers on either side of the power
of a midpoint between two answers (no root of an f64 is a midpoint), the numbers found whose cube root is nearest to a
midpoint, subnormal numbers and patterns drawn from a generator with a fixed seed.
"""
import random

INFINITY = 0x7FF0000000000000
NAN = 0x7FF8000000000000
SIGN = 0x8000000000000000


# Cube roots nearly halfway between two f64, with how far the midpoint's cube is from the number, in the units of
# `oracle/hard_cubes.c`, which finds them: the two nearest that are known, and the nearest in three stretches of 2^42
# numbers, from 1.5, 3 and 6 on.
HARD_CUBES = [
    0x4009B78223AA307C,  # −2^53.71
    0x401A202BFC89DDFF,  # −2^55.20
    0x3FF80056C7156BAD,  # −2^67.08
    0x3FF800A93D014E89,  # −2^67.80
    0x3FF800EEDBF38435,  # +2^67.93
    0x3FF801F104A711EA,  # −2^65.54
    0x3FF802A93E0DA31E,  # +2^66.80
    0x3FF8030866511165,  # +2^64.94
    0x3FF803507006D5DA,  # −2^67.38
    0x400800F1FC2BF6C6,  # −2^67.85
    0x400801D6B38B6D9F,  # −2^67.13
    0x4018004DF00D603D,  # +2^63.89
    0x40180176AD5FC691,  # +2^67.24
    0x40180199277434F5,  # +2^62.26
    0x401803948AC4BBD8,  # +2^67.40
]


def units(bits):
    """The value of a finite pattern without a sign, in units of 2^-1075."""
    exponent, fraction = bits >> 52, bits & (1 << 52) - 1
    return 2 * fraction if exponent == 0 else (1 << 52 | fraction) << exponent


def below(n):
    """The last finite pattern whose value is not above n units."""
    low, high = 0, INFINITY
    while high - low > 1:
        middle = (low + high) // 2
        if units(middle) <= n:
            low = middle
        else:
            high = middle
    return low


def root(bits, power):
    """The pattern nearest to the root of a finite pattern above zero."""
    n = units(bits) << 1075 * (power - 1)
    low, high = 0, INFINITY
    while high - low > 1:
        middle = (low + high) // 2
        if units(middle) ** power <= n:
            low = middle
        else:
            high = middle
    mean = (units(low) + units(low + 1)) // 2
    if mean ** power == n:
        return low + low % 2
    return low + 1 if mean ** power < n else low


def square_root(bits):
    if bits in (0, SIGN, INFINITY):
        return bits
    return root(bits, 2) if bits < INFINITY else NAN


def cube_root(bits):
    if bits in (0, SIGN):
        return 0
    if bits in (INFINITY, INFINITY | SIGN):
        return INFINITY
    return root(bits, 3) if bits < INFINITY else NAN


def beside(bits):
    """A pattern and those before and after it."""
    return [b for b in (bits - 1, bits, bits + 1) if 0 <= b <= INFINITY]


def near_tie(draw, power):
    """The patterns on either side of the power of a midpoint between two answers."""
    q = draw.randrange(1 << 52, 1 << 53)
    scale = draw.randrange(-300, 300)
    n = (2 * q + 1) ** power
    shift = 1075 + power * (scale - 53)
    low = below(n << shift if shift >= 0 else n >> -shift)
    return [low, low + 1]


def arguments(power):
    draw = random.Random(754 + power)
    found = [0, INFINITY, NAN, 0x7FF0000000000001, 0x7FFFFFFFFFFFFFFF]
    found += [b | SIGN for b in found]
    found += [b | SIGN for b in (1, 0x000FFFFFFFFFFFFF, 0x0010000000000000, 0x3FF0000000000000, 0x7FEFFFFFFFFFFFFF)]
    found += [1, 2, 3, 4, 5, 7, 8, 9, 0x7FEFFFFFFFFFFFFE, 0x7FEFFFFFFFFFFFFF]
    found += beside(0x0010000000000000) + beside(0x0008000000000000) + beside(0x3FF0000000000000) + beside(0x4340000000000000)
    for shift in range(1, 52, 3):
        found += beside(1 << shift)
    for exponent in range(1, 2047, 31):
        found += beside(exponent << 52)
    for n in list(range(2, 30)) + [10 ** 5, 94906265, 208063]:
        found += beside(below(n ** power << 1075))
    for _ in range(100):
        found += near_tie(draw, power)
    if power == 3:
        found += [bits + (3 * scale << 52) for bits in HARD_CUBES for scale in (0, -300, 300)]
    found += [draw.randrange(1, 1 << 52) >> draw.randrange(52) for _ in range(100)]
    found += [draw.randrange(INFINITY) for _ in range(400)]
    found += [draw.randrange(INFINITY) | SIGN for _ in range(10)]
    return found


def main():
    for kind, power, answer in (("sqrt", 2, square_root), ("cbrt", 3, cube_root)):
        for bits in arguments(power):
            print("%s %016x = %016x" % (kind, bits, answer(bits)))


main()
