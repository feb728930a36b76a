#!/usr/bin/env python3
"""What the program try_doubles must print, computed with whole numbers only.

    tests/try_doubles.py > crates/try_doubles/stdout

A line for each amount √2^power · ω^phase: power, phase, and the bit patterns of the nearest doubles to its real and its
imaginary part. A power beyond ±2,000 counts as the nearer end, a phase above 7 modulo 8. No floating point is used.
"""
from math import isqrt

AMOUNTS = [
    (-1, 1), (0, 0), (1, 0), (2000, 0), (-2000, 0), (1999, 1), (-1999, 3), (2000, 7), (-2000, 5), (3, 2), (-3, 6), (1, 4),
    (0, 1), (0, 2), (0, 3), (0, 4), (0, 5), (0, 6), (0, 7), (1, 1), (2, 3), (-2000, 1), (-1999, 0), (1999, 4), (103, 0),
    (104, 5), (105, 2), (-31, 7), (2001, 0), (-2001, 3), (2147483647, 6), (-2147483648, 9), (7, 13), (-8, 255),
]
UNIT = 1200  # everything is scaled by 2^UNIT, so that it is whole


def bits(sign, square):
    """The pattern of sign times the root of square / 4^UNIT, rounded to 53 binary digits."""
    if square == 0:
        return 0
    cut = isqrt(square).bit_length() - 53
    m = (isqrt(square >> 2 * cut - 2) + 1) // 2
    assert 2**52 <= m < 2**53
    exponent = cut - UNIT + 52
    assert -1022 <= exponent <= 1023
    return (sign < 0) << 63 | exponent + 1023 << 52 | m - 2**52


for power, phase in AMOUNTS:
    s, p = min(max(power, -2000), 2000), phase % 8
    x, y = 1, 0
    for _ in range(p):  # times 1 + i, which is √2 · ω
        x, y = x - y, x + y
    real, imaginary = (bits(n, n * n << s - p + 2 * UNIT) for n in (x, y))
    print(f"{power} {phase} {real:016x} {imaginary:016x}")
