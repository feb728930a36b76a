"""Exact values.

Document 01: "Exact values are four whole numbers, the coefficients of 1, ω, ω², ω³, with ω⁴ = −1", "√2 = ω − ω³".
Here such a value stands over a power of root two that is kept beside it.
"""

ZERO = (0, 0, 0, 0)
ONE = (1, 0, 0, 0)


def plus(x, y):
    return (x[0] + y[0], x[1] + y[1], x[2] + y[2], x[3] + y[3])


def turned(x, eighths):
    """x times ω^eighths: each ω moves the coefficients one place up, and the one that leaves comes back negative."""
    for _ in range(eighths % 8):
        x = (-x[3], x[0], x[1], x[2])
    return x


def root_two_to(power):
    """√2^power, power 0 or more."""
    half = 1 << power // 2
    return (half, 0, 0, 0) if power % 2 == 0 else (0, half, 0, -half)


def squared(x):
    """The squared size: x times its mirror, in which ω is ω⁷ = −ω³."""
    mirror, product = (x[0], -x[3], -x[2], -x[1]), ZERO
    for place, c in enumerate(x):
        product = plus(product, turned(tuple(c * m for m in mirror), place))
    return product


def amount(value, below):
    """value / √2^below as (power, phase); None where it is zero; an error where it is no √2^s · ω^c.

    The squares of the coefficients of √2^s · ω^c add up to 2^s.
    """
    if value == ZERO:
        return None
    power = sum(c * c for c in value).bit_length() - 1
    for phase in range(8):
        if turned(root_two_to(power), phase) == value:
            return power - below, phase
    raise ValueError(f"{value} is no power of root two with a phase")
