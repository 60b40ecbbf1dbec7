"""The gain commands, on floats as their bits."""
from fractions import Fraction

from model.floats import value


def entry(n):
    """The one g that rule 7.4 gives to n half decibels, by fortieth powers."""
    up, down = (10**n, 1) if n >= 0 else (1, 10**-n)
    found = [g for g in range(1, 16385) if (2 * g - 1) ** 40 * down <= 8192**40 * up < (2 * g + 1) ** 40 * down]
    assert len(found) == 1
    return found[0]


GAINS = {n: entry(n) for n in range(-24, 25)}


def decibels(bits):
    """The gain of decibels, or refusal 11."""
    x = value(bits)
    if x is not None:
        for n, gain in GAINS.items():
            if x == Fraction(n, 2):
                return ("gain", gain)
    return ("refused", 11)


def factor(bits):
    """The gain of a factor, a tie upward, or refusal 12."""
    x = value(bits)
    if x is None or not 0 <= x <= 4:
        return ("refused", 12)
    below = x * 4096 // 1
    return ("gain", below + (1 if x * 4096 - below >= Fraction(1, 2) else 0))
